"""Which locks are held at the accesses of globals and members, to propose marks.

Locks are compared by their text in C. A function begins with the locks that all its callers hold; what it locks and
unlocks from then on is followed through its lines."""
from collections import Counter, namedtuple
from .source import HEADERS, in_c
from .tree import PLACES, Expr

# an access: where, whether it writes, whether a thread other than main may do it, and the locks, as a mark names them
Access = namedtuple("Access", "function place written thread locks")

def spelled(place):
    """A place as in C."""
    if place.source is not None:
        return in_c(place.source)
    base = place.args[0]
    if place.op == "variable":
        return base.name
    inner = "?" if place.op == "at" else spelled(base)
    return f"{inner}.{place.args[1].name}" if place.op == "member" else inner

def in_lines(accesses):
    return f"line {', '.join(map(str, sorted({access.place[1] for access in accesses})))}"

class Locksets:
    def __init__(self, front):
        self.front = front
        self.threads = set(front.records)
        self.entry, before = {}, None
        self.pointers = {}  # {text of a lock: (class of the pointer to its struct, its name)}
        while before != (self.entry, len(self.threads)):  # until nothing more is known of what callers hold
            before, self.accesses = (self.entry, len(self.threads)), {}
            self.entry = dict.fromkeys(front.records, frozenset())
            for self.function in front.functions.values():
                self.follow(self.function.lines, before[0].get(self.function, frozenset()))

    def follow(self, lines, held):
        """The locks that are held after lines, or None where nothing is reached, of those that are held before."""
        for line in lines:
            for part in [part for part in line.parts if isinstance(part, Expr)]:
                written = part is line.parts[0] and line.text.startswith("%s = ")
                self.event(part, line, written, held or frozenset())
            ends = [self.follow(block, held) for block in line.blocks]
            reached = [end for end in ends if end is not None]
            held = frozenset.intersection(*reached) if reached else None if ends else held
            if line.text.startswith(("lock(&%s", "unlock(&%s")) and held is not None:
                place, text = line.parts[0], spelled(line.parts[0])
                if place.op == "member" and place.args[0].op == "at":
                    self.pointers[text] = (place.args[0].args[0].type.node, place.args[1].name)
                held = held - {text} if line.text[0] == "u" or text.startswith("__sharc") else held | {text}
            elif line.text.startswith(("return", "break", "continue")) or " = 1 / " in line.text:
                held = None
        return held

    def event(self, tree, line, written, held):
        for inner in tree.values():
            self.event(inner, line, tree.op == "text", held)
        if tree.op == "call" and hasattr(tree.args[0], "params"):
            known = frozenset(map(self.named, held)) - {None}
            self.entry[tree.args[0]] = self.entry.get(tree.args[0], known) & known
            self.threads |= {tree.args[0]} if self.function in self.threads else set()
        place = tree
        while place.op == "element":
            place = place.args[0]
        if tree.op not in PLACES or place.type.base().kind not in ("int", "ptr"):
            return
        symbol, name, prefix = place.args[-1], spelled(place), None
        if place.op == "member":
            prefix, name = name[: -len(symbol.name)], f"struct {symbol.struct.name}.{symbol.name}"
        elif place.op != "variable" or symbol.kind != "global" or symbol.own:
            return
        if not (symbol.type.base().atomic or prefix and (symbol.type.mode or symbol.place[0].startswith(HEADERS))):
            accesses, key = self.accesses.setdefault(name, {}), (self.function, id(place.source or place))
            written |= key in accesses and accesses[key].written
            locks = {self.named(text, prefix) for text in held} - {None}
            accesses[key] = Access(self.function, line.place, written, self.function in self.threads, locks)

    def named(self, text, prefix=None):
        """A lock as a mark at `prefix` names it: a member beside, or what means the same everywhere; else None."""
        if prefix is not None and text.startswith(prefix) and not set(text[len(prefix):]) & set(".->"):
            return text[len(prefix):]
        node, name = self.pointers.get(text, (None, None))
        known = list(node.globals) if node else []
        if len(known) == 1 and len(known[0]) == 1 and known[0][0].type.kind == "struct":
            return f"{known[0][0].name}.{name}"
        return text if not set("[*>(") & set(text) and text.split(".")[0] in self.front.global_names else None

    def proposals(self):
        for name, accesses in sorted(self.accesses.items()):
            threads = [access for access in accesses.values() if access.thread]
            written = [access for access in accesses.values() if access.written]
            counts = Counter(lock for access in threads for lock in access.locks)
            best = max(counts, key=lambda lock: (counts[lock], lock), default=None)
            by_main = not any(access.thread for access in written)
            if threads and written and by_main:
                yield f"{name}: written by main alone ({in_lines(written)}), read by threads"
            if by_main or best is None or counts[best] < min(0.6 * len(threads), len(threads) - 1):
                continue
            yield f"{name}: SHARC_LOCKED({best}), held at {counts[best]} of {len(threads)} accesses of threads"
            for access in [access for access in threads if best not in access.locks]:
                what, (file, line) = "write" if access.written else "read", access.place
                yield f"  {file}:{line}: {what} without it in {access.function.name}"
            rest = [access for access in accesses.values() if not access.thread and best not in access.locks]
            if rest:
                yield f"  accesses of main without it: {in_lines(rest)}"
