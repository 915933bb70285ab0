"""The whole program as text: declarations, the objects that stand for arrays and for locals with an address, functions,
and line markers so that each line is where it was in C."""
import re
from collections import ChainMap
from itertools import accumulate
from operator import itemgetter
from pycparser import c_ast as A
from .ctype import CHAR, UNKNOWN, Refusal, Type, array, named, roots, settle
from .declare import Symbol
from .places import Places
from .source import HEADERS, in_c, texts
from .tree import Expr, number

class Front(Places):
    def __init__(self, source, words, user):
        self.source, self.user, self.arguments_given = source, user, [words.file, *words.arguments]
        self.function, self.here, self.scopes = None, (words.file, 1), ChainMap()
        self.globals, self.functions, self.structs, self.refusals, self.nodes = [], {}, {}, [], []
        self.firsts = []  # (class of &a[0], class of a): a pointer to the array, unless others of its elements have one
        self.tags, self.typedef_names = {}, {}  # by their nodes; in self.scopes they are with a blank before them
        self.lines, self.loops, self.notes, self.cells = [], [], [], 0
        self.names, self.own_names, self.helpers, self.reads_strings = set(source.words), set(), set(), False
        self.pinned, self.bound = False, None  # in a function of the headers: the place of the call, and its argument
        self.out_names, self.text_pool, self.calls_by, self.groups = {}, {}, {}, {}
        self.numbers, self.records, self.joins, self.started, self.ends = {}, {}, [], [], []
        # the variables whose address is taken
        self.addressed = set(re.findall(r"&(\w+)(?:\.\w+)*(?![\w.[]|->)", in_c(source.tree)))
        self.global_names = {item.name for item in source.tree.ext if isinstance(item, A.Decl)}
        self.strings = self.declare("strings", "global", array(CHAR, 1), self.here, own=True)
        self.strings.out = self.fresh("strings")
        self.statements(source.tree.ext)
        if not getattr(self.functions.get("main"), "definition", None):
            self.report(Refusal(((words.file, 1), "program without main")))
        if self.refusals:
            raise Refusal(*self.refusals)
        for symbol in dict.fromkeys(symbol for node in self.started for symbol in node.functions):
            names = ("record", "start", "take", "table")  # the struct, what is spawned, what takes the argument, starts
            self.records[symbol] = {name: self.own_name(f"{name}_{symbol.name}") for name in names}
            for node in self.joins if symbol.gives else []:
                symbol.type.to.node.unite(node)
        settle(self.nodes, self.firsts)
        self.merge()

    def merge(self):
        """Globals of one type, or members of such structs, to which one pointer may point, become one array."""
        several = [[*root.globals] for root in roots(self.nodes) if len(root.globals) > 1]
        for chains in sorted(several, key=lambda chains: (max(map(len, chains)), sorted(map(named, chains)))):
            kinds = [chain[-1].type for chain in chains]
            around = [symbol.type.kind for chain in chains for symbol in chain[:-1]]
            bases, starts = [kind.base() for kind in kinds], [0, *accumulate(kind.cells() for kind in kinds)]
            apart = "array" not in around and not (around and bases[0].kind == "struct")
            apart &= not any(chain[0] is self.strings or chain[:1] in self.groups for chain in chains)
            if apart and len({(base, base.mode and base.mode[0]) for base in bases}) == 1:
                name = "_".join(sorted({chain[0].name for chain in chains}))[:40]
                kind = array(bases[0].with_(const=all(base.const for base in bases)), starts.pop())
                made = Symbol(name, "global", kind, chains[0][0].place, None, self.fresh(name), True)
                self.groups.update({chain: ((made,), number(start)) for chain, start in zip(chains, starts)})
        for root in roots(self.nodes):
            root.globals = dict.fromkeys(self.groups[chain][0] if chain in self.groups else
                                         self.groups.get(chain[:1], (chain[:1],))[0] + chain[1:]
                                         for chain in root.globals)

    def declaration(self, symbol):
        """A local: a variable; one for each member of a struct; or an object, for an array and what has an address."""
        texts = []
        for chain in [(symbol,)] if symbol.apart else symbol.leaves():
            name, made, part = self.part_name(*chain), "", chain[-1]
            kind = part.type if part is symbol else part.type.with_(mode=None)
            if symbol.apart or kind.kind == "array":
                made = " " + self.new_object(name, kind.base(), number(kind.cells()), part.address.boxes)
                kind = Type("ptr", to=kind.base(), node=part.address)
            texts.append(f"{self.type_text(kind)} {name};{made}")
        return " ".join(texts)

    def new_object(self, target, kind, length, boxes, inner=""):
        """target = an object of `length` elements, or of pointers to them; `inner`: the mode of these in a struct."""
        self.refuse_if((length.number or 0) > 65536, "object of over 65536 elements")
        plain, one = self.type_text(kind.bare()).replace(" racy", ""), length.number == 1 and not boxes
        arrays = [(self.part_name(*chain), chain[-1]) for chain in self.objects(kind) if not boxes]
        own = self.own_name("own") if boxes and inner or arrays else target
        at = self.own_name("i") if not one and (boxes or arrays) else None
        made = self.new_object(f"{own}[{at}]", kind, number(1), False) if boxes else " ".join(
            self.new_object(f"{own}->{name}" if one else f"{own}[{at}].{name}", part.type.base(),
                            number(part.type.cells()), part.address.boxes, " readonly") for name, part in arrays)
        if at:
            made = f"for (int {at} = 0; {at} < {self.text(length, 8)}; {at} = {at} + 1) {{ {made} }}"
        size = ("" if one else f"{self.text(length, 11)} * ") + f"sizeof({plain}{' *' * boxes})"
        if own == target:
            return f"{target} = malloc({size}); {made}".rstrip()
        plain, mode = plain + " dynamic *" * boxes, inner * boxes
        return f"{{ {plain} private * {own} = malloc({size}); {made} {target} = SCAST({plain}{mode} *, {own}); }}"

    def objects(self, kind):
        """The members of a struct in an object that are objects of their own."""
        return [chain for chain in kind.struct.leaves(apart=True) if chain[-1].apart] if kind.struct else []

    def struct_text(self, struct):
        """A struct, with pointers to objects of their own for the arrays in it."""
        texts = []
        for chain in struct.leaves(apart=True):
            member, stars = chain[-1], ""
            self.here, base = member.place, member.type.base()
            if member.apart:
                mode = member.type.mode or ("racy" if base.kind == "mutex" else "dynamic", None)
                base = base if base.mode or base.atomic else base.with_(mode=mode)
                stars = " * readonly" * (1 + member.address.boxes)
            texts.append(f"{self.type_text(base, chain, False)}{stars} {self.part_name(*chain)};")
        return f"struct {self.part_name(struct)} {{ {' '.join(texts)} }};"

    def global_text(self, chain, kind, context=()):
        """A part of a global that is no struct: a variable, or an array after those that the arrays in it become;
        `context`: the same where a mark may name a lock beside it."""
        base, length, constant = kind.base(), kind.cells(), chain[0].constants.get(chain)
        inner = [self.global_text((*chain, *at), array(at[-1].type, length)) for _, *at in self.objects(base)]
        shared = ("racy", None) if base.kind == "int" and base.const else None
        text = self.type_text(base.with_(mode=base.mode or kind.mode or shared), context, False)
        self.cells += length * (8 if base.kind == "struct" else 1)
        self.refuse_if(self.cells > 60000, "globals of over 60000 cells")
        name = self.part_name(*chain) + (f"[{length}]" if kind.kind == "array" else "")
        return " ".join([*inner, f"{text} {name}{f' = {self.text(constant)}' if constant else ''};"])

    def program(self):
        functions = {name: [*self.flat(symbol.lines)] for name, symbol in self.functions.items() if symbol.lines}
        functions["main"][1:1] = self.initialisers()
        globals_ = [chain for symbol in self.globals if symbol.uses or not symbol.place[0].startswith(HEADERS)
                    for chain in symbol.leaves() if not {chain[:1], chain} & self.groups.keys()]
        globals_ += dict.fromkeys(group for group, _ in self.groups.values())
        globals_ = [self.written(chain[0].place, self.global_text, chain, chain[-1].type, chain) for chain in globals_]
        globals_ += [self.written(symbol.place, self.record_lines, symbol) for symbol in self.records]
        last = [self.written(place, self.dispatcher, *each) for *each, place in self.calls_by.values()]
        for symbol, place in self.ends:
            if symbol not in self.records or symbol.called:
                self.report(Refusal((place, "pthread_exit outside a thread function")))
        if self.reads_strings:
            globals_.append((self.strings.place, f"char racy {self.strings.out}[{sum(map(len, self.text_pool))}];"))
        structs = []
        while rest := [owner for owner, *path in self.out_names if owner.kind == "struct" and not path][len(structs):]:
            structs.append(self.written(rest[0].place, self.struct_text, rest[0]))  # may name others
        arithmetic = {re.match(r"\w+ (\w+)", text)[1]: text for text in texts("arithmetic.sharc")}
        helpers = sorted(self.helpers)
        for name in helpers:  # which grows by those that these call
            helpers += sorted(set(re.findall(r"__sharc_\w+", arithmetic[name])) - set(helpers))
        lines = enumerate([line for name in helpers for line in arithmetic[name].split("\n")], 1)
        last += [(("what C does that the language does not", at), line) for at, line in lines]
        text = self.marked(structs + globals_ + sum(functions.values(), []) + last)
        if self.refusals:
            raise Refusal(*self.refusals)
        return text

    def marked(self, lines):
        """The text with line markers where the place is not what would be taken anyway."""
        written, depth, file, line = [], 0, None, 0
        for place, text in filter(itemgetter(1), lines):
            if place == (file, line - 1) and written:
                written[-1] += " " + text  # the same line of the source
            else:
                if place != (file, line):
                    written.append(f'# {max(place[1], 1)} "{place[0]}"')
                written.append("  " * (depth - text.startswith("}")) + text)
                file, line = place[0], place[1] + 1
            depth += text.count("{") - text.count("}")
            if depth > 55:
                self.report(Refusal((place, "statements inside one another, over 55")))
        return "\n".join(written) + "\n"

    def written(self, place, act, *arguments):
        """What an act gives, as a line."""
        self.here = place
        try:
            return place, act(*arguments)
        except UNKNOWN as error:
            self.report(error, "form that the front does not know")
            return place, "?"

    def shown(self, line):
        """A line with its parts as text."""
        texts = [self.text(part) if isinstance(part, Expr) else self.type_text(part) for part in line.parts]
        return line.text % tuple(texts)

    def flat(self, lines):
        """Lines as text, with their blocks in brackets."""
        for line in lines:
            place, text = self.written(line.place, self.shown, line)
            yield place, f"{text} {{".lstrip() if line.blocks else text
            for block in line.blocks:
                if block and block is not line.blocks[0]:
                    yield place, "} else {"
                for place, text in self.flat(block):
                    yield place, text
            if line.blocks:
                yield place, "}"

    def heading(self, symbol):
        if symbol.name == "main":
            return "int main(void)"
        texts = [f"{self.type_text(param.type)} {self.part_name(param)}" for param in symbol.params]
        return f"{self.type_text(symbol.type.to)} {self.part_name(symbol)}({', '.join(texts) or 'void'})"

    def initialisers(self):
        """What main does before everything else."""
        for symbol in self.globals:
            for chain, lines in symbol.rest:
                if chain not in symbol.constants or {chain[:1], chain} & self.groups.keys():
                    yield from self.flat(lines)
                    self.notes.append((symbol.place, f"the initialiser of {symbol.name} is executed by main"))
        for at, byte in enumerate(b"".join(self.text_pool) if self.reads_strings else b""):
            yield self.functions["main"].place, f"{self.strings.out}[{at}] = {(byte ^ 128) - 128};" if byte else ""

    def dispatcher(self, name, kind, root):
        """A function that calls one of several by its number."""
        names = [f"p{at}" for at in range(len(kind.params))]
        texts = [f"{self.type_text(param.bare())} {name}" for name, param in zip(names, kind.params)]
        lines = [f"{self.type_text(kind.to.bare())} {name}({', '.join(['int function', *texts])}) {{"]
        for symbol in root.functions:
            self.refuse_if(len(symbol.params) != len(kind.params),
                           f"call through a pointer of {symbol.name}, with other parameters")
            call, symbol.called = f"{self.part_name(symbol)}({', '.join(names)});", True
            text = f"{{ {call} return; }}" if kind.to.kind == "void" else f"return {call}"
            lines.append(f"if (function == {self.numbers[symbol]}) {text}")
        return " ".join(lines) + " int zero = 0; zero = 1 / zero; }"
