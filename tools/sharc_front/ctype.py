"""The types of C on a 64-bit machine (C11 6.2.5, 6.3.1), and classes of pointers: which may point to the same things.

The classes are found by unification over the whole program. A class says how its pointers are represented: as pointers
to objects of the heap (of which locals whose address is taken are some), as numbers of elements of one global (1 is
element 0, 0 is NULL), as numbers of functions, or as the integers that a `void *` carries."""
import ctypes
from collections import defaultdict
from dataclasses import dataclass, field, replace

BITS = {"bool": 1, "char": 8, "uchar": 8, "short": 16, "ushort": 16, "int": 32, "uint": 32, "long": 64, "ulong": 64}
UNSIGNED = {"bool", "uchar", "ushort", "uint", "ulong"}
# the type of the cell that holds each: SharC has only signed types; an unsigned long is held by its 64 bits
CELL = {**dict.fromkeys(BITS, "int"), "char": "char", "uint": "long", "long": "long", "ulong": "long"}
# the types as ctypes has them, those of pthreads by their sizes in glibc
LAYOUTS = {**{name: getattr(ctypes, f"c_int{max(8, bits)}") for name, bits in {**BITS, "void": 8, "func": 8}.items()},
           **{name: ctypes.c_int64 * size for name, size in {
               "ptr": 1, "bad": 1, "cond": 1, "mutex": 5, "struct sem_t": 4, "struct pthread_cond_t": 6,
               "struct pthread_barrier_t": 4, "struct pthread_rwlock_t": 7}.items()}}

class Refusal(Exception):
    """Its arguments are pairs: (file, line), or None for where the front is; what is refused, or None if it was said."""

HEAP = ("heap", "boxes")
# what may come of C that the front does not know
UNKNOWN = (Refusal, AttributeError, LookupError, TypeError, ValueError)

@dataclass(frozen=True)
class Type:
    """A type; those that are compatible are equal, with other marks and classes too."""
    kind: str  # int, void, ptr, array, struct, func, mutex, cond, or bad where the type was refused
    # of an int: a key of BITS; of a struct: its name; of a function with variable arguments: ...; of a pointer to the
    # copy of a struct that is passed or returned: value
    name: str = ""
    to: "Type" = None  # what a pointer points to, the element of an array, the result of a function
    length: int = None  # of an array; None where it is not known
    params: tuple = field(default=(), compare=False)  # of a function
    mode: tuple = field(default=None, compare=False)  # the mark as it is written in SharC, and the scopes there
    atomic: bool = field(default=False, compare=False)
    const: bool = field(default=False, compare=False)
    node: object = field(default=None, compare=False)  # of a pointer: the class of all that may point to the same
    struct: object = field(default=None, compare=False)  # of a struct: its symbol, which has the members
    with_ = replace

    def bare(self):
        return self.with_(mode=None, atomic=False, to=self.to and self.to.bare())

    def base(self):
        """The element of an array, of whatever dimensions."""
        return self.to.base() if self.kind == "array" else self

    def cells(self):
        """How many elements of its base an array has."""
        return self.length * self.to.cells() if self.kind == "array" else 1

    def layout(self):
        """The type as ctypes has it, which lays structs out as gcc does."""
        known = LAYOUTS.get(self.shown() if self.kind in ("int", "struct") else self.kind)
        if known or self.kind == "array":
            return known or self.to.layout() * (self.length or 0)
        fields = [(name, field.type.layout()) for name, field in self.struct.fields.items()]
        return type("Layout", (ctypes.Structure,), {"_fields_": fields})

    def size(self):
        """The size in bytes; 0 where it is not known."""
        return ctypes.sizeof(self.layout())

    def shown(self):
        if self.kind in ("ptr", "array"):
            return self.to.shown() + (" *" if self.kind == "ptr" else f" [{self.length}]")
        return "struct " + self.name if self.kind == "struct" else self.name or self.kind

BOOL, CHAR, INT, UINT, LONG, ULONG = (Type("int", name) for name in ("bool", "char", "int", "uint", "long", "ulong"))
VOID, MUTEX, COND, BAD = (Type(kind) for kind in ("void", "mutex", "cond", "bad"))

def array(to, length):
    return Type("array", to=to, length=length)

def limits(name):
    """The least and greatest number that a cell of this C type holds."""
    signed = name not in UNSIGNED or name == "ulong"
    return (-(1 << BITS[name] - 1), (1 << BITS[name] - 1) - 1) if signed else (0, (1 << BITS[name]) - 1)

def promoted(kind):
    return kind.name if BITS[kind.name] >= 32 else "int"

def usual(left, right):
    """The common type of two operands (C11 6.3.1.8)."""
    return max(promoted(left), promoted(right), key=("int", "uint", "long", "ulong").index)

def unify(one, other):
    """The pointers in two compatible types may point to the same."""
    if one.kind == other.kind == "ptr":
        one.node.unite(other.node)
    elif one.kind == other.kind and one.kind in ("func", "array"):
        unify(one.to, other.to)
        for pair in zip(one.params, other.params):
            unify(*pair)

class Node:
    """A class, or a part of one: what was united with another has the attributes of the whole, which `find` gives."""
    def __init__(self, every, to=VOID):
        self.every, self.parent = every, None
        self.globals, self.functions = {}, {}  # as sets in order: (variable, members to a part of it ..), symbols
        self.types, self.seen = {}, set()  # seen: heap, integer, order, taken, or indexed (another element is used)
        # the classes of pointers to other elements ("element"), and to members, where something has asked for them
        self.parts = defaultdict(lambda: Node(every))
        every.append(self)
        self.point_to(to)

    def __getattr__(self, name):
        return getattr(self.parent and self.find(), name)

    def find(self):
        self.parent = self.parent and self.parent.find()
        return self.parent or self

    def point_to(self, kind):
        """The C type of what is pointed to, as far as it is known; rows of arrays count by their elements."""
        kind = kind.base()
        if kind.kind != "void":
            unify(self.types.setdefault(kind, kind), kind)

    def unite(self, other):
        one, other = self.find(), other.find()
        if one is other:
            return
        had, other.__dict__ = other.__dict__, {"parent": one}
        for name in ("globals", "functions", "seen"):
            getattr(one, name).update(had[name])
        for kind in had["types"]:
            one.point_to(kind)
        for key, node in had["parts"].items():
            one.parts.setdefault(key, node).unite(node)

    @property
    def how(self):
        """heap, boxes (an array of pointers to its elements), global, function, integer or none; or a refusal."""
        words = {"heap": "heap" in self.seen and "an object of the heap or a local",
                 "global": ", ".join(sorted(map(named, self.globals))),
                 "function": self.functions and "a function", "integer": "integer" in self.seen and "a number"}
        kinds, element = [kind for kind in words if words[kind]], self.parts.get("element")
        if len(kinds) > 1 or len(self.globals) > 1:
            raise Refusal((None, f"pointer to different things: {', '.join(words[kind] for kind in kinds)}"))
        [how] = kinds or ["heap" if {kind.kind for kind in self.types} - {"func"} else "none"]
        if how == "heap" and element and element.find() is self.find():
            raise Refusal((None, "pointer arithmetic on an object of the heap or a local"))
        return "boxes" if how == "heap" and element else how

    @property
    def boxes(self):
        return self.how == "boxes"

    def pointee(self):
        """The one type of what is pointed to, or a refusal."""
        if len(self.types) != 1:
            shown = ", ".join(kind.shown() for kind in self.types)
            raise Refusal((None, f"void * to what is no one type ({shown})"))
        return next(iter(self.types))

def named(chain):
    """A variable or a part of it as in C."""
    return ".".join(symbol.name for symbol in chain)

def roots(nodes):
    return list(dict.fromkeys(node.find() for node in nodes))

def settle(nodes, firsts):
    """Goes on until elements and members of globals are known: element i of a global is in its class."""
    for first, whole in firsts:
        first.unite(whole.parts.get("element", whole))
    before = None
    while before != (now := [(id(root), len(root.globals), len(root.seen)) for root in roots(nodes)]):
        before = now
        for root in map(Node.find, roots(nodes)):
            element, heap = root.parts.get("element"), "heap" in root.seen
            if element and (root.globals and not heap or "indexed" in element.seen or "element" in element.parts):
                root.unite(element)
            elif element and heap:
                element.seen.add("heap")
            for member, node in [part for part in root.parts.items() if part[0] != "element"]:
                node.globals.update({(*chain, member): None for chain in root.globals
                                     if chain[-1].type.base().struct is member.struct})
                if "heap" in root.seen and not root.globals:
                    member.address.unite(node)
                    member.apart |= "taken" in node.seen
