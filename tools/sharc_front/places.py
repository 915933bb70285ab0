"""Names, places, values and types as text, when it is known how the pointers of each class are represented."""
import re
from functools import reduce
from .ctype import CELL, HEAP
from .library import Library
from .tree import LEVELS, number, plus, times, variable

# the words that the language has and C has not
RESERVED = set("private readonly locked racy dynamic SCAST mutex spawn join lock unlock print cond wait signal "
               "broadcast malloc free main NULL".split())

class Spot:
    """Where a place is in the text: a variable or a member of it, by its `chain`, or the object that a `pointer` points
    to; of that the element `index`, if it has some; and of this the member `inner`, a chain that starts with its
    struct. `boxes`: the object holds pointers to its elements."""
    def __init__(self, chain=(), index=None, pointer=None, boxes=False):
        self.chain, self.index, self.pointer, self.boxes, self.inner = chain, index, pointer, boxes, ()

class Places(Library):
    def part_name(self, owner, *path):
        """The name in the text, none of SharC's words: for a variable or struct, or for a part of it."""
        if (owner, *path) not in self.out_names:
            names = [member.name for member in path]
            words, told = [owner.out, *names], [] if owner.own else [owner.name, *names]
            if owner.kind == "struct":
                words, told = names or words, names
            self.refuse_if(owner.kind == "function" and owner.definition is None,
                           f"function {owner.name}, which is not defined here", owner.place)
            name = "_".join(words)
            name = self.fresh(name + "_" * (name in RESERVED)) if len(words) > 1 or name in RESERVED else name
            self.out_names[owner, *path] = name
            self.user.words.update({name: ".".join(told)} if told and name != ".".join(told) else {})
        return self.out_names[owner, *path]

    def called_name(self, callee, value=None):
        """What is called: a function of the program, or the one that calls one of several."""
        if hasattr(callee, "params"):
            return self.part_name(callee)
        if callee.find() not in self.calls_by:
            self.calls_by[callee.find()] = (self.fresh("call"), value.type.to, callee.find(), self.here)
        return self.calls_by[callee.find()][0]

    def spot(self, place):
        base, *rest = place.args
        if place.op == "at":
            return self.pointed(base, *rest, base.type.to)
        spot = Spot() if place.op == "variable" else self.spot(base)
        if place.op != "element":
            return self.entered(spot, place.args[-1])
        spot.index = plus(spot.index, times(*rest, place.type.cells()))
        return spot

    def entered(self, spot, symbol):
        """Where a member of the struct at a spot is; a variable is entered from nowhere."""
        is_array, apart = symbol.type.kind == "array", symbol.apart
        if spot.index is None:
            spot.chain = (*spot.chain, symbol)
            variable, apart = spot.chain[0], spot.chain[0].apart or is_array
            if variable.kind == "global":
                self.refuse_if(variable not in self.globals and not variable.own,
                               f"variable {variable.name}, which is not defined here")
                return Spot(*self.groups.get(spot.chain) or (spot.chain, number(0) if is_array else None))
        else:
            spot.inner = (*(spot.inner or [symbol.struct]), symbol)
            if apart and not spot.pointer:  # those of all elements are one after the other
                return Spot((*spot.chain, *spot.inner[1:]), times(spot.index, symbol.type.cells()))
        return Spot((), number(0), self.spot_text(spot), symbol.address.boxes) if apart else spot

    def pointed(self, pointer, index, kind):
        """Where the element `index` of what a pointer points to is."""
        node = self.class_of(pointer)
        if node.how in HEAP:
            node.pointee()  # it is of one type
            return Spot((), times(index, kind.cells()), self.text(pointer), node.boxes)
        self.refuse_if(node.how != "global", "use of a pointer that is always NULL or a number")
        chain = next(iter(node.globals))
        self.reads_strings |= chain[0] is self.strings
        kinds, moves = [symbol.type for symbol in chain], "order" in node.seen
        self.refuse_if(kinds[-1].base() != kind.base(), f"pointer to {kinds[-1].shown()} used for {kind.shown()}")
        in_array = any(part.kind == "array" for part in kinds)
        single = kinds[-1].kind != "array" and moves if in_array else not index.null() or moves and not pointer.place()
        self.refuse_if(single, "arithmetic on a pointer to a single object or a member")
        spot = reduce(self.entered, chain, Spot())
        if in_array:
            spot.index = plus(plus(self.as_number(pointer), times(index, kind.cells())), number(-1))
        return spot

    def as_number(self, pointer):
        """A pointer to an element of a global as the number that it is, from 1."""
        place = pointer.place()
        return plus(self.spot(place).index or number(0), number(1)) if place else pointer

    def spot_text(self, spot):
        name, index = spot.pointer or self.part_name(*spot.chain), spot.index
        if index is None:
            return name
        if spot.boxes:
            name, index = f"{name}[{self.text(index)}]", number(0)
        if spot.inner and spot.pointer and index.null():
            return f"{name}->{self.part_name(*spot.inner)}"
        return f"{name}[{self.text(index)}]" + (f".{self.part_name(*spot.inner)}" if spot.inner else "")

    def text(self, value, level=0):
        """A value, in parentheses where it binds less than `level`."""
        op, args, tight = value.op, value.args, 12
        match op:
            case "variable" | "member" | "element" | "at":
                made = self.spot_text(self.spot(value))
                if value.source is not None:
                    self.user.lvalues[self.here, self.user.packed(made)] = value.source
            case "number":
                made = f"{value.number}{'L' * value.wide}"
                made, tight = made if value.number != -(1 << 63) else f"(-{(1 << 63) - 1}L - 1)", 12 - (made[0] == "-")
            case "!":
                tight, made = 11, op + self.text(args[0], 11)
            case "call":
                made = f"{self.called_name(*args[:2])}({', '.join(map(self.text, args[1:]))})"
            case "scast":
                made = f"SCAST({self.type_text(args[1])}, {self.text(args[0])})"
            case "address":
                made = self.pointer_text(value)
            case "text":
                made = args[0]()
            case "ordered":
                made = self.text(args[0])
                self.refuse_if(self.class_of(args[0]).how != "global", "order of pointers to the heap or locals")
            case _ if op in LEVELS:
                tight = LEVELS[op]
                made = f"{self.text(args[0], tight)} {op} {self.text(args[1], tight + 1)}"
            case _:
                self.helpers.add(op)
                made = f"{op}({', '.join(map(self.text, args))})"
        return made if tight >= level else f"({made})"

    def null_text(self, node):
        return "NULL" if node.how in HEAP else "0"

    def pointer_text(self, value):
        place = value.args[0]
        is_array = place.type.kind == "array"
        if self.class_of(value).how == "global":
            return self.text(self.as_number(value), 12)
        spot = self.spot(place)
        self.refuse_if(spot.pointer is None or spot.inner or not spot.boxes and not spot.index.null(),
                       "pointer arithmetic on an object of the heap or a local")
        return f"{spot.pointer}[{self.text(spot.index)}]" if spot.boxes and not is_array else spot.pointer

    def lock_path(self, path, scopes, context):
        """A lock path of a mark. `context`: the struct around it, and of what it is a part."""
        head, *steps = re.split(r"->|\.", path)
        beside = context[-1].struct.fields if context[1:] and not steps else {}
        if head in beside:
            return self.part_name(*context[:-1], beside[head])
        symbol = scopes.get(head)
        self.refuse_if(not hasattr(symbol, "address"), f"lock {path}, which is not known")
        symbol.uses += 1
        place = self.at(variable(symbol), number(0)) if symbol.type.kind == "ptr" else variable(symbol)
        spot = self.spot(reduce(self.member_named, steps, place))
        self.refuse_if(spot.index is not None and not spot.pointer, f"lock {path}, which is an element of an array")
        return self.spot_text(spot)

    def type_text(self, kind, context=(), local=True):
        mode, scopes = kind.mode or ("", None)
        if mode.startswith("locked("):
            mode = f"locked({self.lock_path(mode[7:-1], scopes, context)})"
        mode = mode and " " + mode
        if kind.kind == "int":
            return CELL[kind.name] + (mode or " racy" * (kind.atomic and not local))
        if kind.kind in ("mutex", "void"):
            return kind.kind + mode.replace(" dynamic", "")
        if kind.kind == "cond":
            return "struct cond" + mode
        if kind.kind == "struct":
            self.refuse_if(not kind.struct.fields, f"struct {kind.name}, which is not defined")
            return "struct " + self.part_name(kind.struct) + mode
        how = kind.node.how
        if how not in HEAP:
            return ("long" if how == "integer" else "int") + mode
        known = kind.node.pointee()
        to = (kind.to if kind.to.kind != "void" else known.with_(mode=kind.to.mode)).base()
        return self.type_text(to, context, False) + " *" * (2 if how == "boxes" else 1) + mode
