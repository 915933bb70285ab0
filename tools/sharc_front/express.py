"""Expressions of C, each lowered to a tree, after the lines that have to come before it (C11 6.5).

Calls stay in the tree, which the language evaluates from left to right. A call before the lines of a later operand, and
a value that is written more than once, is in a variable."""
from dataclasses import dataclass
from functools import reduce
from pycparser import c_ast as A
from .ctype import BAD, BITS, BOOL, CHAR, INT, LONG, ULONG, VOID, Node, Type, array, promoted, usual
from .declare import Declarations, Symbol, place_of
from .tree import COMPARED, NOTHING, PLACES, TRUTHS, Expr, address, binary, convert, element, joined, member, number, \
    plus, variable

SPOKEN = {"Compound": "statement expression", "Case": "case inside another statement"}

@dataclass
class Line:
    place: tuple
    text: str  # with %s for each part
    parts: tuple = ()  # trees and types
    declares: bool = False
    blocks: tuple = ()  # the lines of a block, and of what may be executed in its place

def uncast(node):
    while isinstance(node, A.Cast):
        node = node.expr
    return node

class Expressions(Declarations):
    def emit(self, text, *parts, **more):
        self.lines.append(Line(self.here, text, parts, **more))

    def later(self, act, *about, **more):
        """A line that is known when all of the program was read; `about`: the places in it."""
        self.emit("%s", Expr("text", (act, *about), VOID), **more)

    def captured(self, act, *arguments, after=(), inner=False):
        """The lines that `act` makes, which go on `after` others, and what it gives; `inner`: in a scope of its own."""
        kept, self.lines = (self.lines, self.here, self.scopes), list(after)
        self.scopes = self.scopes.new_child() if inner else self.scopes
        try:
            made = act(*arguments)
            return self.lines, made
        finally:
            self.lines, self.here, self.scopes = kept

    def own_name(self, name):
        made = self.fresh(name)
        self.user.words[made] = "(temporary)"
        self.own_names.add(made)
        return made

    def temporary(self, type, value=None):
        """A variable of the front's own, which may be given a value."""
        type = type.bare()
        made = variable(Symbol("t", "local", type, self.here, Node(self.nodes, type), self.own_name("t"), True))
        self.emit("%s %s = %s;" if value else "%s %s;", *filter(None, (type, made, value)), declares=True)
        return made

    def spilled(self, value):
        """A value in a variable of its own."""
        if value.type.kind == "void":
            self.emit("%s;", value)
            return NOTHING
        if value.type.kind == "ptr":
            self.class_of(value)
        return self.temporary(value.type, value) if value.type.kind in ("int", "ptr") else value

    def stable(self, value):
        """The value, so that it may be written several times and evaluated later."""
        if value.op == "address":
            return value.with_(args=(self.stable_place(value.args[0], value.args[0].op == "at"),))
        if value.type.kind == "struct":
            return self.stable_place(value)
        return self.spilled(value) if value.number is None and value.height > 2 else value

    def stable_place(self, place, fixed=False):
        """The same for a place; `fixed`: the pointer to it is not read again either."""
        base, *inner = place.args
        if place.op in ("member", "element"):
            base = self.stable_place(base)
        elif place.op == "at" and (fixed or base.calls):
            base = self.stable(base)
        return place.with_(args=(base, *(self.stable(arg) if isinstance(arg, Expr) else arg for arg in inner)))

    def member_named(self, base, name):
        members = base.type.struct.fields
        made = member(base, members.get(name) or members[""])  # where one without a name is refused
        self.refuse_if(made.type.kind == "bad", None)
        return made

    @staticmethod
    def at(value, index):
        """Element `index` of what a pointer points to, as a place."""
        place, kind = value.place(), value.type.to
        if place and place.type.kind == "array" and kind == place.type.to:
            return element(place, index)
        if place and kind == place.type and (index.null() or place.op in ("element", "at")):
            return place if index.null() else place.with_(args=(place.args[0], plus(place.args[1], index)))
        return Expr("at", (value, index), kind)

    def deref(self, value, index=number(0)):
        """The same, which is used."""
        made, kind = self.at(value, index), value.type.to
        if made.op == "at":
            self.class_of(made.args[0]).point_to(kind)
            if not made.args[1].null():
                self.class_of(made.args[0]).seen.add("indexed")
        return made if made.type.atomic == kind.atomic else made.with_(type=kind)

    def loaded(self, place):
        """What a place holds: an array as a pointer to its first element."""
        kind = place.type
        if place.op not in PLACES or kind.kind == "struct":
            return place
        if kind.kind == "array":
            return address(place, kind.to)
        return self.spilled(place) if kind.atomic else place

    def address_class(self, place, taken=False):
        """The class of the pointers to a place, or to the elements of one that is an array; `taken`: by its address."""
        base, *inner = place.args
        if place.op == "variable":
            return base.address
        if place.op == "member":
            return self.address_class(base).parts[inner[0]]
        whole, first = self.address_class(base) if place.op == "element" else self.class_of(base), inner[0].null()
        if place.type.kind == "array" or first and not taken:
            return whole
        node = Node(self.nodes) if first else whole.parts["element"]
        self.firsts += [(node, whole)] * first
        if taken:
            whole.seen.add("order")
        return node

    def class_of(self, value):
        """The class of a pointer: from here on the address of what it points to counts as taken."""
        if value.type.node is None:
            place = value.place()
            if place.chain() and place.type.kind != "array":
                place.chain()[0].apart = True
            node = self.address_class(place, True)
            node.point_to(value.type.to)
            node.seen.add("taken")
            value.type = value.type.with_(node=node)
        return value.type.node

    def visit(self, node, wanted=True):
        """A place where the expression is an lvalue, else a value, which need not be given if it is not wanted."""
        here, name = self.here, type(node).__name__
        self.here = here if self.pinned else place_of(node, here)
        lower = getattr(self, "x_" + name, None)
        made = lower(node, wanted) if lower else self.refuse(node, SPOKEN.get(name, name.lower()))
        self.here = here
        unnamed = made and made.op in PLACES and not (made.source or self.pinned or getattr(made.args[0], "own", False))
        return made.with_(source=node) if unnamed else made

    def value(self, node, wanted=True):
        """What an expression gives, if that is wanted, else nothing but its effects."""
        made = self.visit(node, wanted)
        if wanted:
            made = self.loaded(made)
            return self.spilled(made) if made.height > 24 else made
        if made and made.given:
            self.emit("free(%s);", made.args[0])
        elif made and made.op == "call":
            self.emit("%s;", made)
        elif made and made.calls:
            self.spilled(self.loaded(made))

    def values(self, nodes):
        """What expressions give, evaluated from left to right: calls before lines of a later one are in variables."""
        made = []
        for node in nodes:
            lines, value = self.captured(self.value, node)
            made = [self.spilled(earlier) if lines and earlier.calls else earlier for earlier in made] + [value]
            self.lines += lines
        return made

    def fitting(self, value, kind):
        """A value as an object of this type holds it."""
        if kind.name == "value":
            value = self.copied(value)
        truth = kind.name == "bool"  # 0 or 1
        if truth and value.type.kind == "ptr":
            value = self.operated("!=", value, number(0))
        self.refuse_if(value.type.kind != kind.kind and not value.null(), f"{value.type.shown()} as {kind.shown()}")
        if kind.kind == "int":
            return value.typed(BOOL) if truth and value.op in TRUTHS else convert(value, kind.name)
        if value.null():
            return Expr("text", (lambda: self.null_text(kind.node),), kind, 0)
        kind.node.unite(self.class_of(value))
        return value.typed(kind)

    def x_Constant(self, node, _):
        if node.type == "string":
            return self.string(self.bytes_of(node))
        if node.type == "char":
            [byte] = self.bytes_of(node)
            return convert(number(byte, "char"), "int")
        self.refuse_if("float" in node.type or "double" in node.type, "floating point", node)
        digits, unsigned = node.value.lower().rstrip("ul"), "unsigned" in node.type
        value = int(digits, 8 if digits[0] == "0" and digits.isdigit() else 0)
        names = ["long", "ulong"] if "long" in node.type else ["int", "uint", "long", "ulong"]
        names = names[unsigned::2] if digits[0] != "0" or unsigned else names
        fitting = [name for name in names if not value >> BITS[name] - (name[0] != "u")]
        return number(value, fitting[0])  # the first type that holds it (C11 6.4.4.1)

    def string(self, data):
        """A literal: the number of its first character in an array of all that are written."""
        pool, text = self.text_pool, data + b"\0"
        return Expr("text", (lambda: str(pool.setdefault(text, sum(map(len, pool))) + 1),),
                    Type("ptr", to=CHAR, node=self.strings.address))

    def x_ID(self, node, _):
        found = self.scopes.get(node.name)
        if isinstance(found, Expr):
            return found
        self.refuse_if(found is None, f"name {node.name.replace('__sharc_', '')}, which is not known")
        self.refuse_if(found == BAD, None)
        found.uses += 1
        if found.kind != "function":
            return variable(found)
        self.refuse_if(found.header, f"address of {found.name}")
        kind = self.pointer(found.type)
        kind.node.functions[found] = None
        return Expr("number", (), kind, self.numbers.setdefault(found, len(self.numbers) + 1))

    def x_StructRef(self, node, _):
        base = self.deref(self.value(node.name)) if node.type == "->" else self.visit(node.name)
        return self.member_named(base, node.field.name)

    def x_ArrayRef(self, node, _):
        return self.deref(self.operated("+", *self.values([node.name, node.subscript])))

    def x_CompoundLiteral(self, node, _):
        self.refuse_if(self.function is None, "compound literal outside a function", node)
        symbol = self.declare("literal", "local", self.type(node.type), node)
        self.declare_local(symbol, self.scalars(variable(symbol), [node.init]))
        return variable(symbol)

    def x_UnaryOp(self, node, wanted):
        op, inner = node.op, node.expr
        if op == "sizeof":
            literal = isinstance(inner, A.Constant) and inner.type == "string"
            kind = array(CHAR, len(self.bytes_of(inner)) + 1) if literal else self.type(inner) \
                if isinstance(inner, A.Typename) else self.captured(self.visit, inner)[1].type
            return number(kind.size() or self.refuse(node, "sizeof of this type"), "ulong")
        if op == "&" and isinstance(inner, A.UnaryOp) and inner.op == "*":
            return self.value(inner.expr)
        if op == "&":
            made = self.visit(inner)
            return made if made.op == "number" else address(made)  # the number of a function
        if op in ("++", "--", "p++", "p--"):
            return self.assigned(self.visit(inner), op[-1], A.Constant("int", "1"), wanted, after=op[0] == "p")
        value = self.value(inner)
        if op == "*":
            return value if value.type.kind == "ptr" and value.type.to.kind == "func" else self.deref(value)
        operands = {"!": ("==", value, number(0)), "-": ("-", number(0), value), "~": ("^", value, number(-1))}
        return self.operated(*operands[op]) if op != "+" else convert(value, promoted(value.type))

    def x_BinaryOp(self, node, wanted):
        if node.op not in ("&&", "||"):
            return self.operated(node.op, *self.values([node.left, node.right]))
        left = self.value(node.left)
        lines, right = self.captured(self.value, node.right, wanted)
        ends = left.null() == (node.op == "&&")  # where the left operand is constant, whether it is all that counts
        if left.number is not None and (ends or right and right.number is not None):
            self.lines += [] if ends else lines
            return number(int(node.op == "||") if ends else int(not right.null()))
        if not lines and wanted:
            return joined(node.op, "int", left, right)
        made = self.temporary(INT, self.fitting(left, BOOL)) if wanted else None
        lines = self.captured(self.put, made, self.fitting(right, BOOL), after=lines)[0] if wanted else lines
        self.branch(made or left, *((lines, []) if node.op == "&&" else ([], lines)))
        return made

    def operated(self, op, left, right):
        kinds = (left.type.kind, right.type.kind)
        if "ptr" not in kinds:
            return binary(op, left, right)
        if op in COMPARED:
            pointer = right if left.null() else left
            kind = Type("ptr", to=pointer.type.to, node=self.class_of(pointer))
            sides = [self.fitting(side, kind) for side in (left, right)]
            return joined(op, "int", *(sides if op in ("==", "!=") else map(self.ordered, sides)))
        if kinds == ("ptr", "ptr") and op == "-":
            self.class_of(left).unite(self.class_of(right))
            cells, made = left.type.to.cells(), joined("-", "long", self.ordered(left), self.ordered(right))
            return made if cells == 1 else joined("/", "long", made, number(cells))
        base, index = (left, right) if kinds[0] == "ptr" else (right, left)
        self.refuse_if(base.type.to.kind in ("void", "func"), f"arithmetic on {base.type.shown()}")
        index = index if op == "+" else binary("-", number(0, "long"), index, "long")
        return base if index.null() else address(self.at(base, index), base.type.to)

    def ordered(self, value):
        self.class_of(value).seen.add("order")
        return Expr("ordered", (value,), LONG, wide=True)

    def x_TernaryOp(self, node, wanted, target=None):
        """cond ? a : b, in a variable, or put into the place `target`."""
        test = self.value(node.cond)
        first, left = self.captured(self.value, node.iftrue, wanted)
        second, right = self.captured(self.value, node.iffalse, wanted)
        if not wanted:
            return self.branch(test, first, second)
        if left.type.kind == right.type.kind == "int":
            kind = Type("int", usual(left.type, right.type))
        else:
            other = left.null() or left.type.kind == "ptr" and left.type.to.kind == "void"
            kind = self.pointer((right if other else left).type.to)
        left, right = self.fitting(left, kind), self.fitting(right, kind)
        if None not in (test.number, left.number, right.number) and kind.kind == "int" and target is None:
            self.lines += second if test.null() else first
            return right if test.null() else left
        target = target or self.temporary(kind)
        self.branch(test, *(self.captured(self.put, target, value, after=lines)[0]
                            for value, lines in ((left, first), (right, second))))
        return target

    def x_ExprList(self, node, wanted):
        for part in node.exprs[:-1]:
            self.value(part, False)
        return self.value(node.exprs[-1], wanted)

    def x_Cast(self, node, wanted):
        kind = self.type(node.to_type)
        if kind.kind == "void" or not wanted:
            self.value(node.expr, False)
            return NOTHING
        value = self.value(node.expr)
        if {value.type.kind, kind.kind} == {"ptr", "int"} and kind.name != "bool" and not value.null():
            (kind.node or self.class_of(value)).seen.add("integer")
            value = value.typed(LONG).with_(wide=True) if kind.node is None else convert(value, "long").typed(kind)
        return self.fitting(value, kind)

    def x_Assignment(self, node, wanted):
        return self.assigned(self.visit(node.lvalue), node.op[:-1], node.rvalue, wanted)

    def assigned(self, place, op, by, wanted, after=False):
        """a = b, a op= b, a++: the value is the old one if `after`. Atomic variables are changed under one mutex."""
        place = self.stable_place(place) if op or wanted or place.calls else place
        if not op and not place.type.atomic and (not wanted or place.type.kind == "struct" or self.allocation(by)):
            self.store(place, by)
            return place if wanted else None
        by, mutex = self.value(by), self.scopes.maps[-1]["__sharc_atomics"]
        if place.type.atomic:
            by, mutex.uses = self.stable(by), mutex.uses + 1
            self.emit(f"lock(&{mutex.out});")
        old = op and self.loaded(place.with_(type=place.type.with_(atomic=False)))
        old = self.spilled(old) if wanted and after else old
        new = self.fitting(self.operated(op, old, by) if op else by, place.type)
        new = self.spilled(new) if wanted and not after and place.height > 1 and new.number is None else new
        self.put(place, new)
        if place.type.atomic:
            self.emit(f"unlock(&{mutex.out});")
        if wanted:
            return old if after else new if place.height > 1 else self.loaded(place)

    def x_FuncCall(self, node, _):
        args, name = node.args.exprs if node.args else [], node.name
        found = self.scopes.get(name.name) if isinstance(name, A.ID) else node
        if found is None:
            return self.library(node, name.name, args)
        values = self.values(args)
        if isinstance(found, Symbol) and found.kind == "function":
            if found.header:
                return self.inlined(found, values)
            self.refuse_if(found.name == "main" or found.type.name == "...", f"call of {found.name}")
            found.called = True
            kind, first = found.type, (found,)
        else:
            pointer = self.value(name)
            kind, first = pointer.type.to, (pointer.type.node, pointer)
        self.refuse_if(len(kind.params) != len(values) or len(values) + len(first) > 17,
                       "call with another number of arguments, or with over 16")
        values = [*map(self.fitting, values, kind.params)]
        copies = [value for value in values if value.type.name == "value"]
        made = Expr("call", (*first, *values), kind.to, height=1 + max([2, *(value.height for value in values)]))
        if kind.to.name == "value":
            made = Expr("at", (self.temporary(kind.to, made), number(0)), kind.to.to, given=True)
        elif copies:
            made = self.spilled(made)
        for value in copies:
            self.emit("free(%s);", value)
        return made

    def copied(self, value):
        """A pointer to a new object with the value of a struct, or to that which a call gave."""
        if value.given:
            return value.args[0]
        symbol = self.declare("copy", "local", value.type.bare(), self.here, own=True)
        self.declare_local(symbol)
        self.copy(variable(symbol), self.stable(value))
        return address(variable(symbol))

    def store(self, place, node):
        """place = node, of whatever type."""
        if self.allocation(node):
            self.allocate(place, self.allocation(node))
        elif isinstance(node, A.TernaryOp) and place.type.kind != "struct":
            self.x_TernaryOp(node, True, place)
        else:
            self.put(place, self.value(node))

    def put(self, place, value):
        if place.type.kind != "struct":
            return self.emit("%s = %s;", place, self.fitting(value, place.type))
        self.copy(self.stable_place(place), self.stable(value))
        if value.given:
            self.emit("free(%s);", value.args[0])

    def copy(self, target, source):
        """To the parts of a struct or array, or to one cell, from those of another, or a number."""
        kind, whole = target.type, source.type.kind != "int"
        if kind.kind == "struct":
            for _, *members in kind.struct.leaves():
                self.copy(reduce(member, members, target), reduce(member, members, source) if whole else source)
        elif kind.kind == "array":
            self.counting(number(kind.length), lambda at: self.copy(element(target, at),
                                                                    element(source, at) if whole else source))
        elif kind.kind in ("int", "ptr"):
            self.put(target, self.loaded(source))
        elif whole:
            self.refuse(self.here, "copy of a struct with a mutex or condition variable")

    def counting(self, length, act):
        """act(i) for each i below length."""
        if length.number == 1:
            return act(number(0))
        at = self.temporary(ULONG if length.type.name == "ulong" else INT)
        self.emit("for (%s = 0; %s; %s = %s + 1)", at, binary("<", at, length), at, at,
                  blocks=(self.captured(act, at)[0], ()))

    @staticmethod
    def allocation(node):
        """The arguments of malloc or calloc where its call gives a value, through casts."""
        node = uncast(node)
        name = getattr(node.name, "name", None) if isinstance(node, A.FuncCall) else None
        return node.args.exprs if name in ("malloc", "calloc") and node.args else None
