"""Expressions of SharC as trees, and C's operators and conversions on them (C11 6.3.1, 6.5).

SharC has no unsigned types: an unsigned value of less than 64 bits is masked after what can leave its range; one of 64
bits is held by its bits, and functions of headers/arithmetic.sharc compare, multiply and divide it."""
import operator
from dataclasses import dataclass, replace
from .ctype import BITS, CELL, UNSIGNED, VOID, Type, limits, promoted, usual

LEVELS = {"||": 1, "&&": 2, "|": 3, "^": 4, "&": 5, "==": 6, "!=": 6, "<": 7, ">": 7, "<=": 7, ">=": 7, "<<": 8,
          ">>": 8, "+": 9, "-": 9, "*": 10, "/": 10, "%": 10}
PLACES = ("variable", "member", "element", "at")
COMPARED = {"==": operator.eq, "!=": operator.ne, "<": operator.lt, ">": operator.gt, "<=": operator.le,
            ">=": operator.ge}
FOLDED = {"+": operator.add, "-": operator.sub, "*": operator.mul, "&": operator.and_, "|": operator.or_,
          "^": operator.xor, "<<": operator.lshift, ">>": operator.rshift, **COMPARED,
          "/": lambda a, b: abs(a) // abs(b) * (1 if (a < 0) == (b < 0) else -1),
          "%": lambda a, b: abs(a) % abs(b) * (1 if a >= 0 else -1)}
TRUTHS = (*COMPARED, "&&", "||", "!")
# the functions of headers/arithmetic.sharc in place of operators
FUNCTIONS = {("uint", "*"): "__sharc_product32", **{("ulong", op): f"__sharc_{name}64" for op, name in {
    "+": "sum", "-": "difference", "*": "product", "/": "quotient", "%": "remainder", "<<": "left", ">>": "right",
    "<": "below", ">": "above", "<=": "most", ">=": "least"}.items()}}

@dataclass(eq=False)
class Expr:
    """A place: variable(symbol), member(place, name), element(place, index) of an array, at(pointer, index).

    Or a value: what is in a place; number; operators on integers, also those of headers/arithmetic.sharc; a cast,
    which changes nothing but the type; address(place), also of the first element of an array; ordered(pointer), its
    number; and text(what gives it, places ..), which is known when all of the program was read, as NULL is. Those with
    effects are call(function, values ..) and scast(place, type); they are evaluated once, where they are in a line."""
    op: str
    args: tuple
    type: Type
    number: int = None  # of a constant
    wide: bool = None  # whether its type in the text is long
    height: int = 1  # of a place that others than the function may change 3, as of a call
    source: object = None  # of a place: how it was written
    given: bool = False  # a struct that a call gave: the object has to be freed
    with_ = replace

    def __post_init__(self):
        if self.wide is None:
            self.wide = self.op in (*PLACES, "call") and CELL.get(self.type.name) == "long"
        if self.op in PLACES:
            self.height = 1 if self.op == "variable" and not self.args[0].shared else 3
        self.calls = self.op in ("call", "scast") or any(arg.calls for arg in self.args if isinstance(arg, Expr))

    def null(self):
        return self.number == 0

    def typed(self, type):
        """The same with another type of C, whose cell holds it."""
        constant = self.number is not None and type.kind == "int"
        return number(self.number, type.name) if constant else self.with_(type=type)

    def values(self):
        """The values in it: of a place its indices, and the pointer to it."""
        inner = self.args[0].values() if self.op in ("member", "element") else []
        return inner + [arg for arg in self.args[self.op in ("member", "element") :] if isinstance(arg, Expr)]

    def place(self):
        """What it is the address of, or the array that it is the first element of."""
        return self.args[0] if self.op == "address" else None

    def chain(self):
        """The variable that a place is the whole of or a member of, with the members to it, else nothing."""
        around = self.args[0].chain() if self.op == "member" else ()
        return (*around, self.args[-1]) if around or self.op == "variable" else ()

NOTHING = Expr("number", (), VOID, 0)

def variable(symbol):
    return Expr("variable", (symbol,), symbol.type)

def member(base, symbol):
    return Expr("member", (base, symbol), symbol.type)

def element(base, index):
    return Expr("element", (base, index), base.type.to)

def address(place, to=None):
    return Expr("address", (place,), Type("ptr", to=to or place.type))

def number(value, name="int"):
    """A number converted to a C type, as its cell holds it (C11 6.3.1.3; gcc and clang wrap signed types)."""
    low = limits(name)[0]
    value = int(value != 0) if name == "bool" else (value - low) % (1 << BITS[name]) + low
    return Expr("number", (), Type("int", name), value, CELL[name] == "long" or not -(1 << 31) < value < 1 << 31)

def joined(op, name, *values):
    """A value of the C type `name`: an operator of SharC, or a function of headers/arithmetic.sharc, on others."""
    operands = values[:1] if op in ("<<", ">>") else () if op in TRUTHS else values
    wide = CELL[name] == "long" if op.startswith("__sharc_") else any(value.wide for value in operands)
    return Expr(op, values, Type("int", name), wide=wide, height=1 + max(value.height for value in values))

def convert(value, name):
    """A value as a cell of the C type `name` holds it (C11 6.3.1.2, 6.3.1.3; gcc wraps signed types)."""
    (low, high), (least, most) = limits(name), limits(value.type.name)
    if value.number is not None or low <= least and most <= high:
        return value.typed(Type("int", name))
    if name == "bool":
        return joined("!=", name, value, number(0))
    mask = (number(high, name),) if name in UNSIGNED else ()
    return joined("&" if mask else "__sharc_as_" + name, name, value, *mask)

def folded(op, left, right, name):
    """The value of an operator on constants, or None where C defines none."""
    shift, (low, high) = op in ("<<", ">>"), limits(name)
    a, b = (side.number & (1 << 64) - 1 if name == "ulong" else side.number for side in (left, right))
    if op in "/%" and b == 0 or shift and not 0 <= right.number < BITS[name]:
        return None
    value = FOLDED[op](a, right.number if shift else b)
    if op in COMPARED:
        return number(int(value))
    return number(value, name) if op == "<<" or name in UNSIGNED or low <= value <= high else None

def binary(op, left, right, name=None):
    """left op right in the C type `name`, or in that of C11 6.5, to which both are converted, of a shift the left."""
    name = name or (promoted(left.type) if op in ("<<", ">>") else usual(left.type, right.type))
    small = all(side.number >= 0 if side.number is not None else side.type.name in UNSIGNED - {"ulong"}
                for side in (left, right))  # whether both as an unsigned long are less than 2^63
    left, right = convert(left, name), right if op in ("<<", ">>") else convert(right, name)
    value = folded(op, left, right, name) if None not in (left.number, right.number) else None
    if value is not None:
        return value
    step = op in ("+", "-") and right.number is not None and abs(right.number) <= 65536
    function = FUNCTIONS.get((name, op)) if not (small if op in COMPARED else step) else None
    if function or op in COMPARED:
        return joined(function or op, "int" if op in COMPARED else name, left, right)
    if name != "int" and op not in ("&", "|", "^") and not joined(op, name, left, right).wide:
        left = joined("+", name, left, number(0, "long"))  # of type long in the text
    return convert(joined(op, "long" if name == "uint" and op in ("+", "-", "<<") else name, left, right), name)

def plus(left, right):
    """left + right, for indices."""
    if None not in (left.number, right.number):
        return number(left.number + right.number)
    if right.number is None or left.null():
        return right if left.null() else joined("+", "long", left, right)
    if left.op in ("+", "-") and left.args[1].number is not None:
        return plus(left.args[0], number(right.number + left.args[1].number * (1 if left.op == "+" else -1)))
    return left if right.null() else joined("-" if right.number < 0 else "+", "long", left, number(abs(right.number)))

def times(value, by):
    made = joined("*", "long", value, number(by)) if value.number is None else number(value.number * by)
    return value if by == 1 else made
