"""Makes programs of random expressions and statements that C defines: what they print is the same for any compiler.

Ranges are followed, so that no signed operation overflows, no divisor is 0 and no shift is out of range; and no
expression reads a variable that it changes elsewhere. `python3 generate.py SEED COUNT` writes one program.
"""

import random
import sys

BITS = {"char": 8, "signed char": 8, "unsigned char": 8, "short": 16, "unsigned short": 16, "int": 32,
        "unsigned int": 32,
        "long": 64, "unsigned long": 64, "_Bool": 1, "enum mood": 32}
FORMATS = {"int": "%d", "unsigned int": "%u", "long": "%ld", "unsigned long": "%ld"}


def unsigned(kind):
    return kind in ("unsigned char", "unsigned short", "unsigned int", "unsigned long", "_Bool", "enum mood")


def limits(kind):
    bits = BITS[kind]
    return (0, (1 << bits) - 1) if unsigned(kind) else (-(1 << bits - 1), (1 << bits - 1) - 1)


def promoted(kind):
    return "unsigned int" if kind == "enum mood" else kind if BITS[kind] >= 32 else "int"


def usual(left, right):
    kinds = (promoted(left), promoted(right))
    return next(kind for kind in ("unsigned long", "long", "unsigned int", "int") if kind in kinds)


class Expression:
    def __init__(self, text, kind, low=None, high=None):
        self.text, self.kind = text, kind
        self.low, self.high = limits(kind) if low is None else (low, high)


class Generator:
    def __init__(self, seed):
        self.random = random.Random(seed)
        self.lines, self.number = [], 0
        self.variables, self.busy, self.depth = [], set(), 0

    def pick(self, *choices):
        return self.random.choice(choices)

    def converted(self, e, kind):
        low, high = limits(kind)
        if low <= e.low and e.high <= high:
            return Expression(e.text, kind, e.low, e.high)
        return Expression(e.text, kind)

    # ---- expressions

    def constant(self):
        kind = self.pick("int", "int", "int", "unsigned int", "long", "unsigned long")
        value = self.pick(0, 1, 2, 3, 7, 10, 31, 100, 255, 256, 1000, 32767, 65535, 65536, 2147483647,
                          self.random.randrange(1 << 31))
        if self.random.random() < 0.15 and BITS[kind] == 64:
            value = self.random.randrange(1 << 63)
        if self.random.random() < 0.2 and kind == "unsigned int":
            value = self.random.randrange(1 << 32)
        suffix = {"int": "", "unsigned int": "u", "long": "L", "unsigned long": "ul"}[kind]
        text = hex(value) if self.random.random() < 0.2 and kind != "int" else str(value)
        if self.random.random() < 0.05:
            return Expression(f"'{self.pick('a', 'Z', '0', '~')}'", "int", 0, 127)
        return Expression(text + suffix, kind, value, value)

    def variable(self):
        free = [(name, kind, low, high) for name, kind, low, high in self.variables if name not in self.busy]
        if not free:
            return self.constant()
        name, kind, low, high = self.random.choice(free)
        self.used.add(name)
        text = name
        if "[" in name:
            base, rest = name.split("[", 1)
            text = base + "[" + rest
        return Expression(text, kind, low, high)

    def small(self, e, most):
        """An expression within -most .. most, of a signed type."""
        if -most <= e.low and e.high <= most:
            return e
        kind = promoted(e.kind)
        if self.random.random() < 0.5:
            return Expression(f"({e.text} & {most})", kind, 0, most)
        low = 0 if e.low >= 0 or unsigned(kind) else -most
        return Expression(f"({e.text} % {most + 1})", kind, low, most)

    def expression(self, depth):
        roll = self.random.random()
        if depth <= 0 or roll < 0.12:
            return self.variable() if self.random.random() < 0.75 else self.constant()
        if roll < 0.62:
            return self.binary(depth)
        if roll < 0.72:
            return self.unary(depth)
        if roll < 0.80:
            return self.cast(depth)
        if roll < 0.86:
            cond, left, right = self.expression(depth - 2), self.expression(depth - 1), self.expression(depth - 1)
            kind = usual(left.kind, right.kind)
            left, right = self.converted(left, kind), self.converted(right, kind)
            return Expression(f"({cond.text} ? {left.text} : {right.text})", kind, min(left.low, right.low),
                              max(left.high, right.high))
        if roll < 0.93:
            left, right = self.expression(depth - 1), self.expression(depth - 1)
            return Expression(f"({left.text} {self.pick('&&', '||')} {right.text})", "int", 0, 1)
        return self.effect(depth)

    def binary(self, depth):
        left, right = self.expression(depth - 1), self.expression(depth - 1)
        op = self.pick("+", "-", "*", "/", "%", "&", "|", "^", "<<", ">>", "<", ">", "<=", ">=", "==", "!=", "+",
                       "-", "&", "^")
        if op in ("<<", ">>"):
            kind = promoted(left.kind)
            right = Expression(f"({right.text} & {BITS[kind] - 1})", promoted(right.kind), 0, BITS[kind] - 1)
            if op == "<<" and not unsigned(kind):
                left = self.small(left, 1000)
                kind = promoted(left.kind)
                left = Expression(f"({left.text} & 1023)", kind, 0, 1023)
                right = Expression(f"({right.text} & 15)", "int", 0, 15)
                return Expression(f"({left.text} << {right.text})", kind, 0, 1023 << 15)
            return Expression(f"({left.text} {op} {right.text})", kind)
        kind = usual(left.kind, right.kind)
        if op in ("<", ">", "<=", ">=", "==", "!="):
            return Expression(f"({left.text} {op} {right.text})", "int", 0, 1)
        if op in "/%":
            most = self.pick(7, 63, 1023)
            right = Expression(f"(({right.text} & {most}) + 1)", promoted(right.kind), 1, most + 1)
            kind = usual(left.kind, right.kind)
            return Expression(f"({left.text} {op} {right.text})", kind)
        if op in "+-*" and not unsigned(kind):
            most = {"*": 20000, "+": 500000000, "-": 500000000}[op]
            left, right = self.small(left, most), self.small(right, most)
            kind = usual(left.kind, right.kind)
            left, right = self.converted(left, kind), self.converted(right, kind)
            if unsigned(kind):
                return Expression(f"({left.text} {op} {right.text})", kind)
            ends = [{"+": x + y, "-": x - y, "*": x * y}[op] for x in (left.low, left.high) for y in (right.low,
                                                                                                      right.high)]
            return Expression(f"({left.text} {op} {right.text})", kind, min(ends), max(ends))
        return Expression(f"({left.text} {op} {right.text})", kind)

    def unary(self, depth):
        inner = self.expression(depth - 1)
        op = self.pick("-", "~", "!", "+")
        if op == "!":
            return Expression(f"(!{inner.text})", "int", 0, 1)
        if op == "-" and not unsigned(promoted(inner.kind)):
            inner = self.small(inner, 1000000)
            kind = promoted(inner.kind)
            if unsigned(kind):
                return Expression(f"(- {inner.text})", kind)
            return Expression(f"(- {inner.text})", kind, -inner.high, -inner.low)
        kind = promoted(inner.kind)
        if op == "+":
            return Expression(f"(+{inner.text})", kind, *((inner.low, inner.high) if limits(kind)[0] <= inner.low
                                                          and inner.high <= limits(kind)[1] else limits(kind)))
        return Expression(f"({op}{inner.text})", kind)

    def cast(self, depth):
        inner, kind = self.expression(depth - 1), self.pick(*BITS)
        made = self.converted(inner, kind)
        return Expression(f"(({kind}) {inner.text})", kind, made.low, made.high)

    def effect(self, depth):
        """A variable that nothing else in the expression uses is changed within it."""
        free = [v for v in self.variables if v[0] not in self.busy and v[0] not in self.used and v[0] not in self.fixed
                and not any(self.related(v[0], other) for other in self.busy | self.used)]
        if not free:
            return self.variable()
        name, kind, low, high = self.random.choice(free)
        self.busy.add(name)
        roll = self.random.random()
        if roll < 0.3 and BITS[kind] > 1 and (unsigned(kind) or BITS[kind] < 32):
            text = self.pick(f"({name}++)", f"({name}--)", f"(++{name})", f"(--{name})")
            return Expression(text, kind)
        inner = self.expression(depth - 1)
        if roll < 0.5 and unsigned(kind) and kind != "_Bool":
            return Expression(f"({name} {self.pick('+=', '-=', '^=', '|=', '&=')} {inner.text})", kind)
        return Expression(f"({name} = {inner.text})", kind)

    @staticmethod
    def related(one, other):
        """Whether two names may be parts of one object."""
        return one.split("[")[0].split(".")[0].split("->")[0] == other.split("[")[0].split(".")[0].split("->")[0] and \
            ("[" in one or "[" in other)

    def whole(self, depth):
        self.busy, self.used = set(), set()
        return self.expression(depth)

    # ---- statements

    def emit(self, text):
        self.lines.append("    " * (1 + self.depth) + text)

    def show(self, e):
        kind = promoted(e.kind)
        self.emit(f'printf("{FORMATS[kind]}\\n", ({kind}) {e.text});' if kind != "unsigned long" else
                  f'printf("%ld\\n", (long) {e.text});')

    def statement(self, depth):
        roll = self.random.random()
        if roll < 0.45 or depth <= 0:
            self.assignment()
        elif roll < 0.55:
            self.show(self.whole(3))
        elif roll < 0.68:
            self.emit(f"if ({self.whole(3).text}) {{")
            self.body(depth)
            if self.random.random() < 0.6:
                self.emit("} else {")
                self.body(depth)
            self.emit("}")
        elif roll < 0.86:
            self.loop(depth)
        else:
            self.switch(depth)

    def assignment(self):
        name, kind, low, high = self.random.choice([v for v in self.variables if v[0] not in self.fixed])
        self.busy, self.used = {name}, set()
        if self.random.random() < 0.25 and BITS[kind] > 1 and (unsigned(kind) or BITS[kind] < 32):
            self.emit(f"{name}{self.pick('++', '--')};")
            return
        inner = self.expression(3)
        if self.random.random() < 0.3 and unsigned(kind) and kind != "_Bool":
            self.emit(f"{name} {self.pick('+=', '-=', '*=', '^=', '|=', '&=')} {inner.text};")
        elif self.random.random() < 0.15 and not unsigned(kind):
            self.emit(f"{name} {self.pick('^=', '|=', '&=')} {inner.text};")
        elif self.random.random() < 0.15 and BITS[kind] > 1:
            self.emit(f"{name} {self.pick('>>=')} ({inner.text} & 7);")
        elif self.random.random() < 0.15:
            self.emit(f"{name} {self.pick('/=', '%=')} (({inner.text} & 15) + 1);")
        else:
            self.emit(f"{name} = {inner.text};")

    def body(self, depth, jumps=()):
        self.depth += 1
        for _ in range(self.random.randrange(1, 4)):
            self.statement(depth - 1)
            if jumps and self.random.random() < 0.3:
                self.emit(f"if ({self.whole(2).text}) {self.pick(*jumps)};")
        self.depth -= 1

    def loop(self, depth):
        self.number += 1
        i, n = f"i{self.number}", self.random.randrange(1, 5)
        test = f" && {self.whole(2).text}" if self.random.random() < 0.3 else ""
        kind = self.pick("int", "unsigned int", "unsigned long", "short", "unsigned char")
        self.variables.append((i, kind, 0, 255))
        self.fixed.add(i)
        roll = self.random.random()
        if roll < 0.4:
            self.emit(f"for ({kind} {i} = 0; {i} < {n}{test}; {i}++) {{")
            self.body(depth, ("break", "continue"))
            self.emit("}")
        elif roll < 0.6:
            self.emit(f"{{ {kind} {i} = {n};")
            self.emit(f"while ({i}-- > 0{test}) {{")
            self.body(depth, ("break", "continue"))
            self.emit("} }")
        elif roll < 0.8:
            self.emit(f"{{ {kind} {i} = 0;")
            self.emit("do {")
            self.body(depth, ("break", "continue"))
            self.emit(f"}} while (++{i} < {n}{test}); }}")
        else:
            self.emit(f"for ({kind} {i} = 0, step{self.number} = 1; {i} < {n}; {i} += step{self.number}, k0++) {{")
            self.body(depth, ("break", "continue"))
            self.emit("}")
        self.variables = [v for v in self.variables if v[0] != i]

    def switch(self, depth):
        self.emit(f"switch ({self.whole(3).text} & 3) {{")
        labels = ["case 0:", "case 1:", "case 2:", "default:"]
        self.random.shuffle(labels)
        fall = self.random.random() < 0.5
        for label in labels[: self.random.randrange(2, 5)]:
            self.emit(label)
            self.body(depth, ("break",) if fall and self.random.random() < 0.5 else ())
            if not fall or self.random.random() < 0.5:
                self.emit("    break;")
        self.emit("}")

    # ---- a program

    def program(self, count):
        kinds = [kind for kind in BITS if kind != "_Bool"] + ["_Bool"]
        heads = ["#include <stdio.h>", "#include <stdlib.h>", "enum mood { CALM = 1, WILD = 7 };",
                 "struct pair { short x; unsigned int y; };",
                 "struct all { long z; struct pair in; unsigned char row[4]; signed char grid[2][3]; };",
                 "static struct all whole; static struct pair pairs[3]; static struct all many[2];",
                 "static long twice(int n) { return n * 2L; }",
                 "static unsigned int turn(unsigned int n) { return n << 5 | n >> 27; }",
                 "static struct pair swapped(struct pair p) { struct pair q; q.x = (short) p.y; q.y = p.x; return q; }",
                 "static void bump(unsigned short *p, int by) { *p += by; }",
                 "static unsigned int k0;"]
        self.fixed = set()
        for number, kind in enumerate(kinds):
            heads.append(f"static {kind} g{number} = {self.pick(0, 1, 2, 100)};" if kind != "enum mood"
                         else f"static enum mood g{number} = WILD;")
            self.variables.append((f"g{number}", kind, *limits(kind)))
        functions = []
        for number in range(count):
            functions += self.function(number, kinds)
        main = ["int main(void)", "{"] + [f"    f{number}({number});" for number in range(count)] + \
            [f'    printf("%ld\\n", (long) {name});' for name, *_ in self.variables] + ["    return 0;", "}"]
        return "\n".join(heads + functions + main) + "\n"

    def function(self, number, kinds):
        kept = list(self.variables)
        self.lines, self.fixed = [], {"n"}
        self.variables.append(("n", "int", 0, 1000))
        self.lines += [f"static void f{number}(int n)", "{"]
        for at, kind in enumerate(self.random.sample(kinds, 4)):
            first = self.pick("n", "1", "(n & 3)", "-1") if kind not in ("enum mood", "_Bool") else "1"
            self.emit(f"{kind} v{at} = {first};")
            self.variables.append((f"v{at}", kind, *limits(kind)))
        self.emit("struct pair p = { 3, 4 }, q = { .y = 9 };")
        self.emit("struct all a = { 5, { 1, 2 }, { 1, 2, 3, 4 }, { { 1 }, { 4, 5, 6 } } };")
        self.emit("unsigned short u16 = 65000; int arr[4] = { 1, -2, 3 };")
        self.emit("struct pair *pp = &pairs[n % 3]; struct all *pa = &many[n % 2];")
        self.emit("static unsigned long calls = 3;")
        self.variables += [("p.x", "short", *limits("short")), ("q.y", "unsigned int", *limits("unsigned int")),
                           ("a.row[n & 3]", "unsigned char", 0, 255), ("a.grid[n & 1][n % 3]", "signed char", -128,
                                                                       127),
                           ("arr[n & 3]", "int", *limits("int")), ("pp->x", "short", *limits("short")),
                           ("pp->y", "unsigned int", *limits("unsigned int")), ("pa->row[n & 3]", "unsigned char", 0,
                                                                                255),
                           ("whole.in.x", "short", *limits("short")), ("whole.row[n & 3]", "unsigned char", 0, 255),
                           ("whole.z", "long", *limits("long")), ("calls", "unsigned long", *limits("unsigned long")),
                           ("pa->in.y", "unsigned int", *limits("unsigned int")), ("pa->grid[1][n % 3]",
                                                                                   "signed char", -128, 127)]
        for _ in range(5):
            self.statement(3)
        self.emit("q = swapped(p); *pp = q; whole.in = *pp; bump(&u16, n * 200);"
                  " k0 += turn(u16) + (unsigned int) twice(q.x);")
        for name, kind, *_ in self.variables[len(kept):]:
            self.emit(f'printf("%ld\\n", (long) {name});')
        self.emit('printf("%u %d %u\\n", k0, u16, q.y);')
        self.lines.append("}")
        self.variables = kept
        return self.lines


if __name__ == "__main__":
    print(Generator(int(sys.argv[1])).program(int(sys.argv[2])), end="")
