#!/usr/bin/env python3
"""Times `check`, `explain` and `run` on kinds of large sources at a quarter, a half and a whole megabyte.

Usage: growth.py PROGRAM     (the built program: crates/sharc/out/sharc, which ./sharc builds)

Each kind repeats what could make a command look at the same thing again and again. Times are processor time (user and
system) of one run, so they grow with the size of the source where the command's cost does. A kind that the limits on
functions or fields keep small has smaller sources.
"""

import resource
import subprocess
import sys

MEGABYTE = 1_048_576


def some(count, made):
    return "".join(made(number) for number in range(count))


def chain(size):
    """Functions that each pass their pointer to the next."""
    last = min(size // 36, 16_000)
    calls = some(last, lambda i: f"void f{i}(int * p) {{ f{i + 1}(p); }}\n")
    main = "int main(void) { int * x = NULL; join(spawn(f0, x)); return 0; }"
    return f"{calls}void f{last}(int * p) {{ *p = 1; }} {main}"


def copies(size):
    """Functions in which a pointer is copied from local to local."""
    count = size // 4_300
    body = some(190, lambda i: f"int * a{i + 1} = a{i};")
    functions = some(count, lambda k: f"void g{k}(int * a0) {{{body}}}\n")
    return f"{functions}int main(void) {{ int * x = NULL; {some(count, lambda k: f'spawn(g{k}, x);')} return 0; }}"


def body(before, part, after):
    """A part that is repeated in the body of `main`."""
    return lambda size: before + part * ((size - len(before) - len(after)) // len(part)) + after


def paths(size):
    """A call whose argument has a lock path."""
    return body(
        "struct s { mutex m; int locked(m) * locked(m) q; };\nint get(struct s dynamic * x, int locked(x->m) * y)"
        " { return 1; }\nvoid w(struct s dynamic * a) { lock(&a->m); ",
        "print(get(a, a->q));\n",
        " unlock(&a->m); }\nint main(void) { return 0; }",
    )(size)


def spawns(size):
    """Functions that are all spawned with the same pointer."""
    count = min(size // 62, 16_000)
    functions = some(count, lambda i: f"void f{i}(int * p) {{ *p = {i}; }}\n")
    return f"{functions}int main(void) {{ int * x = NULL; {some(count, lambda i: f'spawn(f{i}, x);')}return 0; }}"


def nulled(size):
    """190 locals that are freed and read in turn."""
    count = (size - 3_800) // 38
    uses = some(count, lambda i: f"free(p{i % 190}); if (p{i * 3 % 190} == NULL) ;\n")
    return f"int main(void) {{ {some(190, lambda i: f'int * p{i} = NULL; ')}{uses} return 0; }}"


POINTER = "int main(void) { int * p = NULL; "
NUMBER = "int main(void) { int x = 0; "
END = " return 0; }"
LOOPS = "while (1) {" * 20 + "free(p); if (p == NULL) break; if (p == NULL) continue;" + "}" * 20 + "\n"
ALL = " && ".join("x" * 30)
KINDS = {
    "a pointer that functions pass on": chain,
    "a pointer that locals copy": copies,
    "a pointer that threads share": spawns,
    "calls with a lock path": paths,
    "errors with casts": body("void f(int dynamic * a) { } int main(void) { int private * p = NULL; ", "f(p);\n", END),
    "casts": body(
        "struct s { int n; }; int main(void) { struct s private * p = NULL; struct s dynamic * d = NULL; ",
        "d = SCAST(struct s dynamic *, p); p = SCAST(struct s private *, d);\n",
        END,
    ),
    "locals that are nulled": nulled,
    "loops that null a local": body(POINTER, "while (p == NULL) free(p);\n", END),
    "nested loops with break and continue": body(POINTER, LOOPS, END),
    "branches that null and write": body(POINTER, "if (p == NULL) { free(p); } else { p = NULL; }\n", END),
    "a loop with many exits": body(NUMBER + "while (1) { ", "if (x) break; if (x) continue;\n", "break; } return 0; }"),
    "returns": body("int f(int x) { ", "if (x) return x;\n", "return 0; } int main(void) { print(f(0)); return 0; }"),
    "expressions of height 64": body(NUMBER, "x = " + "(" * 63 + "x" + ")" * 63 + ";\n", END),
    "chains of logical operators": body(NUMBER, f"x = {ALL} || {ALL};\n", END),
    "arithmetic": body("int a; int b; int main(void) {", "a=b+b*b-b;", "return 0; }"),
}


def time(program, words, source):
    before = resource.getrusage(resource.RUSAGE_CHILDREN)
    streams = {"input": source.encode(), "stdout": subprocess.DEVNULL, "stderr": subprocess.DEVNULL}
    subprocess.run([program, *words], **streams, timeout=120, check=False)
    after = resource.getrusage(resource.RUSAGE_CHILDREN)
    return (after.ru_utime + after.ru_stime - before.ru_utime - before.ru_stime) * 1e3


def main():
    if len(sys.argv) != 2:
        sys.exit("usage: growth.py PROGRAM")
    program = sys.argv[1]
    print("| Source | KB | check | explain | run |\n|---|---|---|---|---|")
    for name, made in KINDS.items():
        sources = [made(size) for size in (MEGABYTE // 4, MEGABYTE // 2, MEGABYTE)]
        cells = [", ".join(f"{len(source) // 1000}" for source in sources)]
        for words in (["check"], ["explain"], ["run"]):
            cells.append(", ".join(f"{time(program, words, source):.0f}" for source in sources))
        print(f"| {name} | {' | '.join(cells)} |", flush=True)


main()
