#!/usr/bin/env python3
"""Times the front end and `check`, and gcc -fsyntax-only on the same text made valid C.

Usage: measure.py [PROGRAM], where PROGRAM is the built program `sharc`; without it, the script at the top of the repository builds it.
A stage's time is told by sources that are refused at their end: by the lexer, by the parser, by C typing. What a source costs up to a stage, less what it costs
up to the stage before, is the stage's own. Times are processor time (user and system), the least of some runs; peaks are of the whole process.
"""

import os
import subprocess
import sys
import tempfile

RUNS = 5

# What makes the C of a program of the checked language that has the modes and calls of `load`.
PRELUDE = """\
typedef struct { int held; } mutex;
void lock(mutex *m); void unlock(mutex *m); void print(long value); void join(int thread);
int spawn(void (*run)(int), int value);
#define locked(m)
"""

# What is put behind a source, so that its reading ends with a fault of this stage, and the code of that fault. A byte before a source ends it at once.
LATE = {"lexing": ("@", "L1"), "parsing": (")", "P1"), "typing": ("void late(void){nope();}", "C1")}


def load(functions):
    """The source of the command `load` with so many small functions: that of the crate sharc_load."""
    numbers = range(functions)
    lines = ["mutex m;", "int locked(m) total;"]
    lines += [f"int step{number}(int v) {{ return v + {number}; }}" for number in numbers]
    lines += ["void work(int v) {"] + [f"v = step{number}(v);" for number in numbers]
    lines += ["lock(&m);", "total = total + v;", "unlock(&m);", "}", "int main(void) {"]
    lines += [f"int t{worker} = spawn(work, {worker});" for worker in range(1, 9)]
    lines += [f"join(t{worker});" for worker in range(1, 9)]
    lines += ["lock(&m);", "print(total);", "unlock(&m);", "return 0;", "}", ""]
    return "\n".join(lines)


def numbered(opening, numbers, closing):
    return "".join(f"{opening}{number}{closing}" for number in numbers)


def shadowing():
    """A function of 200 locals: eleven, and three names at 63 depths, used at the deepest and on the way out."""
    return (
        "int main(void){" + numbered("int k", range(11), ";") + "int a;int*b;char c;"
        + "{int*a;int b;int*c;a=c;{int a;int*b;char c;a=c;" * 31
        + "a=c;b=NULL;" * 90_000
        + "b=NULL;}a=NULL;b=1;}a=1;" * 31
        + "c=k10;}"
    )


def body(statement, times):
    """A function with a body of so many equal statements."""
    return (
        "void f(int dynamic * a) { }\nint main(void) {\nint private * p = NULL; int dynamic * d = NULL; int x = 0;\n"
        + statement * times
        + "return 0;\n}\n"
    )


LARGE = {
    "uses of one name": "int a; int main(void) {" + "a=1;" * 262_000 + "}",
    "calls of 16,000 functions": numbered("void f", range(16_000), "(void){}")
    + "int main(void){" + numbered("f", range(16_000), "();") * 4 + "}",
    "uses of 4,096 globals": numbered("int g", range(4_096), ";")
    + "int main(void){" + numbered("g", range(4_096), "=1;") * 28 + "}",
    "200 locals at 63 depths": shadowing(),
    "accepted calls and sums": body("f(d);x=x+1;\n", 87_000),
    "10,000 errors with casts": body("f(p);\n", 10_000),
    "174,000 errors with casts": body("f(p);\n", 174_000),
    "assignments both ways": body("p=d;d=p;\n", 116_000),
}


class Run:
    """One run of a command: its status, what it printed, its processor time in milliseconds and its peak of memory in megabytes."""

    def __init__(self, words, text=b""):
        with tempfile.TemporaryFile() as given, tempfile.TemporaryFile() as printed:
            given.write(text)
            given.seek(0)
            child = subprocess.Popen(words, stdin=given, stdout=printed)
            _, status, usage = os.wait4(child.pid, 0)
            child.returncode = os.waitstatus_to_exitcode(status)
            printed.seek(0)
            self.printed = printed.read()
        self.status = child.returncode
        self.time = (usage.ru_utime + usage.ru_stime) * 1e3
        self.peak = usage.ru_maxrss / 1024


def best(words, text=b""):
    """The run of least time, with the highest peak of all."""
    runs = [Run(words, text) for _ in range(RUNS)]
    least = min(runs, key=lambda run: run.time)
    least.peak = max(run.peak for run in runs)
    return least


def refused(program, text, code):
    """The run of `check` over a text that is refused with this code."""
    run = best([program, "check"], text.encode())
    if run.status != 2 or code.encode() not in run.printed:
        sys.exit(f"not refused with {code}: {run.status} {run.printed[:200]!r}")
    return run


def stages(program, source):
    """The time of each stage, and the run of `check` over the whole."""
    before = refused(program, "@" + source, "L1").time
    each = {}
    for stage, (behind, code) in LATE.items():
        upto = refused(program, source + behind, code).time
        each[stage], before = upto - before, upto
    whole = best([program, "check"], source.encode())
    each["modes"] = whole.time - before
    return each, whole


def told(each):
    return ", ".join(f"{stage} {time:.1f}" for stage, time in each.items())


def loads(program, folder):
    path = os.path.join(folder, "load.c")
    for functions in (100, 1_000, 10_000):
        source = load(functions)
        with open(path, "w", encoding="ascii") as out:
            out.write(PRELUDE + source)
        each, whole = stages(program, source)
        gcc = best(["gcc", "-fsyntax-only", path])
        if whole.status != 0 or gcc.status != 0:
            sys.exit(f"load {functions}: {whole.status} {whole.printed[:200]!r}, gcc {gcc.status}")
        shares = {stage: time / gcc.time for stage, time in each.items()}
        print(f"load {functions}, {len(source)} bytes, milliseconds: {told(each)}; check {whole.time:.1f}, gcc {gcc.time:.1f}")
        print("  of gcc's: " + ", ".join(f"{stage} {share:.2f}" for stage, share in shares.items()) + f"; check {whole.time / gcc.time:.2f}")
        print(f"  peak {whole.peak:.0f} MB, gcc {gcc.peak:.0f} MB")


def larges(program):
    for name, source in LARGE.items():
        each, whole = stages(program, source)
        lines = whole.printed.count(b"\n")
        print(f"{name}, {len(source)} bytes, milliseconds: {told(each)}; check {whole.time:.1f}; status {whole.status}, {lines} lines; peak {whole.peak:.0f} MB")


def built():
    """The program, built by the script at the top of the repository."""
    top = os.path.join(os.path.dirname(os.path.abspath(__file__)), "..", "..")
    subprocess.run([os.path.join(top, "sharc")], stdout=subprocess.DEVNULL, check=False)
    return os.path.join(top, "crates", "sharc", "out", "sharc")


def main():
    program = sys.argv[1] if len(sys.argv) > 1 else built()
    print("load of the machine:", *os.getloadavg())
    with tempfile.TemporaryDirectory() as folder:
        loads(program, folder)
    larges(program)


main()
