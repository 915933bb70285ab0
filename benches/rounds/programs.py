#!/usr/bin/env python3
"""Times `run` and `load` of the built program by 1, 2 and 4 workers, beside the same sources compiled as C.

Usage: programs.py [PROGRAM [PART..]]     (default: crates/sharc/out/sharc, which ./sharc builds)

Parts: instructions, loops, rounds, neighbours, examples, load; all, if none is named. Each prints rows of a table. A
time is the least of some runs (RUNS of the environment, else 5), in milliseconds by the clock on the wall, with the
processor time (user and system) of that run in brackets. Runs by 1, 2 and 4 workers are made in turn. The load of the
machine is printed with each part. Turns are told by the least number for `--events` with which a run of a small loop
ends. C is compiled by gcc with include/sharc.h: plain at -O0, with -fsanitize=thread, and plain under helgrind.
"""

import os
import pathlib
import re
import resource
import subprocess
import sys
import tempfile
import time

TOP = pathlib.Path(__file__).resolve().parent.parent.parent
RUNS = int(os.environ.get("RUNS", "5"))
HELGRIND = int(os.environ.get("HELGRIND", "60"))
EVENTS = "100000000"
GCC = ["gcc", "-O0", "-g", "-w", "-fsigned-char", "-include", str(TOP / "include/sharc.h"), "-pthread"]


class Run:
    """One run of a command: wall and processor time in milliseconds, status and text."""

    def __init__(self, words, text="", seconds=120):
        before = resource.getrusage(resource.RUSAGE_CHILDREN)
        begun = time.monotonic()
        done = subprocess.run(
            words, input=text.encode(), stdout=subprocess.PIPE, stderr=subprocess.DEVNULL, timeout=seconds, check=False
        )
        self.wall = (time.monotonic() - begun) * 1e3
        after = resource.getrusage(resource.RUSAGE_CHILDREN)
        self.used = (after.ru_utime + after.ru_stime - before.ru_utime - before.ru_stime) * 1e3
        self.status, self.text = done.returncode, done.stdout.decode()

    def __str__(self):
        return f"{shown(self.wall)} ({shown(self.used)})"


def shown(time):
    """Milliseconds, with a tenth where it tells."""
    return f"{time:.1f}" if time < 50 else f"{time:.0f}"


def best_of_each(commands, text=""):
    """The least of some runs of each command, made in turn: what else the machine does then meets all of them alike."""
    least = {}
    for _ in range(RUNS):
        for place, words in enumerate(commands):
            run = Run(words, text)
            if run.status != 0:
                sys.exit(f"{words}: status {run.status}, {run.text[-200:]!r}")
            least[place] = min(least.get(place, run), run, key=lambda run: run.wall)
    return [least[place] for place in range(len(commands))]


def best(words, text=""):
    return best_of_each([words], text)[0]


def heading(text):
    print(f"\n{text}; load of the machine {os.getloadavg()[0]:.1f}")


def row(*cells):
    print("| " + " | ".join(map(str, cells)) + " |", flush=True)


def turns(program, source):
    """The events that the thread with most events makes: the least limit that no thread reaches."""
    low, high = 0, 1 << 24
    while high - low > 1:
        middle = (low + high) // 2
        if Run([program, "run", "--events", str(middle)], source).status == 6:
            low = middle
        else:
            high = middle
    return low


def per_round(program, made):
    """Turns of a thread for each round of its loop."""
    return (turns(program, made(300)) - turns(program, made(100))) / 200


def by_workers(program, source, workers=(1, 2, 4)):
    return best_of_each([[program, "run", "--events", EVENTS, "--workers", str(count)] for count in workers], source)


def compiled(folder, source, *flags):
    """The source as a C program, and the milliseconds that gcc took."""
    path, program = os.path.join(folder, "source.c"), os.path.join(folder, "source")
    with open(path, "w", encoding="ascii") as file:
        file.write(source)
    done = Run([*GCC, *flags, path, "-o", program])
    if done.status != 0:
        sys.exit("gcc does not compile a source")
    return program, done.wall


def under_helgrind(program):
    """One run, which is cut off: threads that wait by looking again and again hardly come forward there."""
    try:
        return Run(["valgrind", "--tool=helgrind", "--fair-sched=yes", program], seconds=HELGRIND)
    except subprocess.TimeoutExpired:
        return f"over {HELGRIND} s"


def as_c(source):
    """The times of the source as C: plain, under ThreadSanitizer, under helgrind."""
    with tempfile.TemporaryDirectory() as folder:
        plain, _ = compiled(folder, source)
        alone, helgrind = best([plain]), under_helgrind(plain)
        sanitized, _ = compiled(folder, source, "-fsanitize=thread")
        return alone, best(["setarch", "-R", sanitized]), helgrind


def threads(count, step, body, globals_="", n=0):
    """`main` starts so many threads, with the numbers 0, step, 2 step .., and joins them."""
    spawned = "".join(f"  int t{k} = spawn(w, {k * step});\n" for k in range(count))
    joined = "".join(f"  join(t{k});\n" for k in range(count))
    work = f"void w(int k) {{\n  int i = 0;\n  while (i < {n}) {{ {body} i = i + 1; }}\n}}\n"
    return f"{globals_}{work}int main(void) {{\n{spawned}{joined}  return 0;\n}}\n"


# name, the program with so many rounds, rounds, threads
LOOPS = [
    ("four threads count a local", lambda n: threads(4, 1, "", n=n), 2_000_000, 4),
    (
        "four threads add to elements of their own, 64 apart",
        lambda n: threads(4, 64, "a[k] = a[k] + 1;", "int dynamic a[512];\n", n),
        500_000,
        4,
    ),
    (
        "eight threads add to a locked global",
        lambda n: threads(8, 1, "lock(&m); g = g + 1; unlock(&m);", "mutex m;\nint locked(m) g;\n", n),
        10_000,
        8,
    ),
]


def loops(program):
    heading("Loops: by 1, 2 and 4 workers, with million turns a second and ns a round; gcc -O0, TSan, helgrind")
    for name, made, n, count in LOOPS:
        each, source = per_round(program, made), made(n)
        runs = [
            f"{run}: {count * n * each / run.wall / 1e3:.0f} M/s, {run.wall * 1e6 / (count * n):.0f} ns"
            for run in by_workers(program, source)
        ]
        row(f"{name}, {n:,} rounds each of {each:g} turns", *runs, *as_c(source))


POINTER = "struct s {mode} * p = malloc(sizeof(struct s)); while (i < {n}) {{ p->n = p->n + 1; i = i + 1; }}"
# name, what stands before `main`, the loop in it with so many rounds
SINGLE = [
    ("count a local", "", "while (i < {n}) {{ i = i + 1; }}"),
    ("`for`, `s = s + i % 7`", "", "int s = 0; for (int j = 0; j < {n}; j = j + 1) {{ s = s + j % 7; }}"),
    ("a call, `i = f(i)`", "int f(int i) { return i + 1; }\n", "while (i < {n}) {{ i = f(i); }}"),
    ("add to a dynamic global", "int dynamic g;\n", "while (i < {n}) {{ g = g + 1; i = i + 1; }}"),
    ("add to a dynamic element", "int dynamic a[8];\n", "int k = 1; while (i < {n}) {{ a[k] = a[k] + 1; i = i + 1; }}"),
    ("`p->n = p->n + 1`, private", "struct s { int n; };\n", POINTER.replace("{mode} ", "")),
    ("`p->n = p->n + 1`, dynamic", "struct s { int n; };\n", POINTER.replace("{mode}", "dynamic")),
    (
        "add to a locked global",
        "mutex m;\nint locked(m) g;\n",
        "while (i < {n}) {{ lock(&m); g = g + 1; unlock(&m); i = i + 1; }}",
    ),
]


def counted(program, source):
    """The instructions of a run by one worker, as callgrind counts them."""
    words = ["valgrind", "--tool=callgrind", "--callgrind-out-file=/dev/null", program, "run", "--workers", "1"]
    done = subprocess.run(
        [*words, "--events", EVENTS],
        input=source.encode(),
        stdout=subprocess.PIPE,
        stderr=subprocess.PIPE,
        timeout=600,
        check=False,
    )
    found = re.search(rb"Collected : (\d+)", done.stderr)
    if done.returncode != 0 or not found:
        sys.exit(f"callgrind: status {done.returncode}, {done.stdout[-200:]!r}")
    return int(found[1])


def instructions(program):
    heading("Instructions of a round of a loop of one thread, as callgrind counts them; its turns")
    for name, before, loop in SINGLE:
        made = lambda n: f"{before}int main(void) {{ int i = 0; {loop.format(n=n)} return 0; }}\n"
        each = (counted(program, made(22_000)) - counted(program, made(2_000))) / 20_000
        row(name, f"{each:.0f}", f"{per_round(program, made):g}")


HEAPS = (16, 1024, 4096, 8192, 16384, 32768, 65536)


def rounds(program):
    heading("Rounds: microseconds of a round, and the part of it above that with 16 granules; start in ms")
    row("Threads, workers", *(f"{granules:,}" for granules in HEAPS))
    for count, workers in ((1, 1), (4, 1), (4, 4)):
        made = lambda n, count=count: threads(count, 1, "", n=n)
        n = 4_000_000
        quanta = n * per_round(program, made) / 50_000
        cells, least = [], None
        for granules in HEAPS:
            words = [program, "run", "--events", EVENTS, "--workers", str(workers), "--granules", str(granules)]
            start = best(words, made(1))
            took = (best(words, made(n)).wall - start.wall) * 1e3 / quanta
            least = least or took
            cells.append(f"{took:.0f}, {(took - least) / took:.0%}; start {start.wall:.0f}")
        row(f"{count}, {workers}", *cells)


# two threads, each of which adds to a global of its own
APART = """\
int dynamic g;
{between}int dynamic h;
void w(int k) {{ int i = 0; while (i < {n}) {{ g = g + 1; i = i + 1; }} }}
void v(int k) {{ int i = 0; while (i < {n}) {{ h = h + 1; i = i + 1; }} }}
int main(void) {{ int a = spawn(w, 0); int b = spawn(v, 0); join(a); join(b); return 0; }}
"""


def neighbours(program):
    heading("Two threads that each add to a place of their own 1,000,000 times: by 1 and 2 workers")
    for name, between in (("two globals, side by side", ""), ("two globals, 64 cells between", "int pad[64];\n")):
        row(name, *by_workers(program, APART.format(between=between, n=1_000_000), (1, 2)))
    apart = [(first, 8) for first in range(0, 16, 2)]
    for mode, places in (("dynamic", [(0, 2), (64, 64), *apart]), ("racy", [(0, 2), *apart])):
        for first, step in places:
            body = f"a[k + {first}] = a[k + {first}] + 1;"
            source = threads(2, step, body, f"int {mode} a[512];\n", 1_000_000)
            row(f"elements {first} and {first + step} of a {mode} array", *by_workers(program, source, (1, 2)))
    heading("Four threads that go over an array of 8,192 elements, 60 times: by 1, 2 and 4 workers")
    for name, index in (("a quarter of it", "k * 2048 + j"), ("every fourth pair", "j / 2 * 8 + k * 2 + j % 2")):
        body = f"int j = 0; while (j < 2048) {{ a[{index}] = a[{index}] + j; j = j + 1; }}"
        row(name, *by_workers(program, threads(4, 1, body, "int dynamic a[8192];\n", 60)))


def example(name, *changes):
    source = (TOP / f"examples/{name}/{name}.c").read_text(encoding="ascii")
    for old, new in changes:
        if old not in source:
            sys.exit(f"examples/{name} has no {old!r}")
        source = source.replace(old, new)
    return source


LIMIT = ("->limit = 9", "->limit = 2000000")
ONCE = ("  for (int i = 1; i <= c->limit;", "  int limit = c->limit;\n  for (int i = 1; i <= limit;")
AGAIN = (
    "void work(struct counter * all) {\n",
    "void work(struct counter * all) {\n  for (int i = 0; i < 50000; i = i + 1) once(all);\n}\n\n",
)
ONE_BY_ONE = (
    "  }\n  for (int i = 0; i < 3; i = i + 1) {\n    struct buf * p = take(last);\n    print(p->n);\n    free(p);",
    "    struct buf * r = take(last);\n    free(r);",
)


def counters():
    """Its threads go over all counters 50,000 times."""
    source = example("counters")
    begin = source.index(AGAIN[0])
    end = source.index("void show")
    once = source[begin:end].replace("void work", "void once")
    return source[:begin] + once + AGAIN[1] + source[end:]


# each example with more rounds of its loops
EXAMPLES = [
    ("config", lambda: example("config", LIMIT)),
    ("config, with `c->limit` in a local", lambda: example("config", LIMIT, ONCE)),
    ("counters", counters),
    ("pipeline", lambda: example("pipeline", ONE_BY_ONE, ("i < 3", "i < 200"), ("p->n * 10", "p->n * 0"))),
    ("queue", lambda: example("queue", ("i < 11", "i < 5001"), ("i * i", "i"))),
]


def examples(program):
    heading("Examples with more rounds of their loops: by 1, 2 and 4 workers; gcc -O0, TSan, helgrind")
    for name, made in EXAMPLES:
        row(name, *by_workers(program, made()), *as_c(made()))


def load(program):
    heading("load 10000: by 1, 2 and 4 workers; gcc -O0, TSan, helgrind")
    source = load_source()
    runs = best_of_each([[program, "load", "10000", "--workers", str(count)] for count in (1, 2, 4)])
    row(f"`load 10000`, eight threads of {turns(program, source):,} turns", *runs, *as_c(source))
    with tempfile.TemporaryDirectory() as folder:
        print(f"check alone {best([program, 'check'], source)}, gcc -O0 {compiled(folder, source)[1]:.0f}")


def load_source():
    """The source of `load 10000`, from the script that times `check`."""
    text = (TOP / "benches/front/measure.py").read_text(encoding="utf-8")
    scope = {}
    # the function alone, since that script runs when it is imported
    exec(re.search(r"def load\(.*?\n(?=\n\n)", text, re.S)[0], scope)
    return scope["load"](10_000)


PARTS = {
    "instructions": instructions,
    "loops": loops,
    "rounds": rounds,
    "neighbours": neighbours,
    "examples": examples,
    "load": load,
}


def main():
    program = sys.argv[1] if len(sys.argv) > 1 else str(TOP / "crates/sharc/out/sharc")
    if not os.path.exists(program):
        sys.exit(f"no program at {program}: ./sharc builds it")
    for name in sys.argv[2:] or PARTS:
        PARTS[name](os.path.abspath(program))


main()
