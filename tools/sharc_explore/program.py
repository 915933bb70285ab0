"""One program and the ways to run it: calls of sharc and sharc-trace, files for replay, and how long its runs are."""
import copy
import os
import re
import subprocess
from collections import namedtuple

from .events import Trace

TOOLS = os.path.dirname(os.path.dirname(os.path.realpath(__file__)))
FRONT = os.path.join(TOOLS, "sharc-c")
LONGEST = 200000                    # events of a thread, the most that replay takes
Run = namedtuple("Run", "number status text")


def path_of(name):
    """The program that a variable, as SHARC or SHARC_TRACE, names, else that of the repository, else the one on the
    path."""
    beside = os.path.join(".", os.path.relpath(os.path.join(os.path.dirname(TOOLS), name)))
    variable = name.upper().replace("-", "_")
    return os.environ.get(variable) or (beside if os.access(beside, os.X_OK) else name)


def is_for_front(path):
    """Whether a file is C with pthreads, and the front for that is there."""
    if not (path.endswith(".c") and os.path.isfile(FRONT)):
        return False
    with open(path, "rb") as file:
        return re.search(rb"#[ \t]*include[ \t]*<pthread\.h>", file.read()) is not None


def read_source(path):
    """A file .c goes through the front or through gcc; any other is taken as it is."""
    if not path.endswith(".c"):
        with open(path, "rb") as file:
            return file.read()
    words = [FRONT, path] if is_for_front(path) else ["gcc", "-E", "-DSHARC", path]
    return subprocess.run(words, stdout=subprocess.PIPE, check=True).stdout


def heap_for(path):
    """The granules of a heap that nobody asks for: as of run, or as of sharc-c run."""
    return 65536 if is_for_front(path) else 4096


def called(words, data):
    """Status and text of a command."""
    done = subprocess.run(words, input=data, stdout=subprocess.PIPE, check=False)
    return done.returncode, done.stdout.decode("latin-1")


def built_by(script, crate):
    """The program that a script of the repository has built, which answers quicker than the script."""
    built = os.path.join(os.path.dirname(script), "crates", crate, "out", crate)
    return built if os.path.dirname(script) and os.access(built, os.X_OK) else script


class Program:
    """A source, and how it is run. A schedule is a list of pairs: a place among the threads that can go on, and for
    how many turns the thread at that place goes on."""

    def __init__(self, source, granules=4096, events=100000):
        self.source, self.granules, self.events = source, granules, events
        self.sharc, self.tracer = path_of("sharc"), path_of("sharc-trace")
        self.turns, self.steps, self.threads = 1000, 1000, 3

    def twin(self, source):
        """Another source that is run in the same way."""
        other = copy.copy(self)
        other.source = source
        return other

    def call(self, *words, data=None):
        return called([self.sharc, *map(str, words)], self.source if data is None else data)

    def check(self):
        """Status and text of check. The script ./sharc builds; the program that it built answers quicker than it."""
        answer = self.call("check")
        self.sharc = built_by(self.sharc, "sharc")
        return answer

    def file_of(self, schedule, text="", limit=None):
        """A file for replay: the source, the schedule and the text of its run."""
        lines = "".join(f"{place} {turns}\n" for place, turns in schedule if turns)
        head = f"\n%%schedule {self.granules} {min(limit or self.events, LONGEST)}\n"
        return self.source + (head + lines + "%%text\n" + text).encode("latin-1")

    def replay(self, schedule, number=None, limit=None):
        return Run(number, *self.call("replay", data=self.file_of(schedule, limit=limit)))

    def trace(self, schedule, limit=None):
        """The events of the run that a schedule chooses."""
        status, text = called([self.tracer, "--places"], self.file_of(schedule, limit=limit))
        if status:
            raise subprocess.CalledProcessError(status, f"{self.tracer} --places")
        self.tracer = built_by(self.tracer, "sharc_trace")
        return Trace(text)

    def few_events(self):
        """A limit of events that a run reaches only where a thread waits in a loop."""
        return min(self.events, LONGEST, 4 * self.steps + 1000)

    def record(self, workers=1):
        """The schedule of a run by workers; by one it is the same each time."""
        limit = min(self.events, LONGEST)
        _, text = self.call("record", "--workers", workers, "--granules", self.granules, "--events", limit)
        lines = text[text.rfind("\n%%schedule"):text.rfind("%%text\n")].splitlines()[2:]
        return [tuple(map(int, line.split())) for line in lines]

    def measure(self, threads, recorded):
        """Finds about how many turns a run has, the same each time. A run of a thread that waits in a loop has too
        many, so the steps of the longest thread count as well: the least limit that no thread reaches when all take
        turns."""
        self.threads, low, high = threads, 1, min(self.events, LONGEST)
        while low < high:
            middle = (low + high) // 2
            reached = re.search(r"^thread \d+: made ", self.replay(in_turns(threads), limit=middle).text, re.M)
            low, high = (middle + 1, high) if reached else (low, middle)
        self.steps, self.turns = low, max(10, min(sum(turns for _, turns in recorded), threads * low))


def in_turns(threads):
    """All threads in turns, for short stretches that grow: none waits for ever for one that could go on."""
    return [(place, int(50 * 1.25 ** step)) for step in range(36) for place in range(threads)]
