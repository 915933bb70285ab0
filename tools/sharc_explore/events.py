"""What one run did: the lines that `sharc-trace --places` writes of it.

Numbers of threads and objects depend on the order of all spawns and mallocs of a run. So each also has a name that is
the same in other runs where its own thread does the same: which spawn or malloc of which thread it is."""
import collections
import functools
import re

from .findings import Place

PAUSE = re.compile(r"\w+ paused_\d+_sharc ")            # what a pause does (schedules.py), and not the program
OBJECT = re.compile(r"o(\d+)\[\d+\]")                   # a reference among the words
LEFT = ("next", "refused", "stopped")                   # words of the last lines, of what a thread wants or was refused
# word, and the other words: of a read the lvalue and the value. cell: as written. By name: which, the thread; what, the
# cell or the object; refers, the object that a value refers to.
Event = collections.namedtuple("Event", "thread place word words cell mode which what refers")


class Trace:
    """The events of a run, and of each thread that waits or was stopped its last line."""

    def __init__(self, text):
        self.lines = text.split("\n")[:-1]

    @functools.cached_property
    def all(self):
        names = Names()
        found = [names.event(line) for line in self.lines]
        return [one for one, line in zip(found, self.lines) if not PAUSE.match(line.split("\t")[1])]

    @functools.cached_property
    def events(self):
        return [one for one in self.all if one.word not in LEFT]

    @functools.cached_property
    def lasts(self):
        return self.all[len(self.events):]

    @functools.cached_property
    def threads(self):
        """How many threads there are."""
        return 1 + max((one.thread for one in self.all), default=0)

    @functools.cached_property
    def functions(self):
        """The function of each thread."""
        return {one.thread: one.words[0] for one in self.events if one.word == "start"}

    def named(self, event):
        """The thread of an event, for people."""
        return f"thread {event.thread}, {self.functions.get(event.thread, '?')}"

    @functools.cached_property
    def made(self):
        """Where each object was made, by its name."""
        return {one.what: one.place for one in self.events if one.word == "malloc"}


class Names:
    """Names of threads and objects while the lines of a run are read."""

    def __init__(self):
        self.threads, self.objects, self.counts = {0: "0"}, {}, collections.Counter()

    def _new(self, thread, kind):
        self.counts[thread, kind] += 1
        return f"{self.threads[thread]}.{kind}{self.counts[thread, kind]}"

    def event(self, line):
        head, words, cell, mode = line.split("\t")
        thread, place = head.split(" ", 1)
        file, number = place.rsplit(":", 1)
        thread, (word, *words) = int(thread), words.split(" ")
        if word == "spawn":
            self.threads[int(words[-1])] = self._new(thread, "t")
        if word == "malloc":
            self.objects[cell.split(":")[0]] = self._new(thread, "o")
        refers = next((self.objects.get(one[1]) for one in map(OBJECT.fullmatch, words) if one), None)
        return Event(thread, Place(file, int(number)), word, words, cell, mode, self.threads[thread], self._what(cell),
                     refers)

    def _what(self, cell):
        """`THING[J]` for a cell, THING for a reference."""
        thing, _, at = cell.partition(".")
        if at:
            return f"{thing if thing[0] == 'g' else self.objects.get(thing[1:], thing)}[{at}]"
        return self.objects.get(cell.partition(":")[0], cell)


class Clocks:
    """What comes before what in every run: by spawn and join alone. For each thread how many events of each thread come
    before its next one."""

    def __init__(self):
        self.of = collections.defaultdict(collections.Counter)

    def note(self, event):
        self.of[event.thread][event.thread] += 1
        if event.word in ("spawn", "join"):
            other = int(event.words[-1])
            first, second = (event.thread, other) if event.word == "spawn" else (other, event.thread)
            self.of[second] |= self.of[first]
