"""What the text of a run shows, as findings that are the same in every run that shows them."""
import re
from collections import namedtuple

MEANING = {3: "a report", 4: "a stop", 5: "a deadlock", 6: "the limit of events", 0: "ended"}   # the worst first
AT = r" at (?P<file>.+):(?P<line>\d+)"
FORMS = [re.compile(form) for form in (
    r"(?P<code>A[12]) (?P<access>.+)" + AT + r" conflicts with (?P<access2>.+) at (?P<file2>.+):(?P<line2>\d+)"
    r" by thread (?P<other>\d+)",
    r"(?P<code>[AX]\d+) .+?" + AT + r"( without lock .+| with \d+ references)?",
    r"(?P<code>waits) for (?P<what>thread (?P<other>\d+)|signal of .+)" + AT,
    r"(?P<code>waits) for (?P<what>mutex .+)" + AT + r" held by thread (?P<other>\d+)",
    r"(?P<code>made) \d+ events")]


class Place(namedtuple("Place", "file line")):
    def __str__(self):
        return f"{self.file}:{self.line}"


class Left:
    """One line about a thread that was stopped or is left: `thread K: ..`."""

    def __init__(self, line):
        number, self.text = re.match(r"thread (\d+): (.*)$", line).groups()
        match = next(filter(None, (form.fullmatch(self.text) for form in FORMS)), None)
        part = match.groupdict() if match else {}
        self.thread, self.code = int(number), part.get("code", "?")
        self.other = int(part["other"]) if part.get("other") else None
        ends = [end for end in ("", "2") if part.get("line" + end)]
        self.places = [Place(part["file" + end], int(part["line" + end])) for end in ends]
        self.place = self.places[0] if self.places else None
        self.accesses = sorted(zip((part["access"], part["access2"]), self.places)) if "access" in part else []
        what = re.sub(r"^thread \d+$", "the end of a thread", part.get("what") or "")
        self.wanted = re.sub("^signal", "a signal", what)


def parse(text):
    """The prints, and the lines about threads, of the text of a run."""
    lines = text.splitlines()
    return ([int(line) for line in lines if re.match(r"-?\d+$", line)],
            [Left(line) for line in lines if line.startswith("thread ")])


class Finding:
    """Something that runs show. Of the runs that show it, the one of least rank is kept."""

    def __init__(self, kind, title, places, steps=(), key=None):
        self.kind, self.title, self.places, self.steps = kind, title, places, list(steps)
        self.key = (kind, title if key is None else key)
        self.status, self.number, self.rank, self.text, self.numbers, self.count = 0, None, None, "", [], 0
        self.details = []                                   # what the events of the run tell
        self.first = None                                   # the number from which on it is found again
        self.schedule, self.file = None, None               # when it was shrunk or steered into, and saved

    def note(self, run, rank, shown):
        """One more run, and the finding as this run shows it."""
        self.numbers.append(run.number)
        self.count += 1
        if self.rank is None or rank < self.rank:
            self.number, self.status, self.text = run.number, run.status, run.text
            self.rank, self.steps, self.first, self.schedule = rank, shown.steps, run.number, None

    def steered(self, run, schedule, first):
        """The finding, shown by a run that a schedule was made for."""
        self.status, self.text, self.schedule, self.first = run.status, run.text, schedule, first
        return self


def cycle_of(threads):
    """The lines of a cycle of threads that wait for one another, if there is one, from its smallest on."""
    lines = {left.thread: left for left in threads}
    for start in sorted(lines):
        seen, at = [], start
        while at in lines and at not in seen:
            seen, at = seen + [at], lines[at].other
        if at in seen and all(lines[number].code == "waits" for number in seen[seen.index(at):]):
            cycle = [lines[number] for number in seen[seen.index(at):]]
            turned = [cycle[at:] + cycle[:at] for at in range(len(cycle))]
            return min(turned, key=lambda lefts: [(left.place, left.wanted) for left in lefts])
    return []


def deadlock(threads):
    """A stuck run: as its cycle; else as those that wait for no other thread."""
    cycle = cycle_of(threads)
    if not cycle:
        waits = sorted({(left.other is not None, left.place, left.wanted) for left in threads})
        first = [wait for wait in waits if not wait[0]]
        steps = [f"a thread waits at {place} for {what}" for _, place, what in waits]
        title = "threads wait, and none is left to wake them"
        return Finding("deadlock", title, [place for _, place, _ in first], steps, tuple(first))
    waits, steps = [(left.place, left.wanted) for left in cycle], []
    for at, (place, what) in enumerate(waits):
        name, holder = chr(65 + at), chr(65 + (at + 1) % len(waits))
        what = f"{what}, which {holder} holds" if what.startswith("mutex") else f"the end of {holder}"
        steps.append(f"{name} waits at {place} for {what}")
    title = f"deadlock of {len(steps)} threads" if len(steps) > 1 else "a thread waits for itself"
    return Finding("deadlock", title, [place for place, _ in waits], steps, tuple(waits))


def findings(run):
    """What a run shows, each once, with no run noted. What it printed is a finding too, if it ended."""
    prints, threads = parse(run.text)
    found = []
    for left in threads:
        title = re.sub(r" with \d+ references$", " with other references left", left.text)
        if left.accesses:               # both orders are one race: the read first, else the smaller text
            (access, place), (access2, place2) = left.accesses
            title = f"A{1 if access.startswith('read') else 2} {access} at {place} conflicts with {access2} at {place2}"
            found.append(Finding("race", title, [place, place2]))
        elif re.match("X|A[34]", left.code):
            found.append(Finding("stop" if left.code[0] == "X" else "report", title, [left.place]))
    if run.status == 5 or cycle_of(threads):
        found.append(deadlock(threads))
    if run.status == 6:
        found.append(Finding("limit", "a thread made all steps that --events allows: a loop without end?", []))
    if run.status == 0:
        found.append(Finding("output", " ".join(map(str, prints)), []))
    return list({one.key: one for one in reversed(found)}.values())[::-1]
