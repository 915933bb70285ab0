"""One run as lanes, a column for each thread: who did what when, what it held and waited for, and where it ended."""
import bisect
import itertools
from collections import defaultdict, namedtuple
from html import escape

from .events import LEFT
from .findings import parse

ROWS, NOTES = 420, 6                  # of a longer run the beginning is left out, and of a row what else it did
NAMES = {"start": "begins", "return": "reaches its end"}
NOTED = {"read": "{0} is {1}", "write": "{0} = {1}", "print": "prints {0}", "spawn": "starts thread {3}",
         "malloc": "makes {0}", "cast": "takes {1}", "free": "frees {1}", "signal": "wakes {2}"}
# What a thread did at one line before another one did something; name: it begins, or ends. Of the last lines of a trace
# there is a row each.
Row = namedtuple("Row", "thread place name events")
Held = namedtuple("Held", "event start end")          # the event that took a mutex, and the rows from it to its unlock


def note(event):
    """What a person is told of an event beside its line, or nothing."""
    if event.word == "lock" and event.cell.startswith("o"):
        return f"of {event.cell.split('.')[0]}"
    if event.word == "signal" and event.words[-1] != "nobody":
        return f"wakes thread {event.words[-1]}"
    return NOTED.get(event.word, "").format(*event.words) if event.mode != "path" else ""


class Lanes:
    """The rows of a run, its threads, and what is known of each at each row."""

    def __init__(self, trace, text):
        events = [one for one in trace.events if one.word != "gone"]
        rows = itertools.groupby(events, key=lambda one: (one.thread, one.place, NAMES.get(one.word)))
        self.rows = [Row(*key, list(same)) for key, same in rows]
        self.rows += [Row(one.thread, one.place, None, [one]) for one in trace.lasts]
        self.own, self.functions = defaultdict(list), trace.functions
        for at, row in enumerate(self.rows):
            self.own[row.thread].append(at)
        self.held = {lane: list(self._held(lane)) for lane in self.own}
        self.lines = {line.thread: line for line in parse(text)[1]}

    @property
    def lanes(self):
        return sorted(self.own)

    def title(self, lane):
        return f"thread {lane}: {self.functions.get(lane, 'not begun')}"

    def _held(self, lane):
        """What the thread holds, from the row that took it to the row of its unlock."""
        taken = {}
        for at in self.own[lane]:
            for event in self.rows[at].events:
                if event.word == "lock":
                    taken[event.what] = Held(event, at, len(self.rows))
                elif event.word == "unlock" and event.what in taken:
                    yield taken.pop(event.what)._replace(end=at)
        yield from taken.values()

    def _is_kept(self, event, at):
        """Whether a thread that wants an event as its next has to wait at a row."""
        word, wanted = event.word, event.words[-1:]
        if word == "next":
            word = event.words[0]
        if word == "lock":
            others = (one for lane, held in self.held.items() if lane != event.thread for one in held)
            return any(one.event.what == event.what and one.start < at <= one.end for one in others)
        return word == "woken" or word == "join" and at <= self.own.get(int(wanted[0]), [0])[-1]

    def state(self, lane, at):
        """What a thread is doing at a row, in the words of the style sheet."""
        own = self.own[lane]
        left = self.rows[own[-1]].events[0].word
        if at < own[0] or at > own[-1] and left not in LEFT:
            return ""
        coming = own[min(bisect.bisect_left(own, at), len(own) - 1)]
        waits = at < coming and self._is_kept(self.rows[coming].events[0], at) or at > coming and left == "next"
        holds = any(one.start <= at <= one.end for one in self.held[lane])
        return ("waits" if waits else "lives") + " holds" * holds + " runs" * (at == coming)

    def end(self, lane):
        """How the run ended for a thread, and what it then held."""
        ended = self.lines[lane].text if lane in self.lines else "returned"
        held = [f"{one.event.words[0]} since {one.event.place}" for one in self.held[lane] if one.end == len(self.rows)]
        return ended + f"; holds {', '.join(held)}" * bool(held)

    def others(self):
        """For each conflict the row of the other access, and the thread that reported."""
        for lane, line in self.lines.items():
            own = [at for at in self.own.get(line.other, []) if self.rows[at].place in line.places[1:]
                   and any(one.word in ("read", "write") for one in self.rows[at].events)]
            if own:
                yield own[-1], f"conflicts with {self.title(lane)}"

    def notes(self, at):
        """What is told beside the line of a row."""
        told = list(dict.fromkeys(filter(None, map(note, self.rows[at].events))))
        return told[:NOTES] + [f"and {len(told) - NOTES} more"] * (len(told) > NOTES)

    def faults(self, at):
        """What is wrong at the last row of a thread that waits or was stopped."""
        line = self.lines.get(self.rows[at].thread)
        if line and self.rows[at].events[0].word in LEFT:
            yield "waits for ever" if line.code == "waits" else f"{line.code} here"


def drawn(lanes, code):
    """All rows, time downward. code: the text of each line of the program."""
    others, gone = dict(lanes.others()), max(0, len(lanes.rows) - ROWS)
    yield '<table class="lanes"><thead><tr>' + "".join(f"<th>{escape(lanes.title(lane))}" for lane in lanes.lanes)
    yield f'<tbody><tr><td colspan="{len(lanes.lanes)}">{gone} rows are left out' if gone else "<tbody>"
    for at, row in list(enumerate(lanes.rows))[gone:]:
        words = row.name or f"<code>{escape(code.get(row.place, ''))}</code>"
        bad = [*filter(None, [others.get(at)]), *lanes.faults(at)]
        step = [f'<a href="#{escape(str(row.place))}">{row.place.line}</a>', words,
                f'<span class="note">{escape("; ".join(lanes.notes(at)))}</span>',
                *(f"<b>{escape(fault)}</b>" for fault in bad)]
        texts = {row.thread: " ".join(step)}
        cells = (f'<td class="{lanes.state(lane, at)}">' + texts.get(lane, "") for lane in lanes.lanes)
        yield f'<tr{" class=switch" * (at > gone and lanes.rows[at - 1].thread != row.thread)}>' + "".join(cells)
    ends = (f'<td class="{"bad" if lane in lanes.lines else "well"}">{escape(lanes.end(lane))}' for lane in lanes.lanes)
    yield "<tfoot><tr>" + "".join(ends) + "</table>"
