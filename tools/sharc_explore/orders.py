"""Lock orders: threads of one run that each took a mutex while they held another, in a cycle.

Such a run may have ended well, and another one of the same program may be a deadlock. It cannot be where two of the
threads held a mutex in common, or where one took its mutexes before the other began or after the other was joined: of
these nothing is told. That a flag or a signal keeps them apart is not seen."""
import collections

from .events import Clocks
from .findings import Finding, cycle_of

LONGEST, MOST = 8, 5000              # threads of a cycle, and beginnings of cycles that are looked at
# first, second: the events that took them. held: all mutexes that the thread held; outer: the event that took the first
# of them. time: of the thread at second, and clock: what then had come before. times: how often it had then taken the
# two, and outer; the first time that it does so in this way, and the last time
Order = collections.namedtuple("Order", "thread which first second held outer time clock times")


class Holding:
    """The mutexes that each thread, by name, holds: the events that took them, the oldest first."""

    def __init__(self):
        self.of = collections.defaultdict(list)

    def note(self, event):
        if event.word == "lock":
            self.of[event.which].append(event)
        elif event.word == "unlock":
            self.of[event.which] = [one for one in self.of[event.which] if one.what != event.what]

    def has(self, which, mutex):
        return any(one.what == mutex for one in self.of[which])


def orders_of(trace):
    """The orders of a run: of each thread and pair the first since the thread last began or joined another. No other
    thread can have a mutex of an object that was not handed out."""
    holding, clocks, times, phase, found = Holding(), Clocks(), collections.Counter(), collections.Counter(), {}
    fresh = set()
    for event in trace.all:
        which, mutex, own, clock = event.which, event.what, holding.of[event.which], clocks.of[event.thread]
        wants = event.word == "lock" or event.word == "next" and event.words[0] == "lock"
        wants = wants and mutex.split("[")[0] not in fresh
        held = frozenset(one.what for one in own)
        for first in own * wants:
            times[which, first.what, mutex] += 1
            key, count = (held, phase[which]), (times[which, first.what, mutex], times[which, own[0].what])
            now, before = clock[event.thread], clock.copy()
            one = Order(event.thread, which, first, event, held, own[0], now, before, [count, count])
            found.setdefault((which, first.what, mutex, *key), one).times[1] = count
        times[which, mutex] += event.word == "lock"
        if event.word == "malloc":
            fresh.add(event.refers)
        elif event.word in ("write", "spawn", "cast", "given"):
            fresh.discard(event.refers)
        phase[which] += event.word in ("spawn", "join")
        holding.note(event)
        clocks.note(event)
    return list(found.values())


def together(one, other):
    """Whether two orders may be on their way at the same time."""
    apart = one.time < other.clock[one.thread] or other.time < one.clock[other.thread]
    return one.thread != other.thread and not one.held & other.held and not apart


def cycles_of(trace):
    """The cycles of a run by their places, those at which the second mutexes are taken."""
    found = collections.defaultdict(list)
    for cycle in cycles(orders_of(trace)):
        found[frozenset(order.second.place for order in cycle)].append(cycle)
    return found


def cycles(orders):
    """The cycles, the shortest first: each begins at its least mutex."""
    behind, found = collections.defaultdict(list), []
    paths = [[order] for order in orders if order.first.what < order.second.what]
    for order in orders:
        behind[order.first.what].append(order)
    while paths:
        longer = []
        for path in paths:
            least, taken = path[0].first.what, {order.first.what for order in path}
            for order in behind[path[-1].second.what]:
                if not all(together(order, other) for other in path):
                    continue
                if order.second.what == least:
                    found.append(path + [order])
                elif order.second.what > least and order.second.what not in taken and len(path) + 1 < LONGEST:
                    longer.append(path + [order])
        paths = longer[:MOST]
    return found


def made_at(trace, event):
    """Where the object of a mutex was made, as a text, for the end of a phrase."""
    place = trace.made.get(event.what.split("[")[0])
    return f" (made at {place})" if place else ""


def predicted(trace, cycle, schedule):
    """The finding for a cycle of the run of a schedule."""
    steps, functions = [], trace.functions
    for order in cycle:
        first, second = (f"{one.words[-1]} at {one.place}{made_at(trace, one)}" for one in (order.first, order.second))
        steps.append(f"{functions.get(order.thread, '?')} takes {first}, then {second}")
    places = [order.second.place for order in cycle]
    title = f"lock order: a deadlock of {len(cycle)} threads is predicted"
    one = Finding("order", title, places, sorted(steps), frozenset(places))
    one.schedule = schedule
    return one


def holders(trace, threads):
    """What the threads of a deadlock's cycle are and hold, of the lines about them and the events of the same run."""
    holding, functions, names = Holding(), trace.functions, {one.thread: one.which for one in trace.all}
    for event in trace.events:
        holding.note(event)
    for at, left in enumerate(cycle_of(threads)):
        own = holding.of[names[left.thread]]
        held = [f"{one.words[0]} since {one.place}{made_at(trace, one)}" for one in own]
        yield f"{chr(65 + at)} is {functions.get(left.thread, '?')}" + f", and holds {', '.join(held)}" * bool(held)
