"""Makes a schedule by which threads are held back before events that must not come yet.

A file for replay says how many turns a place goes on, and a trace which events a run has, but not in which turns. So
how many turns come before an event is found by halving: behind fewer another choice changes what comes, behind more it
does not."""
import collections

from .orders import Holding

BIG = 1 << 23                        # turns: more than 31 threads can make
CUTS = 60                            # how often a schedule is cut before an event


def front(schedule, turns):
    """The lines of the first turns of a schedule."""
    lines = []
    for place, count in schedule:
        if turns > 0:
            lines.append((place, min(count, turns)))
        turns -= count
    return lines


class Deadlock:
    """Holds back each thread of a cycle before it takes its second mutex. The thread that comes last, if one does, is
    held back before the first of the mutexes that it then holds, until all others have theirs: else it may be in their
    way."""

    def __init__(self, cycle, last=None, time=0):
        self.orders, self.last, self.time = {order.which: order for order in cycle}, last, time

    @classmethod
    def policies(cls, cycle):
        """Ways to try it: where each thread takes the two for the first time, and for the last."""
        lasts = [None, *(order.which for order in cycle)]
        return [cls(cycle, last, time) for time in (0, 1) for last in lasts]

    def refused(self, trace):
        """The number of the first event that must not come, or None."""
        holding, seconds, outers = Holding(), collections.Counter(), collections.Counter()
        for at, event in enumerate(trace.events):
            order, which = self.orders.get(event.which), event.which
            if order and event.word == "lock":
                second, outer = order.times[self.time]
                seconds[which] += event.what == order.second.what and holding.has(which, order.first.what)
                outers[which] += event.what == order.outer.what
                early = which == self.last and outers[which] == outer and not self._others_stand(holding)
                if early or seconds[which] == second:
                    return at
            holding.note(event)
        return None

    def _others_stand(self, holding):
        others = [order for order in self.orders.values() if order.which != self.last]
        return all(holding.has(order.which, order.first.what) for order in others)


class Overlap:
    """Holds a thread back before it returns, until another one has touched the same granule or was refused to."""

    def __init__(self, race):
        self.race = race

    def refused(self, trace):
        if any(one.word == "refused" and self.race.is_second(one) for one in trace.lasts):
            return None
        for at, event in enumerate(trace.events):
            if self.race.is_second(event):
                return None
            if event.word == "return" and event.which == self.race.first.which:
                return at
        return None


class Steering:
    """Runs of one program, which are short and looked at by their events."""

    def __init__(self, program):
        self.program, self.traces = program, {}

    def trace(self, schedule):
        key = tuple(schedule)
        if key not in self.traces:
            self.traces[key] = self.program.trace(schedule, self.program.few_events())
        return self.traces[key]

    def steered(self, schedule, policy):
        """A schedule of which the policy refuses no event, made of one that is known; or None."""
        trace, turns = self.trace(schedule), -1
        for _ in range(CUTS):
            at, before = policy.refused(trace), turns
            if at is None:
                return schedule
            turns = self._turns_before(schedule, trace, at, max(0, before))
            if turns == before:
                return None
            schedule = max(self._ways_on(schedule, turns), key=lambda lines: self._reach(lines, policy))
            trace = self.trace(schedule)
        return None

    def _ways_on(self, schedule, turns):
        """The schedules that go on behind these turns with one place: each thread that can go on is at one."""
        head = front(schedule + [(0, BIG)], turns)
        return [head + [(place, BIG)] for place in range(self.trace(schedule).threads)]

    def _reach(self, schedule, policy):
        """How many events come before one that is refused."""
        trace = self.trace(schedule)
        at = policy.refused(trace)
        return len(trace.events) + 1 if at is None else at

    def _turns_before(self, schedule, trace, at, low):
        """The most turns behind which another choice still changes what comes up to this event."""
        step = 64
        while not self._is_made(schedule, low + step, trace, at):
            low, step = low + step, 2 * step
        high = low + step
        while high - low > 1:
            middle = (low + high) // 2
            low, high = (low, middle) if self._is_made(schedule, middle, trace, at) else (middle, high)
        return low

    def _is_made(self, schedule, turns, trace, at):
        """Whether the event is made in the first turns, or they leave no choice that changes it."""
        head = front(schedule + [(0, BIG)], turns)
        ends = (self.trace(head + [(place, BIG)]).lines for place in range(trace.threads))
        return all(lines[:at + 1] == trace.lines[:at + 1] for lines in ends)
