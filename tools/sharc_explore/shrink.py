"""Makes schedules short: as few switches as tries find, and then as few turns before each."""
import itertools

from .findings import findings
from .schedules import FRAME, ROUND


def joined(schedule):
    """The same schedule, one line where the same place goes on."""
    lines = itertools.groupby((line for line in schedule if line[1]), key=lambda line: line[0])
    return [(place, sum(turns for _, turns in same)) for place, same in lines]


def without(schedule, first, size):
    """A schedule without some lines: their turns are dropped, or go to the line before."""
    before, out, behind = schedule[:first], schedule[first:first + size], schedule[first + size:]
    yield joined(before + behind)
    if before:
        yield joined(before + [(before[-1][0], turns) for _, turns in out] + behind)


class Shrinker:
    """Makes schedules of one program shorter, each of which has to show one finding."""

    def __init__(self, program, key, budget=400):
        self.program, self.key, self.budget = program, key, budget

    def shows(self, schedule):
        self.budget -= 1
        return self.budget >= 0 and any(found.key == self.key for found in findings(self.program.replay(schedule)))

    def shrunk(self, schedule):
        return self._fewer_turns(self._fewer_lines(joined(schedule)))

    def _fewer_lines(self, schedule):
        """Leaves out lines wherever they are not needed, first many at once, and single ones until all are needed."""
        size, first, length = max(1, len(schedule) // 2), 0, len(schedule)
        while size and self.budget > 0:
            shorter = next(filter(self.shows, without(schedule, first, size)), None)
            schedule, first = (schedule, first + size) if shorter is None else (shorter, first)
            if first >= len(schedule):
                again = size == 1 and len(schedule) < length
                size, first, length = size if again else size // 2, 0, len(schedule)
        return schedule

    def _fewer_turns(self, schedule):
        """Halves the turns of each line as often as the finding stays, and then looks for the least."""
        for at, (place, turns) in enumerate(schedule):
            low = 0
            while turns - low > 1 and self.budget > 0:
                middle = (low + turns) // 2
                shorter = schedule[:at] + [(place, middle)] + schedule[at + 1:]
                schedule, low, turns = (shorter, low, middle) if self.shows(shorter) else (schedule, middle, turns)
        return schedule


def needed(ways, key, schedule, pauses):
    """The pauses without those that the finding does not need."""
    for pause in list(pauses):
        fewer = [one for one in pauses if one is not pause]
        pauses = fewer if Shrinker(ways.paused(fewer), key).shows(schedule) else pauses
    return pauses


def without_pauses(shrinker, schedule, pauses):
    """A schedule of the program itself, made of one that shows the finding with pauses: it needs fewer turns, by those
    of the pauses that a line went through."""
    less = {times * (rounds * ROUND + FRAME) for _, most, rounds in pauses for times in range(most + 1)}
    less = sorted(less)[:5] if len(schedule) < 6 else [0]
    cuts = sorted(itertools.product(less, repeat=len(schedule)), key=sum)
    tried = ([(place, turns - cut) for (place, turns), cut in zip(schedule, each)] for each in cuts)
    return next((lines for lines in tried if all(turns > 0 for _, turns in lines) and shrinker.shows(lines)), None)


def shortest(ways, finding, tries=20):
    """A short schedule of the program itself that shows the finding, or None. It is made of the simplest runs that
    showed it: those with pauses are tried with fewer, and then without."""
    for number in sorted(finding.numbers, key=ways.rank)[:tries]:
        program, schedule, pauses = ways.prepared(number)
        pauses = needed(ways, finding.key, schedule, pauses)
        program = ways.paused(pauses) if pauses else ways.program
        schedule = Shrinker(program, finding.key).shrunk(schedule)
        if pauses:
            schedule = without_pauses(Shrinker(ways.program, finding.key, 150), schedule, pauses)
        if schedule is not None:
            return Shrinker(ways.program, finding.key).shrunk(schedule)
    return None
