"""The interleavings that are tried: which way chooses run number N, and its schedule, the same each time.

In one of the ways a program has pauses: at some statements a thread goes round in an empty loop before it goes on. The
loop touches nothing of the program, so what its threads do between the pauses the program's own threads can do."""
import random

from .program import LONGEST, in_turns

CYCLE = ("walk", "pauses", "few", "pauses", "walk", "pauses", "sweep", "pauses", "walk", "even")
SIMPLE = ("sweep", "few", "walk", "pauses", "even")     # what is kept of a finding's runs: few switches
BLOCKING = ("lock", "wait", "join")
ROUND, FRAME = 10, 18               # turns of one time round the loop of a pause, and of what stands around it


class Ways:
    """All runs of a program by number. Without a way of its own, a number's way is that of its place in the cycle."""

    def __init__(self, program, source, way=None):
        self.program, self.source, self.cycle = program, source, (way,) if way else CYCLE

    def way(self, number):
        """The way of a run, and its number among those of the way."""
        rounds, place = divmod(number, len(self.cycle))
        way = self.cycle[place]
        return way, rounds * self.cycle.count(way) + self.cycle[:place].count(way)

    def rank(self, number):
        way, index = self.way(number)
        return SIMPLE.index(way), index

    def prepared(self, number):
        """The program that a run is made of, with pauses or as it is, its schedule, and the pauses."""
        way, index = self.way(number)
        draw, turns, threads = random.Random(f"{way} {index}"), self.program.turns, self.program.threads
        pauses = drawn(draw, self.source, turns, self.program.events) if way == "pauses" else []
        schedule = {"walk": lambda: stretches(draw, 2 * turns, threads, turns),
                    "pauses": lambda: stretches(draw, turns, threads, max(1, turns // 4)),
                    "even": lambda: [(place, 1) for place in draw.choices(range(threads), k=min(2 * turns, 20000))],
                    "few": lambda: few(draw, turns, threads),
                    "sweep": lambda: one_switch(index, turns, threads)}[way]()
        return self.paused(pauses) if pauses else self.program, schedule + in_turns(threads), pauses

    def paused(self, pauses):
        """The program with pauses."""
        parts, counters = loops(pauses)
        text = self.source.written(self.source.around({number: (part, "") for number, part in parts.items()}))
        twin = self.program.twin((text + counters).encode("latin-1"))
        twin.events = LONGEST
        return twin

    def run(self, number):
        program, schedule, _ = self.prepared(number)
        return program.replay(schedule, number)

    def is_cut(self, run):
        """Whether pauses have led to a limit, of events or of the language: such a run says nothing."""
        return run.status in (1, 2, 6) and self.way(run.number)[0] == "pauses"


def stretches(draw, turns, threads, longest):
    """Lengths are even by their logarithm, from one turn to the longest: switches at all scales."""
    schedule, left = [], turns
    while left > 0:
        schedule.append((draw.randrange(threads), max(1, int(longest ** draw.random()))))
        left -= schedule[-1][1]
    return schedule


def few(draw, turns, threads):
    """One to five switches at places drawn evenly from the whole run, after PCT (Burckhardt and others, 2010)."""
    cuts = sorted(draw.randint(1, turns) for _ in range(draw.randint(1, 5)))
    return [(draw.randrange(threads), after - before) for before, after in zip([0, *cuts], [*cuts, 2 * turns])]


def one_switch(number, turns, threads):
    """All schedules with at most one switch, one after the other: first without, then by a stride over the turns."""
    if number < threads or threads == 1:
        return [(number % threads, turns)]
    pairs = [(one, other) for one in range(threads) for other in range(threads) if one != other]
    at, pair = divmod(number - threads, len(pairs))
    stride = next(step for step in (7919, 7907, 7901) if turns % step)
    first, second = pairs[pair]
    return [(first, 1 + at * stride % turns), (second, turns)]


def drawn(draw, source, turns, limit):
    """Pauses for a run, each of (statement, how many times, how often round): at some places where threads wait, or at
    one to three statements of any kind."""
    statements = [one for one in source.statements if one.text != ";"]
    blocking = [one for one in statements if one.kind in BLOCKING]
    if blocking and draw.random() < 0.4:
        chosen, times = [one for one in blocking if draw.random() < 0.5], 4
    else:
        chosen, times = draw.sample(statements, min(draw.randint(1, 3), len(statements))), draw.choice([1, 1, 2, 8])
    longest = min(2 * turns, limit // 4 // (times * max(1, len(chosen))))
    return [(one, times, max(1, int(longest * 2 ** -draw.choice([0, 0, 1, 3])) // ROUND)) for one in chosen]


def loops(pauses):
    """What stands before each statement with a pause, by its number, and the counters."""
    parts, counters = {}, "\n"
    for statement, times, rounds in pauses:
        name = f"paused_{statement.number}_sharc"
        loop = f"for (int i_sharc = 0; i_sharc < {rounds}; i_sharc = i_sharc + 1) ;"
        parts[statement.number] = f"if ({name} < {times}) {{ {name} = {name} + 1; {loop} }} "
        counters += f"int racy {name};\n"
    return parts, counters
