"""Races that only the end of a thread kept apart: what a thread did with dynamic data counts until it ends, so a second
thread that comes later is not reported. Told is what a run shows in which the first thread is held back."""
import collections

from .events import Clocks

NEW = ("malloc", "given", "freed")      # an object is new for all threads, or gone
CELLS = 2                               # of a granule, for which accesses are noted


class Race(collections.namedtuple("Race", "first second granule")):
    """Two events that touch a granule, of which one writes."""

    @property
    def places(self):
        return frozenset((self.first.place, self.second.place))

    def is_second(self, event):
        return event.which == self.second.which and granule_of(event) == self.granule


def granule_of(event):
    """The thing and the number of the granule that a dynamic access touches."""
    if event.mode != "dynamic":
        return None
    thing, number = event.what[:-1].split("[")
    return thing, int(number) // CELLS


def races(trace):
    """The pairs of one run, of each two places one: the first thread had ended, and no spawn or join is between."""
    clocks, touched, gone, found = Clocks(), collections.defaultdict(dict), set(), {}
    for event in trace.events:
        granule, clock = granule_of(event), clocks.of[event.thread]
        if granule:
            for first, time in touched[granule].values():
                apart = first.which in gone and clock[first.thread] <= time
                if apart and "write" in (first.word, event.word):
                    race = Race(first, event, granule)
                    found.setdefault(race.places, race)
            touched[granule][event.which, event.word, event.place] = event, clock[event.thread]
        elif event.word in NEW:
            for key in [key for key in touched if key[0] == event.what]:
                del touched[key]
        elif event.word == "gone":
            gone.add(event.which)
        clocks.note(event)
    return list(found.values())
