"""Many runs of one program, and what they show together."""
import collections
import os
import shlex
import subprocess
import sys
from multiprocessing.pool import ThreadPool

from . import orders, overlap, references
from .findings import MEANING, findings, parse
from .lanes import Lanes
from .program import Program, heap_for, path_of, read_source
from .reached import unreached
from .schedules import Ways
from .shrink import Shrinker, shortest
from .source import Source
from .steer import Deadlock, Overlap, Steering

WALKS = 40                          # whose events are looked at, besides those of the recorded run
TRIES, TRACES = 6, 2000             # how often a prediction is tried, and how many traces are made for all


class Exploration:
    """What is known of a program: first what check says, then what runs show."""

    def __init__(self, options):
        self.path, self.jobs = options.program, options.jobs
        self.program = Program(read_source(self.path), options.granules or heap_for(self.path), options.events)
        self.status, self.checked = self.program.check()
        self.statuses, self.found, self.tried = collections.Counter(), {}, collections.Counter()
        self.unreached, self.traced, self.budget = [], 0, TRACES
        if self.status == 0:
            self.source = Source(self.program.source.decode("latin-1"))
            self.ways = Ways(self.program, self.source)
            self.recorded = self.program.record()
            self.program.measure(self.program.trace(self.recorded).threads, self.recorded)

    def explore(self, first, count, progress):
        """Makes the runs of these numbers, and tells the progress."""
        with ThreadPool(self.jobs) as pool:
            for run in pool.imap_unordered(self.ways.run, range(first, first + count)):
                status = "cut" if self.ways.is_cut(run) else run.status
                if status not in (*MEANING, "cut"):
                    raise subprocess.CalledProcessError(run.status, f"{self.program.sharc} replay")
                self.statuses[status] += 1
                for one in findings(run) if status in MEANING else []:
                    self.found.setdefault(one.key, one).note(run, self.ways.rank(run.number), one)
                progress(self.total(), count, len(self.findings()))
            self._predict(pool, first)
        for one in self.found.values():
            if one.kind == "deadlock" or one.title.startswith("A4"):
                trace = self.trace_of(one)
                one.details = [*orders.holders(trace, parse(one.text)[1]), *references.left(trace, one.text)]

    def _predict(self, pool, first):
        """What the events of some runs tell: lines that none reaches, and deadlocks and races of other runs. It is
        tried to steer a run into each that was not met."""
        walks, limit, predicted, had = Ways(self.program, self.source, "walk"), self.program.few_events(), {}, set()
        schedules = [self.recorded, *(walks.prepared(number)[1] for number in range(first, first + WALKS))]
        for schedule, trace in zip(schedules, pool.imap(lambda lines: self.program.trace(lines, limit), schedules)):
            had |= {event.place for event in trace.all}
            for places, cycles in orders.cycles_of(trace).items():
                one = predicted.setdefault(places, orders.predicted(trace, cycles[0], schedule))
                one.count += 1
                policies = [policy for cycle in cycles for policy in Deadlock.policies(cycle)]
                self._steer(schedule, policies, places, first)
            for race in overlap.races(trace):
                self._steer(schedule, [Overlap(race)], race.places, first)
        self.unreached, self.traced = unreached(self.source, had), len(schedules)
        self.found = {key: one for key, one in self.found.items() if one.kind != "order"}
        self.found.update({one.key: one for places, one in predicted.items() if not self._is_met(places)})

    def _is_met(self, places):
        return any(one.kind in ("deadlock", "race") and places == set(one.places) for one in self.found.values())

    def _steer(self, schedule, policies, places, first):
        """Steers runs by these policies until one shows a fault of these places, and notes what they show."""
        steering = Steering(self.program)
        for policy in policies:
            if self._is_met(places) or self.tried[places] == TRIES or self.budget <= 0:
                return
            self.tried[places] += 1
            self.budget += len(steering.traces)
            steered = steering.steered(schedule, policy)
            self.budget -= len(steering.traces)
            run = self.program.replay(steered) if steered else None
            for one in findings(run) if run else []:
                if one.kind not in ("output", "limit") and one.key not in self.found:
                    self.found[one.key] = one.steered(run, steered, first)

    def run_of(self, finding):
        """A program, with pauses or as it is, and a schedule by which it shows a finding, or predicts it."""
        if finding.schedule is not None:
            return self.program, finding.schedule
        return self.ways.prepared(finding.number)[:2]

    def trace_of(self, finding):
        program, schedule = self.run_of(finding)
        return program.trace(schedule)

    def findings(self):
        """The worst first, and of these the ones that most runs show."""
        faults = [one for one in self.found.values() if one.kind != "output"]
        return sorted(faults, key=lambda one: (list(MEANING).index(one.status), -one.count, one.title))

    def outputs(self):
        """What the runs that ended print."""
        ended = [one for one in self.found.values() if one.kind == "output"]
        return sorted(ended, key=lambda one: (-one.count, one.title))

    def total(self):
        return sum(self.statuses.values())

    def worst(self):
        """The worst status of a run that was made."""
        shown = {*self.statuses, *(one.status for one in self.found.values())}
        return next((status for status in MEANING if status in shown), 0)

    def seen(self, finding):
        """How many runs show a finding, and a command that shows it again if one does."""
        if finding.kind == "order":
            return f"by {finding.count} of {self.traced} traced runs; no schedule that was made reaches it"
        how = f"in {finding.count} of {self.total()} runs"
        if not finding.count:
            how = "predicted, and reached by a schedule made for it"
        again = f"{shlex.quote(path_of('sharc'))} replay < {shlex.quote(finding.file or '')}"
        if not finding.file:
            limits = f" --granules {self.program.granules}" * (self.program.granules != heap_for(self.path))
            limits += f" --events {self.program.events}" * (self.program.events != 100000)
            tool = os.path.join(os.path.dirname(sys.argv[0]), "sharc-explore")
            again = f"{tool} --from {finding.first} -n 1{limits} {shlex.quote(self.path)}"
        return f"{how}; again: {again}"

    def shorten(self, finding):
        """Finds a short schedule of the program itself that shows a finding, if tries find one."""
        if finding.count:
            finding.schedule = shortest(self.ways, finding)
        else:
            finding.schedule = Shrinker(self.program, finding.key).shrunk(finding.schedule)
        if finding.schedule is not None:
            finding.text = self.program.replay(finding.schedule).text

    def save(self, finding, name):
        """Writes a file for replay with the shortest schedule that tries find; if none, with that of a run."""
        self.shorten(finding)
        finding.file = name
        program, schedule = self.run_of(finding)
        with open(name, "wb") as file:
            file.write(program.file_of(schedule, finding.text))

    def shown(self, finding):
        """A run that shows a finding, as lanes: one with few switches if tries find one."""
        if finding.kind != "order":
            self.shorten(finding)
        else:
            finding.text = self.program.replay(finding.schedule).text
        return Lanes(self.trace_of(finding), finding.text)
