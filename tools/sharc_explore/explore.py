"""The commands sharc-explore and sharc-show: their words, and the text of the first."""
import argparse
import json
import os
import subprocess
import sys
import time

from . import sarif
from .exploration import Exploration
from .findings import MEANING
from .show import page_of

EPILOG = """exit status: 1, 2 as of check; else that of the worst run: 3 a report, 4 a stop, 5 a deadlock, 6 a limit;
0 all runs ended, or a page is written; 8 wrong arguments"""


class Arguments(argparse.ArgumentParser):
    """The words of both commands. Wrong ones end with 8, as those of sharc do."""

    def __init__(self, name, about):
        super().__init__(name, description=about, epilog=EPILOG)
        self.add_argument("program", help="preprocessed source; a file .c is preprocessed first")
        self.add_argument("-n", type=int, default=1000, metavar="RUNS", help="how many runs (1000)")
        self.add_argument("--from", type=int, default=0, dest="first", metavar="N", help="the number of the first (0)")
        self.add_argument("--jobs", type=int, default=os.cpu_count(), help="how many at a time (processors)")
        self.add_argument("--granules", type=int, help="size of the heap, as of run or sharc-c run (4096; 65536)")
        self.add_argument("--events", type=int, default=100000, help="steps of a thread, at most 200000 (100000)")
        if name == "sharc-show":
            self.add_argument("-o", metavar="FILE", help="the page (PROGRAM.html)")
            return
        self.add_argument("--save", metavar="DIR", help="write a short run of each finding as a file for replay")
        self.add_argument("--json", metavar="FILE", help="write all as JSON, - to standard output in place of the text")
        self.add_argument("--sarif", metavar="FILE", help="write faults and findings as SARIF 2.1.0")

    def error(self, message):
        self.print_usage(sys.stderr)
        self.exit(8, f"{self.prog}: {message}\n")

    def parse(self, words):
        options = self.parse_args(words)
        if min(options.n, options.jobs) < 1 or options.first < 0 or not 1 <= options.events <= 200000:
            self.error("a number is out of range")
        return options


def progress(done, count, seen):
    if sys.stderr.isatty() and (done % 20 == 0 or done == count):
        line = f"\r{done} of {count} runs, {seen} findings" if done < count else "\r\033[K"
        print(line, end="", file=sys.stderr, flush=True)


def report(exploration, seconds):
    """The lines for people."""
    yield f"{exploration.path}: {exploration.total()} runs in {seconds:.1f} s"
    for status, meaning in [*MEANING.items(), ("cut", "with pauses that led to a limit, not looked at")]:
        if exploration.statuses[status]:
            yield f"  {exploration.statuses[status]:6}  {meaning}" + f" (status {status})" * (status != "cut")
    for number, finding in enumerate(exploration.findings(), 1):
        yield f"\n{number}. {finding.title}"
        yield from (f"     {step}" for step in finding.steps + finding.details)
        yield f"   {exploration.seen(finding)}"
        if finding.file and finding.schedule is not None and len(finding.schedule) <= 8:
            steps = ", then ".join(f"{turns} turns of place {place}" for place, turns in finding.schedule)
            yield f"   {steps or 'always the first thread that can go on'}"
    outputs = exploration.outputs()
    if len(outputs) == 1:
        yield f"\nAll {exploration.statuses[0]} runs that ended print the same."
    elif outputs:
        yield f"\nThe {exploration.statuses[0]} runs that ended print {len(outputs)} different things:"
        yield from (f"  {finding.title[:70] or 'nothing'}: {exploration.seen(finding)}" for finding in outputs[:5])
    if exploration.unreached:
        yield f"\nNot reached in {exploration.traced} traced runs: " + ", ".join(map(str, exploration.unreached))


def as_json(exploration):
    def one(finding):
        names = ("kind", "title", "steps", "details", "status", "count", "number", "schedule", "file", "text")
        return {name: getattr(finding, name) for name in names} | {
            "places": [place._asdict() for place in finding.places], "seen": exploration.seen(finding)}
    return {"program": exploration.path, "check": exploration.checked, "runs": dict(exploration.statuses),
            "findings": list(map(one, exploration.findings())), "outputs": list(map(one, exploration.outputs())),
            "unreached": [place._asdict() for place in exploration.unreached], "traced": exploration.traced}


def write(name, value):
    with open(name, "w", encoding="utf-8") if name != "-" else open(1, "w", encoding="utf-8", closefd=False) as file:
        file.write(json.dumps(value, indent=1) + "\n")


def main(name, about, words):
    options, start = Arguments(name, about).parse(words), time.time()
    exploration = Exploration(options)
    if exploration.status == 0:
        exploration.explore(options.first, options.n, progress)
    seconds = time.time() - start
    if name == "sharc-show":
        page = options.o or os.path.splitext(options.program)[0] + ".html"
        with open(page, "w", encoding="utf-8") as file:
            file.writelines(line + "\n" for line in page_of(exploration))
        faults, found = sarif.faults(exploration.checked), exploration.findings()
        print(f"{page}: {len(faults)} lines of check, {len(found)} findings")
        return 0
    if options.save:
        os.makedirs(options.save, exist_ok=True)
        for number, finding in enumerate(exploration.findings(), 1):
            if finding.kind != "order":                     # (of which there is no run)
                exploration.save(finding, os.path.join(options.save, f"{number}.run"))
    if options.sarif:
        write(options.sarif, sarif.Report(exploration).document())
    if options.json:
        write(options.json, as_json(exploration))
    if options.json != "-":
        lines = [line for line in exploration.checked.splitlines() if line != "accepted"]
        print("\n".join(lines + list(report(exploration, seconds) if exploration.status == 0 else ())))
    return exploration.status or exploration.worst()


def called(name, about):
    """Calls a command as a program."""
    try:
        sys.exit(main(name, about, sys.argv[1:]))
    except (OSError, subprocess.SubprocessError) as error:
        print(f"{name}: {error}", file=sys.stderr)
        sys.exit(2)
    except KeyboardInterrupt:
        sys.exit(130)
