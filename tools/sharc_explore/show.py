"""One HTML page of a program: its source with modes and errors, and what runs of it show."""
import os
import re
from collections import defaultdict, namedtuple
from html import escape

from . import sarif
from .lanes import drawn
from .source import lines_of, tokens_of

HERE = os.path.dirname(os.path.realpath(__file__))
MARKED = re.compile(r"/\*.*?(?:\*/|\Z)|//[^\n]*|\b(?:private|readonly|locked|racy|dynamic)\b", re.S)
DECLARED = re.compile(r"^(.+:\d+): ((?:global|parameter|local|result) \w+|cast of .+?): (.+)\n((?:  .*\n)*)", re.M)
FROM = re.compile(r"from (.+:\d+) (.+) depth (\d+)$")
Declared = namedtuple("Declared", "at name type reasons")           # reasons: by depth
LEGEND = """Each picture is one run with few switches: time goes down, a column for each thread, and beside a line what
was read and written there. What uses locals alone is not shown. A thick bar: the thread holds a lock. A dashed bar: it
has to wait for a lock, a thread or a signal. The keys n and p go from finding to finding."""


def coloured(text):
    """C text with comments and modes marked, in each line by itself."""
    def mark(match):
        kind = "comment" if match[0].startswith("/") else "mode-word"
        return "\n".join(f'<span class="{kind}">{line}</span>' for line in match[0].split("\n"))
    return MARKED.sub(mark, escape(text))


def explained(text):
    """The table of explain, in order."""
    return [Declared(*match.groups()[:3], dict(re.findall(r"depth (\d+): (.*)", match[4])))
            for match in DECLARED.finditer(text)]


def chain(table, reason):
    """The reasons from one back to where its path begins."""
    steps = [reason]
    while match := FROM.match(steps[-1]):
        here = (one.reasons.get(match[3]) for one in table if (one.at, one.name) == (match[1], match[2]))
        steps.append(next(filter(None, here), f"{match[2]} at {match[1]}: its mode is written, or it is a field"))
    return steps


def fault_html(fault):
    kind = "warning" if fault.code == "warning" else "error"
    cast = f"<br>try <code>{escape(fault.cast)}</code>" if fault.cast else ""
    return f'<div class="{kind}"><b>{escape(fault.code)}</b> {escape(fault.text)}{cast}</div>'


class Page:
    """All that is on the page, gathered first."""

    def __init__(self, exploration):
        self.exploration, self.text = exploration, exploration.program.source.decode("latin-1")
        self.files = list(dict.fromkeys(token.place.file for token in tokens_of(self.text))) or ["input"]
        self.table = explained(exploration.program.call("explain")[1])
        self.faults = sarif.faults(exploration.checked)
        self.found, self.outputs = exploration.findings(), exploration.outputs()
        self.code = {place: line.strip() for place, _, line in lines_of(self.text)}

    def linked(self, text):
        """A text with links for its places, which are told as `line N` where the program has one file."""
        def link(match):
            return f'<a href="#{match[0]}">{f"line {match[1]}" if len(self.files) == 1 else match[0]}</a>'
        return re.sub(f"(?:{'|'.join(re.escape(escape(name)) for name in self.files)}):(\\d+)", link, escape(str(text)))

    def lines(self, name):
        """A file of the program: from the disk, else as the source has it."""
        beside = os.path.join(os.path.dirname(self.exploration.path), name)
        path = next((path for path in (name, beside) if name != "input" and os.path.isfile(path)), None)
        if path:
            with open(path, encoding="utf-8", errors="replace") as opened:
                return coloured(opened.read().rstrip("\n")).split("\n")
        parts = {place.line: line for place, _, line in lines_of(self.text) if place.file == name}
        return coloured("\n".join(parts.get(at, "") for at in range(1, max(parts, default=0) + 1))).split("\n")

    def mode(self, one):
        """A declaration with its modes, and the reasons to be opened."""
        head = f"{escape(one.name)}: {coloured(one.type)}"
        if not one.reasons:
            plain = "*" not in one.type and not one.name.startswith("global")
            return f'<div class="mode{" plain" * plain}">{head}</div>'
        parts = ""
        for depth, reason in sorted(one.reasons.items()):
            steps = "".join(f"<li>{self.linked(step)}</li>" for step in chain(self.table, reason))
            parts += f"{ {'0': 'it', '1': 'its target'}.get(depth, f'depth {depth}') } is dynamic: <ol>{steps}</ol>"
        return f'<details class="mode"><summary>{head}</summary>{parts}</details>'

    def notes(self):
        """What stands below each line of the source, and which lines are marked."""
        notes, bad = defaultdict(list), {str(fault.place) for fault in self.faults}
        for one in self.table:
            notes[one.at].append(self.mode(one))
        for fault in self.faults:
            notes[str(fault.place)].append(fault_html(fault))
        for number, finding in enumerate(self.found, 1):
            for at in {str(place) for place in finding.places}:
                bad.add(at)
                notes[at].append(f'<div class="error"><a href="#finding{number}">finding {number}</a> '
                                 f"{self.linked(finding.title)}</div>")
        return notes, bad

    def source(self):
        notes, bad = self.notes()
        for name in self.files:
            yield f'<h2>{escape(name)}</h2><table class="source">'
            for number, line in enumerate(self.lines(name), 1):
                at = f"{name}:{number}"
                mark, below = ' class="bad"' * (at in bad), "".join(notes[at])
                yield f'<tr id="{escape(at)}"{mark}><th>{number}<td><code>{line}</code>{below}'
            yield "</table>"

    def card(self, finding):
        """What stands below the title of a finding or an output."""
        steps = "".join(f"<li>{self.linked(step)}" for step in finding.steps + finding.details)
        yield f"</summary><ul>{steps}</ul><p>{escape(self.exploration.seen(finding))}</p>"
        yield from drawn(self.exploration.shown(finding), self.code)
        yield "</details>"

    def runs(self):
        if self.exploration.status:
            yield "<h2>check refuses the program</h2><p>There are no runs of it.</p>"
            yield from (self.linked(fault.place) + fault_html(fault) for fault in self.faults)
            return
        yield f'<h2>What {self.exploration.total()} runs show</h2><p class="quiet">{LEGEND}</p>'
        for number, finding in enumerate(self.found, 1):
            yield f'<details class="finding" id="finding{number}" open><summary>{number}. {self.linked(finding.title)}'
            yield from self.card(finding)
        yield f"<h2>Different outputs of runs that ended: {len(self.outputs)}</h2>"
        for finding in self.outputs[:3]:
            opened, title = " open" * (not self.found), escape(finding.title[:70]) or "nothing"
            yield f'<details class="output"{opened}><summary>prints {title}'
            yield from self.card(finding)
        if self.exploration.unreached:
            yield f"<h2>Not reached in {self.exploration.traced} traced runs</h2>"
            yield "<p>" + " ".join(map(self.linked, self.exploration.unreached))


def page_of(exploration):
    page, said = Page(exploration), "refused by check"
    if exploration.status == 0:
        said = f"accepted; {len(page.found) or 'no'} finding{'s' * (len(page.found) != 1)}"
        said += f" and {len(page.outputs)} output{'s' * (len(page.outputs) != 1)} in {exploration.total()} runs"
    name = escape(os.path.basename(exploration.path))
    with open(f"{HERE}/show.css", encoding="utf-8") as css, open(f"{HERE}/show.js", encoding="utf-8") as js:
        style, script = css.read(), js.read()
    yield f'<!doctype html><html lang="en"><meta charset="utf-8"><title>{name} - SharC</title>'
    yield f'<meta name="viewport" content="width=device-width"><style>{style}</style>'
    yield '<header><label><input type="checkbox" id="all"> modes of all locals</label>'
    yield f'<h1>{name}</h1><p>{escape(said)}</p></header><main><section tabindex="0" aria-label="source">'
    yield from page.source()
    yield '</section><section tabindex="0" aria-label="runs">'
    yield from page.runs()
    yield f"</section></main><script>{script}</script>"
