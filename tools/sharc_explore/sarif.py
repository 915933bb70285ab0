"""What check writes, as records; these and findings as SARIF 2.1.0, in the parts that code scanning shows."""
import os
import re
from collections import namedtuple

from .findings import Place

CHECKED = re.compile(r"(?P<file>.+?):(?P<line>\d+): (?P<code>suggest|warning|[LPCM]\d+) (?P<text>.*)$")
Fault = namedtuple("Fault", "code place text cast")


def faults(text):
    """The lines of check: each fault with the cast that is suggested below it, or None."""
    found = []
    for match in filter(None, map(CHECKED.match, text.splitlines())):
        if match["code"] == "suggest":
            found[-1] = found[-1]._replace(cast=match["text"])
        else:
            found.append(Fault(match["code"], Place(match["file"], int(match["line"])), match["text"], None))
    return found


def span_of(line, lvalue):
    """Where an lvalue stands in a line, from 0, and where it ends; None if that is not certain."""
    tokens = re.findall(r"\w+|->|[^\w\s]", lvalue)
    pattern = r"(?<![\w.>])" + r"\s*".join(map(re.escape, tokens)) + r"(?![\w(])" * bool(re.match(r"\w", tokens[-1]))
    matches = list(re.finditer(pattern, line))
    assigned = re.search(r"[^=!<>]=(?!=)", line)
    if len(matches) > 1 and assigned:
        matches = [match for match in matches if match.start() >= assigned.end()]
    return matches[0].span() if len(matches) == 1 else None


class Report:
    """Faults and findings of a program as SARIF."""

    def __init__(self, exploration):
        self.exploration = exploration

    def artifact(self, place):
        path = self.exploration.path if place.file == "input" else place.file
        return {"uri": path.strip("<>") if path.startswith("<") else os.path.relpath(path).replace(os.sep, "/")}

    def location(self, place):
        region = {"startLine": max(1, place.line)}
        return {"physicalLocation": {"artifactLocation": self.artifact(place), "region": region}}

    def fixes(self, fault):
        """The suggested cast as a change of the file, if the file is there and the place in the line is certain."""
        try:
            with open(self.artifact(fault.place)["uri"], encoding="utf-8", errors="replace") as file:
                line = file.read().splitlines()[fault.place.line - 1]
        except (OSError, IndexError):
            line = ""
        span = span_of(line, fault.cast[len("SCAST("):-1].split(", ", 1)[1]) if fault.cast else None
        if span is None:
            return []
        region = {"startLine": fault.place.line, "startColumn": span[0] + 1, "endColumn": span[1] + 1}
        change = {"artifactLocation": self.artifact(fault.place),
                  "replacements": [{"deletedRegion": region, "insertedContent": {"text": fault.cast}}]}
        return [{"description": {"text": f"hand over by {fault.cast}"}, "artifactChanges": [change]}]

    def fault(self, fault):
        return {"ruleId": fault.code, "level": "warning" if fault.code == "warning" else "error",
                "message": {"text": fault.text + (f". Suggested: {fault.cast}" if fault.cast else "")},
                "locations": [self.location(fault.place)], "relatedLocations": [], "fixes": self.fixes(fault)}

    def finding(self, finding):
        code, others = re.match(r"[AX]\d+", finding.title), list(enumerate(finding.places))[1:]
        text = ". ".join([finding.title, *finding.steps, *finding.details, f"Seen {self.exploration.seen(finding)}"])
        text += "".join(f" [{place}]({number})" for number, place in others)
        other = {"race": "the other access", "order": "the other order"}.get(finding.kind, "waits here too")
        return {"ruleId": code[0] if code else finding.kind, "level": "warning" if finding.kind == "order" else "error",
                "message": {"text": text}, "locations": [self.location(place) for place in finding.places[:1]],
                "relatedLocations": [self.location(place) | {"id": number, "message": {"text": other}}
                                     for number, place in others], "fixes": []}

    def document(self):
        results = [self.fault(fault) for fault in faults(self.exploration.checked)]
        results += [self.finding(finding) for finding in self.exploration.findings()]
        rules = [{"id": rule, "shortDescription": {"text": f"{rule}: see docs/codes of SharC"}}
                 for rule in sorted({result["ruleId"] for result in results})]
        return {"$schema": "https://json.schemastore.org/sarif-2.1.0.json", "version": "2.1.0",
                "runs": [{"tool": {"driver": {"name": "SharC", "rules": rules}}, "columnKind": "unicodeCodePoints",
                          "results": results}]}
