"""Lines that no run reached: those where each run that comes there has an event, and none had one.

Locals have no events, so nothing is told of a line that uses locals alone."""
import collections
import re

SURE = ("lock", "unlock", "wait", "join", "signal", "broadcast", "spawn", "free", "print")
TYPES = ("int", "char", "long", "mutex", "private", "readonly", "racy", "dynamic", "*")


def shared_names(source):
    """Globals that no function has a variable of the same name for."""
    inside = {at for function in source.functions.values() for at in range(function.named, function.last + 1)}
    names, local, depth = set(), set(), 0
    for at, token in enumerate(source.tokens[:-1]):
        behind, before = source.tokens[at + 1].text, source.tokens[at - 1].text if at else ""
        depth += {"{": 1, "}": -1}.get(token.text, 0)
        if at in inside and (before in TYPES or source.tokens[at - 2].text == "struct"):
            local.add(token.text)
        if at not in inside and depth == 0 and behind in ("[", "=", ";"):
            names.add(token.text)
    return names - local


def has_event(statement, shared):
    """Whether a statement has an event whenever it is executed to its end."""
    text = ";".join(statement.text.split(";")[:2]) if statement.kind == "for" else statement.text
    words = set(re.findall(r"\w+", text))
    if "&&" in text or "||" in text:                     # a part may be left out
        return False
    return statement.kind in SURE or "malloc" in words or "->" in text or "[" in text or bool(words & shared)


def lines_of(source, statement):
    """The places of a statement's own text: of if, while and for only the head."""
    last = statement.last
    if statement.kind in ("if", "while", "for"):
        last = source.close(statement.first + 1) - 1
    return {source.tokens[at].place for at in range(statement.first, last + 1)}


def unreached(source, had):
    """The lines at which all statements that begin have an event when they are reached, and none of these had one."""
    shared, lines = shared_names(source), collections.defaultdict(list)
    for one in source.statements:
        if one.kind != "end":
            lines[one.place].append(has_event(one, shared) and not had & lines_of(source, one))
    return sorted(place for place, missed in lines.items() if all(missed))
