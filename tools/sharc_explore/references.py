"""Which references are left where a cast or a free was refused (A4): the cells that hold one, and if these are not all,
where threads that are not gone took one into a variable."""
import re


def left(trace, text):
    """Lines about each refused cast or free of a run, of its events and its text."""
    for last in trace.lasts:
        counted = re.search(rf"^thread {last.thread}: A4 .* with (\d+) references$", text, re.M)
        if last.word == "refused" and counted:
            yield from _of_object(trace, last.words[1], last.what.split("[")[0], int(counted[1]))


def _of_object(trace, lvalue, thing, count):
    cells, taken = _holding(trace, thing)
    others = [one for one in cells if one.words[0] != lvalue]       # but for the one that is cast or freed
    others = others if len(cells) - len(others) < 2 else cells
    yield from (f"{one.words[0]} has a reference since {one.place}, from {trace.named(one)}" for one in others)
    if len(others) + 1 < count:
        for one in list({(one.place, one.which): one for one in taken}.values())[-6:]:
            yield f"a variable of {trace.named(one)} may have one, by {one.word} {one.words[0]} at {one.place}"


def _holding(trace, thing):
    """The writes behind which cells hold a reference to an object, and where threads that are not gone took one."""
    cells, taken = {}, []
    for event in trace.events:
        if event.word == "write":
            cells.pop(event.what, None)
            if event.refers == thing:
                cells[event.what] = event
        elif event.word == "freed":
            cells = {cell: one for cell, one in cells.items() if cell.split("[")[0] != event.what}
        elif event.word == "gone":
            taken = [one for one in taken if one.which != event.which]
        elif event.refers == thing and event.word in ("malloc", "read", "start", "given"):
            taken.append(event)
    return list(cells.values()), taken
