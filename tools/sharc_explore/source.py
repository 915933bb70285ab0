"""A source: its functions and statements, and where in the text they begin and end."""
import re
from collections import namedtuple

from .findings import Place

MARKER = re.compile(r'[ \t]*#[ \t]*(\d+)[ \t]*"([^"]*)"')
TOKEN = re.compile(r"'(?:\\.|[^'])'|\w+|->|&&|\|\||[=!<>]=|<<|>>|\S")
KINDS = ("lock", "unlock", "wait", "join", "signal", "broadcast", "spawn", "SCAST", "free", "print", "return")
DEPTH = {"(": 1, "{": 1, "[": 1, ")": -1, "}": -1, "]": -1}
Token = namedtuple("Token", "text start end place")
Function = namedtuple("Function", "name first named body last")           # numbers of tokens; last is the brace
# first, last: its tokens, by number; alone: it is in no block, so a text beside it needs braces
Statement = namedtuple("Statement", "number kind function place text first last alone")


def lines_of(text):
    """Each line but for markers: its place, where it starts, and its text."""
    file, number, start = "input", 1, 0
    for line in text.split("\n"):
        marker = MARKER.match(line)
        if marker:
            file, number = marker[2], int(marker[1])
        else:
            yield Place(file, number), start, line
            number += 1
        start += len(line) + 1


def tokens_of(text):
    return [Token(match[0], start + match.start(), start + match.end(), place)
            for place, start, line in lines_of(text) for match in TOKEN.finditer(line)]


class Source:
    """An accepted source, and a way to write it with changes."""

    def __init__(self, text):
        self.text, self.tokens, self.statements = text, tokens_of(text), []
        self.functions = {function.name: function for function in self._functions()}
        for name, function in self.functions.items():
            self._block(function.body, name)
            number, last, place = len(self.statements), function.last, self.tokens[function.last].place
            self.statements.append(Statement(number, "end", name, place, "", last, last, False))

    def close(self, at):
        """Behind the bracket that closes the one at this token."""
        depth = 0
        while True:
            depth += DEPTH.get(self.tokens[at].text, 0)
            at += 1
            if depth == 0:
                return at

    def written(self, changes, start=0, end=None):
        """The text between two offsets with changes: (start, end, text); those at one offset in their order."""
        out, at, end = [], start, len(self.text) if end is None else end
        for low, high, text in sorted(changes, key=lambda change: change[:2]):
            if start <= low and high <= end:
                out += [self.text[at:low], text]
                at = high
        return "".join(out) + self.text[at:end]

    def around(self, parts):
        """Changes that put texts before and behind statements: {number: (before, behind)}."""
        starts, ends = [], []
        for number in sorted(parts):
            statement, (before, behind) = self.statements[number], parts[number]
            start, end = self.tokens[statement.first].start, self.tokens[statement.last].end
            starts.append((start, start, "{ " * statement.alone + before))
            if behind or statement.alone:
                ends.insert(0, (end, end, behind + " }" * statement.alone))
        return ends + starts

    def _functions(self):
        at = first = 0
        while at < len(self.tokens):
            text = self.tokens[at].text
            behind = self.close(at) if text in DEPTH else at + 1
            if text == "(" and self.tokens[behind].text == "{":
                last = self.close(behind) - 1
                yield Function(self.tokens[at - 1].text, first, at - 1, behind, last)
                behind = first = last + 1
            elif text == ";":
                first = behind
            at = behind

    def _block(self, at, function):
        """The statements of a block; behind it."""
        last = self.close(at) - 1
        at += 1
        while at < last:
            at = self._statement(at, function, False)
        return last + 1

    def _statement(self, at, function, alone):
        """Notes the statement at this token and its parts; behind it."""
        word, number, head = self.tokens[at].text, len(self.statements), at
        if word == "{":
            return self._block(at, function)
        self.statements.append(None)
        if word in ("if", "while", "for"):
            kind, head = word, self.close(at + 1)
            behind = self._statement(head, function, True)
            if word == "if" and self.tokens[behind].text == "else":
                behind = self._statement(behind + 1, function, True)
        else:
            while self.tokens[head].text != ";":
                head = self.close(head) if self.tokens[head].text in "([" else head + 1
            called = {self.tokens[i].text for i in range(at, head) if self.tokens[i + 1].text == "("}
            kind = next((kind for kind in KINDS if kind in called or kind == word == "return"), "step")
            behind = head + 1
        text = self.text[self.tokens[at].start:self.tokens[max(head - 1, at)].end]
        text, place = re.sub(r"\s+(#.*\s+)*", " ", text), self.tokens[at].place
        self.statements[number] = Statement(number, kind, function, place, text, at, behind - 1, alone)
        return behind
