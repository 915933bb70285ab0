"""The command: lowers a file to standard output, or runs the program on that, and puts the user's names back."""
import os
import re
import subprocess
import sys
from .source import TOP, Source, in_c  # first: it says where pycparser is missing
from .locks import Locksets
from .output import Front
from .ctype import Refusal

COMMANDS = ("check", "explain", "run", "record", "--locks")
USAGE = f"usage: sharc-c [{' | '.join(COMMANDS)}] [-I DIR] [-D NAME] FILE.c [OPTIONS OF run] [-- ARGUMENTS]\n"
STOPPED = re.compile(r"(thread \d+: )X3 zero divisor at (.*?): (exit\([^)]*\)|abort\(\)|assert):(\d+)$")
# how lines name an lvalue, where, and what follows
TOLD = re.compile(r"\b(?P<what>read of|write of|cast of|free of|waits for mutex) (?P<lvalue>.*?) at (?P<file>\S+):"
                  r"(?P<line>\d+)(?: without lock (?P<lock>.*))?")
CHECKED = re.compile(r"((\S+):(\d+): (?:M\d+ (?:write to|null of) readonly|warning)) (.*?)(| may be NULL since .*)$")

class Names:
    """The user's names for what the program says of the lowered text."""
    def __init__(self):
        self.words, self.lvalues = {}, {}  # {name in the text: in C}, {(place, lvalue in the text): its node of C}
        self.hidden = False  # whether the line before told of a variable of the front

    @staticmethod
    def packed(text):
        """An lvalue as it is compared: without blanks and parentheses."""
        return re.sub(r"[\s()]", "", text)

    def of_lvalue(self, text, file, line):
        node = self.lvalues.get(((file, int(line)), self.packed(text)))
        return in_c(node) if node is not None else self.of_words(text)

    def of_words(self, text):
        return re.sub(r"[A-Za-z_]\w*", lambda found: self.words.get(found[0], found[0]), text)

    def told(self, found):
        what, lvalue, file, line, lock = found.groups()
        known, without = self.of_lvalue(lvalue, file, line), ""
        if lock is not None:
            prefix, shown = (re.match(r"(.*(?:->|\.))?", name)[0] for name in (lvalue, known))
            beside = prefix and lock.startswith(prefix)  # the lock is in the same object
            without = " without lock " + (shown + self.of_words(lock[len(prefix):]) if beside else self.of_words(lock))
        return f"{what} {known} at {file}:{line}{without}"

    def line(self, line):
        """What is shown of one line of the program's output."""
        if found := STOPPED.match(line):
            return f"{found[1]}{'an assertion failed' if found[3] == 'assert' else found[3]} at {found[2]}:{found[4]}\n"
        if found := CHECKED.match(line):
            return f"{found[1]} {self.of_lvalue(found[4], found[2], found[3])}{found[5]}\n"
        if TOLD.search(line):
            return TOLD.sub(self.told, line) + "\n"
        if not (self.hidden and line.startswith("  ")):
            found = re.match(r"(.*?): (?:local|global|parameter|result|cast of) ?(\w*)", line)
            self.hidden = bool(found and (self.words.get(found[2]) == "(temporary)" or
                                          found[1].startswith("what C does that the language")))
        return "" if self.hidden else self.of_words(line) + "\n"

class Words:
    """The words of the command line, with a file that is None where they are not as the usage says."""
    def __init__(self, words):
        at = words.index("--") if "--" in words else len(words)
        rest, self.arguments = iter(words[:at]), words[at + 1 :]
        self.options, self.rest = [], []
        for word in rest:
            if word[:2] in ("-I", "-D", "-U"):
                self.options += [word] if word[2:] else [word, next(rest, "")]
            else:
                self.rest.append(word)
        self.command = self.rest.pop(0) if self.rest and self.rest[0] in COMMANDS else None
        self.file = self.rest.pop(0) if self.rest else "-"
        if self.file.startswith("-") or self.rest and self.command not in ("run", "record"):
            self.file = None

def guarded(words):
    """(text, names, notes), or a refusal, whatever goes wrong: no program of C may end in a traceback."""
    sys.setrecursionlimit(20000)
    try:
        front = Front(Source(words.file, words.options), words, Names())
        if words.command == "--locks":
            return "\n".join([*Locksets(front).proposals(), ""]), front.user, []
        return front.program(), front.user, front.notes
    except Refusal:
        raise
    except Exception as error:
        what = f"program that the front does not understand ({type(error).__name__}: {error})"
        raise Refusal(((words.file, 1), what)) from None

def main(arguments):
    words = Words(arguments)
    if words.file is None:
        sys.stderr.write(USAGE)
        return 8
    try:
        text, names, notes = guarded(words)
    except Refusal as refused:
        for (file, line), what in sorted({refusal for refusal in refused.args if refusal[1]}):
            sys.stderr.write(f"{file or '?'}:{line}: refused: {what}\n")
        return 1
    if words.command in (None, "--locks"):
        sys.stdout.write(text)
        return 0
    program, called = os.environ.get("SHARC") or str(TOP / "sharc"), [words.command, *words.rest]
    if words.command in ("run", "record") and not any(word.startswith("--granules") for word in words.rest):
        called += ["--granules", "65536"]
    try:
        done = subprocess.run([program, *called], input=text.encode(), stdout=subprocess.PIPE, check=False)
    except OSError as error:
        sys.stderr.write(f"sharc-c: {program}: {error.strerror} (set SHARC to the built program)\n")
        return 2
    output = done.stdout.decode("utf-8", "replace")
    sys.stdout.write(output if words.command == "record" else "".join(map(names.line, output.splitlines())))
    if words.command == "run":
        sys.stderr.writelines(f"{file}:{line}: note: {what}\n" for (file, line), what in dict.fromkeys(notes))
        if "print(" in text:
            sys.stderr.write("note: of what printf writes only the numbers are printed, one on a line\n")
    return done.returncode
