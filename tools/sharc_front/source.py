"""Reads a C file: gcc's preprocessor with the headers of this folder, then pycparser. What neither reads is refused."""
import pathlib
import re
import subprocess
import sys
try:
    from pycparser import c_generator, c_parser
except ImportError:
    sys.stderr.write("sharc-c needs pycparser: apt-get install python3-pycparser, or pip install pycparser\n")
    sys.exit(2)
from .ctype import Refusal

TOP = pathlib.Path(__file__).absolute().parents[2]
HEADERS = str(TOP / "tools/sharc_front/headers")
PREPROCESSOR = ["gcc", "-E", "-nostdinc", "-undef", "-DSHARC_FRONT", "-I", HEADERS, "-I", str(TOP / "include"),
                "-include", HEADERS + "/sharc_front.h"]
TOKEN = re.compile(
    r'# (?P<line>\d+) "(?P<file>(?:\\.|[^"\\])*)"[^\n]*|(?P<refused>#[^\n]*)|(?P<newline>\n)'
    r'|__sharc_refuse\("(?P<named>[^"]*)"\)|(?P<literal>"(?:\\.|[^"\\\n])*"' r"|'(?:\\.|[^'\\\n])*')|\.?\d[\w.]*"
    r"|__attribute__\s*\(\((?P<attributes>(?:[^()]|\((?:[^()]|\([^()]*\))*\))*)\)\)"
    r"|__mode_(?P<mode>locked\s*\([^()]*\)|[a-z]+)|(?P<word>[A-Za-z_$][\w$]*)")
ESCAPE = re.compile(r"\\(?:x([0-9a-fA-F]+)|([0-7]{1,3})|(.))")
LETTERS = dict(zip("abfnrtve", b"\a\b\f\n\r\t\v\x1b"))
HARMLESS = set("unused noreturn format const pure noinline always_inline cold hot malloc nonnull warn_unused_result "
               "used deprecated returns_nonnull flatten leaf nothrow fallthrough may_alias noclone alloc_size".split())

GENERATOR = c_generator.CGenerator()

def in_c(node):
    """A part of the program as the user would write it."""
    return " ".join(GENERATOR.visit(node).split())

def texts(name):
    """The texts of a file of headers/ in the language of SharC."""
    return pathlib.Path(HEADERS, name).read_text(encoding="utf-8").strip().split("\n\n")

def preprocessed(path, options):
    done = subprocess.run([*PREPROCESSOR, *options, path], capture_output=True, check=False)
    if done.returncode == 0:
        return done.stdout.decode("utf-8", "replace")
    errors = done.stderr.decode("utf-8", "replace")
    found = re.search(r"^(.*?):(\d+):\d+: (?:fatal )?error: (?:(\S+): No such file.*|(.*))", errors, re.MULTILINE)
    raise Refusal(((found[1], int(found[2])), found[4] or f"header {found[3]}") if found else
                  ((path, 1), "file that gcc -E cannot read"))

def octal(found):
    """An escape with three digits, so that it ends where it did when strings are joined."""
    number, digits, letter = found.groups()
    if letter in ("u", "U"):
        return found[0]
    code = int(number, 16) if number else int(digits, 8) if digits else LETTERS.get(letter, ord(letter))
    return f"\\{code & 255:03o}"

class Source:
    """A file as pycparser's tree, with its marks and the words in it."""
    def __init__(self, path, options):
        self.modes, self.words, self.refused, self.file, self.line = [], set(), [], path, 1
        text = TOKEN.sub(self.token, preprocessed(path, options))
        if self.refused:
            raise Refusal(*self.refused)
        try:
            self.tree = c_parser.CParser().parse(text, path)
        except Exception as error:  # pycparser has others than ParseError for what it does not know
            found = re.match(r"(.*?):(\d+)(?::\d+)?: (?:before: )?(.*)", str(error))
            file, line, near = found.groups() if found else (self.file, self.line, "the end")
            raise Refusal(((file, int(line)), f"syntax that pycparser does not read (near {near})")) from None

    def token(self, found):
        """A token made ready for pycparser: attributes go, and a mark becomes as many `volatile` as its number says,
        which stand where qualifiers may."""
        kind, token, blank = found.lastgroup, found[0], "\n" * found[0].count("\n")
        refused = [found[kind].strip()] if kind in ("refused", "named") else []
        self.line += len(blank)
        if kind == "file":
            self.file, self.line = found["file"], int(found["line"]) - 1
            return f'# {found["line"]} "{found["file"]}"'
        if kind == "mode":
            self.modes.append(re.sub(r"\s", "", found["mode"]))
            return " volatile" * len(self.modes) + " " + blank
        if kind == "literal":
            return ESCAPE.sub(octal, token)
        if kind == "word":
            self.words.add(token)
        if kind == "attributes":
            names = re.findall(r"(?:^|,)\s*([A-Za-z_]\w*)", found["attributes"])
            refused = [f"attribute {name}" for name in names if name.strip("_") not in HARMLESS]
        self.refused += [((self.file, self.line), what) for what in refused]
        return blank if refused or kind == "attributes" else token
