"""Kinds of texts: the name of each kind, its file name endings, and how its texts begin."""
import enum
import os
import re
import stat

from psyntool import console

# The number of bytes at the start of a text that decide its kind.
BEGINNING = 4096
# Files that can be read only once, such as pipes, by their paths, each with its first bytes, which are read already.
begun = {}


class Kind(enum.Enum):
    """A kind of text: its name, and the usual file name endings, beginning with the one that psyn writes."""

    AUTOMATON = ("automaton", ("hoa",))
    SPECIFICATION = ("specification", ("tlsf",))
    GAME = ("game", ("pg", "gm"))
    CERTIFICATE = ("certificate", ("cert",))
    CIRCUIT = ("circuit", ("aag", "aig"))
    STIMULUS = ("stimulus", ("stim",))
    SOLUTION = ("solution", ("sol", "paritysol"))
    LIST = ("list", ("parts",))
    ANSWER = ("answer of synth", ())
    FILE = ("file", ("hoa", "pg", "gm", "cert", "aag", "aig", "txt"))

    def __init__(self, title, endings):
        self.title = title
        self.endings = endings

    @property
    def word(self):
        """The kind's name in capitals, as usage lines show it."""
        return self.title.upper()

    @property
    def with_article(self):
        return f"{'an' if self.title[0] in 'aeiou' else 'a'} {self.title}"


SIGNS = [
    (Kind.AUTOMATON, rb"\s*HOA\s*:"),
    (Kind.SPECIFICATION, rb"(\s|//[^\n]*\n|/\*([^*]|\*(?!/))*\*/)*INFO\b"),
    (Kind.CERTIFICATE, rb"\s*psyncert\b"),
    (Kind.CIRCUIT, rb"\s*a[ai]g\s+\d"),
    (Kind.SOLUTION, rb"\s*paritysol\b|\s*\d+\s+0*[01](\s+\d+)?\s*;"),
    (Kind.ANSWER, rb"(UN)?REALIZABLE\r?\n"),
    (Kind.STIMULUS, rb"(#[^\n]*\n)*\n*([01]+|-)\r?(\n|$)"),
    (Kind.LIST, rb"(\s|#[^\n]*\n)*--(assume|guarantee|as|outs|strict|moore)\b"),
    (Kind.GAME, rb"\s*(parity|start)\s+\d+\s*;|\s*\d+\s+\d+\s+[01]\s+\d+"),
]


def kind_of(data):
    """The kind of a text, as its beginning shows; None if the beginning fits no kind. A leading comment of an automaton
    is skipped."""
    start = re.sub(rb"(?s)\A\s*/\*.*?\*/", b"", data[:BEGINNING])
    return next((kind for kind, sign in SIGNS if re.match(sign, start)), None)


def kind_of_file(path):
    """The kind of a file (for the path `-`, of standard input), as its beginning shows; None if that fits no kind, or
    can't be read."""
    return kind_of(beginning(path))


def beginning(path):
    """The first bytes of a file, or of standard input, which are read again later; none if they can't be read."""
    if path == "-":
        return console.beginning(BEGINNING, kind_of)
    if path in begun:
        return begun[path][1]
    try:
        file = open(path, "rb")
        found = file.read(BEGINNING)
    except OSError:
        return b""
    if stat.S_ISREG(os.fstat(file.fileno()).st_mode):
        file.close()
    else:
        begun[path] = file, found
    return found


def read(path, most):
    """At most so many bytes of a file."""
    file, found = begun.pop(path, None) or (open(path, "rb"), b"")
    with file:
        return found + file.read(most - len(found))
