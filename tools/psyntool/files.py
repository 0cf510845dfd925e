"""Reads files, and maps offsets in the program's input back to offsets in the files."""
import bisect
import re

from psyntool import console, kinds, program, unmentioned
from psyntool.ends import Refused
from psyntool.kinds import Kind, kind_of
from psyntool.texts import binary, is_number

BYTE_ORDER_MARK = b"\xef\xbb\xbf"
OTHER_MARKS = (b"\xff\xfe", b"\xfe\xff")
# The first line of an answer about realizability, as psyn and other tools print it above a circuit; and the line of
# psyn that ends the circuit, if more follows.
VERDICT = re.compile(rb"((?:UN)?REALIZABLE)[ \t]*(\r?\n\s*|\Z)")
END_OF_CIRCUIT = re.compile(rb"(?m)^%%\r?$")
PLAYERS_OF_A_GAME = "spot-state-player:"


class Text:
    """One input text: the bytes that the program reads, and how their offsets map to offsets in the file."""

    def __init__(self, kind, name, original):
        self.kind = kind
        self.name = name
        self.original = original
        self.bytes = original
        self.told = []
        # whether the file was in binary AIGER, so that the text is its ASCII form
        self.was_binary = False
        # of a specification in temporal logic what it says, if the tool has read it
        self.basic = None
        # for each change of the text, pairs of an offset after it and the distance to the offset before it from there
        # on
        self.changes = []

    @property
    def string(self):
        """The text as a string; bytes that are not UTF-8 become surrogate escapes."""
        return self.bytes.decode("utf-8", "surrogateescape")

    @property
    def looks_like(self):
        return kind_of(self.bytes)

    def place_in_file(self, offset):
        """The offset that a byte has in the file, given its offset in the text."""
        for shifts in reversed(self.changes):
            offset += shifts[bisect.bisect_right(shifts, offset, key=lambda shift: shift[0]) - 1][1]
        return min(offset, len(self.original))

    def replace(self, spans):
        """Replaces spans of the text: for each, in order, the offsets of its begin and its end, and the new bytes."""
        kept, shifts, start, length, shift = [], [(0, 0)], 0, 0, 0
        for begin, end, new in spans:
            kept += [self.bytes[start:begin], new]
            length += begin - start + len(new)
            shift += end - begin - len(new)
            shifts.append((length, shift))
            start = end
        self.bytes = b"".join([*kept, self.bytes[start:]])
        self.changes.append(shifts)

    def become(self, new, name):
        """Takes the bytes and the name of another text, which is made from this one."""
        self.original = self.bytes = new
        self.name = name
        self.changes = []

    def drop_mark(self):
        """Drops a byte order mark, which no format allows; editors do not count it as a column."""
        if self.original.startswith(BYTE_ORDER_MARK):
            self.original = self.bytes = self.original[len(BYTE_ORDER_MARK) :]
            self.told.append(f"{self.name}: a byte order mark is left out")

    def drop_returns(self):
        """Drops the carriage return at the end of each line, except inside a name."""
        drop = returns_at_line_ends(self.kind, self.bytes)
        if not drop:
            return
        self.replace([(place, place + 1, b"") for place in drop])
        self.told.append(f"{self.name}: {len(drop)} carriage return(s) at line ends are left out")

    def change_lines(self, changed):
        """Replaces each line by what the function makes of it and of its number; a line for which it returns None is
        dropped."""
        spans, start = [], 0
        for row, line in enumerate(self.bytes.split(b"\n"), 1):
            new, end = changed(row, line), start + len(line)
            if new is None:
                spans.append((start, min(end + 1, len(self.bytes)), b""))
            elif new != line:
                spans.append((start, end, new))
            start = end + 1
        self.replace(spans)

    def drop_comments(self):
        """Drops each line of a stimulus that begins with `#`."""
        if self.kind is Kind.STIMULUS and b"#" in self.bytes:
            self.change_lines(lambda _, line: None if line.startswith(b"#") else line)

    def drop_verdict(self):
        """Drops from an answer about realizability what is not its circuit: the first line, and the game and the
        certificate that psyn prints below the circuit."""
        found = VERDICT.match(self.bytes)
        if not found:
            return
        word = found[1].decode()
        if found.end() == len(self.bytes):
            raise Refused(f"{self.name}: this is an answer {word} without a circuit")
        is_binary = self.bytes[found.end() :].startswith(b"aig ")
        end = None if is_binary else END_OF_CIRCUIT.search(self.bytes)
        below = [(end.start(), len(self.bytes), b"")] if end and self.bytes[end.end() :] else []
        self.replace([(0, found.end(), b""), *below])
        self.told.append(
            f"{self.name}: the line {word} above the circuit{', and what is below it,' * bool(below)} is left out"
        )

    def refuse_game(self):
        """Refuses an automaton that Spot wrote as a game with players. By the format, the item that names the players
        may be ignored; but what then follows is the answer to another question."""
        if PLAYERS_OF_A_GAME.encode() not in self.bytes:
            return
        from psyntool.texts import hoa

        if any(token.text == PLAYERS_OF_A_GAME for token in hoa.tokens_of(self.string, "--BODY--")):
            raise Refused(
                f"{self.name}: `{PLAYERS_OF_A_GAME}` says that this is a game whose states belong to players, "
                "and psyn reads automata: give it the automaton from which the game was made"
            )

    def end_with_newline(self):
        if self.bytes and not self.bytes.endswith(b"\n"):
            self.bytes += b"\n"
            self.told.append(f"{self.name}: the last line is ended by a newline")

    def zero_resets(self):
        """Replaces the reset value of each uninitialised latch (its own literal) by 0."""
        lines = self.bytes.split(b"\n")
        header = lines[0].split()
        if len(header) < 6 or header[0] != b"aag" or not all(map(is_number, header[1:])):
            return
        first, count, changed = 1 + int(header[2]), int(header[3]), 0
        for place in range(first, min(first + count, len(lines))):
            fields = lines[place].split()
            if len(fields) == 3 and fields[0] == fields[2]:
                # the line keeps its length, so that no later offset changes
                lines[place] = fields[0] + b" " + fields[1] + b" " + b"0" * len(fields[2])
                changed += 1
        if changed:
            self.bytes = b"\n".join(lines)
            self.told.append(f"{self.name}: {changed} unset latch(es) begin with 0")


def returns_at_line_ends(kind, text):
    """The offsets of the carriage returns that are part of a line ending, and not of a name."""
    ends = [found.start() for found in re.finditer(rb"\r\n", text)]
    if text.endswith(b"\r"):
        ends.append(len(text) - 1)
    if kind in (Kind.GAME, Kind.AUTOMATON, Kind.SPECIFICATION):
        name = rb'"(?:\\.|[^"\\])*"' if kind is Kind.AUTOMATON else rb'"[^"]*"'
        inside = {
            found.start() + at.start()
            for found in re.finditer(name, text, re.S)
            for at in re.finditer(rb"\r", found[0])
        }
        return [place for place in ends if place not in inside]
    if kind is Kind.CIRCUIT and len(ends) < text.count(b"\n"):
        # only some lines end with a carriage return, so a return after a symbol may belong to the symbol's name
        return [place for place in ends if text[text.rfind(b"\n", 0, place) + 1 : place][:1] not in (b"i", b"l", b"o")]
    return ends


def beginning_of(text):
    """The beginning of a text that can't hold a byte 0, whatever its kind. The comment of a circuit can, as abc writes
    it."""
    comment = re.search(rb"(?m)^c", text.bytes) if text.kind is Kind.CIRCUIT else None
    return text.bytes[: min(4096, comment.start()) if comment else 4096]


def title_of(path):
    """The name of a file in messages, on one line."""
    return "standard input" if path == "-" else path if path.isprintable() else repr(path)


class Reader:
    """Reads the files of one command line: together at most one byte more than the program accepts."""

    def __init__(self, settings):
        self.settings = settings
        self.left = program.MOST_BYTES + 1
        self.has_input = False

    def bytes_of(self, path):
        if path == "-":
            data = console.read(self.left)
        else:
            self.settings.read.append(path)
            try:
                data = kinds.read(path, self.left)
            except OSError as error:
                raise Refused(f"{title_of(path)}: {error.strerror}") from None
        self.left -= len(data)
        if not self.left and not self.settings.command.is_of_the_program:
            raise Refused(
                f"{title_of(path)}: the files up to this one have more than {program.MOST_BYTES:,} bytes together, "
                "the most that psyn reads"
            )
        return data

    def text(self, kind, path):
        """Reads a file (for the path `-`, standard input) and returns its text, normalised as the flags ask. If the
        kind is FILE, the text's beginning decides the kind."""
        name, original = title_of(path), self.bytes_of(path)
        return self.mended((kind_of(original) or kind) if kind is Kind.FILE else kind, name, original)

    def mended(self, kind, name, original):
        """The text with the given bytes, normalised as the flags ask."""
        if original.startswith(OTHER_MARKS):
            raise Refused(f"{name}: this is text in UTF-16: write it in UTF-8")
        text = Text(kind, name, original)
        text.drop_mark()
        if kind is Kind.CIRCUIT:
            text.drop_verdict()
            if text.bytes.startswith(b"aig "):
                text = self.converted(text)
        if b"\0" in beginning_of(text):
            raise Refused(f"{name}: this is no text (it holds a byte 0)")
        if kind is Kind.AUTOMATON:
            text.refuse_game()
        if not self.settings.keep_returns:
            text.drop_returns()
        if kind is Kind.CIRCUIT and self.settings.zero_resets:
            text.zero_resets()
        text.drop_comments()
        if self.left:
            text.end_with_newline()
        self.tell(text)
        return self.specification(text) if kind is Kind.SPECIFICATION and self.settings.command.writes_out else text

    def specification(self, text):
        """A specification in temporal logic, written out if it is in TLSF's full form."""
        from psyntool import specifying

        text.kind = Kind.SPECIFICATION
        specifying.write_out(text, self.settings)
        self.tell(text)
        return text

    def tell(self, text):
        """Tells how a text was changed, once."""
        if not self.settings.quiet:
            console.tell(*text.told)
        text.told = []

    def converted(self, text):
        """The ASCII form of a circuit in binary AIGER."""
        try:
            made = Text(text.kind, text.name, binary.ascii_form(text.bytes))
        except binary.Broken as error:
            raise Refused(f"{text.name}: this is the binary form of AIGER, and can't be converted: {error}") from None
        made.was_binary = True
        made.told = [
            *text.told, f"{text.name}: converted from the binary form of AIGER; places are those of the ASCII form"
        ]
        return made

    def texts(self, kinds, paths):
        if paths.count("-") > 1:
            raise Refused("standard input can be one of the files only")
        texts = [self.text(kind, path) for kind, path in zip(kinds, paths)]
        if tuple(kinds[:2]) in ((Kind.AUTOMATON, Kind.CIRCUIT), (Kind.SPECIFICATION, Kind.CIRCUIT)):
            unmentioned.drop(texts)
            for text in texts:
                self.tell(text)
        return texts


def joined(command, flags, texts):
    """The program's whole input: the command line, and the texts with a line `%%` between two of them."""
    for text in texts[:-1]:
        found = re.search(rb"(?m)^%%$", text.bytes)
        if found:
            line = text.bytes[: found.start()].count(b"\n") + 1
            raise Refused(
                f"{text.name}:{line}: a line %% ends the text there, since another text stands behind it: take it out"
            )
    head = " ".join([command, *flags]).encode() + b"\n"
    return head + b"%%\n".join(text.bytes for text in texts)
