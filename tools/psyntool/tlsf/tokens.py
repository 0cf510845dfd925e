"""Tokens of a specification: words, numbers, strings and signs, each with its offset."""
import re
from typing import NamedTuple

# The lengths in a text and the offsets of its tokens count bytes: each byte is one character of the string.
ENCODING = "latin-1"
FORM = re.compile(
    r"""(?P<blank>[\t-\r ]+|//[^\n]*)
      | (?P<comment>/\*)
      | (?P<word>[A-Za-z_][A-Za-z0-9_'@]*)
      | (?P<number>[0-9]+)
      | (?P<string>"[^"]*")
      | (?P<sign>\([+*\\-]\) | <-> | <- | -> | <= | >= | == | != | /= | && | \|\| | \.\. | [][{}();:,!<>+*/%|&~=-])""",
    re.X,
)
BOUNDS_OF_COMMENTS = re.compile(r"/\*|\*/")
# A word of this length is shown whole in messages.
MOST_SHOWN = 40
# A text has at most so many tokens, and a word at most so many bytes, so that it takes no great memory.
MOST_TOKENS, MOST_BYTES_OF_A_WORD = 500_000, 1_000


class Wrong(Exception):
    """What is wrong with a specification, and the offset at which it is."""

    def __init__(self, offset: int, what: str):
        super().__init__(what)
        self.offset = offset


class Token(NamedTuple):
    """A token: its kind (`word`, `number`, `string`, the sign itself, or `end`), its text, and where it begins and
    ends."""

    kind: str
    text: str
    start: int
    stop: int

    @property
    def shown(self) -> str:
        """The token in messages."""
        if self.kind == "end":
            return "the end of the text"
        printable = "".join(sign if sign.isascii() and sign.isprintable() else "?" for sign in self.text[:MOST_SHOWN])
        return f"`{printable}{' ..' * (len(self.text) > MOST_SHOWN)}`"


def tokens_of(text: str) -> list[Token]:
    """The tokens of a text, of which the last is its end."""
    tokens, at = [], 0
    while at < len(text):
        found = FORM.match(text, at)
        if not found:
            raise Wrong(
                at,
                "this string is not closed"
                if text[at] == '"'
                else f"no word, number or sign of TLSF begins with {shown_byte(text[at])}",
            )
        if found["comment"]:
            at = behind_comment(text, at)
            continue
        if not found["blank"]:
            kind = found[0] if found["sign"] else found.lastgroup
            tokens.append(Token(kind, found[0], at, found.end()))
            if kind == "word" and len(found[0]) > MOST_BYTES_OF_A_WORD:
                raise Wrong(at, f"this word has {len(found[0]):,} bytes, and at most {MOST_BYTES_OF_A_WORD:,} are read")
            if len(tokens) > MOST_TOKENS:
                raise Wrong(
                    at,
                    f"up to here the specification has more than {MOST_TOKENS:,} words, numbers and signs, "
                    "and no more are read",
                )
        at = found.end()
    return [*tokens, Token("end", "", len(text), len(text))]


def shown_byte(sign: str) -> str:
    return f"`{sign}`" if sign.isascii() and sign.isprintable() else f"the byte {ord(sign)}"


def behind_comment(text: str, begin: int) -> int:
    """The offset behind a comment, in which further comments may nest."""
    depth = 0
    for found in BOUNDS_OF_COMMENTS.finditer(text, begin):
        depth += 1 if found[0] == "/*" else -1
        if not depth:
            return found.end()
    raise Wrong(begin, "this comment is not closed")
