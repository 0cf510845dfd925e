"""Specifications in TLSF's basic form: only the names that they declare are read."""
import re

from psyntool.texts import Unreadable

TOKEN = re.compile(r"""/\*|\*/|//[^\n]*|"[^"]*"|[A-Za-z_][A-Za-z0-9_'@]*|[{}]""")
LISTS = ("INPUTS", "OUTPUTS")


def owners(text):
    """The names of the environment's propositions, and those of the controller's, in the order of their
    declarations."""
    words = list(words_of(text))
    return [declared(words, title) for title in LISTS]


def names(text):
    """The names of all propositions, in the order of their declarations."""
    words = list(words_of(text))
    return [
        name for title in sorted(LISTS, key=lambda title: begin(words, title) or 0) for name in declared(words, title)
    ]


def is_moore(text):
    """Whether the controller moves first."""
    words = list(words_of(text))
    return "TARGET" in words and words[words.index("TARGET") + 1 :][:1] == ["Moore"]


def words_of(text):
    """The words and braces of a text; comments, which nest, and strings are passed over."""
    depth = 0
    for found in TOKEN.finditer(text):
        token = found[0]
        if token in ("/*", "*/"):
            depth = max(0, depth + (1 if token == "/*" else -1))
        elif depth == 0 and not token.startswith(("//", '"')):
            yield token


def begin(words, title):
    """The place of a word behind which a brace stands, or None. A tag may be such a word, and so may a name."""
    return next(
        (place for place, word in enumerate(words) if word == title and words[place + 1 : place + 2] == ["{"]), None
    )


def declared(words, title):
    """The names between the braces behind the word."""
    place = begin(words, title)
    if title not in words:
        return []
    if place is None or "}" not in words[place:]:
        raise Unreadable(f"{title} is no list of names: run `lasso --tlsf` to see where the specification goes wrong")
    return words[place + 2 : words.index("}", place)]
