"""Simple parsers for the texts that psyn reads and writes. Only the program decides what a text means and whether it is
right."""
import re


class Unreadable(Exception):
    """The text can't be parsed far enough for the tool to show or explain it."""


def in_unicode(text):
    """The text for a format that is UTF-8: each byte of a name that is no UTF-8 is read as Latin-1."""
    return re.sub("[\udc80-\udcff]", lambda found: chr(ord(found[0]) - 0xDC00), text)


# No 64-bit number has more than 20 digits.
NUMBER = r"\d{1,20}"


def is_number(word):
    """Whether a word (a string or bytes) is a number of at most 20 digits."""
    return word.isdigit() and word.isascii() and len(word) <= 20
