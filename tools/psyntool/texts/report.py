"""Answers of `synth`: a word, a circuit and, with --full, the game and the certificate."""
from dataclasses import dataclass

from psyntool.texts import Unreadable

WORDS = ("REALIZABLE", "UNREALIZABLE")
SEPARATOR = "%%\n"


@dataclass(frozen=True)
class Report:
    """An answer: its first word, and the texts after it, which are a circuit, or a circuit, a game and a
    certificate."""

    word: str
    parts: tuple


def read(text):
    word, newline, rest = text.partition("\n")
    parts = tuple(rest.split("\n" + SEPARATOR))
    if word not in WORDS or not newline or len(parts) not in (1, 3):
        raise Unreadable(
            "this is no answer of `synth`: REALIZABLE or UNREALIZABLE, a circuit, and a game and a certificate or none"
        )
    return Report(word, tuple(part + "\n" for part in parts[:-1]) + parts[-1:])
