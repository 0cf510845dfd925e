"""The commands of the program by name, with their flags and the kinds of texts that they read. The commands are stored
in the file program.json."""
import json
import os
from dataclasses import dataclass

from psyntool.kinds import Kind


@dataclass(frozen=True)
class Usage:
    """The usage of a command: the names of its flags, the kinds of its texts in order, for some flags the kind of a
    further text, and for some flags the kind that the first text then has."""

    flags: tuple
    texts: tuple
    added: dict
    replaced: dict


def read():
    with open(os.path.join(os.path.dirname(os.path.abspath(__file__)), "program.json"), encoding="utf-8") as file:
        rows = json.load(file)
    kinds = {kind.title: kind for kind in Kind}
    return {
        name: Usage(
            tuple(f"--{flag}" for flag in row["flags"]),
            tuple(kinds[kind] for kind in row["texts"]),
            *({f"--{flag}": kinds[kind] for flag, kind in row[by_flags].items()} for by_flags in ("added", "replaced")),
        )
        for name, row in rows.items()
    }


USAGES = read()
