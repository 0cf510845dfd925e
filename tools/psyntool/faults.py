"""The sections of docs/FAULTS.md: for each fault its number, its name, its cause and its remedy."""
from __future__ import annotations

import re
from dataclasses import dataclass

from psyntool import places
from psyntool.kinds import Kind

# The text at fault in a part of the document, where a section does not name another one.
OF_PART = {
    "Automata": "Automaton.",
    "Game texts": "Game.",
    "Circuits": "Circuit.",
    "Stimuli and lassos": "Stimulus.",
    "Specifications": "Specification.",
}
KINDS = {
    kind.title.capitalize(): kind
    for kind in (Kind.AUTOMATON, Kind.SPECIFICATION, Kind.GAME, Kind.CERTIFICATE, Kind.CIRCUIT, Kind.STIMULUS)
}


@dataclass(frozen=True)
class Fault:
    """A section of docs/FAULTS.md: the fault's number (None for `usage`), its name, the kind of text that has the
    fault, and the section's entries."""

    number: int | None
    name: str
    kind: Kind | None
    entries: dict
    examples: list


def fault_of(heading, body, text):
    found = re.fullmatch(r"(\d+) (\w+)", heading)
    entries = dict(re.findall(r"(?m)^- \*\*(\w+)\*\*: (.*(?:\n  .*)*)", body))
    entries = ({"Text": text} if text else {}) | {
        word: re.sub(r"\s*\n\s*", " ", said) for word, said in entries.items()
    }
    kind = KINDS.get(entries.get("Text", "").split(" ")[0].rstrip(",."))
    return Fault(int(found[1]) if found else None, found[2] if found else heading, kind, entries, examples_of(body))


def examples_of(body):
    """The examples of a section: each input is the indented block after `Input:`, and its answer is the code after
    `Answer:`."""
    found = re.findall(r"(?m)^Input:\n\n((?:    .*\n|\n)+?)\nAnswer: `([^`\n]*)`", body)
    return [
        ("\n".join(line[4:] for line in block.rstrip("\n").split("\n")) + "\n", answer + "\n")
        for block, answer in found
    ]


def read_document():
    found = []
    for part in re.split(r"(?m)^## ", places.stored("docs", "FAULTS.md"))[1:]:
        title, _, inside = part.partition("\n")
        sections = re.split(r"(?m)^### (.*)\n", inside)
        found += [
            fault_of(heading.strip(), body, OF_PART.get(title)) for heading, body in zip(sections[1::2], sections[2::2])
        ]
    return found
