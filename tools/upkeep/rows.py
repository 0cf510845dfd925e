"""Rows: inputs of the program with their expected answers, as the files in examples/rows store them.

A file of rows is TOML, and each character of its strings stands for a byte (ISO 8859-1). A `[[row]]` has

  name      what the row shows; no name occurs twice in a file
  input     the program's input
  parts     in place of `input`: texts that are joined; { text = "..", times = 3 } stands for three copies
  answer    the program's whole output, as a text or as parts
  one_of    in place of `answer`: a list of right answers
  begins, contains    in place of `answer`: the first lines of a right answer, and texts that it contains
  status    the program's exit status

A `[[cut]]` stands for many rows: one for the first n bytes of a text, for each n.

  name      the name of the text
  before, text, behind    the input is `before`, the first n bytes of `text`, and `behind`
  early     the number and the name of the fault for most n; its offset is n plus `ended`
  whole_from, whole, status    for n from `whole_from` on, the answer is `whole`, with this exit status
  [[cut.other]] from, to, answer, status    the answer and the exit status for n from `from` to `to`
"""
import os
import subprocess
import tomllib

SECONDS = 120
ROW_KEYS = {"name", "input", "parts", "answer", "one_of", "begins", "contains", "status"}
CUT_KEYS = {"name", "before", "text", "behind", "ended", "early", "whole_from", "whole", "status", "other"}
OTHER_KEYS = {"from", "to", "answer", "status"}


class Malformed(Exception):
    """A file of `examples/rows` has an error, which the message describes."""


class Row:
    """A row: an input, and what is known of the right answer to it."""

    def __init__(self, name, given, status, **judged):
        self.name = name
        self.given = given
        self.status = status
        self.one_of = judged.get("one_of")
        self.begins = judged.get("begins", [])
        self.contains = judged.get("contains", [])

    def fault_of(self, answer, status):
        """A message that says what is wrong with an answer or its exit status; None if both are right."""
        if status != self.status:
            return f"status {status}, wanted {self.status}; {shown(answer)}"
        if self.one_of is not None:
            return None if answer in self.one_of else f"{shown(answer)}, wanted {shown(self.one_of[0])}"
        lines = answer.split(b"\n")[: len(self.begins)]
        if lines != self.begins:
            return f"{shown(answer)}, wanted the first lines {self.begins}"
        lacking = [part for part in self.contains if part not in answer]
        return f"{shown(answer)}, which lacks {lacking}" if lacking else None


def shown(answer):
    return repr(answer) if len(answer) <= 400 else f"{answer[:200]!r} .. {answer[-200:]!r} ({len(answer)} bytes)"


def in_bytes(text):
    try:
        return text.encode("latin-1")
    except UnicodeEncodeError:
        raise Malformed(f"{text[:60]!r} has a character that is no byte") from None


def exactly(table, known, needed):
    """Refuses a table that has an unknown key or lacks a required one."""
    wrong = [*(set(table) - known), *(set(needed) - set(table))]
    if wrong:
        raise Malformed(f"{table.get('name', 'a table')!r}: {', '.join(sorted(wrong))} is unknown or missing")


def joined(parts):
    """The bytes of a text, or of a list of texts, some of which are repeated."""
    if isinstance(parts, str):
        return in_bytes(parts)
    made = []
    for part in parts:
        if not isinstance(part, str):
            exactly(part, {"text", "times"}, {"text", "times"})
        made.append(in_bytes(part) if isinstance(part, str) else in_bytes(part["text"]) * part["times"])
    return b"".join(made)


def row_of(table):
    exactly(table, ROW_KEYS, {"name", "status"})
    inputs = [key for key in ("input", "parts") if key in table]
    judges = (
        [key for key in ("answer", "one_of") if key in table] + ["begins"] * ("begins" in table or "contains" in table)
    )
    if len(inputs) != 1 or len(judges) != 1:
        raise Malformed(f"{table['name']!r} needs one input and one judge of the answer")
    if judges == ["begins"]:
        judged = {key: [in_bytes(text) for text in table.get(key, [])] for key in ("begins", "contains")}
    else:
        judged = {"one_of": [joined(answer) for answer in table.get("one_of", [table.get("answer")])]}
    return Row(table["name"], joined(table[inputs[0]]), table["status"], **judged)


def answer_to_beginning(cut, end):
    """The expected answer to the first `end` bytes of a text, and the exit status."""
    if end >= cut["whole_from"]:
        return cut["whole"], cut["status"]
    for other in cut.get("other", []):
        if other["from"] <= end <= other["to"]:
            return other["answer"], other["status"]
    return f"fault {cut['early']} at {end + cut['ended']}\n", 1


def rows_of_cut(cut):
    """The rows that a table `[[cut]]` stands for: one for each beginning of its text."""
    exactly(cut, CUT_KEYS, CUT_KEYS - {"other"})
    for other in cut.get("other", []):
        exactly(other, OTHER_KEYS, OTHER_KEYS)
    before, text, behind = (in_bytes(cut[key]) for key in ("before", "text", "behind"))
    rows = []
    for end in range(len(text) + 1):
        answer, status = answer_to_beginning(cut, end)
        rows.append(
            Row(f"{cut['name']}, cut at {end}", before + text[:end] + behind, status, one_of=[in_bytes(answer)])
        )
    return rows


def read(path):
    """The rows of a file: those of its tables `[[row]]`, and those that its tables `[[cut]]` stand for."""
    with open(path, "rb") as file:
        tables = tomllib.load(file)
    if set(tables) - {"row", "cut"} or not tables:
        raise Malformed(f"{path} has no rows, or other tables")
    rows = [row_of(table) for table in tables.get("row", [])]
    for cut in tables.get("cut", []):
        rows += rows_of_cut(cut)
    names = [row.name for row in rows]
    twice = sorted({name for name in names if names.count(name) > 1}) if len(set(names)) < len(names) else []
    if twice:
        raise Malformed(f"{path}: a name stands twice: {twice[0]!r}")
    return rows


def answered(program, row):
    """The program's output and its exit status, which is None if the program does not end in time."""
    try:
        done = subprocess.run([program], input=row.given, stdout=subprocess.PIPE, timeout=SECONDS, check=False)
    except subprocess.TimeoutExpired:
        return b"", None
    return done.stdout, done.returncode


def files_of(folder):
    """The names of the row files in a folder."""
    return sorted(name for name in os.listdir(folder) if name.endswith(".toml") and name != "COUNTS.toml")
