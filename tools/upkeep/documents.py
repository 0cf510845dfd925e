"""Documents as the tests read them: their lines and sentences, their links, and the commands that they show.

A code fence that begins with ```console shows commands. A line with `$ ` begins a command, lines with `> ` continue it,
and the other lines after it are its output and error messages. ```console yosys marks commands that need the program
yosys; further names may follow. ```console foreign marks commands that the tests do not run, and ```console gate those
that build or prove psyn. Other fences, such as ```text, show no commands.
"""
import glob
import os
import re
import shutil
import subprocess

from upkeep.sweeps import TOP

PLAIN = {"text", "python", "rust", "verilog"}
NOT_RUN = ["foreign"], ["gate"]
PROGRAMS = {"berkeley-abc", "dot", "parallel", "sbatch", "yosys"}
SECONDS = 60


class Fence:
    """A code fence of a document: the line at which it begins, its kind, the words after the kind, and its lines."""

    def __init__(self, line, info, lines):
        self.line = line
        self.lines = lines
        self.kind, *self.marks = info.split() or [""]

    def is_known(self):
        return (
            self.kind in PLAIN
            and not self.marks
            or self.kind == "console"
            and (self.marks in NOT_RUN or PROGRAMS.issuperset(self.marks))
        )

    def is_run(self):
        return self.kind == "console" and self.marks not in NOT_RUN

    def missing(self):
        """The programs that the fence's commands need and that are not installed."""
        return [name for name in self.marks if not shutil.which(name)]

    def commands(self):
        """The commands of the fence, each with the output that the document shows."""
        found = []
        for line in self.lines:
            if line.startswith("$ "):
                found.append([line[2:], ""])
            elif line.startswith("> ") and found and not found[-1][1]:
                found[-1][0] += "\n" + line[2:]
            elif found:
                found[-1][1] += line + "\n"
        return found


def read(name):
    with open(os.path.join(TOP, name), encoding="utf-8") as file:
        return file.read().split("\n")


def fences_of(lines):
    fences, at = [], None
    for number, line in enumerate(lines):
        if line.startswith("```") and at is None:
            at = number
        elif line.startswith("```"):
            fences.append(Fence(at + 1, lines[at][3:], lines[at + 1 : number]))
            at = None
    return fences


def prose_of(lines):
    """The paragraphs, each with the number of its first line. Code fences, tables, headings, quotations and indented
    blocks are left out."""
    paragraphs, inside, now = [], False, []
    for number, line in enumerate([*lines, ""], 1):
        if line.startswith("```"):
            inside = not inside
        skipped = inside or not line or line.startswith(("|", "#", "```", "    ", ">"))
        if now and (skipped or re.match(r"\s*(- |\d+\. )", line)):
            paragraphs.append((now[0], " ".join(now[1:])))
            now = []
        if not skipped:
            now = now or [number]
            now.append(re.sub(r"^\s*(- |\d+\. )", "", line).strip())
    return paragraphs


def sentences_of(paragraph):
    """The sentences of a paragraph. Inline code counts as one word, and a link as its text. Only `.`, `?` and `!` end a
    sentence."""
    bare = re.sub(r"`[^`]*`", "code", paragraph)
    bare = re.sub(r"\[([^]]*)\]\([^)]*\)", r"\1", bare)
    return re.split(r"(?<=[.?!])[)*']*\s+", bare)


def tables_of(lines):
    """The tables, each as a list of its rows: the number of the row's line, and the number of its cells. A row is one
    line; `\\|` does not end a cell, and neither does the end of the line."""
    tables, inside, before = [], False, 0
    for number, line in enumerate(lines, 1):
        if line.startswith("```"):
            inside = not inside
        if inside or not line.startswith("|"):
            continue
        if not before or before + 1 < number:
            tables.append([])
        before = number
        tables[-1].append((number, len(re.findall(r"(?<!\\)\|", line)) - 1))
    return tables


def links_of(lines):
    """The links to files of the repository, each with the number of its line."""
    return [
        (number, target.partition("#")[0])
        for number, line in enumerate(lines, 1)
        for target in re.findall(r"\]\(([^)\s]+)\)", line)
        if not re.match(r"\w+://|#", target)
    ]


def sources(*folders):
    """The text of all files in the given folders of all crates."""
    paths = [
        path
        for folder in folders
        for path in glob.glob(os.path.join(TOP, "crates", "*", folder, "**", "*.*t*"), recursive=True)
    ]
    texts = []
    for path in sorted(paths):
        with open(path, encoding="utf-8") as file:
            texts.append(file.read())
    return "\n".join(texts)


def calls_of(lines):
    """The names of functions and clauses in the first cells of tables, each with the number of its line."""
    cells = [(number, line.split("|")[1]) for number, line in enumerate(lines, 1) if line.startswith("| `")]
    return [
        (number, name)
        for number, cell in cells
        for code in re.findall(r"`([^`]+)`", cell)
        for name in re.findall(r"[A-Za-z]\w+", code)
    ]


def definitions_of(lines):
    """The files and names in the parentheses at the end of each definition in docs/definitions.md, with the number of
    the definition's first line."""
    last = [
        (number, re.findall(r"`([^`]+)`", found[-1]))
        for number, text in prose_of(lines) if (found := re.findall(r"\([^()]*\)\.?$", text))
    ]
    return [(number, code) for number, codes in last for code in codes]


def furnish(room):
    """Links the folders that the documents' commands name into a temporary folder."""
    for folder in ("tools", "examples", "docs", "crates"):
        os.symlink(os.path.join(TOP, folder), os.path.join(room, folder))


def wrong_answers(name, fences, room, environment):
    """The commands of the fences whose output differs from what the document shows. All commands of the document run in
    the folder `room`, one after another."""
    wrong = []
    for fence in fences:
        for command, wanted in fence.commands():
            done = subprocess.run(
                ["bash", "-c", command],
                cwd=room,
                env=environment,
                stdin=subprocess.DEVNULL,
                stdout=subprocess.PIPE,
                stderr=subprocess.STDOUT,
                timeout=SECONDS,
                check=False,
            )
            if done.stdout.decode("utf-8", "replace") != wanted:
                wrong.append(f"{name}:{fence.line}: {command}\n{done.stdout.decode('utf-8', 'replace')}")
    return wrong
