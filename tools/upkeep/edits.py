"""The edits of the crates' folders more-edits, which are changes to the code that the prover must refuse, and the table
of the verdicts on them, tools/upkeep/EDITS.tsv.

An edit is named by its crate and its file. Its row is stale if its hash differs from the one that it has now, and it
has no row before it was tried.
"""
import glob
import hashlib
import os
import re

from upkeep.sweeps import TOP

TABLE = os.path.join(TOP, "tools", "upkeep", "EDITS.tsv")
HEAD = "crate\tedit\tcommit\tverdict\thash"
IMPORT = re.compile(r"\bRattle\.(\w+)\.specs((?:\.\w+)+)")
# How many hexadecimal digits of a hash are kept.
DIGITS = 16


def read(path):
    with open(path, encoding="utf-8") as file:
        return file.read()


def paths(top=TOP):
    """The path of each edit, in the order of the table's rows."""
    found = glob.glob(os.path.join(top, "crates", "*", "more-edits", "*.edit"))
    return dict(sorted((name_of(path, top), path) for path in found))


def name_of(path, top):
    return os.path.relpath(path, top).split(os.sep)[1], os.path.basename(path)[: -len(".edit")]


def files_of(crate, edit, top=TOP):
    """The files of a crate that the text of an edit changes, and the spec files that these import directly."""
    crates = os.path.join(top, "crates")
    changed = existing(os.path.join(crates, crate, it.strip()) for it in re.findall(r"^file: (.*)", edit, re.M))
    named = {found for it in changed for found in IMPORT.findall(read(it))}
    specs = (os.path.join(crates, below, "specs", *module[1:].split(".")) + ".antt" for below, module in named)
    return changed + existing(specs)


def existing(files):
    return sorted(it for it in set(files) if os.path.isfile(it))


def hash_of(key, path, top=TOP):
    """The first digits of the SHA-256 of an edit's text, of the files that it changes, and of the spec files that these
    import directly, one behind the other."""
    text = read(path)
    whole = "".join([text, *(read(it) for it in files_of(key[0], text, top))])
    return hashlib.sha256(whole.encode()).hexdigest()[:DIGITS]


def rows(table=TABLE):
    """The rows of the table, by crate and edit, each as the list of its cells."""
    cells = [line.split("\t") for line in read(table).splitlines()[1:]] if os.path.exists(table) else []
    return {(row[0], row[1]): row for row in cells}


def store(verdicts, top=TOP, table=TABLE):
    """Writes the cells behind an edit's name in place of earlier ones. Rows of edits that are gone go."""
    cells = {**rows(table), **{key: [*key, *those] for key, those in verdicts.items()}}
    kept = ["\t".join(cells[key]) for key in paths(top) if key in cells]
    with open(table, "w", encoding="utf-8") as file:
        file.write("\n".join([HEAD, *kept]) + "\n")


def stale(top=TOP, table=TABLE):
    """The edits without a row, or whose hash differs from that of their row."""
    known = {key: row[-1] for key, row in rows(table).items()}
    return [key for key, path in paths(top).items() if known.get(key) != hash_of(key, path, top)]
