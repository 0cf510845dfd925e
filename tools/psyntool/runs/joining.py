"""The table of what logs of several machines hold: first where runs disagree, then what was solved, by family.

The runs of a family are those of one command whose first file has the same name but for its folder, its ending and a
number at its end. A run is solved if it has an answer. The score PAR-2 of a family is the mean of its seconds of
processor time; a run that is not solved counts as twice the seconds that it had.
"""
import os
import re
from collections import defaultdict

from psyntool.ends import Refused
from psyntool.files import title_of
from psyntool.runs import logs
from psyntool.tracing import table

HEAD = ("command", "family", "runs", "solved", "par-2")


def joined(paths):
    """The lines of the table, and whether some runs disagree."""
    runs = defaultdict(list)
    for path in paths:
        for line in lines_of(path):
            runs[logs.key_of(line)].append((path, line))
    disputes = [text for key, lines in runs.items() for text in disputed(key, lines)]
    best = {key: min((line for _, line in lines), key=rank) for key, lines in runs.items()}
    families = defaultdict(list)
    for key, line in best.items():
        families[key[0], family_of(key[1][0]) if key[1] else ""].append(line)
    rows = [row(*name, lines) for name, lines in sorted(families.items())]
    rows.append(row("all", "", list(best.values())))
    return disputes + table(HEAD, rows, None, 0), bool(disputes)


def lines_of(path):
    try:
        with open(path, "rb") as file:
            return logs.read(title_of(path), file.read())
    except OSError as error:
        raise Refused(f"{title_of(path)}: {error.strerror}") from None


def disputed(key, lines):
    """Lines about a run whose verdicts differ, or differ from the one that is expected."""
    title = " ".join([key[0], *key[1], *(f"--set {said}" for said in key[2])])
    verdicts = {line["verdict"]: path for path, line in lines if line.get("verdict")}
    expected = next((line["expected"] for _, line in lines if line.get("expected")), None)
    if len(verdicts) > 1:
        yield f"{title}: " + ", ".join(f"{verdict} in {path}" for verdict, path in verdicts.items())
    elif expected and expected not in verdicts and verdicts:
        [(verdict, path)] = verdicts.items()
        yield f"{title}: {verdict} in {path}, and {expected} is expected"


def rank(line):
    """Of several lines about a run the least counts: an answer, and then the fewest seconds."""
    return not is_solved(line), line.get("processor") or 0


def is_solved(line):
    return line.get("ended") == "answer"


def family_of(path):
    """The name of a file without its folder, its ending and the number at its end."""
    name = os.path.splitext(os.path.basename(path))[0]
    return re.sub(r"[-_.]?\d+$", "", name) or name


def row(command, family, lines):
    """The row of a family. Without a limit on the time of a run that is not solved there is no score."""
    solved = [line for line in lines if is_solved(line)]
    rest = [line.get("within") for line in lines if not is_solved(line)]
    seconds = sum(line.get("processor") or 0 for line in solved) + 2 * sum(one or 0 for one in rest)
    score = "-" if None in rest or not lines else f"{seconds / len(lines):.2f}"
    return command, family, str(len(lines)), str(len(solved)), score
