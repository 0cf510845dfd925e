"""The release: psyn's version, its commit, the kit with which it was proved, and the sum of the program."""
import hashlib
import re
import subprocess
from dataclasses import dataclass

from psyntool import places, program
from psyntool.ends import Refused

FORMATS = "circuits in ASCII AIGER 1.9, automata in HOA v1, games of PGSolver's format"
KEYS = ("version", "commit", "kit", "program")
UNKNOWN = "unknown"


@dataclass(frozen=True)
class Release:
    """The contents of a file RELEASE, which has a line for each key."""

    version: str
    commit: str
    kit: str
    # the SHA-256 sum of the program that the release was packed with
    program: str = UNKNOWN

    def text(self):
        return "".join(f"{key} {getattr(self, key)}\n" for key in KEYS)


def git(*words):
    """The output of a git command at the top of the repository, or an empty string if the command fails."""
    try:
        done = subprocess.run(
            ["git", "-C", places.TOP, *words], stdin=subprocess.DEVNULL, capture_output=True, check=False
        )
    except OSError:
        return ""
    return done.stdout.decode("utf-8", "replace").strip() if done.returncode == 0 else ""


def of_repository():
    """The release in a checkout: its version, its commit, whether files differ from the commit, and the kit of the
    prover, as docs/PROVED.md names it."""
    commit = git("rev-parse", "HEAD") or UNKNOWN
    changes = " with changes" if commit != UNKNOWN and git("status", "--porcelain") else ""
    kit = re.search(r"`(rattle-kit\S* logic \w+)`", places.stored("docs", "PROVED.md"))
    return Release(places.stored("VERSION").strip() or UNKNOWN, commit + changes, kit[1] if kit else UNKNOWN)


def of_text(text):
    said = dict(line.split(" ", 1) for line in text.splitlines() if " " in line)
    return Release(*(said.get(key, UNKNOWN) for key in KEYS))


def sum_of(path):
    """The SHA-256 sum of a file."""
    with open(path, "rb") as file:
        return hashlib.sha256(file.read()).hexdigest()


def here():
    """The release of the checkout, the unpacked archive or the installation in which the tool is."""
    return of_repository() if places.IS_REPOSITORY else of_text(places.stored("RELEASE"))


def lines():
    """What is known of the tool and of the program that it runs. Only the program that a release was packed with is
    known to be the proved one."""
    release, proved = here(), ""
    try:
        total = sum_of(program.path())
        is_of_it = total == release.program
        proved = f", proved with {release.kit}" if is_of_it else ""
        told = f"{program.title()}, SHA-256 {total}: {'of this release' if is_of_it else 'not of a release'}"
    except Refused as error:
        told = str(error)
    return f"psyn {release.version}, commit {release.commit}{proved}\nprogram {told}\n{FORMATS}\n"
