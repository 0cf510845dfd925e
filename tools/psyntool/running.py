"""Runs a parsed command line within its limits, and tells how it ended."""
import time
from dataclasses import dataclass

from psyntool import console
from psyntool.command import LIMITS, PROGRESS
from psyntool.ends import FAULT, LATE, REFUSED, Refused, TimeUp, Unwritten
from psyntool.texts import Unreadable


@dataclass(frozen=True)
class Outcome:
    """How a run ended: its exit status, a message if it ended early, what it wrote to standard output, and how many
    seconds it took."""

    status: int
    message: str
    written: bytes
    seconds: float


def ended(function, *values):
    """The exit status that a function returns; or, if an exception ends it early, the exit status of that, and its
    message."""
    try:
        return function(*values), ""
    except (Refused, Unreadable) as error:
        return REFUSED, str(error)
    except TimeUp as error:
        return LATE, str(error)
    except Unwritten as error:
        return FAULT, str(error)
    except OSError as error:
        return FAULT, f"{error.filename or 'the system'}: {error.strerror}"


def run(request):
    """Runs a command, and returns the exit status."""
    if request.has(PROGRESS):
        from psyntool import progress

        progress.is_asked = True
    if not any(map(request.has, LIMITS)):
        return request.command.run(request)
    from psyntool import limits

    try:
        limits.begin(request)
        return request.command.run(request)
    finally:
        limits.end()


def captured(request):
    """Runs a command, whose output is kept in place of being written."""
    began, console.kept = time.monotonic(), []
    try:
        status, message = ended(run, request)
        return Outcome(status, message, b"".join(console.kept), time.monotonic() - began)
    finally:
        console.kept = None
