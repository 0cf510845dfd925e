"""The line of JSON that --json prints in place of an answer."""
import json
import re

from psyntool import console, running
from psyntool.ends import LATE, WRONG_SOLUTIONS

VERDICTS = (
    "REALIZABLE", "UNREALIZABLE", "wins", "loses", "accepted", "rejected", "satisfied", "violated", "valid", "closed",
    "agrees", "accepts", "rejects",
)
# The numbers of faults that say that memory ran out, and that a stated size or the budget was passed.
OUT_OF_MEMORY, LIMITS = "24", ("9", "25", "35", "60", "75", "84")
# The fields of the line, in order, as the manual describes them.
FIELDS = {
    "command": "the command",
    "files": "the words behind it, in a list",
    "status": "the exit status",
    "verdict": "REALIZABLE, UNREALIZABLE, wins, loses, accepted, rejected, satisfied, violated, valid, closed, agrees, "
    "accepts or rejects, or of judge right or wrong",
    "stem": "of lasso, and of verify, shrink and agree where they print a stimulus or a word: "
    "the number of steps before the lap",
    "lap": "the number of steps of the lap, which repeats for ever",
    "fault": "the number of the fault",
    "name": "the name of the fault",
    "offset": "the place of the fault, in bytes from 0",
    "seconds": "how long the command took",
    "error": "why there is no answer, if it is no fault",
    "answer": "what the command prints without --json; bytes that are no UTF-8 are replaced",
    "ended": "by an answer, or by time (--time, --cpu), memory (fault 24), limit (faults 9, 25, 35, 60, 75 and 84, the "
    "sizes and the budget of the program) or fault (anything else)",
}


def run(request):
    """Runs a command, prints one line of JSON about its answer, and returns the exit status."""
    outcome = running.captured(request)
    console.write_text(line_of(request, outcome))
    if outcome.message:
        console.tell(f"psyn: {outcome.message}")
    return outcome.status


def line_of(request, outcome):
    """The line of JSON about a run."""
    return json.dumps(fields_of(request, outcome)) + "\n"


def fields_of(request, outcome):
    """The fields of the line about a run."""
    answer = outcome.written.decode("utf-8", "replace")
    fault = re.match(r"fault (?:(\d+) )?(\w+)(?: at (\d+))?", answer)
    number, name, offset = fault.groups() if fault else (None, None, None)
    stem, lap = steps_of(answer)
    return {
        "command": request.command.name,
        "files": request.words,
        "status": outcome.status,
        "verdict": verdict_of(request.command.name, answer, number, outcome.message),
        "stem": stem,
        "lap": lap,
        "fault": number and int(number),
        "name": name,
        "offset": offset and int(offset),
        "seconds": round(outcome.seconds, 3),
        "error": outcome.message or None,
        "answer": answer,
        "ended": ended(outcome, number),
    }


def ended(outcome, number):
    """How a run ended: with an answer, or by which limit."""
    if outcome.status == LATE:
        return "time"
    if number == OUT_OF_MEMORY:
        return "memory"
    if number in LIMITS:
        return "limit"
    return "fault" if number or outcome.message else "answer"


def verdict_of(command, answer, number, message):
    """The verdict that an answer is, or None."""
    if command == "judge" and not message:
        return (
            "wrong"
            if number in WRONG_SOLUTIONS
            else "right"
            if number is None and answer.startswith("psyncert")
            else None
        )
    if command == "shrink" and re.match(r"aag \d", answer):
        return "wins"
    word = re.match(r"\w*", answer)[0]
    return word if word in VERDICTS else None


def steps_of(answer):
    """The numbers of steps of the stem and of the lap that `lasso` or `verify` prints; each is None in another
    answer."""
    found = re.match(r"(?:accepted|rejected|satisfied|violated) stem (\d+) lap (\d+)$", answer, re.M)
    if found:
        return int(found[1]), int(found[2])
    found = re.match(r"(?:loses|accepts|rejects)\n((?:[01]*\n)*)-\n((?:[01]*\n)*)", answer)
    return (found[1].count("\n"), found[2].count("\n")) if found else (None, None)
