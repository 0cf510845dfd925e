"""Logs of runs: a line of JSON for each run that has ended.

The run of a line is not done again, so that a search that was cut off goes on where it ended. A last line that was cut
is taken out, and its run done again. Only one command at a time writes a log.
"""
import contextlib
import fcntl
import json
import os
import re

from psyntool import reporting
from psyntool.command import CPU, MEMORY, TIME
from psyntool.ends import Refused, Unwritten

# The fields of a line, in order.
FIELDS = {
    "command": "the command",
    "files": "its files, in a list",
    "set": "the parameters, each NAME=VALUE, in a list",
    "verdict": "as --json tells it",
    "expected": "the verdict that a comment `//STATUS : realizable` or `unrealizable` of the specification names",
    "ended": "answer, time, memory, limit or fault, as --json tells it",
    "status": "the exit status",
    "processor": "the seconds of processor time of the programs that were run",
    "seconds": "the seconds by the clock",
    "memory": "the most MiB of one of these programs",
    "latches": "of the circuit",
    "gates": "of the circuit",
    "fault": "the number of the fault",
    "error": "why there is no answer, if it is no fault",
    "within": "the seconds of --time or --cpu, the smaller of both",
    "most": "the MiB of --memory",
}
EXPECTED = re.compile(rb"(?mi)^[ \t]*//[ \t]*STATUS[ \t]*:[ \t]*(realizable|unrealizable)[ \t\r]*$")
CIRCUIT = re.compile(rb"(?m)^a[ai]g \d+ \d+ (\d+) \d+ (\d+)\b")


@contextlib.contextmanager
def opened(path):
    """A log that this command alone writes, as long as it is open; None without a path."""
    if path is None:
        yield None
        return
    with file_of(path) as file:
        yield Log(path, file)


def file_of(path):
    """The file of a log, which no other command can write now."""
    try:
        file = open(path, "ab+")
    except OSError as error:
        raise Refused(f"{path}: {error.strerror}") from None
    try:
        fcntl.flock(file, fcntl.LOCK_EX | fcntl.LOCK_NB)
    except OSError:
        file.close()
        raise Refused(f"{path}: another command writes this log") from None
    return file


class Log:
    """An open log: the runs that it has, and its file, to which lines are appended."""

    def __init__(self, path, file):
        self.path = path
        self.file = file
        file.seek(0)
        whole = file.read()
        self.known = {key_of(line) for line in read(path, whole)}
        end = whole.rfind(b"\n") + 1
        if end < len(whole):
            os.ftruncate(file.fileno(), end)

    def has(self, command, run):
        return (command.name, run.files, run.settings) in self.known

    def add(self, record):
        """Appends a line."""
        said = (json.dumps(record) + "\n").encode()
        try:
            while said:
                said = said[os.write(self.file.fileno(), said) :]
        except OSError as error:
            raise Unwritten(f"{self.path}: {error.strerror}") from None


def read(path, whole):
    """The lines of a log, without a last line that was cut."""
    found = []
    for row, line in enumerate(whole.split(b"\n")[:-1], 1):
        try:
            one = json.loads(line)
        except ValueError:
            one = None
        if not isinstance(one, dict) or not is_sound(one):
            raise Refused(f"{path}:{row}: this is no line of a log of `each`")
        found.append(one)
    return found


def is_sound(line):
    """Whether a line has the fields by which its run is known, and those that a table reads."""
    numbers = [line.get(name) for name in ("processor", "seconds", "within")]
    return (
        isinstance(line.get("command"), str)
        and all(isinstance(line.get(name), list) for name in ("files", "set"))
        and all(isinstance(word, str) for name in ("files", "set") for word in line[name])
        and all(number is None or isinstance(number, (int, float)) for number in numbers)
        and all(line.get(name) is None or isinstance(line[name], str) for name in ("verdict", "expected", "ended"))
    )


def key_of(line):
    """What a line's run is known by: the command, the files and the parameters."""
    return line["command"], tuple(line["files"]), tuple(line["set"])


def record_of(request, run, done):
    """The line about a run."""
    outcome = done.outcome
    told = reporting.fields_of(request, outcome)
    circuit = CIRCUIT.search(outcome.written)
    seconds = [request.number(flag) for flag in (TIME, CPU) if request.has(flag)]
    made = {
        "files": list(run.files),
        "set": list(run.settings),
        "expected": expected_of(run.files[0]),
        "processor": round(done.processor, 3),
        "memory": round(done.memory, 1),
        "latches": circuit and int(circuit[1]),
        "gates": circuit and int(circuit[2]),
        "within": min(seconds, default=None),
        "most": request.number(MEMORY),
    }
    return {name: made.get(name, told.get(name)) for name in FIELDS}


def expected_of(path):
    """The verdict that a specification's comment expects, or None."""
    try:
        with open(path, "rb") as file:
            found = EXPECTED.search(file.read())
    except OSError:
        return None
    return found and found[1].decode().upper()
