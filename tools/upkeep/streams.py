"""Disturbs one read or write of a run, and says which answers are then right. tools/refuse-streams says how calls are
disturbed."""
import os
import subprocess
import tempfile

READ_FAULT = (b"fault 25 ReadFault\n", 1)
SECONDS = 60
WAYS = ("fails", "interrupted", "one", "none")


def run(program, shim, path, number, way, others=None):
    """The program's output and exit status, and a letter for each of its calls: r or w, in upper case if the call was
    disturbed.

    With `others`, each call that is not disturbed moves at most one byte.
    """
    with open(path, "rb") as text, tempfile.TemporaryFile() as calls:
        told = {"SPOILED_CALL": str(number), "SPOILED_HOW": way, "SPOILED_TELLS": str(calls.fileno())}
        if others:
            told["SPOILED_OTHERS"] = others
        done = subprocess.run(
            [program],
            stdin=text,
            stdout=subprocess.PIPE,
            env={**os.environ, "LD_PRELOAD": shim, **told},
            pass_fds=[calls.fileno()],
            timeout=SECONDS,
            check=False,
        )
        calls.seek(0)
        return (done.stdout, done.returncode), calls.read().decode()


def is_right(way, calls, answer, expected):
    """Whether an answer is right for the given disturbance of one read or write. `calls` has a letter for each read
    and write of the run, as `run` returns them."""
    spoiled = [place for place, letter in enumerate(calls) if letter.isupper()]
    if way == "one" or not spoiled:
        return answer == expected
    behind = calls[spoiled[0] + 1 :]
    if calls[spoiled[0]] == "R":
        return answer == READ_FAULT and "r" not in behind
    return answer[1] == 1 and expected[0].startswith(answer[0]) and not behind


def sweep(program, shim, path, expected):
    """The number of runs in which a call was disturbed; and, for each run that `is_right` rejects, the disturbance, the
    number of the call to disturb, the letters of the calls, and the answer."""
    spoiled, wrong = 0, []
    for way in WAYS:
        # Each call is disturbed in turn (with `none`, only the writes). The last number is greater than the number of
        # calls, so no call is disturbed. For the disturbance `one`, the number 0 means that every call is disturbed.
        numbers = [0] if way == "one" else []
        calls = run(program, shim, path, 0, "not")[1]
        numbers += range(1, len(calls) + 2)
        for number in numbers:
            answer, calls = run(program, shim, path, number, way)
            spoiled += any(letter.isupper() for letter in calls)
            if not is_right(way, calls, answer, expected):
                wrong.append((way, number, calls, answer))
    return spoiled, wrong


def by_bytes(length, number, expected):
    """What `run` must return (the answer, and a letter for each call) if each read and write moves at most one byte and
    the call with the given number fails (0: none fails)."""
    reads = "r" * (length + 1)
    if number == 0:
        return expected, reads + "w" * len(expected[0])
    if number <= len(reads):
        return READ_FAULT, reads[: number - 1] + "R" + "w" * len(READ_FAULT[0])
    written = number - len(reads) - 1
    return (expected[0][:written], 1), reads + "w" * written + "W"


def sweep_by_bytes(program, shim, path, expected, at_once):
    """Runs the program with reads and writes of at most one byte: once undisturbed, and then with each read and write
    disturbed in turn. Returns the number of runs, and a list of the runs whose results are wrong."""
    length = os.path.getsize(path)
    calls = length + 1 + len(expected[0])
    runs = [("not", 0), *((way, number) for way in ("fails", "interrupted") for number in range(1, calls + 1))]
    runs += [("none", number) for number in range(length + 2, calls + 1)]

    def fault_of(chosen):
        way, number = chosen
        found = run(program, shim, path, number, way, others="one")
        return None if found == by_bytes(length, number, expected) else (way, number, found)

    return len(runs), [wrong for wrong in at_once(fault_of, runs) if wrong]
