"""Lets one allocation of a run fail, and says which answers are then right. tools/refuse-growths says which allocations
fail."""
import os
import subprocess

OUT_OF_MEMORY = (b"fault 24 OutOfMemory\n", 1)
SECONDS = 60


def run(program, shim, path, number):
    """The program's output and exit status, and whether the allocation with the given number was made, and so
    refused."""
    asked, tells = os.pipe()
    environment = {**os.environ, "LD_PRELOAD": shim, "REFUSED_GROWTH": str(number), "REFUSED_TELLS": str(tells)}
    with open(path, "rb") as text:
        done = subprocess.run(
            [program], stdin=text, stdout=subprocess.PIPE, env=environment, pass_fds=[tells], timeout=SECONDS,
            check=False
        )
    os.close(tells)
    was_refused = os.read(asked, 1) != b""
    os.close(asked)
    return (done.stdout, done.returncode), was_refused


def sweep(program, shim, path, expected):
    """The number of allocations for an input, how many of the refused ones led to fault 24, and the wrong answers."""
    growths, faults, wrong = 0, 0, []
    answer, _ = run(program, shim, path, 0)
    if answer != expected:
        wrong.append((0, answer))
    while True:
        answer, was_refused = run(program, shim, path, growths + 1)
        if not was_refused:
            return growths, faults, wrong
        growths += 1
        faults += answer == OUT_OF_MEMORY != expected
        if answer not in (expected, OUT_OF_MEMORY):
            wrong.append((growths, answer))


def sweep_test(program, shim, name):
    """The number of allocations in a test, and a list of the numbers of those whose failure makes the test fail."""
    growths, failed = 0, []
    while True:
        asked, tells = os.pipe()
        environment = {
            **os.environ, "LD_PRELOAD": shim, "REFUSED_GROWTH": str(growths + 1), "REFUSED_TELLS": str(tells)
        }
        done = subprocess.run(
            [program, name], capture_output=True, env=environment, pass_fds=[tells], timeout=SECONDS, check=False
        )
        os.close(tells)
        was_refused = os.read(asked, 1) != b""
        os.close(asked)
        if not was_refused:
            return growths, failed
        growths += 1
        if done.returncode != 0:
            failed.append(growths)
