#!/usr/bin/env python3
"""Times psyn's `sim`: the steps of a circuit in a second, and the growth of the time with the number of gates.

  bench/simulate.py PSYN [ARGUMENTS..]

Makes circuits of 25000, 50000, 100000 and 200000 gates and a fixed stimulus of 1000 letters, and runs the built psyn on
each circuit twice: with this stimulus, and with an empty stimulus. The difference of the two times is the time of the
steps. Each gate reads two random variables among the inputs, the latches and the gates before it; the text has the
gates in random order.
"""
import random
import subprocess
import sys
import time

INPUTS = 16
LATCHES = 16
OUTPUTS = 16
LETTERS = 1000


def circuit_text(gates):
    """A random circuit with the given number of gates, in ASCII AIGER."""
    dice = random.Random(gates)
    first = 1 + INPUTS + LATCHES
    lines = []
    for variable in range(first, first + gates):
        reads = (2 * dice.randrange(1, variable) + dice.randrange(2) for _ in range(2))
        lines.append(f"{2 * variable} {' '.join(map(str, reads))}\n")
    dice.shuffle(lines)
    most = first + gates - 1
    inputs = "".join(f"{2 * v}\n" for v in range(1, 1 + INPUTS))
    latches = "".join(f"{2 * v} {2 * dice.randrange(first, most + 1)}\n" for v in range(1 + INPUTS, first))
    outputs = "".join(f"{2 * dice.randrange(first, most + 1) + 1}\n" for _ in range(OUTPUTS))
    return f"aag {most} {INPUTS} {LATCHES} {OUTPUTS} {gates}\n{inputs}{latches}{outputs}{''.join(lines)}"


def stimulus():
    """Random letters, one on each line."""
    dice = random.Random(0)
    return "".join("".join(dice.choice("01") for _ in range(INPUTS)) + "\n" for _ in range(LETTERS))


def timed(program, text):
    """The least time of three runs, and the number of lines in the answer."""
    best = None
    for _ in range(3):
        start = time.monotonic()
        run = subprocess.run(program, input=text.encode(), capture_output=True, check=False)
        seconds = time.monotonic() - start
        if run.returncode != 0:
            sys.exit(f"status {run.returncode}: {run.stdout[:200]!r}")
        best = seconds if best is None else min(best, seconds)
    return best, run.stdout.count(b"\n")


def main():
    program = sys.argv[1:]
    if not program:
        sys.exit(__doc__)
    letters = stimulus()
    before = None
    for gates in (25000, 50000, 100000, 200000):
        text = f"sim\n{circuit_text(gates)}%%\n"
        reading, _ = timed(program, text)
        whole, lines = timed(program, text + letters)
        if lines != LETTERS:
            sys.exit(f"{lines} lines for {LETTERS} letters")
        steps = max(whole - reading, 1e-9)
        growth = "" if before is None else f"  growth {steps / before:.2f}"
        print(f"{gates:7} gates  read in {reading:.3f} s  {LETTERS / steps:9.0f} steps a second{growth}", flush=True)
        before = steps


if __name__ == "__main__":
    main()
