#!/usr/bin/env python3
"""Runs circuits on 256 stimuli at once (in lanes) and on one stimulus after another, compares the results, and times
the steps of both kinds of runs.

  bench/lanes.py [--random N] [--program PROGRAM]

psyn has no command that runs many stimuli, so the script builds the program bench/lanes in a temporary folder. The
program uses copies of the crates, with the libraries that earlier checks built in the crates' folders out/. --program
names a program that was built before. The program runs eight random letters in each of the 256 lanes, and fails if an
output or a latch of a lane differs from that of the plain run. Runs in lanes alternate with plain runs (of one stimulus
after another), and the least time of each kind is printed.

--random makes N (200) small random circuits for this comparison, with latches that may read any variable and gates in
any order. Then come circuits of 10000, 100000 and 1000000 gates (those of bench/simulate.py). A line for each circuit
has the nanoseconds that a step takes for each gate, in all lanes at once and in one plain run, and the ratio of the
two.
"""
import argparse
import os
import random
import subprocess
import sys
import tempfile

sys.dont_write_bytecode = True
BENCH = os.path.dirname(os.path.abspath(__file__))
sys.path.insert(0, BENCH)
from sources import made  # noqa: E402
USES = ("anyhow", "ps_circuit", "ps_simulate")
SIZES = (10_000, 100_000, 1_000_000)
LETTERS = 8


def times(program, text):
    """The least nanoseconds that all steps of a run take: `lanes` for runs in lanes, and `plain` for plain runs."""
    run = subprocess.run([program], input=text.encode(), capture_output=True, check=False)
    if run.returncode != 0:
        sys.exit(f"status {run.returncode}: {run.stderr[:200]!r}\n{text[:2000]}")
    found = {}
    for word, number in (line.split() for line in run.stdout.decode().splitlines()):
        found[word] = min(int(number), found.get(word, int(number)))
    return found


def circuit_text(dice):
    """A small random circuit in ASCII AIGER."""
    inputs, latches, gates, outputs = dice.randrange(5), dice.randrange(5), dice.randrange(12), dice.randrange(4)
    most = inputs + latches + gates
    order = list(range(1 + inputs + latches, most + 1))
    dice.shuffle(order)
    known, lines = list(range(1 + inputs + latches)), []
    for variable in order:
        lines.append(f"{2 * variable} " + " ".join(str(2 * dice.choice(known) + dice.randrange(2)) for _ in range(2)))
        known.append(variable)
    dice.shuffle(lines)
    literal = lambda: 2 * dice.randrange(most + 1) + dice.randrange(2)
    head = [f"aag {most} {inputs} {latches} {outputs} {gates}"]
    head += [str(2 * v) for v in range(1, 1 + inputs)]
    head += [f"{2 * v} {literal()} {dice.randrange(2)}" for v in range(1 + inputs, 1 + inputs + latches)]
    head += [str(literal()) for _ in range(outputs)]
    return "\n".join(head + lines) + "\n"


def main():
    words = argparse.ArgumentParser(description=__doc__.split("\n", maxsplit=1)[0])
    words.add_argument("--random", type=int, default=200)
    words.add_argument("--program")
    given = words.parse_args()
    import simulate  # the circuits of the other bench

    with tempfile.TemporaryDirectory() as folder:
        program = given.program or made("lanes", folder, USES, b"aag 0 0 0 0 0\n")
        dice = random.Random(given.random)
        for _ in range(given.random):
            times(program, circuit_text(dice))
        print(
            f"{given.random} circuits: in 256 lanes, {LETTERS} letters long, "
            "outputs and latches as the plain runs have them"
        )
        for gates in SIZES:
            found = times(program, simulate.circuit_text(gates))
            each = {word: nanos / LETTERS / gates for word, nanos in found.items()}
            print(
                f"{gates:>9} gates: {each['lanes']:.1f} ns a gate in lanes, {each['plain']:.1f} in one run, "
                f"ratio {found['lanes'] / found['plain']:.1f}",
                flush=True,
            )


if __name__ == "__main__":
    main()
