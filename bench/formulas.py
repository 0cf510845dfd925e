#!/usr/bin/env python3
"""Compares `lasso --tlsf` with another program's evaluator of formulas, on random formulas and lassos.

  bench/formulas.py PEER [COUNT [SEED]]

PEER is a command that reads lines, each with a formula, a tab and a lasso, and writes `yes` or `no` for each. All
parentheses of a formula are written. A lasso is `10,01(00,11)`: the letters of the stem, and in parentheses those of
the lap; a letter has a digit for each proposition, in the order in which the formula first names them. Formulas have up
to 30 nodes and up to five propositions. psyn ($PSYN, or crates/psyn/out/psyn) gets a circuit whose inputs are all
propositions, and the lasso as its stimulus. Prints how many answers agree, and each formula on which they differ.
"""
import os
import random
import shlex
import subprocess
import sys
import time

sys.dont_write_bytecode = True
sys.path.insert(0, os.path.join(os.path.dirname(os.path.dirname(os.path.abspath(__file__))), "tools"))

from psyntool.program import path as program  # noqa: E402
from tests import formulas  # noqa: E402
from upkeep import sweeps  # noqa: E402

NODES, NAMES, CHUNK = 30, ("a", "b", "c", "d", "e"), 5000


def renamed(formula, places):
    """The formula, with its propositions numbered in the order in which it first names them."""
    head, *operands = formula
    if head == "name":
        return ("name", places.setdefault(operands[0], len(places)))
    return (head, *(renamed(operand, places) for operand in operands))


def asked(chance):
    """A random formula with its number of propositions, and a lasso; at least one proposition occurs."""
    while True:
        places = {}
        formula = renamed(
            formulas.a_formula(chance, chance.randrange(1, NODES + 1), chance.randrange(1, len(NAMES) + 1)), places
        )
        if places:
            return formula, len(places), *formulas.a_lasso(chance, len(places))


def digits(letters):
    return ",".join("".join("01"[bit] for bit in letter) for letter in letters)


def answer_of(path, row):
    formula, count, stem, lap = row
    names = NAMES[:count]
    given = formulas.input_of(formulas.specification_of(formula, names), names, stem, lap)
    told = subprocess.run([path], input=given.encode(), stdout=subprocess.PIPE, check=False).stdout.decode()
    lengths = f" stem {len(stem)} lap {len(lap)}\n"
    return {f"satisfied{lengths}": "yes", f"violated{lengths}": "no"}.get(told, told)


def main():
    if not 2 <= len(sys.argv) <= 4:
        print(__doc__, end="")
        return 2
    peer, count, seed = sys.argv[1], *map(int, (sys.argv[2:] + ["100000", "1"][len(sys.argv) - 2 :]))
    chance, path, began, agreed, wrong, yes = random.Random(seed), program(), time.monotonic(), 0, 0, 0
    while agreed + wrong < count:
        rows = [asked(chance) for _ in range(min(CHUNK, count - agreed - wrong))]
        lines = [f"{formulas.text_of(row[0], NAMES)}\t{digits(row[2])}({digits(row[3])})" for row in rows]
        theirs = subprocess.run(
            shlex.split(peer), input="\n".join(lines) + "\n", stdout=subprocess.PIPE, text=True, check=True
        ).stdout.split()
        ours = sweeps.at_once(lambda row: answer_of(path, row), rows)
        for line, one, other in zip(lines, ours, theirs, strict=True):
            yes += one == "yes"
            agreed, wrong = agreed + (one == other), wrong + (one != other)
            if one != other:
                print(f"psyn {one.strip()}, peer {other}: {line}")
    print(f"{agreed} of {count} agree, {yes} of them satisfied; {time.monotonic() - began:.0f} s")
    return 1 if wrong else 0


if __name__ == "__main__":
    sys.exit(main())
