#!/usr/bin/env python3
"""Counts the states and edges of the tableaux of families of specifications, and times them.

  bench/tableaux.py [--most SECONDS] [--program PROGRAM]

psyn has no command that only makes tableaux, so the script builds the program bench/tableaux in a temporary folder. The
program uses copies of the crates, with the libraries that earlier checks built in the crates' folders out/. --program
names a program that was built before.

First the script counts the tableaux of twenty formulas and of their negations, and compares the counts with those that
are written below. A difference ends the script with status 1.

Then each line has a specification of a family, the states and edges of its tableau and of that of its negation, and the
processor milliseconds of the whole process (the least of three runs). At the end of a line is what doubling the edges
costs, judged by this line and the one before. A family ends when a run takes more than SECONDS (10). The families are:
    answered   each request r is followed by a grant g
    gr1        if each input is true again and again, so is each output
    arbiter    full arbiters, whose grants exclude each other and are given only on request
    delay      g repeats r later by so many steps
    steps      r may hold only if r held so many steps before, or only then
"""
import argparse
import math
import os
import re
import resource
import subprocess
import sys
import tempfile

sys.dont_write_bytecode = True
BENCH = os.path.dirname(os.path.abspath(__file__))
sys.path.insert(0, BENCH)
from sources import made  # noqa: E402
# For each formula and its negation the states and edges, as psyn counts them, and then, where they differ, as a
# yardstick program outside this repository counts them. That program begins with both sides of a conjunction, where
# psyn has a state for the conjunction, and it expands `<->` in another way.
FORMULAS = (
    ("G (r -> F g)", (2, 4), (2, 3), None),
    ("(G F a) -> G F b", (4, 9), (3, 10), ((4, 9), (2, 6))),
    ("a U b", (2, 3), (2, 3), None),
    ("a W b", (2, 3), (2, 3), None),
    ("a R b", (2, 3), (2, 3), None),
    ("b U (a && b)", (2, 3), (2, 3), None),
    ("F G a", (2, 3), (1, 2), None),
    ("X X a", (4, 4), (4, 4), None),
    ("G (a -> X (b U c))", (2, 5), (3, 5), None),
    ("G (a -> F G b)", (3, 6), (2, 5), None),
    ("F (a && G (b || F c))", (3, 7), (4, 9), None),
    ("((G F a) && G F b) -> ((G F c) && G F d)", (6, 18), (5, 40), None),
    ("((G F a) -> G F b) && ((G F c) -> G F d)", (10, 41), (5, 20), None),
    ("(G !p) || F (q && F p)", (5, 11), (5, 10), ((5, 11), (4, 7))),
    ("(F r) -> ((!p) U r)", (4, 7), (4, 7), ((4, 7), (3, 5))),
    ("((G F p) || F G q) && ((G F q) || F G s)", (10, 38), (5, 20), None),
    ("a U (b U G c)", (3, 6), (4, 13), ((3, 6), (5, 20))),
    ("G F (a && X b)", (2, 4), (3, 7), None),
    ("G (q <-> X X X p)", (15, 30), (8, 10), None),
    ("(!((G F a) && G F b)) <-> G F c", (13, 75), (10, 42), ((7, 40), (16, 77))),
)
USES = ("anyhow", "ps_formula", "ps_tableau", "ps_tlsf")


def answered(n):
    return [], [f"G (r{i} -> F g{i})" for i in range(n)], "rg"


def gr1(n):
    return [f"G F r{i}" for i in range(n)], [f"G F g{i}" for i in range(n)], "rg"


def arbiter(n):
    formulas = [f"G !(g{i} && g{k})" for i in range(n) for k in range(i + 1, n)]
    for i in range(n):
        formulas += [
            f"G (r{i} -> F g{i})",
            f"G ((g{i} && G !r{i}) -> F !g{i})",
            f"G ((g{i} && X (!r{i} && !g{i})) -> X (r{i} R !g{i}))",
            f"r{i} R !g{i}",
        ]
    return [], formulas, "rg"


def delay(n):
    return [], [f"G (g0 <-> {'X ' * n}r0)"], "rg"


def steps(n):
    return [], [f"G ((X r0) -> {'X ' * n}g0)", "F G r0"], "rg"


def text(n, assumed, formulas, names):
    listed = [" ".join(f"{name}{i};" for i in range(n)) for name in names]
    assume = f"ASSUME {{ {' '.join(f'{formula};' for formula in assumed)} }}" if assumed else ""
    guarantee = " ".join(f"{formula};" for formula in formulas)
    head = "INFO { SEMANTICS: Mealy TARGET: Mealy }"
    return f"{head} MAIN {{ INPUTS {{ {listed[0]} }} OUTPUTS {{ {listed[1]} }} {assume} GUARANTEE {{ {guarantee} }} }}"


def run(program, given, most):
    """Of both tableaux the numbers of states and edges, and the processor seconds; none if that takes too long."""
    with tempfile.TemporaryFile() as file:
        file.write(given.encode())
        file.seek(0)
        process = subprocess.Popen([program], stdin=file, stdout=subprocess.PIPE, preexec_fn=lambda: limit(most))
        told = process.stdout.read().decode()
        _, status, used = os.wait4(process.pid, 0)
        process.returncode = status
    if status != 0:
        return None
    words = [line.split() for line in told.splitlines()]
    return [(int(line[0]), int(line[2])) for line in words], used.ru_utime + used.ru_stime


def limit(seconds):
    resource.setrlimit(resource.RLIMIT_CPU, (seconds, seconds + 1))


def compare(program):
    """Compares the counts of the twenty formulas. Returns whether they are as expected."""
    same = True
    for formula, whole, negation, other in FORMULAS:
        names = sorted(set(re.findall(r"\b[a-z]\b", formula)))
        head = "INFO { SEMANTICS: Mealy TARGET: Mealy }"
        listed = " ".join(f"{name};" for name in names)
        given = f"{head} MAIN {{ INPUTS {{ }} OUTPUTS {{ {listed} }} GUARANTEE {{ {formula}; }} }}"
        found, _ = run(program, given, 10)
        note = f"  the yardstick program: {other[0]} {other[1]}" if other else ""
        print(f"{formula:42}  {found[0]} {found[1]}{note}")
        if found != [whole, negation]:
            print(f"    expected: {whole} {negation}")
            same = False
    return same


def doubling(last, now):
    """What doubling the edges costs, judged by two specifications, where this can be told."""
    if last is None or last[1] < 0.005 or now[0] <= last[0]:
        return ""
    return f"  {(now[1] / last[1]) ** (1 / math.log2(now[0] / last[0])):.1f} times a doubling"


def main():
    parser = argparse.ArgumentParser(description=__doc__, formatter_class=argparse.RawDescriptionHelpFormatter)
    parser.add_argument("--most", type=int, default=10)
    parser.add_argument("--program")
    words = parser.parse_args()
    with tempfile.TemporaryDirectory() as folder:
        program = words.program or made("tableaux", folder, USES, b"")
        same = compare(program)
        for family in (answered, gr1, arbiter, delay, steps):
            last = None
            for n in range(1, 17):
                runs = [run(program, text(n, *family(n)), words.most) for _ in range(3)]
                if None in runs:
                    break
                (whole, negation), _ = runs[0]
                now = (whole[1] + negation[1], min(seconds for _, seconds in runs))
                sizes = f"{whole[0]:6} states {whole[1]:7} edges, negation {negation[0]:4} {negation[1]:6}"
                print(f"{family.__name__:8} {n:2}  {sizes}  {1000 * now[1]:6.0f} ms{doubling(last, now)}", flush=True)
                last = now
    sys.exit(0 if same else 1)


if __name__ == "__main__":
    main()
