#!/usr/bin/env python3
"""Looks for fair cycles of random graphs, and compares the answers with a plain search; then times graphs of growing
size.

  bench/fair_cycles.py [--random N] [--most VERTICES] [--program PROGRAM]

psyn has no command that only looks for fair cycles, so the script builds the program bench/fair_cycles in a temporary
folder. The program uses copies of the crates, with the libraries that earlier checks built in the crates' folders out/.
--program names a program that was built before.

--random makes N (1000) random graphs of at most 8 vertices with at most 4 marks. A cycle that the program prints must
be closed and have each mark on an edge. If the program prints none, there must be no strongly connected component with
each mark on an edge within it, and with at least one edge.

Then the script times graphs whose vertices have four edges each. Each graph has twice as many vertices as the one
before, up to VERTICES (1048576). A line for each graph has the edges, the marks, the edges of the cycle, the
milliseconds (the least of seven runs), and these divided by the milliseconds of the line above. The families are:
    ring       edges to the next four vertices of a ring; one edge bears each mark
    back       as ring, but the marks are in such an order that the cycle goes around the ring once for each mark
    drawn      edges to random vertices nearby, with random marks, of which one is missing
    rings      rings of 64 vertices that lead to the next ring; each bears each mark but the last
"""
import argparse
import os
import random
import subprocess
import sys
import tempfile

sys.dont_write_bytecode = True
BENCH = os.path.dirname(os.path.abspath(__file__))
sys.path.insert(0, BENCH)
from sources import made  # noqa: E402
USES = ("anyhow", "ps_components", "ps_fairness")
LEAST = 65_536
MARKS = 8
NONE = 1 << 40


def answer(program, marks, slots):
    """The nanoseconds, the number of the cycle's edges, and the edges if they are shown."""
    text = f"{marks} " + "".join(f"{to} {mark} " for to, mark in slots)
    run = subprocess.run([program], input=text.encode(), capture_output=True, check=False)
    if run.returncode != 0:
        sys.exit(f"status {run.returncode}: {run.stderr[:300]!r}")
    head, *rest = run.stdout.decode().splitlines()
    nanos, count = map(int, head.split())
    words = [int(word) for word in rest[0].split()] if rest else []
    return nanos, count, list(zip(words[::2], words[1::2]))


def reached(slots, start):
    """The vertices to which one or more edges lead from a vertex."""
    count, met, left = len(slots) // 4, set(), [start]
    while left:
        v = left.pop()
        for to, _ in slots[4 * v : 4 * v + 4]:
            if to < count and to not in met:
                met.add(to)
                left.append(to)
    return met


def is_full(marks, slots):
    """Whether each mark is on an edge within a component that has an edge."""
    count = len(slots) // 4
    on = [reached(slots, v) for v in range(count)]
    for v in range(count):
        inside = {u for u in on[v] if v in on[u]}
        edges = [slots[4 * u + k] for u in inside for k in range(4) if slots[4 * u + k][0] in inside]
        if edges and {mark for _, mark in edges} >= set(range(marks)):
            return True
    return False


def check(program, marks, slots):
    _, count, walk = answer(program, marks, slots)
    if count != len(walk):
        return "not shown"
    if not walk:
        return "a full component is missed" if is_full(marks, slots) else None
    ends = [slots[4 * v + k] for v, k in walk]
    if [to for to, _ in ends] != [v for v, _ in walk[1:] + walk[:1]]:
        return "the walk is not closed"
    if not {mark for _, mark in ends} >= set(range(marks)):
        return "a mark is missing"
    return None


def drawn_small(dice):
    count, marks = dice.randrange(9), dice.randrange(5)
    sparse = dice.random()
    return marks, [
        (NONE if dice.random() < sparse else dice.randrange(count), dice.randrange(marks + 2)) for _ in range(4 * count)
    ]


def ring(count, dice):
    places = {count // MARKS * k: k for k in range(MARKS)}
    return [
        ((v + step) % count, places.get(v, NONE) if step == 1 else NONE) for v in range(count) for step in (1, 2, 3, 4)
    ]


def back(count, dice):
    """Only the first slots are within the ring's cycle of single steps, so that each detour goes around the ring."""
    places = {count // MARKS * k: MARKS - 1 - k for k in range(MARKS)}
    return [((v + 1) % count, places.get(v, NONE)) for v in range(count) for _ in range(4)]


def drawn(count, dice):
    return [
        ((v + dice.randrange(-500, 500)) % count, dice.randrange(MARKS - 1)) for v in range(count) for _ in range(4)
    ]


def rings(count, dice):
    slots = []
    for v in range(count):
        start = v // 64 * 64
        after = start + 64 if start + 64 < count else NONE
        slots += [
            (start + (v + 1) % 64, v % (MARKS - 1)),
            (start + (v + 7) % 64, NONE),
            (after, NONE),
            (start + (v * 3) % 64, NONE),
        ]
    return slots


def main():
    parser = argparse.ArgumentParser(description=__doc__.splitlines()[0])
    parser.add_argument("--random", type=int, default=1000)
    parser.add_argument("--most", type=int, default=1_048_576)
    parser.add_argument("--program")
    options = parser.parse_args()
    with tempfile.TemporaryDirectory() as folder:
        program = options.program or made("fair_cycles", folder, USES, b"0 ")
        dice = random.Random(7)
        found = 0
        for number in range(options.random):
            marks, slots = drawn_small(dice)
            why = check(program, marks, slots)
            if why:
                sys.exit(f"graph {number}: {why}: {marks} marks, slots {slots}")
            found += is_full(marks, slots)
        print(f"random graphs: {options.random}, of which {found} have a fair cycle")
        for family in (ring, back, drawn, rings):
            last = None
            count = LEAST
            while count <= options.most:
                slots = family(count, random.Random(count))
                runs = [answer(program, MARKS, slots) for _ in range(7)]
                millis = min(nanos for nanos, _, _ in runs) / 1e6
                ratio = f"{millis / last:5.2f}" if last else "    -"
                print(
                    f"{family.__name__:6} edges {4 * count:9} marks {MARKS} cycle {runs[0][1]:9} "
                    f"{millis:9.1f} ms {ratio}"
                )
                last = millis
                count *= 2


if __name__ == "__main__":
    main()
