#!/usr/bin/env python3
"""Times `game`, from an automaton's text to the text of its game, for games of some 10^3 to 10^6 vertices.

  bench/game_of.py PSYN [--moore] [--runs N] [--edges N] [FAMILY..]

PSYN is the built program (crates/psyn/out/psyn). In a state, two letters of the inputs are in one class if each value
of the output has the same effect after both letters. The families are:
    states     64 to 64,000 states (more would make the text too long), each with 16 classes of one letter
    classes    64 states, each with 16 to 8,192 classes of one letter
In the family `states`, after each letter of the inputs, one value of the output leads to the sink. With the other value
of the output, different letters of the inputs lead to different states. Each automaton is about twice as large as the
one before, up to --edges edges (1,048,576, the most that psyn reads). A line for each automaton has the number of its
states, of the classes in each state, and of the vertices and the edges of its game. The line also has the number of
bytes that psyn reads, and the number of bytes that it prints. Then the line has the least seconds of --runs (3) runs of
the whole process. At its end, the line has the growth of the seconds for each doubling of the vertices since the line
above (2: the time is proportional to the vertices).

Run the script on a machine that does nothing else. A small automaton is run before the first line, so that the program
is already in memory.
"""
import argparse
import math
import os
import subprocess
import sys
import time

FEW = 64
SIZES = [FEW << k for k in range(10)] + [64_000]
INPUTS = range(4, 14)


def head(states, inputs):
    """The beginning of an automaton: each edge is in one of four sets, and the acceptance condition is a chain of these
    sets."""
    names = " ".join(f'"i{k}"' for k in range(inputs))
    chain = "Inf(3) | (Fin(2) & (Inf(1) | Fin(0)))"
    return (
        f'HOA: v1\nStates: {states}\nStart: 0\nAP: {inputs + 1} {names} "o"\ncontrollable-AP: {inputs}\nAcceptance: '
        f'4 {chain}\n'
    )


def by_states(states):
    """In each state, each letter of the four inputs has an edge for one value of the output."""
    parts = [head(states, 4)]
    for x in range(16):
        parts.append(
            f"Alias: @{x} "
            + "&".join(f"{'' if x >> p & 1 else '!'}{p}" for p in range(4))
            + f"&{'' if x % 2 else '!'}4\n"
        )
    parts.append("--BODY--\n")
    for q in range(states):
        parts.append(f"State: {q}\n")
        parts.extend("[@%d] %d {%d}\n" % (x, (q + x * 7919 + 1) % states, x >> 2) for x in range(16))
    parts.append("--END--\n")
    return "".join(parts)


def by_classes(inputs):
    """Each state has an edge for each letter; the low bits of a letter are the inputs, and the high bit is the output.
    The targets and the acceptance set for the two values of the output together determine all bits of the inputs, so no
    two letters of the inputs are in one class."""
    parts = [head(FEW, inputs), "--BODY--\n"]
    for q in range(FEW):
        parts.append(f"State: {q}\n")
        parts.extend("%d {%d}\n" % ((x + q) % FEW, x >> 12) for x in range(1 << inputs))
        parts.extend("%d {%d}\n" % (((x >> 6) + q) % FEW, x >> 12) for x in range(1 << inputs))
    parts.append("--END--\n")
    return "".join(parts)


def automata(family, most):
    """The automata of a family, each about twice as large as the one before; with each automaton, its number of states,
    and the number of classes in each state (letters of the inputs with the same effect form a class)."""
    if family == "states":
        for states in SIZES:
            if 16 * states <= most:
                yield by_states(states), states, 16
    else:
        for inputs in INPUTS:
            if 2 * FEW << inputs <= most:
                yield by_classes(inputs), FEW, 1 << inputs


def least(command, given, runs):
    """The least seconds of the given number of runs, and the output of the last run."""
    best, printed = math.inf, b""
    for _ in range(runs):
        start = time.perf_counter()
        run = subprocess.run(command, input=given, capture_output=True, check=False)
        best = min(best, time.perf_counter() - start)
        printed = run.stdout
        if run.returncode != 0:
            sys.exit(printed.decode(errors="replace"))
    return best, printed


def tell(words):
    print("  ".join(f"{word:>10}" for word in words), flush=True)


def measure(psyn, family, line, runs, most):
    last = None
    for made, states, classes in automata(family, most):
        given = line + made.encode()
        seconds, printed = least([psyn], given, runs)
        rows = printed.splitlines()
        vertices = len(rows) - 1
        if rows[0] != b"parity %d;" % (vertices - 1):
            sys.exit(f"{family}: {rows[0].decode(errors='replace')} before {vertices} vertices")
        edges = sum(row.count(b",") + 1 for row in rows[1:])
        growth = f"{2 ** (math.log(seconds / last[1]) / math.log(vertices / last[0])):.2f}" if last else "-"
        tell([family, states, classes, vertices, edges, len(given), len(printed), f"{seconds:.3f}", growth])
        last = (vertices, seconds)


def main():
    words = argparse.ArgumentParser(description=__doc__, formatter_class=argparse.RawDescriptionHelpFormatter)
    words.add_argument("psyn")
    words.add_argument("families", nargs="*", default=["states", "classes"], metavar="FAMILY")
    words.add_argument("--moore", action="store_true")
    words.add_argument("--runs", type=int, default=3)
    words.add_argument("--edges", type=int, default=1_048_576)
    given = words.parse_args()
    for family in given.families:
        if family not in ("states", "classes"):
            words.error(f"no family is named {family}")
    line = b"game --moore\n" if given.moore else b"game\n"
    psyn = os.path.abspath(given.psyn)
    least([psyn], line + by_states(FEW).encode(), 1)
    tell(["family", "states", "classes", "vertices", "edges", "bytes in", "bytes out", "seconds", "doubling"])
    for family in given.families:
        measure(psyn, family, line, given.runs, given.edges)


if __name__ == "__main__":
    main()
