#!/usr/bin/env python3
"""Compares the times in which psyn and an unverified solver compute the least counts that a certificate can have; or
compares the counts of random games with those of a plain search.

  bench/counts.py GAMES YARDSTICK [--size SIZE] [--only WORD] [--runs N] [--program PROGRAM]
  bench/counts.py --random N [--program PROGRAM]

psyn has no command that only computes counts, so the script builds the program bench/counts in a temporary folder. The
program uses copies of the crates, with the libraries that earlier checks built in the crates' folders out/. --program
names a program that was built before.

GAMES is a Python file. In this file, FAMILIES maps a family's name to a function that makes a game: a list with
(priority, owner, successors) for each vertex. SUITE maps a size (medium, large) to a list of lines; each line has a
family's name, and the numbers with which the family's function is called. `YARDSTICK solve --out sol --stats FILE`
prints the winners and moves of the game in FILE, and on standard error `counts_ms` and other words with their values.
psyn computes the counts for these winners and moves. The line of each game begins with the numbers of its vertices,
edges and different priorities. For each program, the line has the milliseconds for both players together, without
reading and writing: the least of --runs (3) runs. Then the line has psyn's time divided by that of YARDSTICK, and
psyn's nanoseconds for each edge. Both programs must find the same sum of the counts and the same number of nonzero
counts.

--random makes N small games. Their winners and moves are random, and need not be right. Before these games come a few
fixed games, whose numbers of nonzero counts are known. The counts and the number of nonzero counts, or the existence of
a lost cycle, must be those that a plain search finds.
"""
import argparse
import importlib.util
import os
import random
import subprocess
import sys
import tempfile

BENCH = os.path.dirname(os.path.abspath(__file__))
sys.dont_write_bytecode = True
sys.path.insert(0, BENCH)
from sources import made  # noqa: E402
USES = ("anyhow", "ps_game", "ps_measure")
WIDE = ["random 100000 2 1000 1", "random 20000 2 1000 1"]


def task(is_shown, nodes, winners, moves):
    """The program's input for a game with winners and moves; a move may be None."""
    lines = [f"{int(is_shown)} {len(nodes)}"]
    for (priority, owner, successors), winner, move in zip(nodes, winners, moves):
        steps = " ".join(map(str, successors))
        lines.append(f"{priority} {owner} {len(successors)} {steps} {winner} {0 if move is None else move + 1}")
    return "\n".join(lines).encode()


def answer(program, text):
    """The program's output: for each player the words of the player's first line, and the lines after it."""
    run = subprocess.run([program], input=text, capture_output=True, check=False)
    if run.returncode != 0:
        sys.exit(f"status {run.returncode}: {run.stderr[:300]!r}")
    players = []
    for line in run.stdout.decode().splitlines():
        words = line.split()
        if words[0] == "player":
            players.append((words, []))
        else:
            players[-1][1].append((words[0], list(map(int, words[1:]))))
    return players


# ---------------------------------------------------------------- speed


def solved(yardstick, path, runs):
    """What YARDSTICK prints for the game in a file: the winners, the moves, the other words with their values, and the
    least `counts_ms` of all runs."""
    best = None
    for _ in range(runs):
        run = subprocess.run(
            [yardstick, "solve", "--out", "sol", "--stats", path], capture_output=True, check=True, text=True
        )
        words = run.stderr.split()
        values = dict(zip(words[::2], words[1::2]))
        best = min(best or 1e9, float(values["counts_ms"]))
    winners, moves = [], []
    for line in run.stdout.split(";")[1:]:
        words = line.split()
        if words:
            winners.append(int(words[1]))
            moves.append(int(words[2]) if len(words) > 2 else None)
    return winners, moves, values, best


def measure(program, yardstick, nodes, runs):
    """The values that a game's output line has in its columns."""
    with tempfile.NamedTemporaryFile("w", suffix=".pg") as file:
        file.write(f"parity {len(nodes) - 1};\n")
        file.writelines(f"{v} {p} {o} {','.join(map(str, s))};\n" for v, (p, o, s) in enumerate(nodes))
        file.flush()
        winners, moves, values, theirs = solved(yardstick, file.name, runs)
    text = task(False, nodes, winners, moves)
    ours = None
    for _ in range(runs):
        players = [words for words, _ in answer(program, text)]
        found = [dict(zip(words[::2], words[1::2])) for words in players]
        ours = min(ours or 1e9, sum(int(one["micros"]) for one in found) / 1000)
    for word, other in (("raises", "nonzero"), ("sum", "sum")):
        if sum(int(one[word]) for one in found) != int(values[other]):
            sys.exit(f"{word}: {found}, but {other} {values[other]}")
    edges = int(values["edges"])
    return [
        len(nodes),
        edges,
        values["priorities"],
        f"{ours:.1f}",
        f"{theirs:.1f}",
        f"{ours / max(theirs, 0.001):.2f}",
        f"{ours * 1e6 / edges:.0f}",
    ]


def speed(program, given):
    spec = importlib.util.spec_from_file_location("games", given.games)
    games = importlib.util.module_from_spec(spec)
    spec.loader.exec_module(games)
    print(
        "  ".join(
            f"{word:>10}" for word in ["vertices", "edges", "priorities", "psyn ms", "other ms", "ratio", "ns/edge"]
        )
        + "  game"
    )
    for line in games.SUITE[given.size] + (WIDE if given.size == "large" else []):
        if given.only not in line:
            continue
        name, *numbers = line.split()
        row = measure(program, given.yardstick, games.FAMILIES[name](*map(int, numbers)), given.runs)
        print("  ".join(f"{str(word):>10}" for word in row) + f"  {line}", flush=True)


# ---------------------------------------------------------------- random games


def remaining(nodes, winners, moves, player):
    """The edges inside the region that a player wins: the edges of the opponent's vertices, and the player's moves."""
    return [
        (v, w)
        for v, (_, owner, successors) in enumerate(nodes)
        for w in successors
        if winners[v] == player and winners[w] == player and (owner != player or moves[v] == w)
    ]


def reached(edges, start):
    """The vertices to which paths of at least one edge lead from the vertex `start`."""
    seen, pending = set(), [start]
    while pending:
        v = pending.pop()
        for a, b in edges:
            if a == v and b not in seen:
                seen.add(b)
                pending.append(b)
    return seen


def least(count, edges, level, priority):
    """For each vertex, the least count of the given priority that a certificate can have; counts are raised until
    nothing changes."""
    counts, is_changed = [0] * count, True
    while is_changed:
        is_changed = False
        for v, w in edges:
            need = counts[w] + (level[v] == priority)
            if counts[v] < need:
                counts[v], is_changed = need, True
    return counts


def wrong(nodes, winners, moves, player, words, lines):
    """A message that says what is wrong with the answer for a player, or None."""
    level = [p for p, _, _ in nodes]
    edges = remaining(nodes, winners, moves, player)
    opposing = sorted({p for p in level if p % 2 != player})
    low = {p: [(v, w) for v, w in edges if level[v] <= p and level[w] <= p] for p in opposing}
    is_lost = any(level[v] == p and v in reached(low[p], v) for p in opposing for v in range(len(nodes)))
    if words[-1] == "lost":
        cycle = lines[0][1]
        steps = list(zip(cycle, cycle[1:] + cycle[:1]))
        is_one = cycle and set(steps) <= set(edges) and max(level[v] for v in cycle) % 2 != player
        return None if is_lost and is_one else f"cycle {cycle}"
    if is_lost:
        return "a lost cycle was not shown"
    columns = [least(len(nodes), low[p], level, p) for p in opposing]
    want = [("priorities", opposing)] + [("row", [column[v] for column in columns]) for v in range(len(nodes))]
    raises = sum(count > 0 for column in columns for count in column)
    return None if lines == want and int(words[5]) == raises else f"{words}, {lines}, not {want}"


def drawn(dice):
    """A random game with random winners and moves."""
    count, levels = dice.choice((1, 2, 3, 4, 6, 9, 15)), dice.choice((1, 2, 3, 5, 9))
    degree, loose = dice.choice((1, 1, 2, 3)), dice.choice((0, 0, 0.1, 0.5))
    nodes = [
        (dice.randrange(levels), dice.randrange(2), dice.sample(range(count), dice.randint(1, min(degree, count))))
        for _ in range(count)
    ]
    winners = [dice.choice((0, 1, 2)) if dice.random() < loose else dice.randrange(2) for _ in range(count)]
    if dice.random() < 0.5:
        winners = [dice.randrange(2)] * count
    moves = [
        None if dice.random() < loose else dice.randrange(count) if dice.random() < loose else dice.choice(s)
        for _, _, s in nodes
    ]
    return nodes, winners, moves


KNOWN = [  # (nodes, winners, moves, for both players the raises, or None where a cycle is lost)
    ([(2, 0, [1]), (1, 1, [1]), (1, 0, [2, 0])], [1, 1, 1], [None, 1, None], [0, 2]),
    ([(1, 0, [0, 1]), (2, 0, [0])], [0, 0], [1, 0], [0, 0]),
    ([(1, 0, [0, 1]), (2, 0, [0])], [0, 0], [0, 0], [None, 0]),
    ([(1, 0, [1, 2]), (1, 1, [0]), (1, 0, [0])], [1, 1, 1], [None, 0, None], [0, 0]),
    ([(0, 1, [0, 1]), (1, 1, [1])], [1, 1], [1, 1], [0, 0]),
]


def compare(program, number):
    dice, lost, raised = random.Random(number), 0, 0
    cases = [(case[:3], case[3]) for case in KNOWN] + [(drawn(dice), None) for _ in range(number)]
    for (nodes, winners, moves), known in cases:
        players = answer(program, task(True, nodes, winners, moves))
        for player, (words, lines) in enumerate(players):
            fault = wrong(nodes, winners, moves, player, words, lines)
            raises = None if words[-1] == "lost" else int(words[5])
            if fault or len(players) != 2 or (known and known[player] != raises):
                sys.exit(f"player {player} of {nodes}, {winners}, {moves}: {fault or words}")
            lost += raises is None
            raised += bool(raises)
    print(
        f"{len(cases)} games with two players each: {lost} lost cycles, {raised} tables with counts above 0, "
        "all as the plain search has them"
    )


def main():
    words = argparse.ArgumentParser(description=__doc__.split("\n", maxsplit=1)[0])
    words.add_argument("games", nargs="?")
    words.add_argument("yardstick", nargs="?")
    words.add_argument("--size", default="large")
    words.add_argument("--only", default="")
    words.add_argument("--runs", type=int, default=3)
    words.add_argument("--random", type=int)
    words.add_argument("--program")
    given = words.parse_args()
    if given.random is None and given.yardstick is None:
        sys.exit(__doc__)
    with tempfile.TemporaryDirectory() as folder:
        program = given.program or made("counts", folder, USES, b"0 0")
        if given.random is not None:
            compare(program, given.random)
        else:
            speed(program, given)


if __name__ == "__main__":
    main()
