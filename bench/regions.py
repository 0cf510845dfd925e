#!/usr/bin/env python3
"""Solves random games, and compares the answers with a plain enumeration; then times games of growing size.

  bench/regions.py [--random N] [--program PROGRAM] [--beside SOLVER] [--games FOLDER]

psyn has no command that only solves, so the script builds the program bench/regions in a temporary folder. The program
uses copies of the crates, with the libraries that earlier checks built in the crates' folders out/. --program names a
program that was built before.

--random makes N (1000) random games of at most 12 vertices. The enumeration plays each positional strategy of one
player against each positional strategy of the other player. A player wins the vertices from which one of the player's
strategies beats all of the opponent's. The winners that psyn printed must be those of the enumeration, and the moves
that psyn printed must win.

Then the script times games with as many priorities as vertices. In some games, up to 10000 vertices form a path, and
each inner vertex has edges to both of its neighbours. The other games have up to 100000 vertices with self-loops only;
the largest one is solved once more with a stack of 256 KiB. At last come the games in FOLDER. A line for each of these
games has the milliseconds and the depth of the recursion.

SOLVER is another solver, which also solves the games of paths and those in FOLDER. SOLVER is run as
`SOLVER solve --stats --counts none --out none` on the same text, and must write `solve_ms` and its milliseconds to
standard error. The line then also has the milliseconds of SOLVER, and psyn's milliseconds divided by these.
"""
import argparse
import itertools
import os
import random
import re
import resource
import subprocess
import sys
import tempfile

sys.dont_write_bytecode = True
BENCH = os.path.dirname(os.path.abspath(__file__))
sys.path.insert(0, BENCH)
from sources import made  # noqa: E402
USES = ("anyhow", "ps_game", "ps_pgsolver", "ps_zielonka")
SIZES = (1_000, 10_000, 100_000)
TABLES = 4096


def small_stack():
    resource.setrlimit(resource.RLIMIT_STACK, (256 * 1024, 256 * 1024))


def answer(program, text, limit=None):
    """What the program prints for a game: the nanoseconds, the depth of the recursion and, for a small game, a line for
    each vertex."""
    run = subprocess.run([program], input=text.encode(), capture_output=True, check=False, preexec_fn=limit)
    if run.returncode != 0:
        sys.exit(f"status {run.returncode}: {run.stderr[:200]!r}\n{text[:2000]}")
    head, *lines = run.stdout.decode().splitlines()
    nanos, depth, _count = map(int, head.split())
    return nanos, depth, [line.split() for line in lines]


def game_text(game):
    lines = [f"{v} {priority} {owner} {','.join(map(str, to))};" for v, (priority, owner, to) in enumerate(game)]
    return f"parity {len(game) - 1};\n" + "\n".join(lines) + "\n"


def drawn(dice):
    """A random game with few positional strategies."""
    while True:
        count = dice.randrange(1, 13)
        most = dice.randrange(1, 9)
        game = [
            (
                dice.randrange(most),
                dice.randrange(2),
                dice.sample(range(count), min(count, dice.choice((1, 1, 2, 2, 3)))),
            )
            for _ in range(count)
        ]
        tables = 1
        for _, _, to in game:
            tables *= len(to)
        if tables <= TABLES:
            return game


def winners(game, moves):
    """The winner of the play from each vertex if both players' moves are fixed."""
    found = [None] * len(game)
    for start in range(len(game)):
        path, place = [], {}
        v = start
        while v not in place and found[v] is None:
            place[v] = len(path)
            path.append(v)
            v = moves[v]
        winner = found[v] if found[v] is not None else max(game[u][0] for u in path[place[v]:]) % 2
        for u in path:
            found[u] = winner
    return found


def tables(game, player):
    own = [v for v, (_, owner, _) in enumerate(game) if owner == player]
    for choice in itertools.product(*(game[v][2] for v in own)):
        yield dict(zip(own, choice))


def check(game, lines):
    """Checks that the moves which psyn printed win, and that the winners which it printed are those of the
    enumeration."""
    where = [None, None]
    for player in (0, 1):
        where[player] = set()
        for own in tables(game, player):
            kept = set(range(len(game)))
            for other in tables(game, 1 - player):
                found = winners(game, {**own, **other})
                kept &= {v for v in kept if found[v] == player}
            where[player] |= kept
    printed = [{v for v, line in enumerate(lines) if line[0] == str(player)} for player in (0, 1)]
    assert printed == where, (game, lines, where)
    for player in (0, 1):
        own = {v: to[0] for v, (_, owner, to) in enumerate(game) if owner == player}
        for v in printed[player] & own.keys():
            own[v] = int(lines[v][1])
            assert own[v] in game[v][2], (game, lines)
        for other in tables(game, 1 - player):
            found = winners(game, {**own, **other})
            assert all(found[v] == player for v in printed[player]), (game, lines)


def beside(solver, text):
    """The milliseconds that another solver took; None if it did not print them."""
    run = subprocess.run(
        [solver, "solve", "--stats", "--counts", "none", "--out", "none"],
        input=text.encode(),
        capture_output=True,
        check=False,
    )
    found = re.search(r"solve_ms (\d+\.\d+)", run.stderr.decode())
    return float(found[1]) if found else None


def show(program, solver, name, text, limit=None):
    nanos, depth, _ = answer(program, text, limit)
    took = nanos / 1e6
    other = beside(solver, text) if solver else None
    ratio = "" if not other else f"   beside {other:9.2f} ms, ratio {took / other:.2f}"
    print(f"{name:32} {took:9.2f} ms   depth {depth:6}{ratio}", flush=True)


def main():
    words = argparse.ArgumentParser(description=__doc__.split("\n", maxsplit=1)[0])
    words.add_argument("--random", type=int, default=1000)
    words.add_argument("--program")
    words.add_argument("--beside")
    words.add_argument("--games")
    given = words.parse_args()
    with tempfile.TemporaryDirectory() as folder:
        program = given.program or made("regions", folder, USES, b"0 0 0 0;\n")
        dice = random.Random(given.random)
        for _ in range(given.random):
            game = drawn(dice)
            check(game, answer(program, game_text(game))[2])
        print(f"{given.random} games: winners and moves as the enumeration has them")
        for count in SIZES[:2]:
            chain = game_text(
                [(v, v % 2, [max(v - 1, 0), min(v + 1, count - 1)][: 1 + (0 < v < count - 1)]) for v in range(count)]
            )
            show(program, given.beside, f"path of {count} priorities", chain)
        for count in SIZES:
            loops = game_text([(v, v % 2, [v]) for v in range(count)])
            show(program, None, f"loops of {count} priorities", loops)
        show(program, None, "the same under 256 KiB of stack", loops, small_stack)
        for file in sorted(os.listdir(given.games)) if given.games else []:
            with open(os.path.join(given.games, file), encoding="utf-8") as game_file:
                show(program, given.beside, file, game_file.read())


if __name__ == "__main__":
    main()
