#!/usr/bin/env python3
"""Compares the circuits that psyn makes without the game with those that it makes by the game.

  bench/lifted.py [--cases N] [--seed SEED] [--plain] [--psyn PSYN] [--program PROGRAM]

Where the game is not asked for, and the player who moves first has many propositions, `synth` makes the circuit of a
certificate that nobody sees: it lifts the certificate of a part of the game, the arena, to the whole game. The program
bench/lifted makes this certificate too, whatever the number of propositions. It answers as psyn does, but to `synth
--full` with the lifted certificate, which has the least counts, and with the circuit that was made without the game.
With --plain, it does not mix the propositions.

The script draws N (2,000) automata with up to 7 propositions; in one of 16, the player who moves first has 8 to 10
propositions, and the other one up to 3. Of each answer, three things must be as psyn says it, byte by byte: the game by
`game`, the certificate by `judge`, given its winners and moves alone, and the circuit by `synth --cert`, given the
certificate. Without --plain, the circuit for an automaton with so many propositions must also be that of `synth`,
unless a state has so many edges that `synth` builds the game. The last lines say how many answers of each kind there
were, and of how many the certificate is not that of `cert`. psyn is $PSYN, or crates/psyn/out/psyn.

The script builds the program in a temporary folder. The program uses copies of the crates, with the libraries that
earlier checks built in the crates' folders out/. --program names a program that was built before. Whatever else judges
psyn's answers to `synth --full` can be given the program in psyn's place.
"""
import argparse
import collections
import os
import random
import subprocess
import sys
import tempfile

sys.dont_write_bytecode = True
BENCH = os.path.dirname(os.path.abspath(__file__))
TOP = os.path.dirname(BENCH)
sys.path.insert(0, BENCH)
sys.path.insert(0, os.path.join(TOP, "tools"))
from psyntool.ends import Refused  # noqa: E402
from psyntool.program import path as own_path  # noqa: E402
from sources import made  # noqa: E402
USES = (
    "anyhow", "indexmap", "ps_aiger", "ps_automaton", "ps_brief", "ps_certificate", "ps_diagram", "ps_game", "ps_hoa",
    "ps_machine", "ps_mixing", "ps_program", "ps_referee", "ps_synthesis",
)
CONDITIONS = (
    "0 t", "1 Inf(0)", "1 Fin(0)", "2 Fin(0) & Inf(1)", "2 Inf(0) | Fin(1)", "3 Inf(0) | (Fin(1) & Inf(2))",
    "4 Fin(0) & (Inf(1) | (Fin(2) & Inf(3)))",
)
MOST_EDGES = 1_024  # of a state, if `synth` is to do without the game
TRIVIAL = "HOA: v1 Start: 0 controllable-AP: Acceptance: 0 t --BODY-- State: 0 [t] 0 --END--\n"


def edges_of(dice, names, states, sets, said=()):
    """The edges of a state, of which no two share a letter: each is a leaf of a random decision tree."""
    free = [name for name in range(names) if name not in [abs(it) - 1 for it in said]]
    if not free or dice.random() < 0.2:
        marks = " ".join(str(mark) for mark in range(sets) if dice.random() < 0.4)
        label = "&".join(f"{'' if it > 0 else '!'}{abs(it) - 1}" for it in said) or "t"
        return [f"[{label}] {dice.randrange(states)} {{{marks}}}"] if dice.random() < 0.9 else []
    name = dice.choice(free) + 1
    return edges_of(dice, names, states, sets, (*said, name)) + edges_of(dice, names, states, sets, (*said, -name))


def unlabelled(dice, names, states, sets):
    """The edges of a state, one for each letter in its order."""
    marks = lambda: " ".join(str(mark) for mark in range(sets) if dice.random() < 0.4)
    return [f"{dice.randrange(states)} {{{marks()}}}" for _ in range(1 << names)]


def drawn(dice, is_moore, has_many):
    """The text of a random automaton. The player who moves first has at least 8 propositions, or at most 4."""
    first, second = (dice.randrange(8, 11), dice.randrange(4)) if has_many else (dice.randrange(5), dice.randrange(4))
    names, states, condition = first + second, dice.randrange(1, 6), dice.choice(CONDITIONS)
    mine = sorted(dice.sample(range(names), first if is_moore else second))
    edges = unlabelled if names < 4 and dice.random() < 0.1 else edges_of
    lines = [
        f"HOA: v1\nStates: {states}\nStart: {dice.randrange(states)}",
        " ".join(["AP:", str(names), *(f'"p{number}"' for number in range(names))]),
        " ".join(["controllable-AP:", *map(str, mine)]),
        f"Acceptance: {condition}\n--BODY--",
    ]
    for state in range(states):
        lines += [f"State: {state}", *edges(dice, names, states, int(condition[0]))]
    return "\n".join([*lines, "--END--\n"])


def has_few_edges(text):
    """Whether no state of a drawn automaton with many propositions has too many edges."""
    return all(state.count("\n[") <= MOST_EDGES for state in text.split("State: "))


def answered(command, line, *texts):
    """What a program answers to a command line with texts."""
    run = subprocess.run(command, input=(line + "\n" + "%%\n".join(texts)).encode(), capture_output=True, check=False)
    return run.stdout.decode()


def solution_of(certificate):
    """The winners and moves of a certificate, as a solution of its game."""
    lines = [line.split()[:3] for line in certificate.split("\n")[4:-1]]
    return f"paritysol {len(lines) - 1};\n" + "".join(" ".join(words).removesuffix(" -") + ";\n" for words in lines)


def differences(psyn, text, flag, answer, is_short):
    """What psyn does not say as the parts of an answer do, and the first line of the circuit. If `is_short`, psyn makes
    the circuit without the game."""
    parts = answer.split("%%\n")
    if len(parts) != 3:
        return ["answer"], answer[:60]
    circuit, game, certificate = parts
    wanted = {
        "game": (answered([psyn], f"game{flag}", text), game),
        "certificate": (answered([psyn], "judge", game, solution_of(certificate)), certificate),
        "circuit": (answered([psyn], f"synth --cert{flag}", text, certificate), circuit),
        "circuit of synth": (answered([psyn], f"synth{flag}", text), circuit) if is_short else ("", ""),
    }
    return [name for name, (own, other) in wanted.items() if own != other], circuit.split("\n", 1)[0]


def compare(given, psyn, program):
    """Compares the answers to all drawn automata. Returns how many differ."""
    kinds, others, wrong = collections.Counter(), 0, 0
    for case in range(given.cases):
        dice = random.Random(f"{given.seed} {case}")
        is_moore, has_many = dice.random() < 0.5, dice.random() < 1 / 16
        text, flag = drawn(dice, is_moore, has_many), " --moore" * is_moore
        answer = answered(program, f"synth --full{flag}", text)
        found, first = differences(psyn, text, flag, answer, has_many and not given.plain and has_few_edges(text))
        kinds[first] += 1
        others += answer.split("%%\n")[-1] != answered([psyn], f"cert{flag}", text)
        if found:
            wrong += 1
            print(f"case {case}, synth --full{flag}: another {', another '.join(found)}\n{text}", flush=True)
    print("\n".join(f"{count:8} {first}" for first, count in sorted(kinds.items())))
    print(f"{others:8} with another certificate than that of `cert`")
    return wrong


def main():
    words = argparse.ArgumentParser(description=__doc__.split("\n", maxsplit=1)[0])
    words.add_argument("--cases", type=int, default=2_000)
    words.add_argument("--seed", default="lifted")
    words.add_argument("--plain", action="store_true")
    words.add_argument("--psyn")
    words.add_argument("--program")
    given = words.parse_args()
    try:
        psyn = given.psyn or own_path()
        with tempfile.TemporaryDirectory() as folder:
            wrong = compare(
                given,
                psyn,
                [given.program or made("lifted", folder, USES, b"game\n" + TRIVIAL.encode()), *["plain"] * given.plain],
            )
    except (OSError, Refused) as error:
        sys.exit(f"lifted: {error}")
    sys.exit(f"{wrong} of {given.cases} cases differ" if wrong else None)


if __name__ == "__main__":
    main()
