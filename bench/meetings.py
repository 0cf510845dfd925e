#!/usr/bin/env python3
"""Lets each environment that `synth --tlsf` prints for random specifications meet all controllers of up to two
memories.

  bench/meetings.py [COUNT [SEED]]

COUNT random specifications of up to 10 nodes in their formulas have one input and one or two outputs. Where psyn
($PSYN, or crates/psyn/out/psyn) says UNREALIZABLE, each controller with at most two memories is enumerated, and plays
against the circuit until memory and latches come again. The lasso of this play must violate the specification, by an
evaluator of formulas in Python. Where psyn says REALIZABLE, its circuit is met by all environments of up to two
memories, and each lasso must satisfy the specification. Prints each specification where that fails, and at last how
many plays there were.
"""
import collections
import itertools
import os
import random
import sys
import time

sys.dont_write_bytecode = True
sys.path.insert(0, os.path.join(os.path.dirname(os.path.dirname(os.path.abspath(__file__))), "tools"))
sys.path.insert(0, os.path.dirname(os.path.abspath(__file__)))

import sentences  # noqa: E402
from psyntool.texts import circuit  # noqa: E402
from tests import formulas, tlsf_reader  # noqa: E402

NODES, MEMORIES = 10, 2


class Machine:
    """A circuit as a table that is filled where a play asks: latches and what it reads give latches and what it
    says."""

    def __init__(self, text):
        self.made = circuit.read(text).ordered
        self.known = {}
        self.names = self.made.names("i"), self.made.names("o")
        self.start = tuple(latch.reset for latch in self.made.latches)

    def step(self, latches, given):
        if (latches, given) not in self.known:
            values = {latch.literal // 2: value for latch, value in zip(self.made.latches, latches)}
            known = self.made.known_values(
                values | {literal // 2: int(name in given) for literal, name in zip(self.made.inputs, self.names[0])}
            )
            after = tuple(circuit.at(known, latch.next) for latch in self.made.latches)
            self.known[latches, given] = (
                after,
                frozenset(
                    name for name, literal in zip(self.names[1], self.made.outputs) if circuit.at(known, literal)
                ),
            )
        return self.known[latches, given]


def letters(names):
    return [frozenset(those) for count in range(len(names) + 1) for those in itertools.combinations(names, count)]


def players(reads, says, is_first):
    """All players with at most two memories: for each memory what the player says and where it goes, by what it reads;
    one who is first says the same whatever it reads."""
    seen, said, nexts = letters(reads), letters(says), range(MEMORIES)
    if is_first:
        rows = [
            {letter: (goes[k], one) for k, letter in enumerate(seen)}
            for one in said
            for goes in itertools.product(nexts, repeat=len(seen))
        ]
    else:
        rows = [dict(zip(seen, row)) for row in itertools.product(itertools.product(nexts, said), repeat=len(seen))]
    return itertools.product(rows, repeat=MEMORIES)


def play(machine, player, machine_is_first):
    """The letters of a play, and the length of its stem."""
    state, word = (machine.start, 0), []
    seen = {}
    while state not in seen:
        seen[state] = len(word)
        latches, memory = state
        if machine_is_first:
            # what a circuit in time says is the same whatever it reads
            said = machine.step(latches, frozenset())[1]
            goes, mine = player[memory][said]
            after = machine.step(latches, mine)[0]
        else:
            mine = next(iter(player[memory].values()))[1]
            after, said = machine.step(latches, mine)
            goes = player[memory][said][0]
        word.append(said | mine)
        state = after, goes
    return word, seen[state]


def met(text):
    """psyn's answer, how many plays there were, and whether one of them went wrong."""
    first, made = sentences.answered("synth --tlsf", text)
    if first not in ("REALIZABLE", "UNREALIZABLE"):
        return first, 0, True
    read = tlsf_reader.read(text.encode())
    machine, names = Machine(made), [name for name, _ in read.names]
    machine_is_first = (first == "REALIZABLE") == (read.order == "Moore")
    plays, wanted = 0, first == "REALIZABLE"
    known = {}
    for player in players(machine.names[1], machine.names[0], not machine_is_first):
        word, stem = play(machine, player, machine_is_first)
        case = tuple(word), stem
        if case not in known:
            truths = [[name in letter for name in names] for letter in word]
            known[case] = formulas.holds(read.whole, truths[:stem], truths[stem:])
        plays += 1
        if known[case] != wanted:
            return first, plays, True
    return first, plays, False


def drawn(chance):
    """A random specification with one input."""
    while True:
        text = sentences.specification(chance, NODES)
        if "INPUTS { r; }" in text:
            return text


def main():
    if len(sys.argv) > 3:
        print(__doc__, end="")
        return 2
    count, seed = map(int, (sys.argv[1:] + ["300", "1"][len(sys.argv) - 1 :]))
    chance, began, found, all_plays, wrong = random.Random(seed), time.monotonic(), collections.Counter(), 0, 0
    for text in (drawn(chance) for _ in range(count)):
        first, plays, is_wrong = met(text)
        found[first], all_plays, wrong = found[first] + 1, all_plays + plays, wrong + is_wrong
        if is_wrong:
            print(f"{first}: {text.strip()}")
    answers = ", ".join(f"{times} {first}" for first, times in found.most_common())
    print(f"{answers}; {all_plays:,} plays, {wrong} wrong; {time.monotonic() - began:.0f} s")
    return 1 if wrong else 0


if __name__ == "__main__":
    sys.exit(main())
