#!/usr/bin/env python3
"""Compares `verify --tlsf` with another program that judges circuits by formulas.

  bench/opinions.py PEER [COUNT [SEED]]

PEER is a command as for bench/sentences.py: it is given the name of a file with a specification and that of one with a
circuit, and `env` behind them if the circuit is an environment, and prints `satisfies` or `VIOLATES`. COUNT random
specifications of up to 20 nodes get circuits from `synth --tlsf`, and in four of five circuits one to three literals
are negated. In the first hundred circuits with 1 to 40 gates each literal is negated too, one at a time. Both programs
judge each circuit, and `lasso --tlsf` must confirm each counterexample of psyn's. The peer is not asked about a circuit
that moves first but not in time (fault 74). psyn is $PSYN, or crates/psyn/out/psyn. Each difference is printed, and at
last how many of each answer there were.
"""
import collections
import os
import random
import sys
import time

sys.dont_write_bytecode = True
sys.path.insert(0, os.path.join(os.path.dirname(os.path.dirname(os.path.abspath(__file__))), "tools"))
sys.path.insert(0, os.path.dirname(os.path.abspath(__file__)))

import sentences  # noqa: E402
from tests import changes  # noqa: E402
from upkeep import sweeps  # noqa: E402

NODES, CHANGED, GATES = 20, 100, 40
SAYS = {"satisfies": "wins", "VIOLATES": "loses"}


def cases(chance, text):
    """A specification with its circuit, whether that is an environment, and how many literals are to be negated."""
    first, circuit = sentences.answered("synth --tlsf", text)
    if first not in ("REALIZABLE", "UNREALIZABLE"):
        return None
    found = changes.places(circuit)
    for place in chance.sample(found, min(len(found), chance.choice((0, 1, 1, 2, 3)))):
        circuit = changes.negated(circuit, place)
    return text, circuit, first == "UNREALIZABLE"


def confirms(text, circuit, env, stimulus):
    """Whether `lasso --tlsf` tells that the circuit loses on the stimulus."""
    said, _ = sentences.answered(f"lasso --tlsf{' --env' * env}", f"{text}%%\n{circuit}%%\n{stimulus}")
    return said.split(" ")[0] == ("satisfied" if env else "violated")


def judged(peer, text, circuit, env):
    """What psyn says of a circuit, and what is wrong with that, if anything is."""
    own, stimulus = sentences.answered(f"verify --tlsf{' --env' * env}", f"{text}%%\n{circuit}")
    if own == "fault 74 Timing":
        return own, ""
    other = sentences.judged(peer, text, circuit, env)
    if SAYS.get(other) != own:
        return own, f"psyn: {own}, peer: {other}"
    return own, "" if own == "wins" or confirms(text, circuit, env, stimulus) else "not confirmed by lasso --tlsf"


def rows(peer, case):
    text, circuit, env, all_places = case
    texts = [circuit]
    if all_places:
        texts += [changes.negated(circuit, place) for place in changes.places(circuit)]
    return [(*judged(peer, text, each, env), text, each, env) for each in texts]


def main():
    if not 2 <= len(sys.argv) <= 4:
        print(__doc__, end="")
        return 2
    peer, count, seed = sys.argv[1], *map(int, (sys.argv[2:] + ["2000", "1"][len(sys.argv) - 2 :]))
    chance, began, found, wrong = random.Random(seed), time.monotonic(), collections.Counter(), 0
    drawn = [(random.Random(f"{seed} {k}"), sentences.specification(chance, NODES)) for k in range(count)]
    made = [case for case in sweeps.at_once(lambda pair: cases(*pair), drawn) if case]
    few = [k for k, case in enumerate(made) if 0 < int(case[1].split()[5]) <= GATES][:CHANGED]
    asked = [(*case, k in set(few)) for k, case in enumerate(made)]
    for told in sweeps.at_once(lambda case: rows(peer, case), asked):
        for own, why, text, circuit, env in told:
            found[own] += 1
            wrong += bool(why)
            if why:
                print(f"{why}{' (env)' * env}: {text.strip()}\n{circuit}")
    print(
        ", ".join(f"{times} {first}" for first, times in found.most_common()),
        f"; {wrong} differ; {time.monotonic() - began:.0f} s",
        sep="",
    )
    return 1 if wrong else 0


if __name__ == "__main__":
    sys.exit(main())
