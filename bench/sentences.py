#!/usr/bin/env python3
"""Has another program judge the circuits that `synth --tlsf` prints for random specifications.

  bench/sentences.py PEER [COUNT [SEED]]

PEER is a command that is given the name of a file with a specification and that of one with a circuit, and `env` behind
them if the circuit is an environment. It must print `satisfies` if each lasso trace of the circuit satisfies the
formula, or for an environment if none does, and `VIOLATES` otherwise. A specification has up to 25 nodes in its
formulas, in one to four sections, and up to three inputs and two outputs, and it may be Mealy, Moore or strict. psyn is
$PSYN, or crates/psyn/out/psyn. psyn itself judges each circuit too, by `verify --tlsf`. Each specification whose
circuit is refused is printed, and at last how many of each answer there were.
"""
import collections
import os
import random
import re
import shlex
import subprocess
import sys
import tempfile
import time

sys.dont_write_bytecode = True
sys.path.insert(0, os.path.join(os.path.dirname(os.path.dirname(os.path.abspath(__file__))), "tools"))

from psyntool.program import path as program  # noqa: E402
from tests import formulas  # noqa: E402
from upkeep import sweeps  # noqa: E402

NODES, INPUTS, OUTPUTS = 25, ("r", "s", "t"), ("g", "h")
SECTIONS = ("GUARANTEE", "GUARANTEE", "ASSERT", "ASSUME", "REQUIRE", "INITIALLY", "PRESET")
ORDERS = ("Mealy", "Mealy", "Mealy", "Moore", "Mealy,Strict", "Moore,Strict")
SECONDS = 60


def specification(chance, most=NODES):
    """The text of a random specification, with up to so many nodes in its formulas."""
    inputs, outputs = INPUTS[: chance.randrange(1, 4)], OUTPUTS[: chance.randrange(1, 3)]
    names = inputs + outputs
    nodes, parts = chance.randrange(1, most + 1), []
    for kind in ["GUARANTEE", *chance.choices(SECTIONS, k=chance.randrange(4))]:
        if nodes < 1:
            break
        size = chance.randrange(1, nodes + 1)
        parts.append(f"{kind} {{ {formulas.text_of(formulas.a_formula(chance, size, len(names)), names)}; }}")
        nodes -= size
    order = chance.choice(ORDERS)
    target = order.partition(",")[0]
    lists = f"INPUTS {{ {'; '.join(inputs)}; }} OUTPUTS {{ {'; '.join(outputs)}; }}"
    return f'INFO {{ TITLE: "t" SEMANTICS: {order} TARGET: {target} }} MAIN {{ {lists} {" ".join(parts)} }}\n'


def answered(words, text):
    """What psyn answers: its first line, and the rest."""
    try:
        told = subprocess.run(
            [program()], input=f"{words}\n{text}".encode(), stdout=subprocess.PIPE, timeout=SECONDS, check=False
        ).stdout.decode()
    except subprocess.TimeoutExpired:
        return "no answer in time", ""
    first, _, rest = told.partition("\n")
    return first, rest


def judged(peer, text, circuit, env):
    """What the other program says of a circuit."""
    with tempfile.TemporaryDirectory() as folder:
        for name, what in (("it.tlsf", text), ("it.aag", circuit)):
            with open(os.path.join(folder, name), "w", encoding="utf-8") as file:
                file.write(what)
        words = [*shlex.split(peer), os.path.join(folder, "it.tlsf"), os.path.join(folder, "it.aag"), *["env"] * env]
        try:
            said = subprocess.run(
                words, stdout=subprocess.PIPE, stderr=subprocess.STDOUT, text=True, timeout=SECONDS, check=False
            ).stdout
        except subprocess.TimeoutExpired:
            return "no answer of the peer in time"
    found = re.search(r"\b(satisfies|VIOLATES)\b", said)
    return found[1] if found else f"the peer says {said.strip()[:80]!r}"


def row(peer, text):
    """The answer to a specification, and what is wrong with it, if anything is."""
    first, circuit = answered("synth --tlsf", text)
    if first not in ("REALIZABLE", "UNREALIZABLE"):
        return first, ""
    env = first == "UNREALIZABLE"
    own, _ = answered(f"verify --tlsf{' --env' * env}", f"{text}%%\n{circuit}")
    other = judged(peer, text, circuit, env)
    return first, "" if (own, other) == ("wins", "satisfies") else f"psyn: {own}, peer: {other}"


def main():
    if not 2 <= len(sys.argv) <= 4:
        print(__doc__, end="")
        return 2
    peer, count, seed = sys.argv[1], *map(int, (sys.argv[2:] + ["3000", "1"][len(sys.argv) - 2 :]))
    chance, began, found, wrong = random.Random(seed), time.monotonic(), collections.Counter(), 0
    texts = [specification(chance) for _ in range(count)]
    for text, (first, why) in zip(texts, sweeps.at_once(lambda text: row(peer, text), texts), strict=True):
        found[first] += 1
        wrong += bool(why)
        if why or first not in ("REALIZABLE", "UNREALIZABLE"):
            print(f"{first}; {why}: {text.strip()}")
    print(
        ", ".join(f"{times} {first}" for first, times in found.most_common()),
        f"; {wrong} refused; {time.monotonic() - began:.0f} s",
        sep="",
    )
    return 1 if wrong else 0


if __name__ == "__main__":
    sys.exit(main())
