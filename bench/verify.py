#!/usr/bin/env python3
"""Changes one literal of a circuit that psyn printed, and compares the verdict of `verify` with that of an enumeration;
or times `verify`.

  bench/verify.py PSYN --changed SEED [--literals N] [--most VERTICES] [FILE..]
  bench/verify.py PSYN --times RUNS [FILE..]

A FILE is an HOA text. If no FILE is given, the automata are two of examples/files, those of the gallery, and those of
bench/synth.py. The circuits are those that `synth` prints, with and without --moore.

--changed changes one literal at a time: in each circuit, it changes N literals (50, or all if there are fewer) in turn;
the random seed SEED chooses them. The verdict of `verify` must be that of an enumeration of the product in Python
(tools/tests/products.py), and `lasso` must confirm each counterexample. A line for each circuit tells how often each
verdict was given, and has the number of products with more than VERTICES vertices (50,000) or more than 20 inputs.

--times prints a line for each circuit: the least processor seconds of RUNS alternating runs of `synth` and of `verify`
on the same automaton, and the time of `verify` divided by the time of `synth`. If no FILE is given, there is also an
automaton with 20 inputs and 20 outputs, which compares one input with one output in each state. The script verifies two
circuits for this automaton: the circuit of `synth`, and a circuit without gates that copies the inputs to the outputs.
"""
import argparse
import collections
import dataclasses
import glob
import itertools
import os
import subprocess
import sys
import time

BENCH = os.path.dirname(os.path.abspath(__file__))
TOP = os.path.dirname(BENCH)
sys.dont_write_bytecode = True
sys.path[:0] = [BENCH, os.path.join(TOP, "tools")]
import synth  # noqa: E402
from psyntool.texts import circuit  # noqa: E402
from tests import changes, products  # noqa: E402

FAMILIES = {
    synth.states: (10, 100, 200, 1_000, 10_000),
    synth.inputs: (2, 4, 8, 16, 62),
    synth.priorities: (2, 8, 64),
    synth.unrealizable: (10, 100, 1_000, 10_000),
}
LITERALS = 50
MOST_IN_VAIN = 3


def automata(psyn, files):
    """The names and the texts of the automata."""
    for path in files:
        with open(path, encoding="utf-8") as file:
            yield os.path.basename(path).removesuffix(".hoa"), file.read()
    if not files:
        yield from automata(
            psyn, [os.path.join(TOP, "examples", "files", name) for name in ("arbiter.hoa", "grant.hoa")]
        )
        yield from gallery(psyn)
        yield from ((f"{family.__name__} {size}", family(size)) for family, sizes in FAMILIES.items() for size in sizes)


def gallery(psyn):
    for path in sorted(glob.glob(os.path.join(TOP, "examples", "gallery", "*.parts"))):
        compose = [os.path.join(TOP, "tools", "psyn"), "compose", path]
        made = subprocess.run(compose, env={**os.environ, "PSYN": psyn}, stdout=subprocess.PIPE, check=True)
        yield os.path.basename(path).removesuffix(".parts"), made.stdout.decode()


def cases(psyn, named):
    """For each automaton and each order of moves, the beginning of the output line, and the case: the automaton with
    the circuit that `synth` prints."""
    for name, spec in named:
        for moore in (False, True):
            try:
                case = changes.case_of(psyn, spec, moore)
            except changes.TooSlow as why:
                print(f"{name:22} synth{' --moore' * moore}: {why}", flush=True)
                continue
            made = circuit.read(case.text)
            role = ("environment" if case.env else "controller") + ", --moore" * moore
            sizes = f"{len(made.inputs):2} inputs {len(made.latches):3} latches {len(made.gates):6} gates"
            yield f"{name:22} {role:20} {sizes}", case


# ---- circuits with a literal changed


def compare(psyn, seed, literals, files):
    sums = collections.Counter()
    for said, case in cases(psyn, automata(psyn, files)):
        begin = time.perf_counter()
        told = answers(case, f"{seed} {said}", literals)
        sums += told
        print(f"{said} {time.perf_counter() - begin:7.1f} s  {tell(told)}", flush=True)
    print(f"in all: {tell(sums)}")


def answers(case, seed, literals):
    """How often each verdict was given. No further literal of a circuit is changed after several products with the
    automaton were too large, or if the product of the unchanged circuit is too large."""
    told = collections.Counter()
    for text in case.drawn(seed, literals):
        try:
            told[case.judged(text)] += 1
        except (products.TooLarge, changes.TooSlow) as why:
            told[str(why)] += 1
            if text == case.text or told[str(why)] == MOST_IN_VAIN:
                break
    return told


def tell(told):
    return ", ".join(f"{count} {what}" for what, count in sorted(told.items()))


# ---- times


def timed(psyn, given):
    """The processor seconds of a run of psyn."""
    with open(os.devnull, "wb") as nowhere, subprocess.Popen([psyn], stdin=subprocess.PIPE, stdout=nowhere) as run:
        run.stdin.write(given)
        run.stdin.close()
        _, _, used = os.wait4(run.pid, 0)
        run.returncode = 0
    return used.ru_utime + used.ru_stime


def copies(psyn, count=20):
    """Two cases with the same automaton, which in each state requires one output to equal one input. The first case has
    the circuit that `synth` prints, and the second case has a circuit without gates."""
    states = [f"State: {q} [{q}&{count + q} | !{q}&!{count + q}] {(q + 1) % count}\n" for q in range(count)]
    spec = synth.head(count, count, "0 t") + "".join(states) + "--END--\n"
    case = changes.case_of(psyn, spec, False)
    yield f"copies {count}, of synth", case
    inputs, names = [f"{2 * k + 2}\n" for k in range(count)], [f"i{k} i{k}\no{k} o{k}\n" for k in range(count)]
    text = f"aag {count} {count} 0 {count} 0\n" + "".join([*inputs, *inputs, *names])
    yield f"copies {count}, no gates", dataclasses.replace(case, text=text)


def measure(psyn, runs, files):
    for said, case in itertools.chain(cases(psyn, automata(psyn, files)), [] if files else copies(psyn)):
        flags = " --moore" * case.moore
        asked = (f"synth{flags}\n{case.spec}", f"verify{' --env' * case.env}{flags}\n{case.spec}%%\n{case.text}")
        found = [[timed(psyn, given.encode()) for given in asked] for _ in range(runs)]
        made, judged = map(min, zip(*found))
        print(f"{said}  synth {made:6.3f}  verify {judged:6.3f}  {judged / made:5.2f}", flush=True)


def main():
    words = argparse.ArgumentParser(usage=__doc__)
    words.add_argument("psyn")
    words.add_argument("--changed")
    words.add_argument("--literals", type=int, default=LITERALS)
    words.add_argument("--most", type=int, default=products.MOST_VERTICES)
    words.add_argument("--times", type=int)
    words.add_argument("files", nargs="*")
    given = words.parse_intermixed_args()
    psyn = os.path.abspath(given.psyn)
    products.MOST_VERTICES = given.most
    if given.changed is not None:
        compare(psyn, given.changed, given.literals, given.files)
    elif given.times:
        measure(psyn, given.times, given.files)
    else:
        sys.exit(__doc__)


if __name__ == "__main__":
    main()
