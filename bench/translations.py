#!/usr/bin/env python3
"""Counts the states and edges of the automata of families of specifications and of patterns, and times translations.

  bench/translations.py [NAME..] [--most SECONDS] [--program PROGRAM] [--peer PEER] [--psyn PSYN]

psyn has no command that only translates (`translate` judges the automaton too), so the script builds the program
bench/translations in a temporary folder. The program uses copies of the crates, with the libraries that earlier checks
built in the crates' folders out/. --program names a program that was built before.

The families and the patterns stand in bench/specified.py; NAMEs are the families to look at (all), or `patterns`. Each
line has a specification, then the states, edges and bytes of its automaton, the processor milliseconds of the process
and its MiB. A family ends when a specification takes more than SECONDS (10), or has no automaton. Of the patterns only
those are printed that take more than three milliseconds, or have more states than the peer's.

--peer names another translator, a program that is called as `PEER one FILE` and prints `dpa STATES EDGES ..`, or
`failed ..`; its figures stand beside, and at the end of a family the sums of the states, and of the milliseconds, of
what both translated; at last these sums of all families.

--psyn names the program psyn. Then the script also times `translate` of each pattern beside `lasso` of a small text,
and prints those patterns that take more than FACTOR (5) times as long; and it times `synth --tlsf` of a specification
of some families: a line has the answer, the seconds and the MiB.
"""
import argparse
import os
import re
import signal
import subprocess
import sys
import tempfile
import threading

sys.dont_write_bytecode = True
BENCH = os.path.dirname(os.path.abspath(__file__))
TOP = os.path.dirname(BENCH)
sys.path.insert(0, BENCH)
from sources import made  # noqa: E402
import specified  # noqa: E402
USES = ("anyhow", "ps_tlsf", "ps_translation")
LARGE = ("simple:8", "full:4", "balancer:8", "lift:5", "detector:10", "gr1:9")
NUMBERS = range(2, 17)
FACTOR, RUNS = 5, 20
SMALL = os.path.join(TOP, "examples", "lasso-accepted")


def ended(process):
    """The processor seconds and the MiB of a process that has ended, or soon does."""
    _, process.returncode, usage = os.wait4(process.pid, 0)
    return usage.ru_utime + usage.ru_stime, usage.ru_maxrss // 1024


def run(words, given, most):
    """What a program answers to a text, its processor seconds and MiB; or None if it takes too long."""
    with tempfile.TemporaryFile() as asked, tempfile.TemporaryFile() as answered:
        asked.write(given)
        asked.seek(0)
        process = subprocess.Popen(words, stdin=asked, stdout=answered)
        watch = threading.Timer(5 * most, os.kill, (process.pid, signal.SIGKILL))
        watch.start()
        seconds, memory = ended(process)
        watch.cancel()
        answered.seek(0)
        return None if seconds > most or process.returncode < 0 else (answered.read().decode(), seconds, memory)


def told(program, text, most):
    """What the program says of a specification, the states and milliseconds, or None for each; or None if it takes too
    long."""
    found = run([program], text.encode(), most)
    if found is None:
        return None
    answer, seconds, memory = found
    took = 1000 * seconds
    if not answer.startswith("HOA"):
        return f"none, {took:.1f} ms", None, None
    states = int(re.search("States: (\\d+)", answer)[1])
    return f"{states} states, {answer.count('[')} edges, {len(answer)} bytes, {took:.1f} ms, {memory} MiB", states, took


def told_by(peer, text, most):
    """The same of the other translator, which is ended when it has said it."""
    with tempfile.NamedTemporaryFile("w", suffix=".tlsf") as file:
        file.write(text)
        file.flush()
        process = subprocess.Popen(
            [peer, "one", file.name], stdout=subprocess.PIPE, stderr=subprocess.DEVNULL, text=True
        )
        watch = threading.Timer(5 * most, os.kill, (process.pid, signal.SIGKILL))
        watch.start()
        found = None
        for line in process.stdout:
            found = re.match(r"dpa (\d+) (\d+)|failed", line)
            if found:
                break
        os.kill(process.pid, signal.SIGKILL)
        watch.cancel()
        seconds, memory = ended(process)
        process.stdout.close()
    if not found or not found[1]:
        return "; peer: none", None, None
    took = 1000 * seconds
    return f"; peer: {found[1]} states, {found[2]} edges, {took:.1f} ms, {memory} MiB", int(found[1]), took


def beside(program, text, words):
    """What is told of a specification, by both; the states and milliseconds of both, if both translated it. None if the
    program takes too long."""
    own = told(program, text, words.most)
    if own is None:
        return None
    other = told_by(words.peer, text, words.most) if words.peer else ("", None, None)
    both = None not in (own[1], other[1])
    return own[0] + other[0], own[1], (own[1], other[1], own[2], other[2]) if both else (0, 0, 0, 0)


def added(sums, more):
    return tuple(before + one for before, one in zip(sums, more))


def show(name, sums):
    print(f"{name}  {sums[0]} states beside {sums[1]}; {sums[2]:.0f} ms beside {sums[3]:.0f}", flush=True)


def family_sums(program, family, words):
    """Prints a family's lines; the sums of the states and milliseconds of both."""
    sums = (0, 0, 0, 0)
    for n in NUMBERS:
        found = beside(program, specified.text(*family(n)), words)
        print(f"{family.__name__}:{n}  {found[0] if found else 'too long'}", flush=True)
        if not found or found[1] is None:
            break
        sums = added(sums, found[2])
    if words.peer:
        show(family.__name__, sums)
    return sums


def pattern_sums(program, words):
    """Prints the lines of patterns, and the states of all; the sums of the states and milliseconds of both."""
    sums, states = (0, 0, 0, 0), 0
    for number, formula in enumerate(specified.PATTERNS):
        line, own, both = beside(program, specified.text(*specified.pattern(formula)), words)
        states += own
        sums = added(sums, both)
        if both[0] > both[1] or float(re.search(r"([\d.]+) ms", line)[1]) > 3:
            print(f"pattern {number}  {line}  {formula}", flush=True)
    print(f"patterns  {states} states", flush=True)
    if words.peer:
        show("patterns", sums)
    return sums


def mean(psyn, given):
    """The mean processor milliseconds of a command."""
    return sum(1000 * run([psyn], given, 60)[1] for _ in range(RUNS)) / RUNS


def long_patterns(psyn):
    """Prints the patterns whose `translate` takes long beside `lasso` of a small text."""
    with open(SMALL, "rb") as file:
        least = mean(psyn, file.read())
    print(f"lasso of a small text  {least:.1f} ms")
    for number, formula in enumerate(specified.PATTERNS):
        took = mean(psyn, f"translate\n{specified.text(*specified.pattern(formula))}\n".encode())
        if took > FACTOR * least:
            print(f"pattern {number}  {took:.1f} ms, {took / least:.1f} times as long  {formula}", flush=True)


def large(psyn, most):
    """Prints the lines of `synth --tlsf`."""
    for name in LARGE:
        family, _, n = name.partition(":")
        text = specified.text(*getattr(specified, family)(int(n)))
        found = run([psyn], f"synth --tlsf\n{text}\n".encode(), most)
        first = found[0].partition("\n")[0] if found else "too long"
        print(f"synth --tlsf {name}  {first}" + (f", {found[1]:.2f} s, {found[2]} MiB" if found else ""), flush=True)


def main():
    parser = argparse.ArgumentParser(description=__doc__, formatter_class=argparse.RawDescriptionHelpFormatter)
    parser.add_argument(
        "names",
        nargs="*",
        metavar="NAME",
        choices=[[], "patterns", *(family.__name__ for family in specified.FAMILIES)],
    )
    parser.add_argument("--most", type=float, default=10)
    parser.add_argument("--program")
    parser.add_argument("--peer")
    parser.add_argument("--psyn")
    words = parser.parse_args()
    with tempfile.TemporaryDirectory() as folder:
        program = words.program or made("translations", folder, USES, b"")
        sums = (0, 0, 0, 0)
        for family in specified.FAMILIES:
            if not words.names or family.__name__ in words.names:
                sums = added(sums, family_sums(program, family, words))
        if words.peer:
            show("all families", sums)
        if not words.names or "patterns" in words.names:
            pattern_sums(program, words)
    if words.psyn:
        long_patterns(words.psyn)
        large(words.psyn, words.most)


if __name__ == "__main__":
    main()
