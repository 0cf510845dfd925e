#!/usr/bin/env python3
"""Times `verify --tlsf` and `agree` beside another program that judges circuits and automata by formulas.

  bench/judgements.py PEER [--runs N] [--most SECONDS] [NAME:SIZE..]

PEER translates a specification and judges its automaton as `PEER one FILE`: it writes the automaton to the file that
$P14_HOA names, and prints a line `hoa ..` then, a line `check1 ..` when no accepted lasso violates the specification,
and a line `check2 .. mem MIB` when no rejected one satisfies it; there it is ended. It judges a circuit as
`PEER circuit FILE CIRCUIT [env]`, and prints `satisfies` or `VIOLATES`. psyn is $PSYN, or crates/psyn/out/psyn.

The specifications are those below, at the sizes of SIZES. The automaton is that of PEER, and the circuit the one that
psyn's `synth` makes of it. All runs are bound to one processor. A line has the seconds of processor time and MiB of
`verify --tlsf`, those of PEER, and their ratios; then the same of `agree`, beside PEER's two checks with the reading of
the automaton, and at last its ratio to all that `PEER one` did. Seconds are the least of N (3) runs, in turn. The last
line has the sums. A run of psyn is ended after SECONDS (100), which are then counted, and the line has `ended`. A
verdict that is not `wins`, `satisfies` or `agrees` ends the script.
"""
import argparse
import os
import re
import resource
import signal
import subprocess
import sys
import tempfile

sys.dont_write_bytecode = True
BENCH = os.path.dirname(os.path.abspath(__file__))
sys.path.insert(0, os.path.join(os.path.dirname(BENCH), "tools"))

from psyntool.program import path as program  # noqa: E402


def numbered(letter, n):
    return [f"{letter}{i}" for i in range(n)]


def every(formulas):
    return f"({' && '.join(formulas)})"


def some(formulas):
    return f"({' || '.join(formulas)})"


def none(names):
    return every([f"!{name}" for name in names])


def exclusive(names):
    pairs = [f"!({a} && {b})" for i, a in enumerate(names) for b in names[i + 1 :]]
    return f"G {every(pairs or ['true'])}"


def answered(n):
    return [f"G (r{i} -> F g{i})" for i in range(n)]


def simple_arbiter(n):
    given = numbered("g", n)
    return numbered("r", n), given, [], [exclusive(given), *answered(n)]


def full_arbiter(n):
    asked, given, _, sentences = simple_arbiter(n)
    for r, g in zip(asked, given):
        sentences += [
            f"G (({g} && G !{r}) -> F !{g})", f"G (({g} && X (!{r} && !{g})) -> X ({r} R !{g}))", f"{r} R !{g}"
        ]
    return asked, given, [], sentences


def prio_arbiter(n):
    asked, given, _, sentences = simple_arbiter(n)
    sentences += [f"G !(gm && {g})" for g in given] + [f"G (rm -> X ({none(given)} U gm))"]
    return [*asked, "rm"], [*given, "gm"], ["G F !rm"], sentences


def load_balancer(n):
    asked, given = numbered("r", n), numbered("g", n)
    assumed = [
        "G F idle", f"G ((idle && X {none(given)}) -> X idle)", "G ((X !g0) || X ((!r0 && !idle) U (!r0 && idle)))"
    ]
    sentences = [f"X {exclusive(given)}", f"G ((X {some(given)}) -> idle)", "G (r0 -> X !g1)"]
    return ["idle", *asked], given, assumed, sentences + [f"!F G ({r} && X !{g})" for r, g in zip(asked, given)]


def detector(n):
    asked = numbered("r", n)
    return asked, ["g"], [], [f"{every([f'G F {r}' for r in asked])} <-> G F g"]


def gr1(n):
    asked, given = numbered("a", n), numbered("g", n)
    return asked, given, [f"G F {a}" for a in asked], [f"G F {g}" for g in given]


def alpha(n):
    def in_order(names):
        rest = names[-1]
        for name in reversed(names[:-1]):
            rest = f"({name} && F {rest})"
        return f"F {rest}"

    one, other = numbered("p", n), numbered("q", n)
    return one + other, ["acc"], [], [f"({in_order(one)} && {in_order(other)}) <-> G F acc"]


def delay(n):
    return ["p"], ["q"], [], [f"G (p <-> {'X ' * n}q)"]


def lift_open(n):
    floors = numbered("f", n)
    sentences = ["f0", exclusive(floors)]
    for i, floor in enumerate(floors):
        near = [floor, *floors[max(0, i - 1) : i], *floors[i + 1 : i + 2]]
        sentences += [
            f"G ({floor} -> X {some(near)})", f"G (({floor} && open) -> X {floor})", f"G (b{i} -> F ({floor} && open))"
        ]
    return numbered("b", n), [*floors, "open"], [], [*sentences, "G F !open"]


def amba(n):
    asked, locks, given = numbered("hbusreq", n), numbered("hlock", n), numbered("hgrant", n)
    assumed = ["G F hready"] + [f"G ({lock} -> {r})" for lock, r in zip(locks, asked)]
    sentences = [exclusive(given), f"G {some(given)}", "G (!hready -> X !start)", "hgrant0 && decide && start"]
    sentences += ["G (decide -> ((X X F decide) || F decide))", "G ((locked && start) -> X (!start W hready))"]
    for i, (r, lock, g) in enumerate(zip(asked, locks, given)):
        sentences += [f"G (!decide -> ({g} <-> X {g}))", f"G ((decide && X {g}) -> ({lock} <-> X locked))"]
        sentences += [f"G (!{g} -> (!{g} W {r}))"] * (i > 0) + [f"G ({r} -> F (!{r} || {g}))"]
    return asked + locks + ["hready"], [*given, "start", "decide", "locked"], assumed, sentences


FAMILIES = (simple_arbiter, full_arbiter, prio_arbiter, load_balancer, detector, gr1, alpha, delay, lift_open, amba)
SIZES = (8, 5, 8, 8, 10, 9, 9, 12, 6, 3)


def text(inputs, outputs, assumed, sentences):
    lists = f"INPUTS {{ {'; '.join(inputs)}; }} OUTPUTS {{ {'; '.join(outputs)}; }}"
    sections = [
        f"{word} {{ {'; '.join(those)}; }}" for word, those in (("ASSUME", assumed), ("GUARANTEE", sentences)) if those
    ]
    return f"INFO {{ SEMANTICS: Mealy TARGET: Mealy }} MAIN {{ {lists} {' '.join(sections)} }}\n"


class Bench:
    """The programs, and the helper bench/held.c, which tells what a process took."""

    def __init__(self, words, folder):
        self.peer = words.peer
        self.runs = words.runs
        self.most = words.most
        self.folder = folder
        self.held = os.path.join(folder, "held")
        subprocess.run(["cc", "-O2", "-o", self.held, os.path.join(BENCH, "held.c")], check=True)

    def path(self, ending):
        return os.path.join(self.folder, f"it.{ending}")

    def written(self, ending, what):
        with open(self.path(ending), "w", encoding="utf-8") as file:
            file.write(what)

    def took(self, words, given=""):
        """The output of a run, its seconds and its MiB, and whether it was ended."""
        read, write = os.pipe()
        self.written("in", given)
        with open(self.path("in"), "rb") as file:
            begin = lambda: (os.dup2(write, 3), limited(self.most))  # noqa: E731
            child = subprocess.Popen(
                [self.held, *words], stdin=file, stdout=subprocess.PIPE, pass_fds=[3], preexec_fn=begin
            )
        said = child.communicate()[0].decode()
        os.close(write)
        with open(read, encoding="ascii") as file:
            spent, held = map(int, file.read().split())
        return said, spent / 1e6, held / 1024, child.returncode in (128 + signal.SIGXCPU, 128 + signal.SIGKILL)

    def both(self):
        """What the peer prints of a specification up to its second check, and the seconds until it had written the
        automaton, and until the end of that check."""
        child = subprocess.Popen(
            [self.peer, "one", self.path("tlsf")],
            stdout=subprocess.PIPE,
            env={**os.environ, "P14_HOA": self.path("hoa")},
        )
        at, lines = {}, []
        for line in child.stdout:
            lines.append(line.decode())
            word = lines[-1].split(" ")[0]
            at.setdefault(word, used_until_now(child.pid))
            if word == "check2":
                break
        child.kill()
        child.wait()
        child.stdout.close()
        told = re.search(r"(?m)^check2 .* mem (\d+)", "".join(lines))
        if not told:
            sys.exit(f"the peer says: {''.join(lines)}")
        return at["hoa"], at["check2"], float(told[1])


def used_until_now(process):
    with open(f"/proc/{process}/schedstat", encoding="ascii") as file:
        return int(file.read().split()[0]) / 1e9


def limited(seconds):
    resource.setrlimit(resource.RLIMIT_CPU, (seconds, seconds))


class Case:
    def __init__(self, bench, name):
        self.bench = bench
        self.is_ended = False
        family, size = name.split(":")
        self.spec = text(*{one.__name__: one for one in FAMILIES}[family](int(size)))
        bench.written("tlsf", self.spec)

    def psyn(self, words, wanted, *texts):
        said, seconds, held, is_ended = self.bench.took([program()], f"{words}\n" + "%%\n".join(texts))
        self.is_ended = self.is_ended or is_ended
        if said != wanted and not is_ended:
            sys.exit(f"psyn says: {said[:200]}")
        return seconds, held

    def agreeing(self):
        """The seconds and MiB of `agree`, those of both checks of the peer, and the seconds of all that it did; and the
        peer's automaton."""
        found = []
        for _ in range(self.bench.runs):
            written, checked, held = self.bench.both()
            with open(self.bench.path("hoa"), encoding="utf-8") as file:
                automaton = file.read()
            found.append((*self.psyn("agree", "agrees\n", self.spec, automaton), checked - written, held, checked))
        return [min(column) for column in zip(*found)], automaton

    def verifying(self, automaton):
        """The seconds and MiB of `verify --tlsf`, and those of the peer; and what the circuit is."""
        first, _, circuit = self.bench.took([program()], f"synth\n{automaton}")[0].partition("\n")
        env = {"REALIZABLE": [], "UNREALIZABLE": ["env"]}[first]
        self.bench.written("aag", circuit)
        found = []
        for _ in range(self.bench.runs):
            said, seconds, held, _ = self.bench.took(
                [self.bench.peer, "circuit", self.bench.path("tlsf"), self.bench.path("aag"), *env]
            )
            if " satisfies " not in said:
                sys.exit(f"the peer says: {said}")
            found.append(
                (*self.psyn(f"verify --tlsf{' --env' * bool(env)}", "wins\n", self.spec, circuit), seconds, held)
            )
        return (
            [min(column) for column in zip(*found)],
            f"{first.lower()}, {circuit.split()[5]} gates{', ended' * self.is_ended}",
        )


def beside(own, held, other, theirs):
    return (
        f"{own:7.3f} s {held:4.0f} MiB, peer {other:7.3f} {theirs:4.0f}: "
        f"{own / max(other, 1e-4):5.2f} {held / theirs:5.2f}"
    )


def told(name, verified, agreed):
    return f"{name:18} verify {beside(*verified)}; agree {beside(*agreed[:4])}, {agreed[0] / agreed[4]:5.2f}"


def main():
    words = argparse.ArgumentParser(description=__doc__, formatter_class=argparse.RawDescriptionHelpFormatter)
    words.add_argument("peer")
    words.add_argument("--runs", type=int, default=3)
    words.add_argument("--most", type=int, default=100)
    words.add_argument(
        "names", nargs="*", default=[f"{family.__name__}:{size}" for family, size in zip(FAMILIES, SIZES)]
    )
    given = words.parse_intermixed_args()
    os.sched_setaffinity(0, {max(os.sched_getaffinity(0))})
    sums = []
    with tempfile.TemporaryDirectory() as folder:
        bench = Bench(given, folder)
        for name in given.names:
            case = Case(bench, name)
            agreed, automaton = case.agreeing()
            verified, said = case.verifying(automaton)
            print(f"{told(name, verified, agreed)}; {said}", flush=True)
            sums.append((verified, agreed))
    if sums:
        verified, agreed = ([sum(column) for column in zip(*those)] for those in zip(*sums))
        print(told("in all", verified, agreed), flush=True)


if __name__ == "__main__":
    main()
