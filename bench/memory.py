#!/usr/bin/env python3
"""Prints how much memory psyn uses for each vertex, gate, latch, letter, state or byte of a text, command by command.

  bench/memory.py PSYN

Each kind of text is run at two sizes; the greatest memory use and the length of the input are compared. A line for each
kind names the unit in which the sizes are counted: vertex, gate, latch, letter, state or byte. The line has the
additional bytes of memory and of input for each additional unit, and the ratio of the two.
"""
import os
import random
import subprocess
import sys
import tempfile

SPAWN = """import os, sys
opened = [(os.POSIX_SPAWN_OPEN, 0, sys.argv[2], os.O_RDONLY, 0), (os.POSIX_SPAWN_OPEN, 1, sys.argv[3], os.O_WRONLY, 0)]
child = os.posix_spawn(sys.argv[1], sys.argv[1:2], os.environ, file_actions=opened)
_, status, used = os.wait4(child, 0)
print(used.ru_maxrss * 1024, os.waitstatus_to_exitcode(status))
"""
ONE_STATE = "HOA: v1 Start: 0 controllable-AP: Acceptance: 0 t --BODY-- State: 0 [t] 0 --END--\n"


def game(count, degree, priorities):
    dice = random.Random(count)
    rows = (
        f"{v} {dice.randrange(priorities)} {v % 2} {','.join(map(str, dice.sample(range(count), degree)))};\n"
        for v in range(count)
    )
    return "".join(rows)


def gates(count):
    chain = "".join(f"{2 * v} {2 * v - 1} {2 * v - 2}\n" for v in range(2, count + 2))
    return f"aag {count + 1} 1 0 1 {count}\n2\n{2 * (count + 1)}\n{chain}"


def latches(count):
    return f"aag {count} 0 {count} 0 0\n" + "".join(f"{2 * v} {2 * (v % count) + 2}\n" for v in range(1, count + 1))


def states(count):
    head = (
        'HOA: v1 Start: 0 AP: 4 "a" "b" "c" "d" controllable-AP: 2 3 Acceptance: '
        '3 Fin(2) & (Inf(1) | Fin(0)) --BODY--\n'
    )
    rows = (
        f"State: {q}\n" + "".join(f"{(q * 31 + e * 977) % count} {{{e % 3}}}\n" for e in range(16))
        for q in range(count)
    )
    return head + "".join(rows) + "--END--\n"


def label(count):
    head = 'HOA: v1 Start: 0 AP: 2 "a" "b" controllable-AP: 1 Acceptance: 1 Inf(0) --BODY--\nState: 0 [0'
    return head + "|!1&0" * (count // 5) + "] 0 {0} --END--\n"


def condition(count):
    return (
        "HOA: v1 Start: 0 controllable-AP: Acceptance: 2 Fin(0)"
        + "|Inf(0)" * (count // 7)
        + " --BODY-- State: 0 0 {0} --END--\n"
    )


class Bench:
    def __init__(self, program, room):
        self.program = program
        self.input = os.path.join(room, "input")
        self.output = os.path.join(room, "output")

    def run(self, command, *texts):
        """The greatest memory use of a run, and the length of its input, in bytes."""
        with open(self.input, "w", encoding="ascii") as file:
            file.write(command + "\n" + "%%\n".join(texts))
        open(self.output, "wb").close()
        child = subprocess.run(
            [sys.executable, "-S", "-c", SPAWN, self.program, self.input, self.output], capture_output=True, check=True
        )
        held, status = map(int, child.stdout.split())
        if status not in (0, 10, 20):
            sys.exit(f"{command}: status {status}")
        return held, os.path.getsize(self.input)

    def certificate(self, text):
        self.run("solve", text)
        with open(self.output, encoding="ascii") as file:
            return file.read()

    def tell(self, command, kind, unit, sizes, texts):
        (held, size), (more_held, more_size) = (self.run(command, *texts(count)) for count in sizes)
        units = sizes[1] - sizes[0]
        own, text = (more_held - held) / units, (more_size - size) / units
        print(f"{command:10} {kind:32} {own:8.0f} a {unit:7} {text:6.1f} of text {own / text:6.1f} times", flush=True)


def main():
    if len(sys.argv) != 2:
        sys.exit(__doc__)
    with tempfile.TemporaryDirectory() as room:
        bench = Bench(os.path.abspath(sys.argv[1]), room)
        large = (100_000, 250_000)
        for degree, priorities in ((2, 4), (6, 4), (2, 20)):
            kind = f"{degree} edges, {priorities} priorities"
            bench.tell("solve", kind, "vertex", large, lambda n: [game(n, degree, priorities)])
            for command in ("closed", "check"):
                bench.tell(
                    command,
                    kind,
                    "vertex",
                    large,
                    lambda n: [text := game(n, degree, priorities), bench.certificate(text)],
                )
        bench.tell("sim", "a chain of gates", "gate", large, lambda n: [gates(n), "0\n1\n"])
        bench.tell("sim", "a ring of latches", "latch", large, lambda n: [latches(n), "\n\n"])
        bench.tell("sim", "letters of one digit", "letter", (10**6, 4 * 10**6), lambda n: [gates(1), "1\n" * n])
        bench.tell("lasso", "a ring of latches", "latch", large, lambda n: [ONE_STATE, latches(n), "-\n\n"])
        for command in ("game", "cert", "synth"):
            bench.tell(command, "states with 16 edges", "state", (10_000, 40_000), lambda n: [states(n)])
        for command, kind, text in (("game", "one label", label), ("game", "one condition", condition)):
            bench.tell(command, kind, "byte", (10**6, 4 * 10**6), lambda n: [text(n)])


if __name__ == "__main__":
    main()
