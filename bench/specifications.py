#!/usr/bin/env python3
"""Times `lasso --tlsf` on long specifications, on growing formulas and lassos, and on nested `<->`.

  bench/specifications.py PSYN [--runs N]

Times are processor times of whole processes, the least of N (3) runs. There are three parts:
    texts     specifications of 16 MiB, each beside `check` of a game of 16 MiB (with a certificate that `solve` made)
    growth    one formula with twice as many nodes, and a lasso with twice as many letters, beside the one before it
    nested    250 nested `<->` in parentheses, beside 500 nodes of `X` and `!`, on a lasso of 100,000 letters
A line has the seconds of both processes and their ratio, and the first line of the first process's answer. An answer
that is a fault ends the script.
"""
import os
import random
import re
import subprocess
import sys
import tempfile

LENGTH = 1 << 24
NAMES = [f"p{number}" for number in range(64)]


def specification(names, sections):
    listed = "".join(f"{name};" for name in names)
    return f"INFO {{ SEMANTICS: Mealy TARGET: Mealy }}\nMAIN {{ INPUTS {{ {listed} }} {sections} }}\n"


def filled(piece, names=("a",), sections="GUARANTEE { a; }"):
    """A specification of 16 MiB, in which the piece is repeated before the last section's end."""
    text = specification(names, f"{sections[:-1]}\n\n{sections[-1]}")
    head, tail = text.rsplit("\n\n", 1)
    return head + "\n" + piece * ((LENGTH - len(text)) // len(piece)) + "\n" + tail


def long_names(uses):
    """A specification of 16 MiB whose 64 names are so long that this number of uses fills it."""
    size = LENGTH // (uses + 64) - 5
    names = [f"n{number:02}_" + "x" * (size - 4) for number in range(64)]
    return specification(names, "GUARANTEE { " + "".join(f"{names[number % 64]};\n" for number in range(uses)) + "}")


def nested_comments():
    depth = (LENGTH - 200) // 4
    return specification(("a",), "/*" * depth + "*/" * depth + " GUARANTEE { a; }")


def texts():
    yield "spaces", filled("          \n")
    yield "line comments", filled("// comment\n")
    yield "comments", filled("/* comment */\n")
    yield "comments, nested", nested_comments()
    yield "empty sections", filled("} GUARANTEE {\n")
    yield "32,000 uses of 64 long names", long_names(32_000)
    yield "64 uses of 64 names of 128 KiB", long_names(64)


def formula_with(nodes, names):
    """A formula with about this number of different nodes, in chains of 250 prefixes before one name each. There are
    four different chains for each name."""
    chains = (("XFG!" * 64)[at // len(names) :][:250] + names[at % len(names)] for at in range(nodes // 250))
    return " && ".join(re.sub("([XFG!])", r"\1 ", chain) for chain in chains)


def letters(count, width):
    dice = random.Random(count)
    return [format(dice.getrandbits(width), f"0{width}b") for _ in range(count)]


def lasso_input(text, names, word):
    """The input of `lasso --tlsf` whose circuit has an input for each name; half of the word is the stem."""
    declared = "".join(f"{2 * number + 2}\n" for number in range(len(names)))
    symbols = "".join(f"i{number} {name}\n" for number, name in enumerate(names))
    half = len(word) // 2
    stimulus = "".join(f"{letter}\n" for letter in [*word[:half], "-", *word[half:]])
    return f"lasso --tlsf\n{text}%%\naag {len(names)} {len(names)} 0 0 0\n{declared}{symbols}%%\n{stimulus}".encode()


def formula_input(formula, names, word):
    return lasso_input(specification(names, f"GUARANTEE {{ {formula}; }}"), names, word)


def game():
    """A random game of almost 16 MiB, with three edges a vertex."""
    count = 512_000
    dice = random.Random(1)
    lines = []
    for v in range(count):
        targets = ",".join(map(str, dice.sample(range(count), 3)))
        lines.append(f"{v} {dice.randrange(20)} {v % 2} {targets};\n")
    return "".join(lines)


class Bench:
    def __init__(self, psyn, runs, room):
        self.psyn = psyn
        self.runs = runs
        self.room = room

    def run(self, given):
        """The processor seconds of a run, and its output."""
        with tempfile.TemporaryFile(dir=self.room) as file, tempfile.TemporaryFile(dir=self.room) as out:
            file.write(given)
            file.seek(0)
            child = subprocess.Popen([self.psyn], stdin=file, stdout=out)
            _, _, used = os.wait4(child.pid, 0)
            child.returncode = 0
            out.seek(0)
            return used.ru_utime + used.ru_stime, out.read()

    def beside(self, name, one, other):
        """Prints the least seconds of both inputs, run in turn, and their ratio."""
        pairs = [(self.run(one), self.run(other)) for _ in range(self.runs)]
        mine, theirs = (min(pair[side][0] for pair in pairs) for side in (0, 1))
        for said in (pairs[0][1][1], pairs[0][0][1]):
            said = said.split(b"\n")[0].decode()
            if said.startswith("fault"):
                sys.exit(f"{name}: {said}")
        print(f"{name:40} {mine:7.3f} {theirs:7.3f} s  {mine / max(theirs, 1e-9):5.2f}  {said}", flush=True)


def measure(bench):
    rows = game().encode()
    certificate = bench.run(b"solve\n" + rows)[1]
    check = b"check\n" + rows + b"%%\n" + certificate
    for name, text in texts():
        names = [word.strip() for word in text.split("INPUTS {", 1)[1].split("}", 1)[0].split(";")[:-1]]
        bench.beside(f"{name} ({len(text)} bytes)", lasso_input(text, names, ["0" * len(names)] * 2), check)
    for count in (500, 1_000, 2_000, 4_000, 8_000, 16_000, 32_000):
        word = letters(2_000, len(NAMES))
        one, other = (formula_input(formula_with(size, NAMES), NAMES, word) for size in (2 * count, count))
        bench.beside(f"{2 * count} nodes, 2,000 letters", one, other)
    names = NAMES[:8]
    formula = formula_with(2_000, names)
    for count in (1_000, 2_000, 4_000, 8_000, 16_000, 32_000):
        one, other = (formula_input(formula, names, letters(size, len(names))) for size in (2 * count, count))
        bench.beside(f"2,000 nodes, {2 * count} letters", one, other)
    word = letters(100_000, len(names))
    chain = "(" * 250 + "p0" + "".join(f" <-> p{(number * 5 + 1) % 8})" for number in range(250))
    flat = " && ".join("X ! " * 125 + name for name in names[:2])
    bench.beside("250 nested <->, 500 nodes", formula_input(chain, names, word), formula_input(flat, names, word))


def main():
    words = sys.argv[1:]
    if len(words) not in (1, 3) or (len(words) == 3 and words[1] != "--runs"):
        sys.exit(__doc__)
    with tempfile.TemporaryDirectory() as room:
        measure(Bench(words[0], int(words[2]) if len(words) == 3 else 3, room))


if __name__ == "__main__":
    main()
