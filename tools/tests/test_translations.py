"""`translate` against two independent translators, lbt and spin; `agree` on automata with planted errors, against the
same product; each word that `agree` tells is confirmed by an evaluator of formulas and a run of the automaton. Each
part of examples/parts agrees with the sentence in its head. `translate`, which judges what it prints, has an automaton
for each pattern and the small members of each family of bench/specified.py."""
import glob
import os
import random
import re
import shutil
import subprocess
import sys
import unittest

from psyntool.program import path as program
from psyntool.texts import automaton
from tests import buchi, formulas, products
from upkeep import counts, sweeps
from upkeep.sweeps import TOP

sys.path.insert(0, os.path.join(TOP, "bench"))
import specified  # noqa: E402

NAMES = ("a", "b", "c")
FORMULAS = 300
PLANTED = 200
NODES = 9


def answered(words, text):
    """The answer to a command, and the exit status."""
    done = subprocess.run(
        [program()], input=f"{words}\n{text}".encode(), stdout=subprocess.PIPE, timeout=60, check=False
    )
    return done.stdout.decode(), done.returncode


def has(formula, head):
    return formula[0] == head or any(has(operand, head) for operand in formula[1:] if isinstance(operand, tuple))


def wrong_translation(formula):
    """What is wrong with the translation of a formula, by each translator that reads it."""
    text, status = answered("translate", formulas.specification_of(formula, NAMES))
    if status:
        return text
    spec = automaton.read(text)
    makers = [buchi.by_lbt] + ([] if has(formula, "X") else [buchi.by_spin])
    found = [buchi.differ(spec, make(formula), make(("!", formula))) for make in makers]
    return f"{formulas.text_of(formula, NAMES)}: {found}" if any(found) else None


def planted(chance, text):
    """The text of an automaton with one change: of marks, a target or a label. An automaton without edges has none."""
    head, body = text.split("--BODY--")
    edges = list(re.finditer(r"\[([^]]*)\] (\d+)( \{[^}]*\})?", body))
    if not edges:
        return ""
    states = sorted({int(it) for it in re.findall(r"State: (\d+)", body)})
    sets = int(re.search(r"Acceptance: (\d+)", head)[1])
    edge, kind = (
        chance.choice(edges), chance.choice(["label", *["marks"] * (sets > 0), *["target"] * (len(states) > 1)])
    )
    label, target, marks = edge[1], edge[2], edge[3] or ""
    if kind == "marks":
        here = {*map(int, re.findall(r"\d+", marks))} ^ {chance.randrange(sets)}
        marks = f" {{{' '.join(map(str, sorted(here)))}}}"
    elif kind == "target":
        target = str(chance.choice([state for state in states if state != int(target)]))
    else:
        label = f"({label}) & {chance.choice(('', '!'))}{chance.randrange(len(NAMES))}"
    return f"{head}--BODY--{body[: edge.start()]}[{label}] {target}{marks}{body[edge.end() :]}"


def lasso_of(word):
    """The letters of a word that `agree` tells: its stem and its lap, as lists of truths."""
    rows = [[digit == "1" for digit in row] for row in word.split("\n")[:-1] if row != "-"]
    stem = word.split("\n").index("-")
    return rows[:stem], rows[stem:]


def accepts(spec, stem, lap):
    """Whether an automaton accepts a lasso, by its run until a state comes again at the start of a lap."""
    state, seen, marks = spec.start, {}, []
    for letter in stem:
        edge = spec.edge_at(state, {number for number, truth in enumerate(letter) if truth})
        if edge is None:
            return False
        state = edge.target
    while state not in seen:
        seen[state] = len(marks)
        marks.append(set())
        for letter in lap:
            edge = spec.edge_at(state, {number for number, truth in enumerate(letter) if truth})
            if edge is None:
                return False
            state, _ = edge.target, marks[-1].update(edge.marks)
    return products.holds(spec.condition, set().union(*marks[seen[state] :]))


def judged(case):
    """The verdict of `agree` about an automaton, and what is wrong with it, if anything is."""
    formula, text = case
    said, status = answered("agree", f"{formulas.specification_of(formula, NAMES)}%%\n{text}")
    spec = automaton.read(text)
    wanted = buchi.differ(spec, buchi.by_lbt(formula), buchi.by_lbt(("!", formula)))
    first, _, word = said.partition("\n")
    if status or (first == "agrees") != (not wanted) or first not in ("agrees", *wanted):
        return first, f"{formulas.text_of(formula, NAMES)}: {first}, not one of {wanted}: {text}"
    if first == "agrees":
        return first, None
    stem, lap = lasso_of(word)
    told = (accepts(spec, stem, lap), formulas.holds(formula, stem, lap))
    return (
        first,
        None
        if told == (first == "accepts", first == "rejects")
        else f"{formulas.text_of(formula, NAMES)}: {word} is no difference: {text}",
    )


def disagreeing(path):
    """What is wrong with the sentence in a part's head, by `agree` with the automaton that is composed of the part
    alone."""
    with open(path, encoding="utf-8") as file:
        text = file.read()
    sentence = re.search(r"/\* in temporal logic: (.*) \*/", text)
    names = re.findall(r'"(\w+)"', re.search(r"^AP: .*$", text, re.M)[0])
    words = [sys.executable, os.path.join(TOP, "tools", "psyn"), "compose", "--guarantee", path, "--outs", *names]
    composed = subprocess.run(words, stdout=subprocess.PIPE, text=True, timeout=60, check=True).stdout
    spec = (
        f"INFO {{ SEMANTICS: Mealy TARGET: Mealy }}\nMAIN {{ OUTPUTS {{ {'; '.join(names)}; "
        f"}} GUARANTEE {{ {sentence[1]}; }} }}\n"
    )
    said, _ = answered("agree", f"{spec}%%\n{composed}")
    return None if said == "agrees\n" else f"{os.path.basename(path)}: {said}"


class Translations(unittest.TestCase):
    def test_the_sentences_of_parts(self):
        paths = sorted(glob.glob(os.path.join(TOP, "examples", "parts", "*.hoa")))
        self.assertEqual([it for it in map(disagreeing, paths) if it], [])
        counts.ran("formulas", "parts that agree with their sentences", len(paths))

    def test_patterns_and_small_members_of_families(self):
        parts = [specified.pattern(formula) for formula in specified.PATTERNS]
        parts += [family(n) for family in specified.FAMILIES for n in (2, 3)]
        answers = sweeps.at_once(lambda it: answered("translate", specified.text(*it)), parts)
        self.assertEqual([text for text, status in answers if status], [])
        counts.ran("formulas", "patterns and members of families that are translated", len(parts))

    def test_psyns_own_against_two_translators(self):
        self.needs("translated by lbt and spin too", "lbt", "spin")
        chance = random.Random("translations")
        drawn = [formulas.a_formula(chance, chance.randrange(1, NODES + 1), len(NAMES)) for _ in range(FORMULAS)]
        self.assertEqual([it for it in sweeps.at_once(wrong_translation, drawn) if it], [])
        counts.ran("formulas", "translated by lbt and spin too", FORMULAS)

    def test_agree_on_planted_errors(self):
        self.needs("automata with planted errors", "lbt")
        chance, cases = random.Random("planted"), []
        while len(cases) < PLANTED:
            formula = formulas.a_formula(chance, chance.randrange(3, NODES + 1), len(NAMES))
            text, status = answered("translate", formulas.specification_of(formula, NAMES))
            changed = planted(chance, text) if not status else ""
            if changed and answered("agree", f"{formulas.specification_of(formula, NAMES)}%%\n{changed}")[1] == 0:
                cases.append((formula, changed))
        found = sweeps.at_once(judged, cases)
        self.assertEqual([why for _, why in found if why], [])
        self.assertGreaterEqual(sum(first != "agrees" for first, _ in found), PLANTED // 2)
        counts.ran("formulas", "automata with planted errors", PLANTED)

    def needs(self, tests, *programs):
        """Skips tests if a program is missing."""
        missing = [name for name in programs if shutil.which(name) is None]
        if missing:
            counts.left_out("formulas", tests)
            self.skipTest(f"{' and '.join(missing)} not installed")


if __name__ == "__main__":
    unittest.main()
