"""Generalised Büchi automata of `lbt` and `spin -f`, and their products with a deterministic automaton."""
import re
import subprocess
from dataclasses import dataclass, field

from tests import products

LBT = {"true": "t", "false": "f", "&&": "&", "||": "|", "->": "i", "<->": "e", "R": "V"}
SPIN = {"F": "<>", "G": "[]", "R": "V"}


@dataclass
class Buchi:
    """The first state; for each state its edges, as pairs of a predicate on letters (sets of numbers) and a target; the
    sets that a state is in, and how many sets there are."""

    start: object
    edges: dict = field(default_factory=dict)
    sets: dict = field(default_factory=dict)
    count: int = 0


def prefix_of(formula):
    """The formula in the prefix form that lbt reads."""
    head, *operands = formula
    if head == "name":
        return f"p{operands[0]}"
    if head == "W":
        left, right = map(prefix_of, operands)
        return f"V {right} | {left} {right}"
    return " ".join([LBT.get(head, head), *map(prefix_of, operands)])


def label_of(words):
    """A predicate for a label in prefix form, of which the words are taken."""
    word = words.pop(0)
    if word in "tf":
        return lambda letter: word == "t"
    if word == "!":
        inner = label_of(words)
        return lambda letter: not inner(letter)
    if word in "&|":
        left, right = label_of(words), label_of(words)
        return (
            (lambda letter: left(letter) and right(letter))
            if word == "&"
            else (lambda letter: left(letter) or right(letter))
        )
    number = int(word[1:])
    return lambda letter: number in letter


def by_lbt(formula):
    """The automaton that lbt makes of a formula; without states for one that no word satisfies."""
    said = subprocess.run(
        ["lbt"], input=prefix_of(formula) + "\n", stdout=subprocess.PIPE, text=True, timeout=60, check=True
    ).stdout
    lines = said.splitlines()
    states, sets = map(int, lines[0].split()[:2])
    made, rest = Buchi(None, {None: []}, {None: set()}, sets), iter(lines[1:])
    for _ in range(states):
        number, initial, *within = map(int, next(rest).split())
        made.edges[number], made.sets[number] = [], set(within[:-1])
        made.start = number if initial else made.start
        while (line := next(rest)) != "-1":
            target, *label = line.split()
            made.edges[number].append((label_of(label), int(target)))
    return made


def infix_of(formula):
    """The formula in the form that spin reads; it has no W and no X. `a W F b` is `F b || G a`: in the form for other
    formulas, spin takes minutes for it."""
    head, *operands = formula
    if head == "name":
        return f"p{operands[0]}"
    said = [infix_of(operand) for operand in operands]
    if head == "W":
        return f"({said[1]} || ([] {said[0]}))" if operands[1][0] == "F" else f"({said[1]} V ({said[0]} || {said[1]}))"
    if not said:
        return head
    return f"({SPIN.get(head, head)} {said[0]})" if len(said) == 1 else f"({said[0]} {SPIN.get(head, head)} {said[1]})"


def guard_of(text):
    """A predicate for a condition of C on propositions."""
    read = re.sub(r"p(\d+)", r"(\1 in letter)", text.replace("&&", " and ").replace("||", " or ").replace("!", " not "))
    # the text is spin's, and has parentheses, operators, numbers, true and false alone
    return eval(f"lambda letter: bool({read})", {"true": True, "false": False})


def by_spin(formula):
    """The automaton that spin makes of a formula. A state may have two labels, one below the other."""
    said = subprocess.run(
        ["spin", "-f", infix_of(formula)], stdout=subprocess.PIPE, text=True, timeout=60, check=True
    ).stdout
    made, state = Buchi(None, count=1), None
    first = {other: one for one, other in re.findall(r"(?m)^(\w+):\n(\w+):$", said)}
    for line in said.splitlines():
        if found := re.match(r"(\w+):", line):
            state = first.get(found[1], found[1])
            made.start = made.start or state
            made.edges[state], made.sets[state] = [], {0} if state.startswith("accept") else set()
        elif found := re.search(r":: atomic \{ (.*) -> assert", line):
            made.edges[state].append((guard_of(found[1]), "accept_all"))
        elif found := re.search(r":: (.*) -> goto (\w+)", line):
            made.edges[state].append((guard_of(found[1]), first.get(found[2], found[2])))
        elif line.strip() == "skip":
            made.edges[state].append((lambda letter: True, state))
    made.edges.setdefault("accept_all", [(lambda letter: True, "accept_all")])
    made.sets["accept_all"] = {0}
    return made


def dual(condition):
    """The negation of a condition."""
    if isinstance(condition, bool):
        return not condition
    sign, operands = condition
    if sign in ("Inf", "Fin"):
        return "Fin" if sign == "Inf" else "Inf", operands
    return "|" if sign == "&" else "&", [dual(it) for it in operands]


def have_common_word(spec, made, accepts):
    """Whether the deterministic automaton accepts (or without `accepts` rejects) a word that the other one accepts. The
    propositions of both have the same numbers."""
    letters = [
        {number for number in range(len(spec.names)) if letter >> number & 1} for letter in range(1 << len(spec.names))
    ]
    first = (spec.start, made.start)
    edges, waiting = {}, [first]
    for vertex in waiting:
        if vertex in edges:
            continue
        edges[vertex] = []
        state, other = vertex
        for letter in letters:
            taken = None if state is None else spec.edge_at(state, letter)
            target, marks = (None, frozenset()) if taken is None else (taken.target, taken.marks)
            within = {("other", mark) for mark in made.sets[other]} | ({"sink"} if target is None else set())
            for guard, reached in made.edges[other]:
                if guard(letter):
                    edges[vertex].append(((target, reached), frozenset(marks) | within))
                    waiting.append((target, reached))
    mine = ("&", [spec.condition, ("Fin", "sink")]) if accepts else ("|", [dual(spec.condition), ("Inf", "sink")])
    whole = ("&", [mine, *(("Inf", ("other", mark)) for mark in range(made.count))])
    return products.has_loop(edges, whole, True)


def differ(spec, of_formula, of_negation):
    """How the deterministic automaton differs from a formula, by automata of the formula and of its negation: it
    accepts a word wrongly, it rejects one wrongly, both, or neither."""
    wrong = (["accepts"] if have_common_word(spec, of_negation, True) else []) + (
        ["rejects"] if have_common_word(spec, of_formula, False) else []
    )
    return wrong
