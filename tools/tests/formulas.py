"""Random formulas of linear temporal logic and lassos, and an evaluator that shares nothing with psyn's own.

Formulas are nested tuples, as `tlsf_reader` gives them. A lasso is a stem and a lap, lists of letters; a letter is a
list of truths, one for each proposition.
"""

PREFIXES = ("!", "X", "F", "G")
INFIXES = ("&&", "||", "->", "<->", "U", "R", "W")


def a_formula(chance, nodes, propositions):
    """A random formula with this number of nodes."""
    if nodes == 1:
        return (
            ("name", chance.randrange(propositions)) if chance.random() < 0.9 else (chance.choice(("true", "false")),)
        )
    if nodes == 2 or chance.random() < 0.4:
        return (chance.choice(PREFIXES), a_formula(chance, nodes - 1, propositions))
    left = chance.randrange(1, nodes - 1)
    return (
        chance.choice(INFIXES), a_formula(chance, left, propositions), a_formula(chance, nodes - 1 - left, propositions)
    )


def text_of(formula, names):
    """The formula as a text, with all parentheses."""
    head, *operands = formula
    if head == "name":
        return names[operands[0]]
    said = [text_of(operand, names) for operand in operands]
    if not said:
        return head
    return f"{head} {said[0]}" if len(said) == 1 else f"({said[0]} {head} {said[1]})"


def a_lasso(chance, propositions, longest=4):
    """A random stem, which may be empty, and a random lap."""
    word = [[chance.random() < 0.5 for _ in range(propositions)] for _ in range(2 * longest)]
    stem, lap = chance.randrange(longest), chance.randrange(1, longest + 1)
    return word[:stem], word[stem : stem + lap]


def holds(formula, stem, lap):
    """Whether the lasso's word satisfies the formula at its first letter."""
    word, start = [*stem, *lap], len(stem)
    return truths(formula, word, [*range(1, len(word)), start])[0]


def truths(formula, word, after):
    """The truth of a formula at each index; `after` has the index behind each index."""
    head, *operands = formula
    if head == "name":
        return [bool(letter[operands[0]]) for letter in word]
    known = [truths(operand, word, after) for operand in operands]
    places = range(len(word))
    if head in ("true", "false"):
        return [head == "true" for _ in places]
    if head == "X":
        return [known[0][after[at]] for at in places]
    if head in ("F", "G", "U", "R", "W"):
        return repeated(head, known, after)
    return [
        {"!": not_, "&&": all, "||": any, "->": implied, "<->": same}[head]([one[at] for one in known]) for at in places
    ]


def repeated(head, known, after):
    """The truths of a formula that the truths of its operands and its own at the next index decide: of `F` and `U` the
    least that fit, of `G`, `R` and `W` the greatest, found by going round until nothing changes."""
    rules = {
        "F": lambda now, later: now[0] or later,
        "U": lambda now, later: now[1] or now[0] and later,
        "G": lambda now, later: now[0] and later,
        "R": lambda now, later: now[1] and (now[0] or later),
        "W": lambda now, later: now[1] or now[0] and later,
    }
    current = [head in ("G", "R", "W")] * len(after)
    while True:
        following = [rules[head]([one[at] for one in known], current[after[at]]) for at in range(len(after))]
        if following == current:
            return current
        current = following


def not_(values):
    return not values[0]


def implied(values):
    return not values[0] or values[1]


def same(values):
    return values[0] == values[1]


def specification_of(formula, names):
    """A specification in which each proposition is an input, and the formula is guaranteed."""
    listed = "".join(f"{name}; " for name in names)
    return (
        f"INFO {{ SEMANTICS: Mealy TARGET: Mealy }}\n"
        f"MAIN {{ INPUTS {{ {listed}}} GUARANTEE {{ {text_of(formula, names)} }} }}\n"
    )


def input_of(text, names, stem, lap):
    """The input of `lasso --tlsf`: a specification, a circuit whose inputs have these names, and a lasso."""
    count = len(names)
    literals = "".join(f"{2 * number + 2}\n" for number in range(count))
    symbols = "".join(f"i{number} {name}\n" for number, name in enumerate(names))
    lines = ["".join("01"[bit] for bit in letter) + "\n" for letter in stem]
    lines += ["-\n", *("".join("01"[bit] for bit in letter) + "\n" for letter in lap)]
    return f"lasso --tlsf\n{text}%%\naag {count} {count} 0 0 0\n{literals}{symbols}%%\n{''.join(lines)}"
