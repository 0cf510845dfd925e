"""Labels of edges: formulas over propositions and aliases, in postfix form, so that deep nesting needs no recursion."""
from dataclasses import dataclass

# An alias whose definition is longer than this, when written out, is written as its name.
LONGEST = 2_000
# The search for a letter that two edges share gives up after this many partial letters.
TRIALS = 4_000


@dataclass(frozen=True)
class Proposition:
    number: int


@dataclass(frozen=True)
class Alias:
    name: str


@dataclass(frozen=True)
class Operator:
    """In postfix form, `!` applies to the formula before it, and `&` and `|` to the two formulas before them."""

    sign: str
    count: int


NOT, AND = Operator("!", 1), Operator("&", 2)


def combined(sign, values):
    """The value of an operator for given truth values, where None means unknown."""
    if sign == "!":
        return None if values[0] is None else not values[0]
    decides = sign == "|"
    if decides in values:
        return decides
    return None if None in values else not decides


def value(label, letter, aliases):
    """A label's truth, given the truth of propositions (`letter`) and of aliases; None if these do not determine it."""
    stack = []
    for part in label:
        if isinstance(part, Proposition):
            stack.append(letter.get(part.number))
        elif isinstance(part, Alias):
            stack.append(aliases[part.name])
        elif isinstance(part, Operator):
            values = stack[-part.count :]
            del stack[-part.count :]
            stack.append(combined(part.sign, values))
        else:
            stack.append(part)
    return stack[0]


def used_by(those, aliases):
    """The aliases that the labels use, directly or through other aliases, in the order of their definitions."""
    seen, waiting = set(), list(those)
    while waiting:
        found = {part.name for part in waiting.pop() if isinstance(part, Alias)} - seen
        seen |= found
        waiting += [aliases[name] for name in found]
    return {name: label for name, label in aliases.items() if name in seen}


def values_of_aliases(aliases, letter):
    """The truth of each alias; an alias uses only aliases that are defined before it."""
    values = {}
    for name, label in aliases.items():
        values[name] = value(label, letter, values)
    return values


def first_met(those, letter, aliases):
    """The index of the first label that holds at the letter, which gives each proposition's truth; None if no label
    holds."""
    known = values_of_aliases(used_by(those, aliases), letter)
    return next((place for place, label in enumerate(those) if value(label, letter, known)), None)


def meeting(those, aliases, fixed=None):
    """A letter at which all of the labels hold, as the truth of each proposition; None if there is none or the search
    gives up."""
    used = used_by(those, aliases)
    numbers = {part.number for label in (*those, *used.values()) for part in label if isinstance(part, Proposition)}
    numbers = sorted(numbers - set(fixed or {}))
    waiting, trials = [(0, dict(fixed or {}))], 0
    while waiting and trials < TRIALS:
        place, letter = waiting.pop()
        trials += 1
        known = values_of_aliases(used, letter)
        values = [value(label, letter, known) for label in those]
        if all(values):
            return letter
        if False in values or place == len(numbers):
            continue
        waiting += [(place + 1, {**letter, numbers[place]: truth}) for truth in (True, False)]
    return None


def texts_of_aliases(aliases, names):
    """For each alias its text, and the outermost operator of the text; an alias whose text is too long keeps its
    name."""
    texts = {}
    for name, label in aliases.items():
        text, binds = written(label, names, texts)
        texts[name] = (f"@{name}", "") if len(text) > LONGEST else (text, binds)
    return texts


def written(label, names, aliases):
    """A label's text with the names of propositions, and the text's outermost operator; `aliases` has both for each
    alias."""
    stack = []
    for part in label:
        if isinstance(part, Proposition):
            stack.append((names[part.number] if part.number < len(names) else str(part.number), ""))
        elif isinstance(part, Alias):
            stack.append(aliases[part.name])
        elif isinstance(part, Operator):
            parts = stack[-part.count :]
            del stack[-part.count :]
            inside = [f"({text})" if binds and binds != part.sign else text for text, binds in parts]
            stack.append(("!" + inside[0], "") if part.sign == "!" else (f" {part.sign} ".join(inside), part.sign))
        else:
            stack.append(("t" if part else "f", ""))
    return stack[0]


def letter_text(letter, names):
    """A letter by names, such as `r0 !g1`; propositions without a truth are left out."""
    return " ".join(("" if letter[number] else "!") + name for number, name in enumerate(names) if number in letter)
