"""What outputs of a circuit do, in words: those that are constant, that change by themselves, or that repeat an input.
Others are told by equations."""
from psyntool.equations.reading import Names, Scope, equations
from psyntool.equations.terms import Constant, Name, Not
from psyntool.equations.writing import PLAIN, written
from psyntool.texts.circuit import at

# For an output that needs no input so many steps are computed, and fewer where they would be of more gates in all.
MOST_STEPS, MOST_GATES = 64, 200_000
# A longer sequence of values is not told.
MOST_VALUES = 16


def lines(made, head):
    """What a circuit does: one sentence behind the head if there are words for each output; else equations below it."""
    said = equations(made, names_of(made))
    found = phrases(made, said)
    if len(found) == len(said.outputs):
        return [f"{head} {together(found) or 'nothing, since it has nothing to say'}"]
    told = [f"{name} = {written(term, PLAIN)}" for name, term in said.wires]
    for name, term in said.outputs:
        told += (
            [f"{name} is {found[name]}"]
            if name in found
            else []
            if term == Name(name)
            else [f"{name} = {written(term, PLAIN)}"]
        )
    return [head, *(f"  {line}" for line in [*told, *registers_told(said, found)])]


def names_of(made):
    """Names that are all different. A latch that is an output has the name of that output."""
    scope = Scope()
    inputs, outputs = (tuple(map(scope.new, made.names(kind))) for kind in "io")
    shown = dict(reversed([*zip(made.outputs, outputs)]))
    latches = tuple(shown.get(latch.literal) or scope.new(name) for latch, name in zip(made.latches, made.names("l")))
    wires = {gate.literal // 2: scope.new(f"n{gate.literal // 2}") for gate in made.gates}
    return Names(inputs, latches, outputs, wires.__getitem__)


def registers_told(said, found):
    """A line for each register that is not told as an output: what it repeats, or the term of its next value."""
    registers, wires = {it.name: it for it in said.registers}, dict(said.wires)
    told = []
    for it in said.registers:
        general = f"{it.first} in the first step, and then what this was one step before: {written(it.next, PLAIN)}"
        told += [] if it.name in found else [f"{it.name} is {of_signal(Name(it.name), registers, wires) or general}"]
    return told


def together(found):
    """One sentence on outputs, of which those with the same words stand together, and those that are always 0 last."""
    names = {}
    for name, phrase in sorted(found.items(), key=lambda one: one[1] == "always 0"):
        names.setdefault(phrase, []).append(name)
    return ", ".join(
        f"{listed(these)} {'is' if len(these) == 1 else 'are'} {phrase}" for phrase, these in names.items()
    )


def listed(names):
    return " and ".join(filter(None, [", ".join(names[:-1]), names[-1]]))


def phrases(made, said):
    """For each output that words can describe, what it is, by its name in the equations; `made` is the circuit."""
    found, registers, wires = {}, {it.name: it for it in said.registers}, dict(said.wires)
    for (name, term), values in zip(said.outputs, values_of_outputs(made.ordered)):
        phrase = of_values(*values) if values else of_signal(term, registers, wires)
        if phrase:
            found[name] = phrase
    return found


def values_of_outputs(made):
    """For each output its values in the first steps, and those that come again and again behind them, if they are the
    same whatever the inputs are; else None."""
    latches, seen, rows = {latch.literal // 2: latch.reset for latch in made.latches}, {}, []
    while len(rows) < min(MOST_STEPS, MOST_GATES // (1 + len(made.gates))):
        now = tuple(latches.values())
        if now in seen:
            columns = [[row[place] for row in rows] for place in range(len(made.outputs))]
            return [None if None in column else (column[: seen[now]], column[seen[now] :]) for column in columns]
        seen[now] = len(rows)
        values = made.known_values(latches)
        rows.append([at(values, literal) for literal in made.outputs])
        latches = {latch.literal // 2: at(values, latch.next) for latch in made.latches}
    return [None] * len(made.outputs)


def of_values(stem, lap):
    """A sequence of values in words, or None if it is too long."""
    lap = next(lap[:length] for length in range(1, len(lap) + 1) if lap == lap[:length] * (len(lap) // length))
    while stem and stem[-1] == lap[-1]:
        stem, lap = stem[:-1], [lap[-1], *lap[:-1]]
    if len(stem) + len(lap) > MOST_VALUES:
        return None
    if lap in ([0, 1], [1, 0]) and not stem:
        return f"{lap[0]} and {lap[1]} in turn, {lap[0]} first"
    behind = f"always {lap[0]}" if len(lap) == 1 else f"{' '.join(map(str, lap))} again and again"
    if not stem:
        return behind
    first = "in the first step" if len(stem) == 1 else f"in the first {len(stem)} steps"
    return f"{stem[0] if len(set(stem)) == 1 else ' '.join(map(str, stem))} {first}, then {behind}"


def of_signal(term, registers, wires):
    """A constant term, or one that is an input or output of this or of an earlier step, or its opposite, in words; else
    None."""
    firsts, is_opposite = [], False
    while True:
        if isinstance(term, Not):
            is_opposite, term = not is_opposite, term.sides[0]
        if isinstance(term, Constant) and not firsts:
            return f"always {term.value}"
        if not isinstance(term, Name) or term.text in wires or len(firsts) > MOST_VALUES:
            return None
        if term.text not in registers:
            return repeated(term.text, firsts, is_opposite)
        firsts.append(str(registers[term.text].first ^ is_opposite))
        term = registers[term.text].next


def repeated(name, firsts, is_opposite):
    """The words for a signal as it was as many steps before as there are first values."""
    opposite, count = "the opposite of " if is_opposite else "", len(firsts)
    if not firsts:
        return f"{opposite}{name} of the same step"
    before, first = ("one step", "the first step") if count == 1 else (f"{count} steps", f"the first {count} steps")
    return (
        f"{opposite}what {name} was {before} before ({firsts[0] if len(set(firsts)) == 1 else ' '.join(firsts)} "
        f"in {first})"
    )
