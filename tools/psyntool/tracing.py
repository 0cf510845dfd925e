"""Runs of an automaton on a circuit's trace: for each step the state, the letter by names, and the acceptance sets. For
a specification, the letters alone."""
from psyntool import program
from psyntool.kinds import Kind
from psyntool.texts import automaton, circuit, labels, specification, stimulus

LONGEST = 100_000
# Of a longer run than both together, so many steps are shown at its beginning, and as many at its end.
SHOWN = 50


def letters_of(texts, count):
    """The letters of a circuit's trace, for `count` steps of a stimulus: for each step the names of the true
    propositions."""
    judged = circuit.read(texts[1].string)
    given = stimulus.read(texts[2].string).letters(count)
    said = program.ask(b"sim\n" + texts[1].bytes + b"%%\n" + "".join(f"{letter}\n" for letter in given).encode())
    names = [*judged.names("i"), *judged.names("o")]
    for row in said.text.split("\n")[:-1]:
        _, inputs, outputs = row.split("|")
        yield {name for name, digit in zip(names, inputs + outputs) if digit == "1"}


def steps(read, letters):
    """For each step the state's name, the letter and the acceptance sets. The run ends at a step without an edge."""
    state = read.start
    for letter in letters:
        edge = read.edge_at(state, letter)
        said = labels.letter_text({number: number in letter for number in range(len(read.names))}, read.names)
        yield read.title_of(state), said, "no edge" if edge is None else " ".join(map(str, sorted(edge.marks)))
        if edge is None:
            return
        state = edge.target


def trace(texts, stem, lap, is_stopped=False, flags=()):
    """A table of the steps on a lasso: on the stem, and on one lap (the repeated part). The texts are an automaton or a
    specification, a circuit and a stimulus; `flags` has `--env` if the circuit is an environment's. Below the run of an
    automaton stands what became of the parts of which it was composed, if it was; the table can be stopped at the first
    step that breaks a guarantee."""
    if stem + lap > LONGEST:
        return f"the run has {stem + lap} steps until it comes again, and is not shown\n"
    if texts[0].kind is Kind.SPECIFICATION:
        return trace_by_names(texts, stem, lap, is_stopped, flags)
    read = automaton.read(texts[0].string)
    numbers = {name: number for number, name in enumerate(read.names)}
    letters = [{numbers[name] for name in true} for true in letters_of(texts, stem + lap)]
    rows = [(str(place), *row) for place, row in enumerate(steps(read, letters))]
    is_ended = rows[-1][-1] == "no edge"
    last, parts = parts_told(read, letters[: len(rows)], None if is_ended else stem, is_stopped)
    rows = rows[:last]
    told = table(("step", "state", "letter", "sets"), rows, None if is_ended else stem, lap)
    return "\n".join([*told, *(["there is no edge: the run ends"] if rows[-1][-1] == "no edge" else []), *parts, ""])


def run_of(read, names, letters, stem):
    """The lines of a table of an automaton's run on a lasso, whose letters are those of the stem and of one lap, each
    the set of the names that are true. Of all names, the automaton reads those that it has."""
    numbers = {name: number for number, name in enumerate(read.names)}
    rows = [
        (str(place), state, named(true, names), marks)
        for place, (true, (state, _, marks)) in enumerate(
            zip(letters, steps(read, [{numbers[name] for name in true if name in numbers} for true in letters]))
        )
    ]
    is_ended = rows[-1][-1] == "no edge"
    told = table(("step", "state", "letter", "sets"), rows, None if is_ended else stem, len(letters) - stem)
    return [*told, *["there is no edge: the run ends"] * is_ended]


def named(true, names):
    """A letter by names, of which some are true."""
    return labels.letter_text({number: name in true for number, name in enumerate(names)}, names)


def trace_by_names(texts, stem, lap, is_stopped, flags):
    """A table of the letters on a lasso, by the names that a specification declares, and the sentences that the lasso
    violates. The table can be stopped at the first step that breaks one of them."""
    from psyntool.tlsf import violations

    names = [name for declared in specification.owners(texts[0].string) for name in declared]
    letters = list(letters_of(texts, stem + lap))
    broken = violations.of_trace(texts, letters, stem, flags)
    steps = [one.step for one in broken if one.step is not None]
    if is_stopped and steps:
        letters, stem = unrolled(letters, stem, min(steps) + 1), None
        broken = [one for one in broken if one.step is not None and one.step < len(letters)]
    rows = [(str(place), named(true, names)) for place, true in enumerate(letters)]
    return "\n".join(
        [*table(("step", "letter"), rows, stem, lap), *(line for one in broken for line in one.told()), ""]
    )


def unrolled(letters, stem, count):
    """The first letters of a lasso, whose letters are those of the stem and of one lap."""
    lap = letters[stem:]
    return [letters[place] if place < len(letters) else lap[(place - stem) % len(lap)] for place in range(count)]


def table(head, rows, stem, lap):
    """The lines of a table. A line stands before the row with which the lap begins, unless the run ends (`stem` is then
    None). Of a long run only the two ends are shown."""
    left_out = range(SHOWN, max(SHOWN, len(rows) - SHOWN))
    widths = [
        max(len(row[column]) for row in [head, *rows[: left_out.start], *rows[left_out.stop :]])
        for column in range(len(head) - 1)
    ]
    shown = [
        "  ".join([*(word.ljust(width) for word, width in zip(row, widths)), row[-1]]).rstrip() for row in [head, *rows]
    ]
    told = shown[:1]
    for place, line in enumerate(shown[1:]):
        if place == left_out.start and left_out:
            told.append(f".. {len(left_out)} steps are not shown ..")
        if place == stem:
            told.append(
                f"the lap begins{f' at step {stem}' * (stem in left_out)}; it comes again after step {stem + lap - 1}"
            )
        told += [] if place in left_out else [line]
    return told


def parts_told(read, letters, stem, is_stopped):
    """The number of steps that are told, or None for all, and lines on the parts of a composed automaton that a step
    breaks or that the lap never meets. If the trace is stopped, nothing is told behind the first broken guarantee."""
    if "part:" not in read.headers:
        return None, []
    from psyntool.parts import running, specification
    from psyntool.parts.diagrams import Diagrams
    from psyntool.parts.part import Moves

    try:
        of = specification.kept(read)
    except specification.NotComposed as error:
        return None, [str(error)]
    numbers, diagrams = {name: number for number, name in enumerate(read.names)}, Diagrams()
    sides = [
        (side, [Moves(it, numbers, diagrams) for it in parts])
        for side, parts in (("assumption", of.assumptions), ("guarantee", of.guarantees))
    ]
    broken = [
        found.broke for found in (running.run(moves, letters) for moves in sides[1][1]) if found.broke is not None
    ]
    last = min(broken) + 1 if broken and is_stopped else None
    stem = None if last else stem
    return (
        last,
        [
            line
            for side, those in sides
            for moves in those
            for line in running.told(side, moves, letters[:last], stem, "lap")
        ],
    )
