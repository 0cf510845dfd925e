"""Whether a controller breaks an assumption, which lifts its guarantees: in a step in which nothing that the
environment says is safe, or because its later outputs keep the environment from what the assumption demands, where
others would not.

That is decided on all states of the circuit with the automata of the assumptions, if these are parts and few steps
suffice.
"""
import itertools
from dataclasses import dataclass, replace

from psyntool.cores import shrunk
from psyntool.ends import Refused
from psyntool.parts import spoken
from psyntool.plays.play import Play
from psyntool.texts import Unreadable
from psyntool.tlsf import keeping
from psyntool.tlsf.expanding import Basic
from psyntool.tlsf.obligations import Obligations, TooLong, limited
from psyntool.tlsf.plays import Sentences

# Inputs on which a circuit depends, and names of all assumptions; steps, and gates that are computed.
MOST_INPUTS, MOST_NAMES, MOST_STEPS, MOST_GATES = 8, 10, 100_000, 1_000_000
# A longer play is not shown.
LONGEST = 30


def subsets(names):
    """The sets of some of the names, as letters."""
    for bits in itertools.product((0, 1), repeat=len(names)):
        yield frozenset(name for name, bit in zip(names, bits) if bit)


class Watched:
    """The automaton of an assumption, whose moves are kept."""

    def __init__(self, sentence):
        obligations = Obligations()
        meant = obligations.of(sentence.formula)
        meant = obligations.always(meant) if sentence.word in keeping.AT_EACH_STEP else meant
        if spoken.has_release_below(meant, False, {}):
            raise TooLong
        self.names = frozenset(sentence.names)
        self.automaton = spoken.Automaton(meant, obligations, list(sentence.names))
        self.known = {}

    def move(self, state: int, letter: frozenset):
        """The next state, and whether the step meets what was due; None if the letter breaks the assumption."""
        key = state, letter & self.names
        if key not in self.known:
            self.known[key] = self.automaton.move(self.automaton.waiting[state], key[1])
        return self.known[key]


class Table:
    """What a circuit does at given values of its latches, for all letters of its inputs at once: in a value, bit n is
    that of letter n. The circuit has only what the given outputs depend on."""

    def __init__(self, made, names):
        made = made.ordered
        places = [place for place, name in enumerate(made.names("o")) if name in names]
        self.outputs = {made.names("o")[place]: made.outputs[place] for place in places}
        needed = replace(made, outputs=tuple(self.outputs.values())).needed_variables
        self.gates = [gate for gate in made.gates if gate.literal // 2 in needed]
        self.latches = [latch for latch in made.latches if latch.literal // 2 in needed]
        self.start = tuple(int(latch.reset == 1) for latch in self.latches)
        named = list(zip(made.names("i"), made.inputs))
        self.inputs = [(name, one) for name, one in named if one // 2 in needed or name in names]
        if len(self.inputs) > MOST_INPUTS:
            raise TooLong
        self.letters = list(subsets([name for name, _ in self.inputs]))
        self.full = (1 << len(self.letters)) - 1
        self.left = MOST_GATES
        self.known = {}

    def steps(self, latches: tuple) -> list:
        """For each letter of the inputs the true names, and the latches behind the step."""
        if latches not in self.known:
            self.left -= len(self.gates) + len(self.letters)
            if self.left < 0:
                raise TooLong
            self.known[latches] = self.computed(latches)
        return self.known[latches]

    def computed(self, latches: tuple) -> list:
        values = {0: 0}
        for name, literal in self.inputs:
            values[literal // 2] = sum(1 << place for place, letter in enumerate(self.letters) if name in letter)
        for latch, bit in zip(self.latches, latches):
            values[latch.literal // 2] = self.full * bit
        for gate in self.gates:
            left, right = (self.at(values, side) for side in gate.sides)
            values[gate.literal // 2] = left & right
        outputs = {name: self.at(values, literal) for name, literal in self.outputs.items()}
        nexts = [self.at(values, latch.next) for latch in self.latches]
        return [
            (letter | {name for name, value in outputs.items() if value >> place & 1}, bits)
            for place, letter in enumerate(self.letters)
            for bits in [tuple(value >> place & 1 for value in nexts)]
        ]

    def at(self, values: dict, literal: int) -> int:
        return values[literal // 2] ^ (self.full if literal & 1 else 0)


class Graph:
    """Positions that can be reached from one, with their steps to others; `steps` gives what is said in a step, the
    position behind it, which is None if it breaks an assumption, and the assumptions that it meets."""

    def __init__(self, start, steps):
        self.start, self.edges, waiting = start, {}, [start]
        while waiting:
            now = waiting.pop()
            if now not in self.edges:
                self.edges[now] = steps(now)
                waiting += [after for _, after, _ in self.edges[now] if after is not None]

    def keeping(self, count: int) -> set:
        """The positions from which some steps for ever meet each of so many assumptions again and again."""
        before = {one: set() for one in self.edges}
        for one, steps in self.edges.items():
            for _, after, _ in steps:
                if after is not None:
                    before[after].add(one)
        good = {one for those in self.components() for one in those if self.is_fair(those, count)}
        waiting = list(good)
        while waiting:
            for one in before[waiting.pop()] - good:
                good.add(one)
                waiting.append(one)
        return good

    def is_fair(self, those: set, count: int) -> bool:
        """Whether the steps inside a component meet each assumption."""
        inside = [met for one in those for _, after, met in self.edges[one] if after in those]
        return bool(inside) and len(frozenset().union(*inside)) == count

    def components(self):
        """The strongly connected components, as sets (Tarjan's search, without recursion)."""
        number, low, stack, on_stack = {}, {}, [], set()
        for root in self.edges:
            if root in number:
                continue
            work = [(root, iter(()))]
            while work:
                one, rest = work.pop()
                if one not in number:
                    number[one] = low[one] = len(number)
                    stack.append(one)
                    on_stack.add(one)
                    rest = iter({after for _, after, _ in self.edges[one] if after is not None})
                for after in rest:
                    if after not in number:
                        work += [(one, rest), (after, iter(()))]
                        break
                    if after in on_stack:
                        low[one] = min(low[one], low[after])
                else:
                    if low[one] == number[one]:
                        found = set()
                        while one not in found:
                            found.add(stack.pop())
                        on_stack -= found
                        yield found
                    if work:
                        low[work[-1][0]] = min(low[work[-1][0]], low[one])


@dataclass(frozen=True)
class Break:
    """How a controller breaks assumptions: these, as few as possible, and the letters of the inputs up to the step from
    which on the environment can't keep them."""

    assumptions: tuple
    letters: tuple


class Breaking:
    """A controller's circuit with the automata of the assumptions of its specification."""

    def __init__(self, basic: Basic, made):
        self.basic = basic
        self.assumptions = tuple(one for one in basic.sentences if one.word in keeping.ASSUMED)
        self.names = sorted({name for one in self.assumptions for name in one.names})
        if len(self.names) > MOST_NAMES:
            raise TooLong
        self.watched = {one: Watched(one) for one in self.assumptions}
        self.table = Table(made, self.names)
        self.left = MOST_STEPS

    def moved(self, those: tuple, states: tuple, letter: frozenset):
        """The states of assumptions behind a letter, or None if it breaks one; and those that it meets."""
        self.left -= 1
        if self.left < 0:
            raise TooLong
        moves = [self.watched[one].move(state, letter) for one, state in zip(those, states)]
        if None in moves:
            return None, frozenset()
        return tuple(state for state, _ in moves), frozenset(place for place, (_, is_met) in enumerate(moves) if is_met)

    def on_circuit(self, those: tuple, latches: tuple, states: tuple) -> Graph:
        """The graph of the circuit's steps, from given latches and states of some assumptions."""

        def steps(now):
            found = []
            for mine, (letter, after) in zip(self.table.letters, self.table.steps(now[0])):
                moved, met = self.moved(those, now[1], frozenset(letter))
                found.append((mine, None if moved is None else (after, moved), met))
            return found

        return Graph((latches, states), steps)

    def free(self, states: tuple) -> Graph:
        """The graph of the assumptions' steps, whatever the letters are."""
        letters, those = list(subsets(self.names)), self.assumptions
        return Graph(states, lambda now: [(letter, *self.moved(those, now, letter)) for letter in letters])

    def found(self):
        """How the circuit breaks assumptions, or None if it does not."""
        those, states = self.assumptions, (0,) * len(self.assumptions)
        graph, free = self.on_circuit(those, self.table.start, states), self.free(states)
        good, possible = graph.keeping(len(those)), free.keeping(len(those))
        if states not in possible:
            return None
        if graph.start not in good:
            return Break(self.fewest(those, graph.start), ())
        return self.first_break(graph, good, possible)

    def first_break(self, graph: Graph, good: set, possible: set):
        """The shortest way to a step behind which the environment can't keep the assumptions, and which is the
        controller's doing."""
        ways, waiting = {graph.start: ()}, [graph.start]
        while waiting:
            now = waiting.pop(0)
            for mine, after, _ in graph.edges[now]:
                if after not in good and self.is_to_blame(now, mine, after, possible):
                    return Break(self.broken(now, mine, after), (*ways[now], mine))
                if after in good and after not in ways:
                    ways[after] = (*ways[now], mine)
                    waiting.append(after)
        return None

    def is_to_blame(self, now: tuple, mine: frozenset, after, possible: set) -> bool:
        """Whether a step behind which the environment can't keep the assumptions is the controller's doing: with other
        outputs later they could be kept; or with others in this step, and no letter of the inputs was safe."""
        if after is not None and after[1] in possible:
            return True
        if self.basic.is_moore:
            return False
        names = [[name for name in self.names if name in those] for those in (self.basic.inputs, self.basic.outputs)]
        inputs, outputs = (list(subsets(those)) for those in names)

        def kept(mine):
            return [self.moved(self.assumptions, now[1], mine | outs)[0] in possible for outs in outputs]

        return any(kept(mine)) and not any(all(kept(other)) for other in inputs)

    def broken(self, now: tuple, mine: frozenset, after) -> tuple:
        """The assumptions that a step breaks, or that can't be kept behind it."""
        if after is not None:
            return self.fewest(self.assumptions, after)
        letter = frozenset(self.table.steps(now[0])[self.table.letters.index(mine)][0])
        moves = [(one, self.watched[one].move(state, letter)) for one, state in zip(self.assumptions, now[1])]
        return tuple(one for one, move in moves if move is None)

    def fewest(self, those: tuple, position: tuple) -> tuple:
        """As few of the assumptions as possible, as far as the steps suffice, that the environment can't keep from a
        position on."""
        states = dict(zip(those, position[1]))

        def is_broken(some):
            graph = self.on_circuit(some, position[0], tuple(states[one] for one in some))
            return graph.start not in graph.keeping(len(some))

        try:
            return shrunk(those, is_broken)
        except TooLong:
            return those


def lines(basic: Basic, made) -> list:
    """If the circuit of a controller breaks assumptions of its specification: lines with these, and with a play. None
    if that is not found out."""
    outputs = set(basic.outputs)
    if not any(outputs & set(one.names) for one in basic.sentences if one.word in keeping.ASSUMED):
        return []
    try:
        with limited():
            found = Breaking(basic, made).found()
            return told(basic, made, found) if found else []
    except (TooLong, Refused, Unreadable):
        return []


def told(basic: Basic, made, found: Break) -> list:
    many = len(found.assumptions) > 1
    which = f"these {len(found.assumptions)} assumptions" if many else f"the {keeping.titled(found.assumptions[0])}"
    head = f"this controller can make {which} fail{' together' * many}, and so win without keeping the guarantees:"
    return [head, *(f"  {one.said}" for one in found.assumptions), *example(basic, made, found)]


def example(basic: Basic, made, found: Break) -> list:
    """A play in which the controller breaks the assumptions."""
    play = Play(Sentences(basic, made, found.assumptions))
    for mine in found.letters:
        play.take(mine)
    play.hold_out(LONGEST)
    ends = [
        f"step {len(play.steps) - 1} breaks the {keeping.titled(one)}" for one in play.board.broken_at(play.steps[-1])
    ]
    if not ends and play.loop is None:
        return []
    what = "them" if len(found.assumptions) > 1 else "it"
    ends = ends or [f"{play.looping}, which does not keep {what}"]
    return ["so it can play:", *(f"  {line}" for line in [*play.board.table(play), *ends])]
