"""Named families of parity games. A rule makes each game from a number, so a name and a number give the same game on
every machine; for a random game, further numbers may be given."""
from collections.abc import Callable
from dataclasses import dataclass

from psyntool.texts.game import Game, Vertex

# The longest game text that psyn reads.
MOST_BYTES = 16_777_216
# Constants of the random number generator of the family `random`: those of Knuth's MMIX.
FACTOR, SUMMAND, WORD = 6364136223846793005, 1442695040888963407, 2**64


def game_of(rows):
    """The game whose vertices are given as rows (priority, owner, successors); the index of a row is the id of its
    vertex."""
    return Game(tuple(
        Vertex(place, priority, owner, tuple(dict.fromkeys(to)), None)
        for place, (priority, owner, to) in enumerate(rows)
    ))


class Draw:
    """A pseudorandom number generator, which gives the same numbers for the same number and the same seed."""

    def __init__(self, number, seed):
        self.state = (number + (seed << 32)) % WORD

    def below(self, limit):
        self.state = (self.state * FACTOR + SUMMAND) % WORD
        return (self.state >> 33) % limit

    def distinct(self, count, limit):
        """So many different numbers below the limit."""
        found = {}
        for last in range(limit - count, limit):
            one = self.below(last + 1)
            found[last if one in found else one] = True
        return list(found)


def path(n):
    """A path of n vertices with increasing priorities, which ends in a loop that player 0 wins."""
    last = n - 1 - (n - 1) % 2
    return [(v, v % 2, [min(v + 1, last)]) for v in range(n)]


def loops(n):
    """n vertices with different priorities, each with a self-loop as its only edge."""
    return [(v, v % 2, [v]) for v in range(n)]


def ring(n):
    """A ring of n vertices with priorities 0, 1, 2, 3, 0 and so on; each vertex also has an edge to the first."""
    return [(v % 4, v // 2 % 2, [(v + 1) % n, 0]) for v in range(n)]


def clique(n):
    """n vertices with an edge to every other vertex, different priorities and alternating owners."""
    return [(v, v % 2, [w for w in range(n) if w != v] or [v]) for v in range(n)]


def buchi(n, seed=0, edges=None):
    """A random Büchi game of n vertices: every tenth vertex has priority 2, the others have priority 1. Two edges are
    drawn for each vertex, or so many different ones as `edges` says."""
    draw = Draw(n, seed)
    return [
        (2 if v % 10 == 0 else 1, draw.below(2), draw.distinct(edges, n) if edges else [draw.below(n), draw.below(n)])
        for v in range(n)
    ]


def random(n, seed=0, edges=None, priorities=None):
    """A random game of n vertices, with priorities less than n or than `priorities`, and random owners. Two or three
    edges are drawn for each vertex, or so many different ones as `edges` says."""
    draw = Draw(n, seed)

    def targets():
        return draw.distinct(edges, n) if edges else [draw.below(n) for _ in range(2 + draw.below(2))]

    return [(draw.below(priorities or n), draw.below(2), targets()) for _ in range(n)]


def jurdzinski(n):
    """n rows of 2n + 1 vertices, each row with two priorities of its own. The games are modelled on Jurdzinski's, on
    which solvers that lift the measure of one vertex at a time are slow."""
    width = 2 * n + 1
    rows = []
    for row in range(n):
        for place in range(width):
            here = row * width + place
            if place % 2:
                rows.append((2 * row + 1, 1, [here - 1, here + 1]))
            else:
                below = (row + 1) % n * width + place
                rows.append((
                    2 * row + 2 if place == width - 1 else 0,
                    0,
                    [below, *([here + 1] if place < width - 1 else [here - 1])],
                ))
    return rows


def ladder(n):
    """n rungs of five vertices, modelled on Friedmann's recursive ladder: Zielonka's recursion takes exponential time
    (docs/HARD_GAMES.md)."""
    return rungs(n, (1, 0, 1, 0, 0), (None, None, 4, 3, 5))


def ladder2(n):
    """The games of the family `ladder`, except that two priorities are exchanged in each rung, and that the owners
    differ."""
    return rungs(n, (0, 1, 0, 1, 1), (None, None, 3, 4, 5))


def rungs(n, owners, priorities):
    """A game that consists of n rungs of five vertices each. Each edge is given by two numbers: the index of the target
    within its rung, and how many rungs after the edge's own rung the target's rung is."""
    edges = ([(1, 0)], [(0, 0), (2, 1)], [(1, 0), (3, 0)], [(4, 0), (3, -1)], [(1, 1), (3, 0)])
    rows = []
    for rung in range(n):
        for place in range(5):
            priority = 1 - rung % 2 if priorities[place] is None else 3 * rung + priorities[place]
            to = [5 * (rung + on) + other for other, on in edges[place] if 0 <= rung + on < n]
            rows.append((priority, (rung + owners[place]) % 2, to))
    return rows


@dataclass(frozen=True)
class Family:
    """A family: its generator, the number of vertices of the game for n, the most edges of a vertex, and which further
    numbers the generator takes."""

    make: Callable
    vertices: Callable
    edges: Callable
    takes: tuple = ()

    def most_bytes(self, n, numbers):
        """A length that the text of the game for n does not exceed."""
        count = self.vertices(n)
        width = len(str(max(count, numbers.get("priorities", 0))))
        return count * (2 * width + 5 + numbers.get("edges", self.edges(n)) * (width + 1)) + 20

    def greatest(self, numbers):
        """The greatest n whose game has a text that psyn surely reads; 0 if there is none."""
        low, high = 0, MOST_BYTES
        while low < high:
            middle = (low + high + 1) // 2
            low, high = (middle, high) if self.most_bytes(middle, numbers) <= MOST_BYTES else (low, middle - 1)
        return low


FAMILIES = {
    "buchi": Family(buchi, lambda n: n, lambda n: 2, ("seed", "edges")),
    "clique": Family(clique, lambda n: n, lambda n: n),
    "jurdzinski": Family(jurdzinski, lambda n: n * (2 * n + 1), lambda n: 2),
    "ladder": Family(ladder, lambda n: 5 * n, lambda n: 2),
    "ladder2": Family(ladder2, lambda n: 5 * n, lambda n: 2),
    "loops": Family(loops, lambda n: n, lambda n: 1),
    "path": Family(path, lambda n: n, lambda n: 1),
    "random": Family(random, lambda n: n, lambda n: 3, ("seed", "edges", "priorities")),
    "ring": Family(ring, lambda n: n, lambda n: 2),
}
