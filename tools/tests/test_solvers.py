"""Other solvers with `--by`: a correct one and one that makes mistakes; and what is printed about wrong solutions."""
import os
import random
import shlex
import sys

from psyntool import families
from psyntool.program import ask
from psyntool.program import path as program
from psyntool.texts import game
from tests import improving
from tests.tool import AUTOMATON, OnFiles

SOLVER, ERRING = (
    os.path.join(os.path.dirname(os.path.abspath(__file__)), name) for name in ("improving.py", "erring.py")
)
# The number of random games whose solutions `judge` is asked about. Of every five solutions, four are changed.
COUNT = 1000
# Player 0 can cycle through vertices 0 and 1, or move on to 2, whose self-loop it wins; player 0 loses at vertex 3.
GAME = b'0 1 0 1,0 "a";\n1 2 1 0,2;\n2 4 0 2;\n3 1 1 3,0 "d";\n'


def by(word=""):
    """The command line of the solver or, if `word` is given, of the solver that makes the named mistake."""
    run = shlex.join([sys.executable, "-B", ERRING if word else SOLVER])
    return f"{run} {{game}} {{solution}} {word}".strip()


def small(seed):
    """The text of a random small game."""
    draw = random.Random(seed)
    count = draw.randint(2, 12)
    rows = [
        (draw.randrange(6), draw.randrange(2), [draw.randrange(count) for _ in range(draw.randint(1, 3))])
        for _ in range(count)
    ]
    return families.game_of(rows).text().encode()


def is_right(read, entries):
    """Whether, by a solution, each player's moves keep plays in the region that the player wins, and the player wins
    every cycle there; found by a plain search."""
    remaining = {}
    for vertex in read.vertices:
        winner, move = entries[vertex.identity]
        remaining[vertex.identity] = [move] if vertex.owner == winner else list(vertex.successors)
        if (
            move not in vertex.successors
            and vertex.owner == winner
            or any(entries[to][0] != winner for to in remaining[vertex.identity])
        ):
            return False
    priorities = {vertex.identity: vertex.priority for vertex in read.vertices}
    return not any(
        comes_back(remaining, {v for v in priorities if priorities[v] <= priorities[begin]}, begin)
        for begin in priorities
        if priorities[begin] % 2 != entries[begin][0]
    )


def comes_back(remaining, inside, begin):
    """Whether a path of at least one edge leads from a vertex to itself, inside a set."""
    seen, waiting = set(), [begin]
    while waiting:
        for to in remaining[waiting.pop()]:
            if to == begin:
                return True
            if to in inside and to not in seen:
                seen.add(to)
                waiting.append(to)
    return False


def changed(draw, read, entries):
    """A solution's entries, where one vertex is given another winner or another move."""
    one = draw.choice(read.vertices)
    winner, move = entries[one.identity]
    other = (1 - winner, move) if draw.randrange(2) else (winner, draw.choice([None, *one.successors]))
    return {**entries, one.identity: other}


def winners(certificate):
    return [line.split()[:2] for line in certificate.decode().splitlines()[4:]]


class Solving(OnFiles):
    @classmethod
    def setUpClass(cls):
        program()

    def test_its_solution_becomes_a_certificate(self):
        games = [GAME, *map(small, range(8)), families.game_of(families.ladder(6)).text().encode()]
        for number, text in enumerate(games):
            path = self.file("game", text)
            done = self.tool("solve", "--by", by(), path)
            self.assertEqual((done.stderr, done.returncode), (b"", 0), number)
            self.assertEqual(self.tool("check", path, "-", given=done.stdout).stdout, b"valid\n")
            self.assertEqual(winners(done.stdout), winners(self.tool("solve", path).stdout))
        compact = self.tool("solve", "--compact", "--quiet", "--by", by(), path).stdout
        self.assertTrue(compact.startswith(b"psyncert 2\n"))

    def test_standard_streams_serve_too(self):
        path = self.file("game", GAME)
        shell = "sh -c 'cat > in.pg; exec \"$0\" \"$1\" in.pg /dev/stdout' {} {}".format(sys.executable, SOLVER)
        self.assertEqual(self.tool("solve", "--by", shell, path).stdout, self.tool("solve", "--by", by(), path).stdout)

    def test_its_solution_becomes_a_circuit(self):
        automaton, prefix = self.file("automaton", AUTOMATON), os.path.join(self.room, "out")
        for flags in ([], ["--moore"], ["--full"], ["--full", "--compact"]):
            done = self.tool("synth", "--by", by(), *flags, automaton)
            constant = b"in this controller some outputs never change: g is 1\n" if flags == ["--moore"] else b""
            self.assertEqual((done.stderr, done.returncode), (constant, 10), flags)
        self.assertEqual(self.tool("synth", "-o", prefix, "--by", by(), automaton).stdout, b"REALIZABLE\n")
        self.assertEqual(self.tool("check", prefix + ".pg", prefix + ".cert").stdout, b"valid\n")
        parts = self.tool("synth", "--outs", "g", "--guarantee", automaton, "--by", by())
        self.assertEqual((parts.stderr, parts.stdout[:11], parts.returncode), (b"", b"REALIZABLE\n", 10))

    def test_an_automaton_that_is_refused_is_refused_first(self):
        done = self.tool("synth", "--by", "nothing {game} {solution}", self.file("automaton", b"HOA: v2\n"))
        self.assertEqual((done.stdout[:6], done.returncode), (b"fault ", 1))
        self.assertIn(b"automaton:1:", done.stderr)


    def test_what_solve_finds_comes_back_byte_for_byte(self):
        for name, family in families.FAMILIES.items():
            path = self.file("game", families.game_of(family.make(6)).text().encode())
            solved = self.tool("solve", path).stdout
            made = self.tool("solution", path, self.file("cert", solved)).stdout
            self.assertEqual(self.tool("judge", path, "-", given=made).stdout, solved, name)


    def test_changed_solutions_are_judged_as_a_plain_search_judges_them(self):
        draw, wrong, counts = random.Random(64), [], {True: 0, False: 0}
        for seed in range(COUNT):
            read = game.read(small(seed).decode())
            solved = improving.solve(improving.read(read.text()))
            entries = changed(draw, read, solved) if seed % 5 else solved
            text = "".join(
                f"{v} {winner}{'' if move is None else f' {move}'};\n" for v, (winner, move) in entries.items()
            )
            answer = ask(f"judge\n{read.text()}%%\n{text}".encode())
            right = is_right(read, entries)
            counts[right] += 1
            if answer.is_fault == right or answer.is_fault and not answer.text[6:8] in ("40", "50", "51"):
                wrong.append((seed, text, answer.text))
        self.assertEqual(wrong, [])
        self.assertGreater(min(counts.values()), COUNT // 5)


class Erring(OnFiles):
    def judged(self, solution, game=GAME, *flags):
        done = self.tool("judge", *flags, self.file("game", game), self.file("sol", solution))
        return done.stdout.decode(), done.stderr.decode().splitlines(), done.returncode

    def test_a_solver_that_errs_is_told_with_its_cycle(self):
        path, picture = self.file("game", GAME), os.path.join(self.room, "lost.dot")
        done = self.tool("solve", "--by", by("move"), "--picture", picture, path)
        self.assertEqual((done.stdout, done.returncode), (b"fault 40 BadCycle 0\n", 1))
        told = [
            "by the solution of python player 0 wins these vertices; it loses the cycle, "
            "whose greatest priority 1 is odd:",
            '  vertex 0 "a", priority 1: player 0 moves to 0',
        ]
        self.assertEqual(
            [
                line.replace(os.path.basename(sys.executable), "python")
                for line in done.stderr.decode().splitlines()[:2]
            ],
            told,
        )
        self.assertTrue(done.stderr.endswith(b"lost.dot draws it\n"))
        with open(picture, encoding="utf-8") as file:
            dot = file.read()
        self.assertIn("v0 -> v0 [style=bold, penwidth=4, color=blue];", dot)
        self.assertIn("a cycle that player 0 loses, and was to win", dot)

    def test_an_erring_solver_makes_no_circuit(self):
        automaton, picture = self.file("automaton", AUTOMATON), os.path.join(self.room, "lost.dot")
        done = self.tool(
            "synth", "--by", by("move"), "-o", os.path.join(self.room, "out"), "--picture", picture, automaton
        )
        self.assertEqual((done.stdout[:17], done.returncode), (b"fault 40 BadCycle", 1))
        self.assertRegex(done.stderr.decode(), r'vertex \d+ "1:[01]", priority 0: player 0 moves to ')
        with open(picture, encoding="utf-8") as file:
            self.assertIn("color=blue", file.read())
        self.assertEqual(sorted(os.listdir(self.room)), ["automaton", "lost.dot"])
        for word, number in (("winner", b"5"), ("half", b"54")):
            done = self.tool("synth", "--by", by(word), automaton)
            self.assertTrue(done.stdout.startswith(b"fault " + number), done.stdout)

    def test_what_is_wrong_is_told_by_names(self):
        cases = {
            b"0 0; 1 0; 2 0 2; 3 1 3;": (
                "50 Move 0 -", 'player 0, who owns vertex 0 "a", is to win it without a move; its edges lead to 1, 0'
            ),
            b"1 0; 0 0 2; 2 0 2; 3 1 3;": (
                "50 Move 0 2", 'player 0, who owns vertex 0 "a", is to win it by a move to 2; its edges lead to 1, 0'
            ),
            b"0 0 1; 1 0; 2 1; 3 1 3;": (
                "51 Escape 1 2",
                "player 0 is to win vertex 1, but player 1 can move from there to vertex 2, which player 1 is to win",
            ),
            b"0 0 1; 1 0; 2 0 2; 3 1 0;": (
                "51 Escape 3 0",
                'player 1 is to win vertex 3 "d", but player 1 moves from there to vertex 0 "a", '
                'which player 0 is to win',
            ),
            b"0 0 1; 2 0 2;": ("54 OtherGame at 14", "vertex 1 has no entry; 2 vertices have none"),
            b"0 0 1; 1 0; 2 0 2;": ("54 OtherGame at 19", 'vertex 3 "d" has no entry'),
            b"0 0 1; 9 0;": ("54 OtherGame at 7", "9 is no vertex of the game"),
            b"0 0 1; 0 0 1;": ("54 OtherGame at 7", "vertex 0 has an entry before"),
            b"0 0 9;": ("54 OtherGame at 4", "9 is no vertex of the game"),
            b'0 0 1 "a";': ("53 Syntax at 6", "an entry of a solution has no name"),
            b"0 0 1; # done": ("53 Syntax at 7", "'#' is no part of a solution"),
            b"Solved by zlk:\n0 0 1;": ("53 Syntax at 0", "'Solved' is no part of a solution"),
            b"0 2;": ("53 Syntax at 2", "the winner is 2, and should be 0 or 1"),
            b"0 0 1 1;": (
                "53 Syntax at 6", "an entry has an id, a winner and at most one move, and this one has another number"
            ),
            b"0 ;": ("53 Syntax at 2", "an entry ends before its winner"),
            b"0 0 1": ("53 Syntax at 6", "the text ends inside an entry"),
            b"paritysol 3;": ("53 Syntax at 13", "there is no entry"),
            b"paritysol 3 0 1;": ("53 Syntax at 12", "there is no `;` behind the number of `paritysol`"),
            b"0 0 18446744073709551616;": ("53 Syntax at 4", "the number 18446744073709551616 does not fit in 64 bits"),
        }
        for text, (fault, line) in cases.items():
            with self.subTest(text):
                said, told, status = self.judged(text)
                self.assertEqual((said, status), (f"fault {fault}\n", 1))
                self.assertIn(line, told)
                self.assertNotIn("ertificate", told[-3] if fault[:2] in ("53", "54") else "")

    def test_a_long_cycle_is_told_in_part_and_drawn_alone(self):
        count, picture = 500, os.path.join(self.room, "lost.dot")
        game = families.game_of([(1, 1, [(v + 1) % 60 if v < 60 else 0]) for v in range(count)]).text().encode()
        said, told, _ = self.judged("".join(f"{v} 0;\n" for v in range(count)).encode(), game, "--picture", picture)
        self.assertTrue(said.startswith("fault 40 BadCycle "))
        self.assertIn("  .. and 36 more", told)
        with open(picture, encoding="utf-8") as file:
            self.assertEqual(file.read().count("color=blue"), 60)
