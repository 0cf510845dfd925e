"""Specifications in parts: on random lassos, the verdict of the composed automaton is compared with that of a second
implementation of parts; and errors are tested."""
import os
import random
import unittest
import unittest.mock

from psyntool.command import Request
from psyntool.ends import Refused
from psyntool.parts import composing, part, specification
from psyntool.parts.composing import Composer
from psyntool.parts.diagrams import Diagrams
from psyntool.parts.specification import Specification
from psyntool.program import path as program
from psyntool.table import COMMANDS
from psyntool.texts import Unreadable, automaton, hoa, labels
from tests.tool import AUTOMATON, OnFiles
from upkeep import rows, sweeps

LASSOS, SPECIFICATIONS = 1_000, 50
NEVER = 10**9
PARTS = os.path.join(sweeps.TOP, "examples", "parts")


class Table:
    """A part as a table: for each state and each letter over its propositions, the target and whether the edge is
    accepting, or None."""

    def __init__(self, draw, names):
        self.names = draw.sample(names, draw.randint(0, 2))
        self.is_buchi = draw.random() < 0.6
        count, letters = draw.randint(1, 3), 2 ** len(self.names)
        # the states in the acceptance set; each edge that leaves such a state is in the set too
        self.marked = {state for state in range(count) if draw.random() < 0.2}
        self.moves = [
            [None if draw.random() < 0.12 else (draw.randrange(count), draw.random() < 0.3) for _ in range(letters)]
            for _ in range(count)
        ]
        self.hopeless = {state for state in range(count) if self.is_buchi and not self.sees_mark(state)}

    def sees_mark(self, state):
        seen, waiting = {state}, [state]
        while waiting:
            now = waiting.pop()
            for target, is_met in filter(None, self.moves[now]):
                if is_met or now in self.marked:
                    return True
                if target not in seen:
                    seen.add(target)
                    waiting.append(target)
        return False

    def text(self):
        head = [
            f"AP: {len(self.names)} " + " ".join(f'"{name}"' for name in self.names),
            f"Acceptance: {'1 Inf(0)' if self.is_buchi else '0 t'}",
        ]
        lines = [
            "HOA: v1", "Start: 0", *head, "controllable-AP: " + " ".join(map(str, range(len(self.names)))), "--BODY--"
        ]
        for state, moves in enumerate(self.moves):
            lines.append(f"State: {state}" + (" {0}" if self.is_buchi and state in self.marked else ""))
            for letter, move in enumerate(moves):
                said = [("" if letter >> place & 1 else "!") + str(place) for place in range(len(self.names))]
                if move:
                    lines.append(
                        f"[{' & '.join(said) or 't'}] {move[0]}" + (" {0}" if self.is_buchi and move[1] else "")
                    )
        return "\n".join([*lines, "--END--", ""])

    def run(self, stem, lap):
        """The step at which a word violates the part, and whether the part accepts the word."""
        if 0 in self.hopeless:
            return -1, False
        state, step, begins, met = 0, 0, {}, []
        while step < len(stem) or (step - len(stem)) % len(lap) or state not in begins:
            if step >= len(stem) and (step - len(stem)) % len(lap) == 0:
                begins[state] = step
            true = stem[step] if step < len(stem) else lap[(step - len(stem)) % len(lap)]
            move = self.moves[state][sum((name in true) << place for place, name in enumerate(self.names))]
            if move is None or move[0] in self.hopeless:
                return step, False
            met.append(move[1] or state in self.marked)
            state, step = move[0], step + 1
        return NEVER, not self.is_buchi or any(met[begins[state] :])


def is_in(assumptions, guarantees, is_strict, stem, lap):
    """Whether a word belongs to the language that the assumptions and guarantees define."""
    assumed, guaranteed = ([table.run(stem, lap) for table in side] for side in (assumptions, guarantees))
    first_assumed, first_guaranteed = (min((step for step, _ in side), default=NEVER) for side in (assumed, guaranteed))
    if is_strict and first_guaranteed < first_assumed:
        return False
    return not all(is_met for _, is_met in assumed) or all(is_met for _, is_met in guaranteed)


def player(names, stem, lap):
    """A circuit without inputs that outputs a word; it has a latch for each letter, which is 1 in that letter's
    step."""
    word, gates = [*stem, *lap], []
    free = [2 * len(word)]

    def some(literals):
        now = 0
        for literal in literals:
            free[0] += 2
            gates.append(f"{free[0]} {now ^ 1} {literal ^ 1}")
            now = free[0] ^ 1
        return now

    latch = [2 * (place + 1) for place in range(len(word))]
    before = [[] if place == 0 else [latch[place - 1]] for place in range(len(word))]
    before[len(stem)] = [*before[len(stem)], latch[-1]]
    latches = [f"{latch[place]} {some(before[place])} {int(place == 0)}" for place in range(len(word))]
    outputs = [str(some(latch[place] for place in range(len(word)) if name in word[place])) for name in names]
    head = f"aag {free[0] // 2} 0 {len(word)} {len(names)} {len(gates)}"
    return "\n".join([head, *latches, *outputs, *gates, *(f"o{place} {name}" for place, name in enumerate(names)), ""])


class Meaning(unittest.TestCase):
    def test_lassos_of_parts_and_of_the_whole(self):
        draw, names, asked, wanted = random.Random(68), ["a", "b", "c"], [], []
        for number in range(SPECIFICATIONS):
            sides = [[Table(draw, names) for _ in range(draw.randint(0, 3))] for _ in range(2)]
            is_strict = number % 3 == 2
            parts = [
                tuple(part.part_of(f"part{place}", "", {}, table.text()) for place, table in enumerate(side))
                for side in sides
            ]
            whole = Composer(Specification(*parts, tuple(names), frozenset(names), is_strict)).composed().text()
            for _ in range(LASSOS // SPECIFICATIONS):
                stem, lap = (
                    [{name for name in names if draw.random() < 0.5} for _ in range(draw.randint(least, 4))]
                    for least in (0, 1)
                )
                stimulus = "\n" * len(stem) + "-\n" + "\n" * len(lap)
                asked.append(
                    rows.Row("a lasso", f"lasso\n{whole}%%\n{player(names, stem, lap)}%%\n{stimulus}".encode(), 0)
                )
                wanted.append(is_in(*sides, is_strict, stem, lap))
        where = program()
        said = sweeps.at_once(lambda row: rows.answered(where, row)[0].split(b" ")[0], asked)
        wrong = [
            row.given.decode()
            for row, word, it in zip(asked, said, wanted) if word != (b"accepted" if it else b"rejected")
        ]
        self.assertFalse(wrong, f"{len(wrong)} of {len(asked)} wrong, the first one:\n{''.join(wrong[:1])}")
        self.assertGreater(min(wanted.count(True), wanted.count(False)), LASSOS // 5)


# Words and verdicts for each stored part: a letter has a digit for each proposition, and the lap (the repeated part of
# a lasso) is in parentheses.
WORDS = {
    "always": {"(1)": True, "1 0 (1)": False},
    "never-together": {"(10 01 00)": True, "00 11 (00)": False},
    "answered": {"10 10 (01)": True, "10 (00)": False, "(11)": True, "(10 01)": True, "01 (10)": False},
    "again-and-again": {"(0 0 1)": True, "1 1 (0)": False},
    "stays-until": {
        "(00)": True, "10 10 11 (00)": True, "10 (00)": False, "(10)": True, "11 (00)": True, "10 01 (00)": False
    },
    "takes-turns": {"10 01 (00)": True, "01 (00)": False, "10 10 (00)": False, "11 (00)": False, "(10 00 01)": True},
    "at-most-one-step-after": {
        "10 01 (00)": True, "10 00 01 (00)": False, "(11)": True, "01 (00)": False, "(10)": True
    },
    "answered-within-3": {
        "10 00 00 (01)": True, "10 00 00 00 (01)": False, "10 00 10 01 (00)": True, "(00)": True, "(11)": True
    },
    "answered-within-8": {"10 00 00 00 00 00 00 00 01 (00)": True, "10 00 00 00 00 00 00 00 00 (01)": False},
}


def names_of(name):
    with open(os.path.join(PARTS, f"{name}.hoa"), encoding="utf-8") as file:
        return automaton.read(file.read()).names


class Stored(OnFiles):
    def test_each_has_a_sentence_in_its_name_and_one_in_its_comment(self):
        self.assertEqual(sorted(f"{name}.hoa" for name in WORDS), sorted(os.listdir(PARTS)))
        for name in WORDS:
            with open(os.path.join(PARTS, f"{name}.hoa"), encoding="utf-8") as file:
                text = file.read()
            self.assertRegex(text, r'(?m)\AHOA: v1\nname: "[^"]+"\n/\* [A-Z][^.]+\. \*/\n', name)

    def test_each_accepts_what_its_sentence_says(self):
        for name, words in WORDS.items():
            names = names_of(name)
            whole = self.whole("--guarantee", os.path.join(PARTS, f"{name}.hoa"), "--outs", *names)
            for word, is_accepted in words.items():
                stem, _, lap = word.rstrip(")").partition("(")
                letters = [
                    [{names[at] for at, digit in enumerate(letter) if digit == "1"} for letter in some.split()]
                    for some in (stem, lap)
                ]
                stimulus = "\n" * len(letters[0]) + "-\n" + "\n" * len(letters[1])
                done = self.tool(
                    "lasso", whole, self.file("player", player(names, *letters).encode()), "-", given=stimulus.encode()
                )
                self.assertEqual(done.stdout.split()[0], b"accepted" if is_accepted else b"rejected", f"{name} {word}")

    def whole(self, *words):
        done = self.tool("compose", *words)
        self.assertEqual((done.returncode, done.stderr), (0, b""), words)
        return self.file("whole.hoa", done.stdout)


class Composed(OnFiles):
    def composed(self, *words, given=b""):
        done = self.tool("compose", *words, given=given)
        self.assertEqual((done.returncode, done.stderr), (0, b""), words)
        return done.stdout.decode()

    def stored(self, name):
        return os.path.join(PARTS, f"{name}.hoa")

    def test_states_bear_names_and_labels_are_exact(self):
        text = self.composed(
            "--guarantee", self.stored("answered"), "--as", "request=r", "answer=g", "--guarantee",
            self.stored("always"), "--outs", "g", "it",
        )
        read = automaton.read(text)
        self.assertEqual(read.names, ("r", "g", "it"))
        self.assertEqual(read.controllable, {1, 2})
        self.assertEqual(read.state_names, {0: "no r waits", 1: "r waits"})
        self.assertIn("\n[0 & 1 & 2 | !0 & 2] 0 {0 1}\n[0 & !1 & 2] 1 {0}\n", text)

    def test_the_same_by_a_list_and_by_a_command_line(self):
        words = [
            "--outs", "g0", "g1", "--guarantee", self.stored("never-together"), "--as", "one=g0", "other=g1",
            "--guarantee", self.stored("answered"), "--as", "answer=g0",
        ]
        wanted = self.composed(*words)
        lines = [
            f"# Two grants at once are none.\n--guarantee '{words[4]}' --as one=g0 other=g1\n\n",
            f"--guarantee '{words[9]}'\n--as answer=g0\n--outs g0 g1\n",
        ]
        made = self.composed(self.file("it.parts", "".join(lines).encode()))
        self.assertEqual(made.replace("Two grants at once are none.", "g0 and g1 are never true together"), wanted)
        self.assertEqual(self.composed("-", given="".join(lines).encode()), made)

    def test_two_files_of_a_name_and_files_beside_a_list(self):
        os.mkdir(os.path.join(self.room, "below"))
        self.file(
            "below/always.hoa",
            b'HOA: v1 Start: 0 AP: 1 "a" controllable-AP: 0 Acceptance: 0 t --BODY-- State: 0 [0] 0 --END--\n',
        )
        self.file("below/it.parts", b"--guarantee always.hoa # beside it\n")
        text = self.composed(os.path.join("below", "it.parts"))
        self.assertIn('\npart: "guarantee" "always" "" "HOA: v1 ', text)
        self.assertIn("[0] 0 {0 1}\n", text)

    def test_names_with_signs_of_their_own(self):
        name = 'a \\"b\\" \\\\'
        self.file(
            "odd.hoa",
            f'HOA: v1 Start: 0 AP: 1 "{name}" controllable-AP: 0 Acceptance: 0 t\n'
            f'--BODY-- State: 0 "{name}" [0] 0 --END--\n'.encode(),
        )
        read = automaton.read(self.composed("--guarantee", "odd.hoa"))
        self.assertEqual((read.names, read.state_names), (('a "b" \\',), {0: 'a "b" \\'}))

    def test_what_is_said_of_a_part_has_its_new_names(self):
        text = self.composed("--assume", self.stored("stays-until"), "--as", "it=my request", "end=g", "--outs", "g")
        kept = specification.kept(automaton.read(text)).assumptions[0]
        self.assertEqual((kept.title, kept.names), ("stays-until(my request,g)", ("my request", "g")))
        self.assertEqual(kept.sentence, "my request, once true, stays true until g is")
        self.assertEqual(
            [kept.state_name(state) for state in (0, 1)], ["my request may change", "my request must stay"]
        )

    def test_items_that_compose_did_not_write(self):
        text = self.composed("--guarantee", self.stored("always"), "--outs", "it")
        for old, new in (
            ('"guarantee"', '"guarante"'), ('"guarantee" ', ""), ("0 t --BODY", "1 Fin(0) --BODY"),
            ('\\"it\\" acc', '\\"x\\" acc'), ("--END--\"", '"'),
        ):
            self.assertIn(old, text)
            with self.assertRaisesRegex(Unreadable, "not written by compose"):
                specification.kept(automaton.read(text.replace(old, new, 1)))
        self.assertIsNone(specification.kept(automaton.read(AUTOMATON.decode())))

    def test_the_readings_differ_behind_a_broken_guarantee(self):
        words = [
            "--assume", self.stored("always"), "--as", "it=ok", "--guarantee", self.stored("always"), "--as", "it=g",
            "--outs", "g",
        ]
        implied, strict = self.composed(*words), self.composed(*words, "--strict")
        self.assertIn('"a guarantee has broken"', implied)
        self.assertNotIn("a guarantee has broken", strict)
        self.assertIn('"an assumption has broken"', strict)

    def test_a_guarantee_that_no_word_meets_is_broken_before_the_first_step(self):
        self.file("none.hoa", b"HOA: v1 Start: 0 AP: 0 Acceptance: 1 Inf(0) --BODY-- State: 0 [t] 0 --END--\n")
        words = ["--assume", self.stored("always"), "--guarantee", "none.hoa", "--outs", "it"]
        self.assertTrue(
            self.composed(*words, "--strict").endswith('--BODY--\nState: 0 "a guarantee has broken"\n--END--\n')
        )
        self.assertIn('[0] 0 {0}\nState: 1 "an assumption has broken"\n', self.composed(*words))

    def test_a_text_that_gets_too_long_while_it_is_made(self):
        pairs = [(one, other) for other in range(8) for one in range(other)]
        lines = ["--outs " + " ".join(f"g{client}" for client in range(8))]
        lines += [f"--guarantee {PARTS}/never-together.hoa --as one=g{one} other=g{other}" for one, other in pairs]
        lines += [f"--guarantee {PARTS}/answered.hoa --as request=r{client} answer=g{client}" for client in range(8)]
        asked = Request(COMMANDS["compose"], {}, [self.file("it.parts", "\n".join(lines).encode())], COMMANDS)
        composer = Composer(specification.asked(asked))
        said = "a text of more than 100,000 bytes, and psyn reads no more"
        with unittest.mock.patch.object(composing, "MOST_BYTES", 100_000), self.assertRaisesRegex(Refused, said):
            composer.composed()

    def test_more_states_than_the_program_reads(self):
        ring = "".join(f"State: {state} [t] {(state + 1) % count}\n" for count in (41,) for state in range(count))
        for count in (41, 43, 47):
            ring = "".join(f"State: {state} [t] {(state + 1) % count}\n" for state in range(count))
            self.file(f"ring{count}.hoa", f"HOA: v1 Start: 0 AP: 0 Acceptance: 0 t --BODY-- {ring} --END--\n".encode())
        done = self.tool("compose", "--guarantee", *(f"ring{count}.hoa" for count in (41, 43, 47)))
        said = (
            b"psyn: the parts make more than 65,535 states, and psyn reads no more; leave parts out, "
            b"or write smaller ones\n"
        )
        self.assertEqual((done.returncode, done.stdout, done.stderr), (2, b"", said))


class Sets(unittest.TestCase):
    def test_labels_say_exactly_the_letters_of_a_leaf(self):
        draw = random.Random(1)
        for _ in range(100):
            values, diagrams = [draw.randrange(3) for _ in range(16)], Diagrams()

            def made(place, number, values=values, diagrams=diagrams):
                if number == 4:
                    return diagrams.leaf((values[place],))
                return diagrams.node(number, made(place, number + 1), made(place | 1 << number, number + 1))

            whole = made(0, 0)
            for (value,), text in diagrams.labels(whole).items():
                label = hoa.label_of(hoa.Reader(hoa.tokens_of(text)))
                for place in range(16):
                    letter = {number: bool(place >> number & 1) for number in range(4)}
                    self.assertEqual(labels.value(label, letter, {}), values[place] == value, text)
                    self.assertEqual(
                        diagrams.at(whole, {number for number in range(4) if letter[number]}), (values[place],)
                    )

    def test_too_many_sets_are_refused(self):
        with unittest.mock.patch("psyntool.parts.diagrams.MOST_NODES", 10), self.assertRaisesRegex(
            Refused, "more than 10 sets of letters"
        ):
            [Diagrams.leaf(one, value) for one in [Diagrams()] for value in range(20)]


if __name__ == "__main__":
    unittest.main()
