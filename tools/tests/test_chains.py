"""Tests each command with inputs above 100,000 bytes that are not repetitions of a part: a game, an automaton and a
circuit that are long chains."""
import unittest

from upkeep import counts, rows
from psyntool.program import path as program

VERTICES = 8_000
STATES = 6_000
GATES = 8_000

# Player 0 owns a path of vertices with priority 1; the last vertex has priority 2 and a self-loop.
GAME = "".join(f"{place} 1 0 {place + 1};\n" for place in range(VERTICES - 1)) + f"{VERTICES - 1} 2 0 {VERTICES - 1};\n"

# Each state leads to the next, and the last to itself; there are no propositions, and every run is accepted.
AUTOMATON = (
    "HOA: v1 Start: 0 controllable-AP: Acceptance: 0 t --BODY--\n"
    + "".join(f"State: {state} [t] {min(state + 1, STATES - 1)}\n" for state in range(STATES))
    + "--END--\n"
)

# Each gate is the conjunction of the gate before it and the input, so the output equals the input.
CIRCUIT = (
    f"aag {GATES + 1} 1 0 1 {GATES}\n2\n{2 * (GATES + 1)}\n"
    + "".join(f"{2 * gate} {2 * (gate - 1)} 2\n" for gate in range(2, GATES + 2))
    + "i0 r\no0 g\n"
)

# Every request is granted at some later step.
GRANTS = (
    'HOA: v1 Start: 0 AP: 2 "r" "g" controllable-AP: 1 Acceptance: 1 Inf(0) --BODY-- '
    "State: 0 [!0|1] 0 {0} [0&!1] 1 State: 1 [1] 0 {0} [!1] 1 --END--\n"
)


def certificate_of_game(version):
    """In the game's certificate, the count of a vertex is the number of vertices of priority 1 that follow it on the
    path."""
    lines = [f"psyncert {version}", f"vertices {VERTICES}", "odd 1", "even 2"]
    for place in range(VERTICES):
        move, count = min(place + 1, VERTICES - 1), max(0, VERTICES - 2 - place)
        written = f" {count}" if version == 1 else f" 1:{count}" if count else ""
        lines.append(f"{place} 0 {move}{written}")
    return "\n".join(lines) + "\n"


def game_of_automaton():
    """In the game, each state of the automaton has a vertex of the environment and one of the controller."""
    lines = [f"parity {2 * STATES - 1};"]
    for state in range(STATES):
        lines.append(f'{2 * state} 0 1 {2 * state + 1} "{state}/0";')
        lines.append(f'{2 * state + 1} 0 0 {2 * min(state + 1, STATES - 1)} "{state}:";')
    return "\n".join(lines) + "\n"


def certificate_of_automaton():
    lines = ["psyncert 1", f"vertices {2 * STATES}", "odd", "even 0"]
    for state in range(STATES):
        lines += [f"{2 * state} 0 -", f"{2 * state + 1} 0 {2 * min(state + 1, STATES - 1)}"]
    return "\n".join(lines) + "\n"


class Chains(unittest.TestCase):
    @classmethod
    def setUpClass(cls):
        cls.program = program()
        cls.asked = 0

    @classmethod
    def tearDownClass(cls):
        counts.ran("examples", "asked of chains", cls.asked)

    def ask(self, command, *texts):
        """The program's answer to a command with texts, and the exit status."""
        given = f"{command}\n" + "%%\n".join(texts)
        type(self).asked += 1
        answer, status = rows.answered(self.program, rows.Row(command, given.encode(), 0))
        return answer.decode(), status

    def test_a_game(self):
        for version, flag in ((1, ""), (2, " --compact")):
            certificate = certificate_of_game(version)
            self.assertGreater(min(len(GAME), len(certificate)), 100_000)
            with self.subTest(version=version):
                self.assertTrue(self.ask("solve" + flag, GAME) == (certificate, 0), "solve")
                self.assertEqual(self.ask("check", GAME, certificate), ("valid\n", 0))
                self.assertEqual(self.ask("closed", GAME, certificate), ("closed\n", 0))
                raised = certificate.replace(
                    f"\n5000 0 5001 {'1:' if flag else ''}2998\n", f"\n5000 0 5001 {'1:' if flag else ''}2997\n"
                )
                self.assertEqual(self.ask("check", GAME, raised), ("fault 52 Rank 5000 5001 1\n", 1))

    def test_an_automaton(self):
        certificate = certificate_of_automaton()
        self.assertGreater(min(len(AUTOMATON), len(certificate)), 100_000)
        self.assertTrue(self.ask("game", AUTOMATON) == (game_of_automaton(), 0), "game")
        self.assertTrue(self.ask("cert", AUTOMATON) == (certificate, 0), "cert")
        circuit, status = self.ask("synth --cert", AUTOMATON, certificate)
        self.assertEqual((circuit[:11], status), ("REALIZABLE\n", 10))
        self.assertTrue(self.ask("synth", AUTOMATON) == (circuit, 10), "synth")
        whole = f"{circuit}%%\n{game_of_automaton()}%%\n{certificate}"
        self.assertTrue(self.ask("synth --full", AUTOMATON) == (whole, 10), "synth --full")

    def test_the_circuit_of_an_automaton(self):
        circuit = self.ask("synth", AUTOMATON)[0].removeprefix("REALIZABLE\n")
        self.assertEqual(self.ask("lasso", AUTOMATON, circuit, "-\n\n"), (f"accepted stem {STATES - 1} lap 1\n", 0))
        lines = self.ask("sim", circuit, "\n" * STATES)[0].splitlines()
        width = (STATES - 1).bit_length()
        self.assertTrue(lines == [f"{state:0{width}b}"[::-1] + "||" for state in range(STATES)], "sim")

    def test_a_circuit(self):
        self.assertGreater(len(CIRCUIT), 100_000)
        self.assertEqual(self.ask("sim", CIRCUIT, "1\n0\n"), ("|1|1\n|0|0\n", 0))
        self.assertEqual(self.ask("lasso", GRANTS, CIRCUIT, "1\n-\n0\n1\n"), ("accepted stem 1 lap 2\n", 0))

    def test_aliases_at_their_limit(self):
        head, body = (
            'HOA: v1 Start: 0 AP: 1 "a" controllable-AP: ', "Acceptance: 0 t --BODY-- State: 0 [@a4095] 0 --END--"
        )
        aliases = [f"Alias: @a{number} 0 " for number in range(4_097)]
        game = 'parity 4;\n0 0 1 1,2 "0/0";\n1 0 0 3 "0:0";\n2 0 0 0 "0:1";\n3 1 1 4 "sink/1";\n4 0 0 3 "sink:0";\n'
        self.assertEqual(self.ask("game", head + "".join(aliases[:-1]) + body), (game, 0))
        last = len(head + "".join(aliases[:-1]) + "Alias: ")
        self.assertEqual(self.ask("game", head + "".join(aliases) + body), (f"fault 9 Limit at {last}\n", 1))


if __name__ == "__main__":
    unittest.main()
