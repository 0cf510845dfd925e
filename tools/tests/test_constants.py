"""Outputs that never change: what ternary simulation sees agrees with `sim` on random inputs."""
import random
import unittest

from psyntool import program
from psyntool.texts import circuit


def drawn(draw):
    """The text of a random circuit with few inputs, latches and gates."""
    counts = inputs, latches, gates = draw.randint(0, 2), draw.randint(0, 3), draw.randint(0, 5)
    most = sum(counts)
    any_literal = [draw.randint(0, 2 * most + 1) for _ in range(latches + 3)]
    lines = [f"aag {most} {inputs} {latches} 3 {gates}", *(str(2 * place) for place in range(1, inputs + 1))]
    lines += [
        f"{2 * (inputs + place)} {any_literal[place - 1]} {draw.randint(0, 1)}" for place in range(1, latches + 1)
    ]
    lines += map(str, any_literal[latches:])
    for place in range(inputs + latches + 1, most + 1):
        lines.append(f"{2 * place} {draw.randint(0, 2 * place - 1)} {draw.randint(0, 2 * place - 1)}")
    return "\n".join([*lines, ""]), inputs


class Constants(unittest.TestCase):
    def test_drawn_circuits(self):
        draw, told = random.Random(3), {0: 0, 1: 0}
        for _ in range(60):
            text, inputs = drawn(draw)
            letters = "".join("".join(draw.choices("01", k=inputs)) + "\n" for _ in range(20))
            rows = program.ask(f"sim\n{text}%%\n{letters}".encode()).text.split("\n")[:-1]
            for name, value in circuit.read(text).constants().items():
                self.assertEqual({row.split("|")[2][int(name[1:])] for row in rows}, {str(value)}, text)
                told[value] += 1
        self.assertGreater(min(told.values()), 10)

    def test_latches_that_keep_their_value(self):
        text = "aag 4 1 2 4 1\n2\n4 8\n6 6 1\n4\n6\n7\n2\n8 4 2\no0 a\no1 b\no2 c\no3 d\n"
        self.assertEqual(circuit.read(text).constants(), {"a": 0, "b": 1, "c": 0})
        self.assertEqual(circuit.read("aag 1 0 1 1 0\n2 3 2\n2\n").constants(), {})


if __name__ == "__main__":
    unittest.main()
