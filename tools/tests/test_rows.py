"""Runs the rows of examples/rows and the stored examples on the built program."""
import os
import tempfile
import unittest

from upkeep import counts, rows, sweeps
from psyntool.program import path as program

FOLDER = os.path.join(sweeps.TOP, "examples", "rows")
MANY = 20


class Answers(unittest.TestCase):
    @classmethod
    def setUpClass(cls):
        cls.program = program()

    def fault_of(self, row):
        wrong = row.fault_of(*rows.answered(self.program, row))
        return wrong and f"{row.name}: {wrong}"

    def meet(self, given):
        wrong = [fault for fault in sweeps.at_once(self.fault_of, given) if fault]
        self.assertFalse(wrong, "\n".join([f"{len(wrong)} of {len(given)} wrong", *wrong[:MANY]]))

    def test_each_row(self):
        for name in rows.files_of(FOLDER):
            given = rows.read(os.path.join(FOLDER, name))
            counts.ran("rows", name, len(given))
            with self.subTest(name):
                self.meet(given)

    def test_each_example(self):
        folder = os.path.dirname(FOLDER)
        given = []
        for name, (answer, status) in sweeps.inputs_of(folder).items():
            with open(os.path.join(folder, name), "rb") as file:
                given.append(rows.Row(name, file.read(), status, one_of=[answer]))
        counts.ran("examples", "answered", len(given))
        self.meet(given)


class Reading(unittest.TestCase):
    def read(self, text):
        with tempfile.NamedTemporaryFile("w", suffix=".toml", encoding="utf-8") as file:
            file.write(text)
            file.flush()
            return rows.read(file.name)

    def test_parts_are_repeated_and_characters_are_bytes(self):
        (row,) = self.read(
            '[[row]]\nname = "a"\nparts = ["x", { text = "é\\n", times = 2 }]\nanswer = "b"\nstatus = 1\n'
        )
        self.assertEqual(row.given, b"x\xe9\n\xe9\n")
        self.assertIsNone(row.fault_of(b"b", 1))
        self.assertIsNotNone(row.fault_of(b"b", 0))
        self.assertIsNotNone(row.fault_of(b"", 1))

    def test_an_open_move_fixes_lines_and_parts(self):
        (row,) = self.read('[[row]]\nname = "a"\ninput = ""\nbegins = ["yes"]\ncontains = ["2 3"]\nstatus = 0\n')
        self.assertIsNone(row.fault_of(b"yes\n1 2 3\n", 0))
        self.assertIsNotNone(row.fault_of(b"yes!\n1 2 3\n", 0))
        self.assertIsNotNone(row.fault_of(b"yes\n1 2 4\n", 0))

    def test_a_cut_is_a_row_behind_each_byte(self):
        cut = (
            '[[cut]]\nname = "a"\nbefore = "<"\ntext = "abc"\nbehind = ">"\nended = 1\nearly = "4 Syntax"\n'
            'whole_from = 3\nwhole = "all"\nstatus = 0\n'
        )
        other = '[[cut.other]]\nfrom = 1\nto = 1\nanswer = "one"\nstatus = 2\n'
        found = [(row.given, row.one_of, row.status) for row in self.read(cut + other)]
        wanted = [
            (b"<>", [b"fault 4 Syntax at 1\n"], 1), (b"<a>", [b"one"], 2), (b"<ab>", [b"fault 4 Syntax at 3\n"], 1),
            (b"<abc>", [b"all"], 0),
        ]
        self.assertEqual(found, wanted)

    def test_what_is_no_row_is_refused(self):
        row = '[[row]]\nname = "a"\ninput = "x"\nanswer = "b"\nstatus = 1\n'
        for text in (
            "", row.replace("answer", "anwser"), row.replace("status = 1\n", ""), row + 'begins = ["b"]\n', row + row,
            row.replace("x", "→"),
        ):
            with self.subTest(text), self.assertRaises(rows.Malformed):
                self.read(text)


if __name__ == "__main__":
    unittest.main()
