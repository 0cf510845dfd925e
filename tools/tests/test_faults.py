"""Tests that docs/FAULTS.md agrees with the program's faults."""
import os
import re
import subprocess
import unittest

from psyntool import faults
from upkeep import counts
from psyntool.program import path as program
from upkeep.sweeps import TOP


class Examples(unittest.TestCase):
    def test_each_example_has_its_answer(self):
        path, document = program(), faults.read_document()
        counts.ran("examples", "of docs/FAULTS.md", sum(len(fault.examples) for fault in document))
        for fault in document:
            for given, answer in fault.examples:
                done = subprocess.run([path], input=given.encode(), stdout=subprocess.PIPE, check=False)
                with self.subTest(fault=fault.name):
                    self.assertEqual(done.stdout.decode(), answer)
                    self.assertEqual(done.returncode, 2 if answer == "fault usage\n" else 1)

    def test_the_stored_examples_name_faults_of_the_document(self):
        known = {(fault.number, fault.name) for fault in faults.read_document()}
        folder = os.path.join(TOP, "examples")
        for name in sorted(os.listdir(folder)):
            if name.endswith(".stdout"):
                with open(os.path.join(folder, name), encoding="utf-8") as file:
                    found = re.match(r"fault (\d+) (\w+)", file.read())
                if found:
                    self.assertIn((int(found[1]), found[2]), known, name)


class Document(unittest.TestCase):
    def test_each_fault_says_all(self):
        for fault in faults.read_document():
            with self.subTest(fault=fault.name):
                self.assertEqual({"Text", "Cause", "Place", "Mend"}, set(fault.entries))

    def test_numbers_rise_within_a_part_and_differ(self):
        numbers = [fault.number for fault in faults.read_document() if fault.number]
        self.assertEqual(len(numbers), len(set(numbers)))

    def test_an_example_names_its_own_fault(self):
        for fault in faults.read_document():
            for _, answer in fault.examples:
                self.assertEqual(answer.split()[1], "usage" if fault.number is None else str(fault.number))


if __name__ == "__main__":
    unittest.main()
