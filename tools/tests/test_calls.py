"""Tests that each public function of the Rattle code is called by the program or by a bench, is a law, or is named in
surface.toml with the reason why it stays."""
import os
import tomllib
import unittest

from upkeep import calls
from upkeep.sweeps import TOP

STORED = os.path.join(TOP, "tools", "tests", "surface.toml")

CODE = """
//! Says `spare();` in a comment.
pub struct Box { ghost small: { spare () ≤ 3 }, size: u8 }
impl Box {
    pub fn new(size: u8) -> Self requires { spare () ≡ 1 } { Box { size } }
    pub fn size(&self) -> u8 { self.size }
    pub fn weight(&self) -> u8 { Self::of_all('{', "spare();") }
    fn of_all(open: char, text: &str) -> u8 { 2 }
}
impl std::fmt::Debug for Box { fn fmt(&self) -> u8 { shown(self.size) } }
pub(crate) fn shown(size: u8) -> u8 { size }
pub fn spare() -> u8 { spare() }
pub fn law() ensures { spare () ≡ 2 } {}
pub fn other_law() { law(); }
fn main() { Box::new(3).size(); }
"""


def paths(functions):
    return sorted(function.path() for function in functions)


class Calls(unittest.TestCase):
    def test_each_public_function_is_called_or_named(self):
        with open(STORED, "rb") as file:
            stored = tomllib.load(file)
        functions, outside = calls.read(TOP)
        self.assertGreater(len(functions), 1000)
        named = {it for it in functions if it.is_public and it.path() in stored["calls"]}
        self.assertEqual(sorted(set(stored["calls"]) - {it.path() for it in named}), [], "no such public functions")
        self.assertEqual(
            paths(named & calls.called_from(functions, outside, set())), [], "called, so they need no reason"
        )
        known = calls.called_from(functions, outside, named) | calls.laws_of(functions)
        spare = [it for it in functions if it.is_public and it not in known and it.crate not in stored["begun"]]
        self.assertEqual(paths(spare), [], "called by nobody: delete them, or name them in tools/tests/surface.toml")

    def test_each_reason_is_given(self):
        with open(STORED, "rb") as file:
            self.assertEqual([name for name, why in tomllib.load(file)["calls"].items() if len(why.split()) < 5], [])

    def test_a_small_program(self):
        functions, outside = calls.functions_of("one", calls.code_of(CODE), set())
        known = calls.called_from(functions, [outside], set())
        self.assertEqual(paths(known), ["one::Box::fmt", "one::Box::new", "one::Box::size", "one::main", "one::shown"])
        self.assertEqual(paths(calls.laws_of(functions)), ["one::law", "one::other_law"])
        spare = {it for it in functions if it.is_public} - known - calls.laws_of(functions)
        self.assertEqual(paths(spare), ["one::Box::weight", "one::spare"])
        more = calls.called_from(functions, [outside], {it for it in functions if it.name == "weight"})
        self.assertEqual(paths(more - known), ["one::Box::of_all", "one::Box::weight"])


if __name__ == "__main__":
    unittest.main()
