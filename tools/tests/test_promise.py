"""Tests the page of the promise: docs/PROMISE.md is as `tools/promise-page` writes it, has no more lines than a reader
can read in an hour, and has or explains each name that its definitions cite."""
import re
import subprocess
import unittest

from upkeep import documents, promise
from upkeep.sweeps import TOOLS

LINES = """-- Boxes, and what fits into them.
-- - `Box`: a box
-- - `IsFull box`: no more
--   fits in
use Rattle.std.specs.Prelude.{ℕ, ◌≡◌, Some, length}
use Rattle.ps_game.specs.Games.{vertex_count}
use Rattle.ps_game.specs.Plays as plays

pub record Box : Type 0 where
  pub size : ℕ
  pub vertex_count : ℕ

-- its own comment
abbrev pub half : ℕ → ℕ
half size = size / 2

abbrev pub IsFull : Box → Type 0
IsFull box = (vertex_count : ℕ) → plays.greatest [] ≡ vertex_count → half vertex_count ≡ box.size

pub data Shape : Type 0 where
  round : Shape
  square : ℕ → Shape

abbrev pub width : Shape → ℕ
width round = 0
width (square size) = vertex_count (half size)
""".split("\n")


class Page(unittest.TestCase):
    def test_it_is_of_today(self):
        self.assertEqual(documents.read(promise.DOCUMENT), promise.page(), "run tools/promise-page")
        self.assertEqual(subprocess.run([f"{TOOLS}/promise-page", "--check"], check=False).returncode, 0)

    def test_it_can_be_read_in_an_hour(self):
        self.assertLessEqual(len(promise.page()) - 1, promise.MOST_LINES)

    def test_a_definition_may_be_a_root_too(self):
        more = promise.page(roots=[*promise.ROOTS, ("ps_verify/specs/Judgements.antt", "IsWinning")])
        self.assertIn("## ps_specification, ps_synthesis, ps_verify", more)
        self.assertIn("those of ps_specification and ps_synthesis and ps_verify, which come first", " ".join(more))
        self.assertTrue(any(line.startswith("pub record IsWinning ") for line in more))

    def test_each_name_of_std_is_explained_once(self):
        found = promise.Gathered([promise.root_of(*root) for root in promise.ROOTS], promise.ENDS)
        explained = [name for names, _ in promise.STD for name in names.split()]
        self.assertEqual(sorted(explained), sorted(found.std))
        self.assertEqual(sorted(found.ends), sorted(promise.ENDS))

    def test_each_name_in_a_definition_is_there(self):
        """A name that begins with a capital letter stands in the index or in a table, or is a parameter."""
        text = "\n".join(promise.page())
        said = set(re.findall(r"[A-Z]\w+", text[text.index("## Types of the code") :]))
        found = promise.Gathered([promise.root_of(*root) for root in promise.ROOTS], promise.ENDS)
        for item in (item for item in found.items if item.module.path.endswith(".antt")):
            cited = {
                token.split(".")[0]
                for _, _, token in promise.antt.tokens_of(item.text()) if re.match(r"[A-Z]\w", token)
            }
            with self.subTest(item.names[0]):
                self.assertEqual(cited - said - promise.bound_in(item) - {"Type", "Unit"}, set())


class Readings(unittest.TestCase):
    def setUp(self):
        self.module = promise.Module("ps_box/specs/Boxes.antt", LINES)

    def test_definitions_have_their_names_and_comments(self):
        found = [(item.names, item.comment) for item in self.module.items]
        self.assertEqual(
            found,
            [
                (["Box"], ["-- a box"]),
                (["half"], ["-- its own comment"]),
                (["IsFull"], ["-- `IsFull box`: no more fits in"]),
                (["Shape", "round", "square"], []),
                (["width"], []),
            ],
        )
        self.assertEqual(self.module.items[1].lines, ["abbrev pub half : ℕ → ℕ", "half size = size / 2"])

    def test_what_is_bound_is_not_cited(self):
        cited = {item.names[0]: {name for _, name in promise.cited_by(item)} for item in self.module.items}
        self.assertEqual(cited["Box"], {"ℕ"})
        self.assertEqual(cited["IsFull"], {"ℕ", "Box", "half", "greatest", "◌≡◌"})
        self.assertEqual(cited["width"], {"ℕ", "Shape", "round", "square", "half", "vertex_count"})

    def test_a_contract_has_no_body(self):
        item = promise.contract_of(*promise.ROOTS[0])
        self.assertTrue(item.comment and item.lines[0].startswith("pub fn "))
        self.assertIn("ensures", item.text())
        self.assertNotIn("{", [line.strip() for line in item.lines])


if __name__ == "__main__":
    unittest.main()
