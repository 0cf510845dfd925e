"""Tests of the edits, which are deliberate changes to the code that the prover must refuse: each edit still applies to
its crate, and is in the right folder.

The gate tries the edits in crates/*/must-fail, which are the wrong bodies listed in NAMED. Edits that the gate does not
try are in crates/*/more-edits. Each of these has a row in tools/upkeep/EDITS.tsv, in which `tools/try-edits` records the
verdict. Whether a row is stale is for `tools/release` to ask.
"""
import glob
import importlib.machinery
import importlib.util
import os
import shutil
import subprocess
import tempfile
import unittest
from unittest import mock

from upkeep import edits
from upkeep.sweeps import TOOLS, TOP

# The edits (wrong function bodies) that matter most to psyn's promises. The gate proves a crate once more, to try its
# edits, if the crate's folder must-fail has an edit.
NAMED = (
    "always_not_certified",
    "always_too_large",
    "attractor_moves_anywhere",
    "built_in_uncertified",
    "count_may_stay",
    "depth_always_one",
    "environment_sees_the_move",
    "first_attractor_only",
    "game_of_its_own",
    "gate_made_twice",
    "gates_in_text_order",
    "implicit_bits_reversed",
    "input_repeated_or_early_line",
    "mark_missing",
    "minimum_read_as_maximum",
    "missing_letters_dropped",
    "no_moves_given",
    "one_successor_tested",
    "overlap_accepted",
    "printed_unjudged",
    "raises_not_counted",
    "region_too_small",
    "second_pass_missing",
    "stem_sets_counted",
    "unknown_names_skipped",
    "wrong_polarity_or_reset",
)
MOST_CRATES = 13
VERDICTS = {"refused", "refused by a name"}


def edits_in(folder):
    """For each file in a crate's folder of the given name (`must-fail` or `more-edits`), or in a folder within it, the
    crate and the name of the edit."""
    paths = [path for path in paths_in(folder) if os.path.isfile(path)]
    return [(crate_of(path), os.path.basename(path).removesuffix(".edit")) for path in paths]


def paths_in(folder):
    return sorted(glob.glob(os.path.join(TOP, "crates", "*", folder, "**", "*"), recursive=True))


def crate_of(path):
    return os.path.relpath(path, os.path.join(TOP, "crates")).split(os.sep)[0]


def why_not(crate, edit):
    """The reason why an edit does not apply to its crate; None if it does."""
    path, old, texts = None, None, {}
    for line in edit.split("\n"):
        word, _, said = line.partition(": ")
        if word == "file":
            path = said.strip()
        elif word == "old":
            old = said
        elif line.startswith("new:"):
            if not path or not old:
                return "a line 'new:' stands before any 'file:' or 'old:'"
            if path not in texts:
                try:
                    with open(os.path.join(crate, path), encoding="utf-8") as file:
                        texts[path] = file.read()
                except OSError:
                    return f"there is no {path}"
            if texts[path].count(old) != 1:
                return f"{old!r} stands {texts[path].count(old)} times in {path}"
            texts[path], old = texts[path].replace(old, line[len("new:") :].removeprefix(" ")), None
    return None if texts and old is None else "it has no pair of 'old:' and 'new:', or half of one"


class Edits(unittest.TestCase):
    def test_each_applies(self):
        wrong, found = [], 0
        for folder in ("must-fail", "more-edits"):
            for path in (it for it in paths_in(folder) if it.endswith(".edit")):
                found += 1
                with open(path, encoding="utf-8") as file:
                    why = why_not(os.path.join(TOP, "crates", crate_of(path)), file.read())
                if why:
                    wrong.append(f"{os.path.relpath(path, TOP)}: {why}")
        self.assertFalse(wrong, "\n".join(wrong))
        self.assertGreater(found, 0)

    def test_the_gate_tries_each_named_one_once_and_no_others(self):
        tried = edits_in("must-fail")
        self.assertEqual(sorted(name for _, name in tried), sorted(NAMED))
        self.assertLessEqual(len({crate for crate, _ in tried}), MOST_CRATES)

    def test_each_other_one_has_one_row(self):
        head, *rows = edits.read(edits.TABLE).splitlines()
        self.assertEqual(head, edits.HEAD)
        rows = [row.split("\t") for row in rows]
        self.assertEqual([tuple(row[:2]) for row in rows], sorted(edits_in("more-edits")))
        self.assertLessEqual({row[3] for row in rows}, VERDICTS)
        self.assertEqual([row for row in rows if len(row) != 5 or len(row[4]) != edits.DIGITS], [])

    def test_each_commit_is_in_the_history(self):
        """Tests that the table of verdicts names no commit that was replaced, as by a cherry-pick."""
        asked = {"cwd": TOP, "capture_output": True, "text": True}
        if subprocess.run(["git", "rev-parse", "--is-shallow-repository"], **asked).stdout.strip() != "false":
            self.skipTest("the whole history is not here")
        names = {row[2].rstrip("+") for row in edits.rows().values()}
        history = subprocess.run(["git", "rev-list", "HEAD"], **asked).stdout.split()
        self.assertEqual([name for name in sorted(names) if not any(it.startswith(name) for it in history)], [])

    def test_one_that_does_not_apply_is_seen(self):
        with tempfile.TemporaryDirectory() as crate:
            with open(os.path.join(crate, "body"), "w", encoding="utf-8") as file:
                file.write("let a = 1;\nlet b = 1;\n")
            self.assertIsNone(why_not(crate, "file: body\nold: a = 1\nnew: a = 2\nold: = 1\nnew: = 3\n"))
            self.assertIn("2 times", why_not(crate, "file: body\nold: = 1\nnew: = 2\n"))
            self.assertIn("0 times", why_not(crate, "file: body\nold: c\nnew: d\n"))
            self.assertIn("there is no", why_not(crate, "file: other\nold: c\nnew: d\n"))
            self.assertIn("half", why_not(crate, "file: body\nold: a = 1\n"))


class Table(unittest.TestCase):
    """Tests how `tools/try-edits` reads the output of `rt must-fail`, records verdicts, and finds stale ones."""

    def setUp(self):
        loader = importlib.machinery.SourceFileLoader("try_edits", os.path.join(TOOLS, "try-edits"))
        self.tool = importlib.util.module_from_spec(importlib.util.spec_from_loader(loader.name, loader))
        loader.exec_module(self.tool)
        room = tempfile.TemporaryDirectory()
        self.addCleanup(room.cleanup)
        self.room, self.table = room.name, os.path.join(room.name, "EDITS.tsv")
        self.write("ps_a/more-edits/one.edit", "file: src/lib.rt\nold: 1\nnew: 2\n")
        self.write("ps_a/src/lib.rt", "ghost use Rattle.ps_b.specs.Cells.Rows.{row};\nghost use Rattle.std.specs.Prelude.{List};\n1\n")
        self.write("ps_b/specs/Cells/Rows.antt", "row")
        self.write("ps_b/specs/Cells.antt", "cell")

    def write(self, name, text):
        path = os.path.join(self.room, "crates", name)
        os.makedirs(os.path.dirname(path), exist_ok=True)
        with open(path, "w", encoding="utf-8") as file:
            file.write(text)

    def is_stale(self):
        return edits.stale(self.room, self.table) == [("ps_a", "one")]

    def record(self):
        found = edits.paths(self.room)
        edits.store({key: ("c0", "refused", edits.hash_of(key, path, self.room)) for key, path in found.items()}, self.room, self.table)

    def test_verdicts(self):
        names = "refused, as it must be (only because a proof file names what the edit took away): ./proofs/A.antt"
        told = ["refused, as it must be: note", names, "NOT REFUSED: still proved", "BAD EDIT: no such text"]
        self.assertEqual([self.tool.verdict_of(it) for it in told], ["refused", "refused by a name", "not refused", "bad"])

    def test_a_copy_that_fails_is_one_line(self):
        for error in (shutil.Error([("a", "b", "[Errno 28] No space left on device"), ("c", "d", "more")]), OSError(28, "No space left on device")):
            with mock.patch.object(self.tool.shutil, "copytree", side_effect=error), self.assertRaises(SystemExit) as stopped:
                self.tool.copy_to("room", [], {})
            self.assertEqual(stopped.exception.code, "try-edits: the repository can't be copied: [Errno 28] No space left on device")

    def test_words_choose_edits(self):
        there = {("ps_a", "one"): "", ("ps_a", "two"): "", ("ps_b", "one"): ""}
        self.assertEqual(self.tool.chosen([], there), list(there))
        self.assertEqual(self.tool.chosen(["ps_b", "ps_a/two"], there), [("ps_a", "two"), ("ps_b", "one")])
        with self.assertRaises(SystemExit) as stopped:
            self.tool.chosen(["ps_b/two"], there)
        self.assertEqual(stopped.exception.code, "there is no edit ps_b/two: crates with edits are ps_a, ps_b")

    def test_an_edit_is_stale_if_what_it_stands_on_changed(self):
        changes = {"ps_a/more-edits/one.edit": True, "ps_a/src/lib.rt": True, "ps_b/specs/Cells/Rows.antt": True, "ps_b/specs/Cells.antt": False}
        self.assertTrue(self.is_stale())
        for name, makes_it_stale in changes.items():
            self.record()
            self.assertFalse(self.is_stale())
            self.write(name, edits.read(os.path.join(self.room, "crates", name)) + " ")
            self.assertEqual(self.is_stale(), makes_it_stale, name)

    def test_rows_of_deleted_edits_go(self):
        self.write("ps_a/more-edits/two.edit", "file: src/lib.rt\nold: 1\nnew: 3\n")
        self.record()
        os.remove(os.path.join(self.room, "crates", "ps_a", "more-edits", "one.edit"))
        edits.store({("ps_a", "two"): ("c1", "bad", "0")}, self.room, self.table)
        self.assertEqual(edits.read(self.table), edits.HEAD + "\nps_a\ttwo\tc1\tbad\t0\n")

    def test_each_verdict_is_recorded(self):
        """Tests the tool with a stand-in for `rt must-fail`, which refuses the edit that is in the copy."""
        self.write("../bin/rt", "#!/bin/sh\nfor it in crates/$2/must-fail/*; do echo \"rt: must-fail $2/${it##*/}: refused, as it must be: x\"; done\n")
        os.chmod(os.path.join(self.room, "bin", "rt"), 0o755)
        there, asked = edits.paths(self.room), {"PATH": os.path.join(self.room, "bin") + os.pathsep + os.environ["PATH"]}
        kept = mock.patch.object(edits, "store", side_effect=lambda those: told.update(those))
        told, at = {}, mock.patch.object(self.tool, "commit", return_value="c0")
        top = mock.patch.object(self.tool, "TOP", self.room)
        with mock.patch.dict(os.environ, asked), kept, at, top, open(os.devnull, "w", encoding="utf-8") as quiet, mock.patch("sys.stdout", quiet):
            self.assertEqual(self.tool.tried(list(there), there), 1)
        self.assertEqual(told, {("ps_a", "one"): ("c0", "refused", edits.hash_of(("ps_a", "one"), there["ps_a", "one"]))})


if __name__ == "__main__":
    unittest.main()
