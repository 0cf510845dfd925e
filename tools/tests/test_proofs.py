"""Tests how `tools/shorten-proofs` parses proof files, and how it and `tools/wrap-lines` break lines."""
import glob
import importlib.machinery
import importlib.util
import os
import subprocess
import sys
import tempfile
import unittest

from upkeep import antt, layout
from upkeep.sweeps import TOOLS, TOP

PROOF = """
both : (a b : ℕ) → a ≡ b → (b ≡ a) × (a ≤ b)
unfolding sum
both a b e =
    let back : b ≡ a = turned a b e in
    (back, least a b e)
  where
    least : (a b : ℕ) → a ≡ b → a ≤ b
    least a b e = at_most a b (λ n. e)

    spare : ℕ
    spare = 0
"""

COMMENT = """\
-- A paragraph whose first line is too long for the width, so that what is left over of it begins the next line of \
the same
-- paragraph. It ends here.
-- ## A heading
--     Name a b      what the name says, which goes on in one line more since there are so many words, behind this \
entry alone
--     Other      what it says goes on in a line that is there, which stands further in than the names of the entries \
of the list
--               above and below it; so for two calls:
--                   first c = answered_by_a_lemma_of_a_long_name (with_arguments a b c) (and_with_more_arguments d e \
f g h i j)
--                   second c = answered
--     Last      short
-- So a list is
--     number = one number_of_a_long_name (with_arguments a b c) (and_with_more_arguments d e f g h i j k l m n o p) \
(and_of r)
--     more ns = then_by comma
length_of : ℕ
"""
FILLED = """\
-- A paragraph whose first line is too long for the width, so that what is left over of it begins the next line of the
-- same paragraph. It ends here.
-- ## A heading
--     Name a b      what the name says, which goes on in one line more since there are so many words, behind this entry
--               alone
--     Other      what it says goes on in a line that is there, which stands further in than the names of the entries of
--               the list above and below it; so for two calls:
--                   first c = answered_by_a_lemma_of_a_long_name (with_arguments a b c) (and_with_more_arguments d e f
--                       g h i j)
--                   second c = answered
--     Last      short
-- So a list is
--     number = one number_of_a_long_name (with_arguments a b c) (and_with_more_arguments d e f g h i j k l m n o p)
--         (and_of r)
--     more ns = then_by comma
length_of : ℕ
"""
# A clause, an import and a line with a comment at its end, which the tool breaks; and a line of code, which it leaves
# alone.
CODE = """\
    ghost use Rattle.crate.specs.Module.{first_name, second_name, third_name, fourth_name, fifth_name, sixth_name, \
seventh};
    ensures { IfOk result (λ found. (vertex : ℕ) → vertex < length found.items → slice_index found.items vertex ≡ \
vertex) } // each
    let a_very_long_line_of_code = call_of_a_function_with_a_long_name(argument_of_it, another_argument, \
one_more_argument, last);
"""
WRAPPED = """\
    ghost use Rattle.crate.specs.Module.{first_name, second_name, third_name, fourth_name, fifth_name, sixth_name};
    ghost use Rattle.crate.specs.Module.{seventh};
    // each
    ensures { IfOk result
        (λ found. (vertex : ℕ) → vertex < length found.items → slice_index found.items vertex ≡ vertex) }
    let a_very_long_line_of_code = call_of_a_function_with_a_long_name(argument_of_it, another_argument, \
one_more_argument, last);
"""


def tool(name):
    """A script of the folder tools, loaded as a module."""
    loader = importlib.machinery.SourceFileLoader(name.replace("-", "_"), os.path.join(TOOLS, name))
    module = importlib.util.module_from_spec(importlib.util.spec_from_loader(loader.name, loader))
    loader.exec_module(module)
    return module


class Reading(unittest.TestCase):
    def test_definitions(self):
        (definition,), lines = antt.definitions_of(PROOF)
        self.assertEqual((definition.name, definition.unfolding), ("both", ["unfolding sum"]))
        self.assertEqual(lines[definition.first : definition.last], PROOF.strip("\n").split("\n"))

    def test_places(self):
        (definition,), _ = antt.definitions_of(PROOF)
        clauses = antt.clauses_of(definition.clauses[0], 0)
        self.assertEqual([it.name for it in clauses], ["both", "least", "spare"])
        body = clauses[0].body
        parts = {" ".join(body[start:end].split()) for start, end, _ in antt.places_of(body)}
        self.assertLessEqual({"turned a b e", "(back, least a b e)", "least a b e"}, parts)

    def test_what_is_tried(self):
        shorten = tool("shorten-proofs")
        (definition,), _ = antt.definitions_of(PROOF)
        trials = list(shorten.trials_of(definition, {"turned", "at_most"}, iter(range(100))))
        said = {it.edits[2].strip() for it in trials}
        self.assertLessEqual({"search (rules, turned, at_most)", "search (rules, turned, least)"}, said)
        self.assertFalse(any("spare" in line for it in trials for line in it.lines))
        self.assertTrue(shorten.is_data(["spare : ℕ"]) and not shorten.is_data(definition.signature))


    def test_sets_are_taken(self):
        shorten = tool("shorten-proofs")
        text = (
            "-- Of a and b.\nuse Rattle.std.proofs.Common.{◌≡◌, arith}\n\na = search (rules, b)\nc = grind (arith, b)"
        )
        lines = shorten.with_sets(text).split("\n")
        self.assertEqual(lines[1], "use Rattle.std.proofs.Common.{rules}")
        self.assertEqual(shorten.with_sets("\n".join(lines)), "\n".join(lines))


class Layout(unittest.TestCase):
    def test_words_stay(self):
        """The layout changes only line breaks, and a second run changes nothing."""
        paths = glob.glob(os.path.join(TOP, "crates", "ps_text", "proofs", "**", "*.antt"), recursive=True)
        self.assertTrue(paths)
        for path in paths:
            text = layout.read(path)
            filled = layout.filled_text(text)
            self.assertEqual(filled.split(), text.split(), path)
            self.assertEqual(layout.filled_text(filled), filled, path)

    def test_paragraphs_lists_and_examples_of_a_comment_stay_apart(self):
        self.assertEqual(layout.text_within_width(COMMENT, False), FILLED)
        self.assertEqual(layout.text_within_width(FILLED, False), FILLED)

    def test_a_row_of_a_table_stays_one_line(self):
        row = "| " + " | ".join(["a cell of many words"] * 8) + " |"
        for text in (row, f"-- A table follows here.\n-- {row}\n-- |---|\n", f"# Table\n\n{row}\n|---|\n"):
            self.assertEqual(layout.text_within_width(text, False), text)
        self.assertNotEqual(layout.text_within_width(row[2:-2], False), row[2:-2])

    def test_paragraphs_of_a_document_are_filled(self):
        words = " ".join(["word"] * 30)
        text = (
            f"# {words}\n\n- One.\n- {words}\n  end.\n\n{words}\n```text\n{words}\n```\n| {words} |\n    {words}\n"
            f"> {words}\n"
        )
        first, rest = " ".join(["word"] * 23), " ".join(["word"] * 7)
        filled = text.replace(f"- {words}\n  end.", f"- {first}\n  {rest} end.").replace(
            f"\n\n{words}\n", f"\n\n{first} word\n{rest[5:]}\n"
        )
        self.assertEqual(layout.document_within_width(text), filled)
        self.assertEqual(layout.document_within_width(filled), filled)

    def test_clauses_are_broken_and_code_is_not(self):
        self.assertEqual(layout.text_within_width(CODE, True), WRAPPED)
        self.assertEqual(layout.text_within_width(WRAPPED, True), WRAPPED)

    def test_no_entry_of_a_list_is_cut(self):
        """In a list, a line that is indented further than an entry's text is an example, and must follow a colon."""
        cut, found = [], 0
        folders = [
            glob.glob(os.path.join(TOP, "crates", "*", it, "**", "*.antt"), recursive=True)
            for it in ("specs", "proofs")
        ]
        for path in sorted(sum(folders, [])):
            for at, comment in layout.comments_of(layout.read(path).split("\n")):
                found += 1
                cut += [f"{os.path.relpath(path, TOP)}:{at + place + 1}" for place in layout.cut_entries(comment)]
        self.assertEqual(cut, [])
        self.assertGreater(found, 0)
        self.assertEqual(layout.cut_entries(FILLED.split("\n")[:15]), [])
        self.assertEqual(
            layout.cut_entries(["--     Name      the first, at", "--          once", "--                 more"]), [1]
        )


class Wrapping(unittest.TestCase):
    def run_on(self, *words):
        return subprocess.run(
            [sys.executable, os.path.join(TOOLS, "wrap-lines"), *words], capture_output=True, text=True, check=False
        )

    def test_a_file_is_rewritten(self):
        with tempfile.TemporaryDirectory() as folder:
            path = os.path.join(folder, "Words.antt")
            with open(path, "w", encoding="utf-8") as file:
                file.write(COMMENT)
            done = self.run_on(path)
            self.assertEqual((done.returncode, done.stdout, done.stderr), (0, "", ""))
            self.assertEqual(layout.read(path), FILLED)

    def test_what_cannot_be_read_is_one_line(self):
        for words, status in (
            ([], 2), (["--other"], 2), ([os.path.join(TOP, "nothing.antt")], 1), ([os.path.join(TOP, "docs")], 1)
        ):
            done = self.run_on(*words)
            self.assertEqual(done.returncode, status, done)
            self.assertEqual(len(done.stderr.splitlines()), 1 if status == 1 else 0, done.stderr)
            self.assertNotIn("Traceback", done.stderr)


if __name__ == "__main__":
    unittest.main()
