"""Tests the documents: their layout and sentences, that their links lead to files, and that their commands print what
they show."""
import glob
import os
import re
import subprocess
import tempfile
import unittest

from upkeep import counts, documents
from psyntool.program import path as program
from upkeep.sweeps import TOP

ALL = ["README.md", "CONTRIBUTING.md", *sorted(os.path.relpath(path, TOP) for path in glob.glob(os.path.join(TOP, "docs", "*.md")))]
WITH_COMMANDS = ["README.md", "CONTRIBUTING.md", "docs/CERTIFICATES.md", "docs/GALLERY.md", "docs/INTEROP.md", "docs/MANY.md", "docs/TUTORIAL.md"]
WORDS = 35
OTHERS = "commands of documents that need other programs"


class Forms(unittest.TestCase):
    def found(self, wrong):
        self.assertFalse(wrong, "\n".join(["", *wrong]))

    def test_lines(self):
        long = []
        for name in ALL:
            lines = enumerate(documents.read(name), 1)
            long += [f"{name}:{at}: {len(line)}" for at, line in lines if len(line) > 120 and not line.startswith("|")]
        self.found(long)

    def test_each_row_of_a_table_has_all_cells(self):
        tables = [(name, table) for name in ALL for table in documents.tables_of(documents.read(name))]
        self.assertGreater(len(tables), 30)
        self.found([f"{name}:{at}: {count} cells of {table[0][1]}" for name, table in tables for at, count in table if count != table[0][1]])

    def test_a_row_that_is_broken_is_seen(self):
        lines = ["| a | b `x\\|y` |", "|---|---|", "| c | d,", "    e |", "", "```", "| no", "```", "| `a | b` | c \\| d |"]
        self.assertEqual(documents.tables_of(lines), [[(1, 2), (2, 2), (3, 1)], [(9, 3)]])

    def test_sentences(self):
        long = []
        for name in ALL:
            for at, paragraph in documents.prose_of(documents.read(name)):
                long += [f"{name}:{at}: {sentence}" for sentence in documents.sentences_of(paragraph) if len(sentence.split()) > WORDS]
        self.found(long)

    def test_only_a_quotation_may_have_a_long_sentence(self):
        long = " ".join(["Word", *["word"] * WORDS]) + "."
        prose = documents.prose_of(["> " + long, "> " + long, "", "- One. " + long, "", "| " + long + " |", "", "    " + long])
        found = [sentence for _, paragraph in prose for sentence in documents.sentences_of(paragraph)]
        self.assertEqual(found, ["One.", long])

    def test_links_lead_to_files(self):
        folders = {name: os.path.join(TOP, os.path.dirname(name)) for name in ALL}
        links = [(name, at, target) for name in ALL for at, target in documents.links_of(documents.read(name))]
        self.assertTrue(links)
        self.found([f"{name}:{at}: {target}" for name, at, target in links if not os.path.exists(os.path.join(folders[name], target))])


class Names(unittest.TestCase):
    def test_calls_and_clauses_that_are_proved_are_there(self):
        text, crates = documents.sources("src"), {os.path.basename(path) for path in glob.glob(os.path.join(TOP, "crates", "*"))}
        known = {*re.findall(r"\b(?:fn|struct|trait|enum|ensures)\s+(\w+)", text), *crates}
        calls = documents.calls_of(documents.read("docs/PROVED.md"))
        flags = {"synth", "cert", "closed", "solve", "game", "sim", "tlsf"}
        self.assertTrue(calls)
        self.assertEqual([call for call in calls if call[1] not in known | flags], [])

    def test_calls_that_the_heads_of_libraries_list_are_there(self):
        found = 0
        for path in sorted(glob.glob(os.path.join(TOP, "crates", "*", "src", "lib.rt"))):
            inside = os.path.dirname(path)
            files = [documents.read(os.path.relpath(it, TOP)) for it in glob.glob(os.path.join(inside, "**", "*.rt"), recursive=True)]
            known = {*re.findall(r"\b(?:fn|mod|struct|trait|enum|const|type)\s+(\w+)", "\n".join("\n".join(lines) for lines in files))}
            head = [re.sub(r"\([^`]*", "", line[4:]) for line in documents.read(os.path.relpath(path, TOP)) if line.startswith("//! ")]
            calls = documents.calls_of(head)
            found += len(calls)
            with self.subTest(crate=os.path.relpath(inside, TOP)):
                self.assertEqual([name for _, name in calls if name not in known], [])
        self.assertGreater(found, 200)

    def test_definitions_are_where_they_are_said_to_be(self):
        text = documents.sources("specs")
        known = set(re.findall(r"(?m)^\s*(?:\w+ )*pub (?:\w+ )*(\w+)", text))
        wrong = []
        for line, code in documents.definitions_of(documents.read("docs/definitions.md")):
            is_file = code.endswith(".antt")
            is_there = glob.glob(os.path.join(TOP, "crates", "*", "specs", code) if "/" not in code else os.path.join(TOP, "crates", code)) if is_file else code in known
            if not is_there:
                wrong.append(f"docs/definitions.md:{line}: {code}")
        self.assertFalse(wrong, "\n".join(["", *wrong]))

    def test_proof_modules_that_crates_above_cite_are_listed(self):
        cited = {}
        for path in glob.glob(os.path.join(TOP, "crates", "*", "*", "**", "*.*t"), recursive=True):
            crate = os.path.relpath(path, TOP).split(os.sep)[1]
            if f"{os.sep}out{os.sep}" in path or not path.endswith((".rt", ".antt")):
                continue
            with open(path, encoding="utf-8") as file:
                for below, module in re.findall(r"Rattle\.(ps_\w+)\.proofs\.((?:[A-Z]\w*\.)*[A-Z]\w*)", file.read()):
                    if below != crate:
                        cited.setdefault(below, set()).add(module.split(".")[-1])
        rows = [line.split("|")[1:3] for line in documents.read("docs/architecture.md") if re.match(r"\| `ps_\w+` \| (`[A-Z]|all of)", line)]
        listed = {}
        for crate, modules in rows:
            listed.setdefault(crate.strip(" `"), set()).update(re.findall(r"`(\w+)`", modules))
        self.assertEqual(listed.pop("ps_text"), set())
        cited.pop("ps_text")
        self.assertEqual(listed, cited)

    def test_libraries_that_a_crate_lists_are_named_in_it(self):
        unnamed, found = [], 0
        for line in documents.read("crates.txt"):
            crate, _, listed = line.partition("#")[0].partition(":")
            inside = os.path.join(TOP, "crates", crate.strip())
            files = [path for it in ("src", "specs", "proofs") for path in glob.glob(os.path.join(inside, it, "**", "*.*t"), recursive=True)]
            words = {word for path in files for line in documents.read(os.path.relpath(path, TOP)) for word in re.findall(r"\w+", line)}
            found += len(listed.split())
            unnamed += [f"{crate}: {library}" for library in listed.split() if library not in words]
        self.assertEqual(unnamed, [])
        self.assertGreater(found, 0)

    def test_figures_of_the_gate_are_the_same(self):
        told = {name: " ".join(documents.read(name)) for name in ("README.md", "CONTRIBUTING.md", "docs/TESTED.md")}
        gate = re.search(r"At \w+ `rt ci` passed, .*? (\d+) processor minutes, .*? took (\d+) minutes on four processors", told["docs/TESTED.md"])
        self.assertTrue(gate)
        self.assertIn(f"{gate[1]} processor minutes ({gate[2]} on four,", told["README.md"])
        self.assertIn(f"{gate[2]} minutes on four processors, {gate[1]} processor minutes", told["CONTRIBUTING.md"])
        edits = glob.glob(os.path.join(TOP, "crates", "*", "must-fail", "*.edit"))
        crates = {path.split(os.sep)[-3] for path in edits}
        self.assertIn(f"{len(edits)} edits in {len(crates)} crates", told["docs/TESTED.md"])
        self.assertIn(f"{len(edits)} in {len(crates)} crates", told["CONTRIBUTING.md"])
        others = glob.glob(os.path.join(TOP, "crates", "*", "more-edits", "*.edit"))
        self.assertIn(f"the {len(others)} in `crates/NAME/more-edits`", told["docs/TESTED.md"])

    def test_the_toolchain_has_the_logic_that_the_documents_name(self):
        """The documents name the logic of the installed toolchain (kit), by the hash that `rt version` prints. The
        documents need not name the kit itself, since several kits have the same logic."""
        said = subprocess.run(["rt", "version"], capture_output=True, text=True, check=True).stdout.strip()
        logic = re.search(r"logic \w+$", said)
        self.assertTrue(logic, said)
        for name in ("CONTRIBUTING.md", "docs/PROVED.md"):
            self.assertIn(f"{logic[0]}`", " ".join(documents.read(name)), name)


class Commands(unittest.TestCase):
    def test_each_prints_what_is_shown(self):
        path, wrong, ran, missing = program(), [], {False: 0, True: 0}, set()
        for name in WITH_COMMANDS:
            fences = documents.fences_of(documents.read(name))
            wrong += [f"{name}:{fence.line}: a fence of no known kind" for fence in fences if not fence.is_known()]
            missing.update(*(fence.missing() for fence in fences if fence.is_run()))
            shown = [fence for fence in fences if fence.is_run() and not fence.missing()]
            for fence in shown:
                ran[bool(fence.marks)] += len(fence.commands())
            with tempfile.TemporaryDirectory() as room:
                documents.furnish(room)
                wrong += documents.wrong_answers(name, shown, room, {**os.environ, "PSYN": path})
        counts.ran("examples", "commands of documents", ran[False])
        counts.ran("examples", OTHERS, ran[True])
        self.assertFalse(wrong, "\n".join(["", *wrong]))
        if missing:
            counts.left_out("examples", OTHERS)
            self.skipTest(f"those that need {', '.join(sorted(missing))}, not installed; all others ran")

    def test_what_fences_need(self):
        fences = [documents.Fence(1, info, []) for info in ("console", "console yosys dot", "console foreign", "console gate", "text")]
        self.assertEqual([fence.is_run() for fence in fences], [True, True, False, False, False])
        self.assertTrue(all(fence.is_known() for fence in fences))
        for info in ("", "sh", "console none", "console foreign yosys", "text yosys"):
            self.assertFalse(documents.Fence(1, info, []).is_known(), info)

    def test_a_wrong_answer_is_seen(self):
        lines = ["```console", "$ echo a; \\", "> echo b", "a", "b", "$ false", "$ echo c", "d", "```", "```", "x", "```"]
        shown, unmarked = documents.fences_of(lines)
        self.assertFalse(unmarked.is_known())
        with tempfile.TemporaryDirectory() as room:
            wrong = documents.wrong_answers("it", [shown], room, os.environ)
        self.assertEqual(wrong, ["it:1: echo c\nc\n"])


if __name__ == "__main__":
    unittest.main()
