"""Tests that each public name of the definitions has one meaning: a name that two files define must be listed in
FAMILIES. Players are of the type `Player`. Lemma files of different crates have different names, except the listed
ones."""
import collections
import glob
import os
import re
import unittest

from upkeep.sweeps import TOP

PUBLIC = re.compile(
    r"^(?:abbrev pub|unfoldable pub|pub record|pub data|pub)\s+([A-Za-z_][\w'-]*)\s*(?:[:({]|where|$)", re.MULTILINE
)
FAMILIES = {
    "the numbers and names of faults, for each type of fault": "cause_name cause_number fault_name fault_number",
    "the parts of a grammar, for each format": "body choice constant_in entries entry Field grammar header HeaderData "
    "keyword lex number operand operands_in semicolon Sign successor together value_line winner IsToken IsUnknown "
    "AreTokens text_limit next_of stream_of state_name",
    "one line of a format, as it is read and as it is written": "fields head_text latch_line symbol_line",
    "a text has an answer, and only one": "HasOneAnswer HasSomeAnswer",
    "the same property of bytes and numbers": "AreRising BeginsWithZero IsByteRun IsDigit IsWord StopsBefore bytes_of "
    "is_among is_digit place_in",
    "the same property of two types of faults": "IsOutOfMemory IsRefusal NamesVertices",
    "the same view of two types": "draft_of moves_of name_bytes names_of with_move",
    "bytes, tokens and steps of the lexer of HOA texts, and of that of specifications": "class_of class_step "
    "comment_by goes_on lex_behind nesting_limit scan_step text_step with_name word_sign",
    "the steps of the parser of specifications, and steps of another kind elsewhere": "counted ended fresh is_end "
    "joined moved number_of parts_of run tail_of value_of with_formula",
    "what formulas, tableaux and fair cycles have of their own, as games and automata do": "AreDistinct Fits IsAnswer "
    "IsRun Keeps Leads",
    "what products have of words of latches, and of groups of letters": "AreDifferent AreOnce IsRead IsWhole",
    "letters over a mask, and formulas over propositions; what stands behind a letter, and in a text": "IsBehind "
    "IsOver",
    "classes of letters that are known, and covers of sets that are known": "AreKnown",
    "bits of a letter, of a state of latches, and of a machine's letter, which diagrams give": "bits_at bits_of",
}
# Acceptance marks are those of HOA texts; a fair cycle has marks of any kind on its edges.
WITH_MARKS = (
    "ps_hoa", "ps_automaton", "ps_automaton_tests", "ps_fairness", "ps_game_tests", "ps_mixing", "ps_models",
    "ps_tableau_product", "ps_translation",
)
PLAYER = re.compile(r"\b(?:player|owner|winner)s?: u8\b|\((?:player|owner|winner)\b[^)]*\): \(u8\b")
NUMBERS_OF_PLAYERS = {
    "ps_game/src/builder.rt": "`GameBuilder::vertex` takes the number of an owner",
    "ps_game_tests/src/games.rt": "passes the number on to `GameBuilder::vertex`",
    "ps_product/src/exploring.rt": "a field of a struct that is copied: a copy of a `Player` in it gets no proof",
    "ps_referee/src/fault.rt": "the public field of `JudgeFault`",
}
PROOFS_OF_FUNCTIONS = ("Answers.antt", "Invariants.antt", "Proof.antt", "Lib.antt")
# The crates, and what the file of each has.
SAME_LEMMA_FILES = {
    "DraftLemmas.antt": "ps_circuit ps_tableau_product: circuits that are read; products that are explored",
    "ExploringLemmas.antt": "ps_product ps_timing: products, and the values of latches, that are explored",
    "RowLemmas.antt": "ps_simulate ps_tableau_product: rows of lanes; the edges of a vertex",
    "RowSteps.antt": "ps_automaton ps_brief: steps of a table's rows; rows of a machine that is drawn",
    "Drafting.antt": "ps_automaton ps_brief: automata, and a winner's moves, that are drafted",
    "Orders.antt": "ps_brief ps_zielonka: the order of the second player's moves; lists by priority",
    "StepLemmas.antt": "ps_simulate ps_tableau_product: steps of lanes; steps with covers",
    "ValueLemmas.antt": "ps_simulate ps_timing: values of variables; values of Boolean functions",
    "BitLists.antt": "ps_diagram ps_simulate: the bits of a least letter; letters as lists of bits",
    "Rising.antt": "ps_circuit ps_machine: gates above all that they read; lists of propositions that rise",
    "Bits.antt": "ps_automaton ps_formula: sets that are numbers; one bit of the rows of truths",
    "Building.antt": "ps_automaton ps_tlsf: the automaton of a draft; tables of formulas that grow",
    "Forms.antt": "ps_tlsf ps_zielonka: the formulas that operators form; one iteration of the solver",
    "Joining.antt": "ps_diagram ps_tlsf: overlays of trees; lists appended one after another",
    "KnownLemmas.antt": "ps_diagram ps_tableau: results of operations; covers of sets, that are known",
    "Laps.antt": "ps_formula ps_verify: passes over a lap; laps of a trace",
    "Members.antt": "ps_ids ps_tableau: an id in a list; elements of lists",
    "NameLemmas.antt": "ps_hoa ps_tlsf: texts compared; the number of a declared name",
    "Placing.antt": "ps_attractor ps_tlsf: one more vertex; the formulas of the sections in a table",
    "Rounds.antt": "ps_machine ps_tableau: a step is two moves; rounds of a fair run",
    "Scanning.antt": "ps_hoa ps_tlsf: from token to token in the texts of each format",
    "Sound.antt": "ps_pgsolver ps_tableau: successors that are known; soundness of tableaux",
    "Tables.antt": "ps_formula ps_label: tables of nodes; tables of aliases",
    "Ways.antt": "ps_components ps_tableau: paths joined; covers made from covers",
}


def places_of_names():
    """The files that define each public name, without the definitions for private functions."""
    places = collections.defaultdict(set)
    for path in glob.glob(os.path.join(TOP, "crates", "*", "specs", "**", "*.antt"), recursive=True):
        if f"{os.sep}Inner{os.sep}" not in path and "_tests" not in path:
            with open(path, encoding="utf-8") as file:
                for name in PUBLIC.findall(file.read()):
                    places[name].add(os.path.relpath(path, os.path.join(TOP, "crates")))
    places.pop("mutual", None)
    return places


class Names(unittest.TestCase):
    def test_a_public_name_means_one_thing(self):
        places, known = places_of_names(), set(" ".join(FAMILIES.values()).split())
        self.assertGreater(len(places), 1000)
        twice = {name: sorted(files) for name, files in places.items() if len(files) > 1 and name not in known}
        self.assertEqual(twice, {})

    def test_each_name_of_a_family_stands_in_two_files(self):
        places = places_of_names()
        self.assertEqual([name for names in FAMILIES.values() for name in names.split() if len(places[name]) < 2], [])

    def test_a_mark_is_an_acceptance_mark(self):
        others = []
        for path in glob.glob(os.path.join(TOP, "crates", "*", "src", "**", "*.rt"), recursive=True):
            crate = os.path.relpath(path, os.path.join(TOP, "crates")).split(os.sep)[0]
            with open(path, encoding="utf-8") as file:
                code = [line for line in file if not line.lstrip().startswith("//")]
            words = set(re.findall(r"(?<![A-Za-z])[Mm]arks?(?![A-Za-z])", "".join(code)))
            if words and crate not in WITH_MARKS:
                others.append(f"{path}: {' '.join(sorted(words))}")
        self.assertEqual(others, [])

    def test_a_player_is_no_number(self):
        numbers = collections.Counter()
        for path in glob.glob(os.path.join(TOP, "crates", "*", "src", "**", "*.rt"), recursive=True):
            with open(path, encoding="utf-8") as file:
                numbers[os.path.relpath(path, os.path.join(TOP, "crates"))] += sum(
                    bool(PLAYER.search(line)) for line in file
                )
        self.assertEqual(
            {path: count for path, count in numbers.items() if count}, dict.fromkeys(NUMBERS_OF_PLAYERS, 1)
        )

    def test_lemma_files_of_two_crates_differ_in_their_names(self):
        crates = collections.defaultdict(set)
        for path in glob.glob(os.path.join(TOP, "crates", "*", "proofs", "**", "*.antt"), recursive=True):
            if os.path.basename(path) not in PROOFS_OF_FUNCTIONS:
                crates[os.path.basename(path)].add(os.path.relpath(path, os.path.join(TOP, "crates")).split(os.sep)[0])
        twice = {name: " ".join(sorted(where)) for name, where in crates.items() if len(where) > 1}
        self.assertGreater(len(crates), 500)
        self.assertEqual(twice, {name: reason.split(":")[0] for name, reason in SAME_LEMMA_FILES.items()})


if __name__ == "__main__":
    unittest.main()
