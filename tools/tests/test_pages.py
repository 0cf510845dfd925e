"""Tests of pages: the rules in JavaScript under node, compared with `sim` and `lasso`; the HTML text; and pages in
Chromium, compared with `play`."""
import base64
import dataclasses
import glob
import html
import json
import os
import random
import re
import shutil
import subprocess
import unittest
import unittest.mock

from psyntool import program
from psyntool.command import Request
from psyntool.ends import Refused
from psyntool.pages import clauses, contents, drawing, writing
from psyntool.parts import part
from psyntool.plays import opponents, reading, telling
from psyntool.plays.board import LONGEST, Board, Match
from psyntool.plays.play import Play
from psyntool.table import COMMANDS
from psyntool.texts import circuit, report
from tests.test_gallery import GALLERY
from tests.test_plays import boards
from tests.tool import AUTOMATON, OnFiles
from upkeep import counts
from upkeep.sweeps import TOP

PAGES = os.path.join(TOP, "tools", "psyntool", "pages")
ASSETS = ("template.html", "page.css", "rules.js", "page.js")
MOST_LINES = 700
NODE, CHROMIUM = ("node", "nodejs"), ("chromium", "chromium-browser", "google-chrome")
SEED, BOARDS, PLAYS, LETTERS = 69, 40, 5, 12
# An automaton that alternates between two states at every letter; the two circuits are written by hand.
TURNS = (
    'HOA: v1 Start: 0 AP: 2 "r" "g" controllable-AP: 1 Acceptance: 1 Inf(0) --BODY-- State: 0 "tick" [t] 1 State: '
    '1 "tock" [t] 0 {0} --END--\n'
)
NO_LATCH, FROM_ONE = "aag 1 1 0 1 0\n2\n0\ni0 r\no0 g\n", "aag 2 1 1 1 0\n2\n4 3 1\n4\ni0 r\no0 g\n"
NO_INPUT = (
    'HOA: v1 Start: 0 AP: 1 "g" controllable-AP: 0 Acceptance: 1 Inf(0) --BODY-- State: 0 [0] 0 {0} [!0] 0 --END--\n'
)
# Names that would be HTML or JavaScript if the page did not escape them.
ODD = """\
HOA: v1 Start: 0 AP: 2 "r</script><script>document.title='bad'</script>" "<img src=x \
onerror=\\"document.title='bad'\\">&amp;'g"
controllable-AP: 1 Acceptance: 1 Inf(0) --BODY--
State: 0 "</td><b>off</b> & \\"x\\" --> ]]> \\\\N id=\\"a\\"" [!0|1] 0 {0} [0&!1] 1
State: 1 [1] 0 {0} [!1] 1 --END--
""".encode()
FOCUS = """\
document.querySelector("#choices button").focus(); document.activeElement.click();
document.title = document.activeElement.textContent + "/";
document.getElementById("back").focus(); document.activeElement.click(); document.activeElement.click();
document.title += document.activeElement.textContent;
"""
NEVER = b"aag 1 1 0 1 0\n2\n0\ni0 r\no0 g\n"
NOT_DRAWN = (
    rb"the automaton has [0-9]+ states, too many for a picture: the page draws what is around the present state\n"
)
RUNS = []


def found(names):
    """The first of the given programs that is installed, or None."""
    return next(filter(None, map(shutil.which, names)), None)


def bits(values):
    return "".join(map(str, values))


def shown(play):
    """The text that `play` prints for a play."""
    return "\n".join([*telling.table(play), *telling.ended(play)])


class Rules(unittest.TestCase):
    """The rules agree with `sim` about latches and outputs, with the automaton's edges about states and priorities, and
    with `lasso` about verdicts."""

    def setUp(self):
        self.node = found(NODE)
        if not self.node:
            counts.left_out("pages", "plays by the rules under node")
            self.skipTest("node is not installed")

    def played(self, cases):
        given = json.dumps([os.path.join(PAGES, "rules.js"), cases])
        driver = os.path.join(os.path.dirname(__file__), "rules_at_work.js")
        done = subprocess.run([self.node, driver], input=given.encode(), capture_output=True, check=False, timeout=60)
        self.assertEqual((done.returncode, done.stderr.decode()), (0, ""))
        return json.loads(done.stdout)

    def test_drawn_plays(self):
        draw = random.Random(SEED)
        drawn = list(boards(draw, BOARDS))
        letters = [
            ["".join(draw.choices("01", k=len(board.mine))) for _ in range(LETTERS)]
            for *_, board in drawn for _ in range(PLAYS)
        ]
        # for each specification, the first play is given no letters, and the other plays are given random letters;
        # after the given letters, a play takes the choices that should delay the loss longest (`Board.longest`)
        plays = [[[], *letters[at + 1 : at + PLAYS]] for at in range(0, len(letters), PLAYS)]
        said, kinds = self.played([(contents.of(board), moves) for (*_, board), moves in zip(drawn, plays)]), {}
        for (text, printed, board), these in zip(drawn, said):
            for play in these:
                self.look_at(board, play)
                self.assertEqual(play["steps"], self.simulated(board, printed, play))
                self.assertRegex(self.verdict(board, text, printed, play), self.wanted(play))
                kinds[board.winner, board.am_first, play["loop"] is None] = True
            longest = Play(Match(board, printed.encode()))
            longest.hold_out(LONGEST)
            self.assertEqual((these[0]["text"], these[0]["stimulus"]), (shown(longest), longest.stimulus()))
        self.assertEqual(len(kinds), 6)
        counts.ran("pages", "plays by the rules under node", sum(map(len, said)))

    def look_at(self, board, play):
        """Checks the steps against the automaton's edges, and the stimulus against the letters of the play."""
        self.assertEqual(play["wrong"], 0)
        state = board.automaton.start
        for step in play["steps"]:
            edge = board.automaton.edge_at(state, {number for number, bit in enumerate(step["letter"]) if bit})
            ends = (None, 1) if edge is None else (edge.target, board.automaton.chain.priority(edge.marks))
            self.assertEqual((step["state"], step["target"], step["priority"]), (state, *ends))
            state = ends[0]
        lines, lap = (
            [step["digits"] for step in play["steps"]], len(play["steps"]) - 1 if play["loop"] is None else play["loop"]
        )
        self.assertEqual(play["stimulus"].split("\n"), [*lines[:lap], "-", *lines[lap:], ""])

    def simulated(self, board, printed, play):
        """The play's steps with the latches and outputs of `sim`, whose last line has the latches after the play."""
        lines = [step["digits"] for step in play["steps"]]
        given = "\n".join(["sim", f"{printed}%%", *lines, lines[-1], ""])
        answer = program.ask(given.encode())
        rows = [row.split("|") for row in answer.text.split("\n")[:-1]]
        self.assertEqual(rows[-1][0], bits(play["latches"]))
        numbers = {name: number for number, name in enumerate(board.automaton.names)}
        order = [numbers[name] for kind in "io" for name in board.circuit.names(kind)]
        steps = []
        for step, (latches, inputs, outputs) in zip(play["steps"], rows):
            letter = dict(zip(order, map(int, inputs + outputs)))
            steps.append({
                **step, "latches": list(map(int, latches)), "letter": [letter[number] for number in range(len(numbers))]
            })
        return steps

    def test_circuits_that_psyn_did_not_print(self):
        """If the user moves first, the rules try where a letter leads. The gates of a circuit may stand in any order,
        and it may be a smaller one."""
        cases, kinds = [], set()
        for text, printed, board in boards(random.Random(SEED + 1), 12):
            made = dataclasses.replace(board.circuit, gates=board.circuit.gates[::-1])
            small = program.ask(
                " ".join(["shrink", *opponents.flags_of(board)]).encode() + f"\n{text}%%\n{printed}".encode()
            ).text
            for said, read, known_by in ((printed, made, "verify"), (small, circuit.read(small), "shrink")):
                cases.append((
                    text,
                    said,
                    Board(board.automaton, board.game, board.certificate, read, board.specification, known_by),
                ))
        said = self.played([(contents.of(board), [[], ["1" * len(board.mine)] * 3]) for *_, board in cases])
        for (text, printed, board), these in zip(cases, said):
            for play in these:
                self.look_at(board, play)
                self.assertEqual(play["steps"], self.simulated(board, printed, play))
                self.assertRegex(self.verdict(board, text, printed, play), self.wanted(play))
            if not board.am_first:
                longest = Play(Match(board, printed.encode()))
                longest.hold_out(LONGEST)
                self.assertEqual((these[0]["text"], these[0]["stimulus"]), (shown(longest), longest.stimulus()))
            kinds.add((board.winner, board.am_first))
        self.assertEqual(len(kinds), 4)

    def test_a_play_beyond_the_places_that_are_known(self):
        """Where nothing is known before the play, the rules try where letters lead, and find the same choices."""
        board = next(board for *_, board in boards(random.Random(SEED + 2), 40) if not board.am_first and board.winner)
        whole = Board(
            board.automaton, board.game, board.certificate, board.circuit, board.specification, known_by="shrink"
        )
        with unittest.mock.patch("psyntool.pages.contents.MOST_PLACES", 1):
            few = contents.of(whole)
        self.assertEqual(len(few["choices"]), 1)
        said = self.played([(given, [[]]) for given in (few, contents.of(whole))])
        self.assertEqual([play["wrong"] for [play] in said], [0, 0])

    def test_boards_by_hand(self):
        """A play closes a loop when a state recurs with the same latches; a latch may start at 1, and a letter may have
        no bits."""
        made = [report.read(program.ask(f"synth --full\n{text}".encode()).text).parts[1:] for text in (TURNS, NO_INPUT)]
        own = report.read(program.ask(f"synth --full\n{NO_INPUT}".encode()).text).parts[0]
        given = [(TURNS, NO_LATCH, *made[0]), (TURNS, FROM_ONE, *made[0]), (NO_INPUT, own, *made[1])]
        said = [
            plays[0]
            for plays in self.played([(contents.of(reading.board_of(*texts)), [["1", "0"]]) for texts in given[:2]])
        ]
        self.assertEqual([[step["digits"] for step in play["steps"]] for play in said], [["1", "0"]] * 2)
        self.assertEqual(
            [[bits(step["letter"]) for step in play["steps"]] for play in said], [["10", "00"], ["11", "00"]]
        )
        (nothing,) = self.played([(contents.of(reading.board_of(*given[2])), [[]])])
        self.assertEqual((nothing[0]["wrong"], nothing[0]["stimulus"]), (0, "-\n\n"))

    def verdict(self, board, text, printed, play):
        flag = " --env" if board.winner == 1 else ""
        return program.ask(f"lasso{flag}\n{text}%%\n{printed}%%\n{play['stimulus']}".encode()).text.rstrip("\n")

    def wanted(self, play):
        """The verdict of `lasso` that the play's loop implies; a play that ends without an edge is rejected."""
        steps, loop = play["steps"], play["loop"]
        if loop is None:
            return "^rejected "
        greatest = max(step["priority"] for step in steps[loop:])
        return f"^{('accepted', 'rejected')[greatest % 2]} stem {loop} lap {len(steps) - loop}$"


    def test_names_in_a_picture_differ_where_states_differ(self):
        ends = ["owed: x", "owed: y", "owed: x; and more"]
        names = [f"at floor 0; no call waits; {end}" for end in ends]
        lines = [[end] for end in ends]
        program = "const r = require(process.argv[1]); const n = JSON.parse(process.argv[2]);"
        program += (
            "console.log(JSON.stringify([r.tellingNames(n), r.tellingNames(n).map((it) => r.linesOf(it, 36, 3)), "
            "r.linesOf('aa bb cccccc d', 3, 3)]))"
        )
        said = subprocess.run(
            [self.node, "-e", program, os.path.join(PAGES, "rules.js"), json.dumps(names)],
            capture_output=True,
            check=True,
        ).stdout
        self.assertEqual(json.loads(said), [ends, lines, ["aa", "bb", "cc\u2026"]])


class Pages(OnFiles):
    """The contents of a page's HTML text."""

    def page(self, *words):
        done = self.tool("page", *words)
        self.assertEqual((done.returncode, re.sub(NOT_DRAWN, b"", done.stderr)), (0, b""), words)
        return done.stdout.decode()

    def solved(self, name, text, *flags):
        path = self.file(f"{name}.hoa", text)
        self.assertIn(self.tool("synth", *flags, "-o", name, path).returncode, (10, 20))
        return path

    def test_each_specification_of_the_gallery_has_its_page_by_one_command(self):
        lists = glob.glob(os.path.join(GALLERY, "*.parts"))
        for path in lists:
            page = self.page("--parts", path)
            name = os.path.basename(path).removesuffix(".parts")
            self.assertTrue(f"<title>{name}: " in page, name)
            self.assertTrue(re.search(r"<strong>(UN)?REALIZABLE</strong>: there is (a|no) controller", page), name)
        self.assertEqual(len(lists), 8)

    def test_a_list_can_be_strict_and_of_a_controller_that_moves_first(self):
        same = self.file(
            "same.hoa", b'HOA: v1 Start: 0 AP: 2 "r" "g" Acceptance: 0 t --BODY-- State: 0 [0&1 | !0&!1] 0 --END--\n'
        )
        self.file("it.parts", f"--outs g --assume {same} --as r=x --guarantee {same}\n".encode())
        for flags, said in (([], "REALIZABLE"), (["--moore"], "UNREALIZABLE"), (["--strict"], "REALIZABLE")):
            page = self.tool("page", "--parts", *flags, "it.parts").stdout.decode()
            self.assertTrue(f"<title>it: {said}</title>" in page)
            self.assertEqual("the controller moves first" in page, "--moore" in flags)
            self.assertEqual("a guarantee has broken" in page, "--strict" not in flags)
        self.assertEqual(self.tool("page", "--strict", "it", "it.hoa").stderr, b"psyn: page --strict wants --parts\n")

    def test_files_and_a_list_make_the_same_page(self):
        path = os.path.join(GALLERY, "traffic.parts")
        self.tool("synth", "--parts", "-o", "traffic", path)
        self.assertTrue(self.page("traffic", "traffic.hoa") == self.page("--parts", path))
        self.assertTrue('download="traffic.parts"' in self.page("traffic", path))

    def test_the_texts_can_be_saved_byte_by_byte(self):
        page = self.page("out", self.solved("out", AUTOMATON))
        links = re.findall(r'<a download="([^"]*)" href="data:text/plain;base64,([^"]*)">', page)
        self.assertEqual([name for name, _ in links], ["out.aag", "out.pg", "out.cert", "out.hoa"])
        for name, data in links:
            with open(os.path.join(self.room, name), "rb") as file:
                self.assertEqual(base64.b64decode(data), file.read())

    def test_it_asks_nothing_of_a_network(self):
        page = self.page("out", self.solved("out", AUTOMATON, "--moore"))
        self.assertTrue("the controller moves first" in page)
        self.assertTrue("default-src 'none'" in page)
        self.assertEqual(
            [
                it
                for it in re.findall(r'(?:href|src|action)="([^"]*)"', page)
                if not it.startswith(("#", "data:text/plain;base64,"))
            ],
            [],
        )
        self.assertEqual(re.findall(r"https?://|@import|url\((?!#)", page), [])

    def test_a_circuit_that_psyn_did_not_print(self):
        spec, copy = self.file("it.hoa", AUTOMATON), self.file("copy.aag", NEVER.replace(b"\n0\n", b"\n1\n"))
        page = self.page("--circuit", copy, spec)
        self.assertTrue("<title>copy: REALIZABLE</title>" in page)
        self.assertTrue("psyn did not print this circuit; but it is proved of <code>verify</code>" in page)
        self.assertTrue("<code>wins</code> for this circuit" in page)
        self.solved("copy", AUTOMATON, "--force")
        self.file("copy.aag", NEVER.replace(b"\n0\n", b"\n1\n"))
        self.assertTrue("psyn did not print this circuit" in self.page("copy", spec))

    def test_a_smaller_environment_is_shown_with_its_words(self):
        path = os.path.join(GALLERY, "handshake.parts")
        self.tool("synth", "--parts", "-o", "handshake", path)
        for words in (("--parts", path), ("handshake", path)):
            page = self.page(*words)
            self.assertRegex(page, '<p class="words">Whatever the controller does, this defeats it: .* always 1')
            self.assertTrue(
                "<code>shrink</code> made this circuit of a larger one; it is proved of <code>shrink</code> that"
                in page
            )
            data = re.search(r'<a download="handshake.aag" href="data:text/plain;base64,([^"]*)">', page)[1]
            self.assertRegex(base64.b64decode(data), rb"\Aaag \d+ \d+ 0 \d+ 0\n")
            self.file("small.aag", base64.b64decode(data))
            self.assertEqual(self.tool("verify", "--env", "handshake.hoa", "small.aag").stdout, b"wins\n")
        controller = self.page("--parts", os.path.join(GALLERY, "pump.parts"))
        self.assertEqual(("<code>shrink</code>" in controller, 'class="words"' in controller), (False, False))

    def test_names_are_escaped(self):
        page = self.page("odd", self.solved("odd", ODD))
        self.assertEqual(len(re.findall(r"(?i)<script", page)), 2)
        self.assertEqual(re.findall(r"(?i)<img|<b>|onerror=[\"']", page), [])

    def test_bytes_that_are_no_text_are_marked(self):
        path = self.solved("out", AUTOMATON.replace(b'"off"', b'"\xe9t\xe9"').replace(b'"r"', b'"\xff"'))
        page = self.page("out", path)
        self.assertTrue("The environment says \ufffd;" in page and '"0":"\ufffdt\ufffd"' in page)

    def test_what_is_not_printed_by_psyn_is_refused(self):
        path = self.solved("out", AUTOMATON)
        for ending, old, new, said in (
            (".aag", b"aag", b"agg", b"this is no circuit: its first line is not `aag M I L O A`"),
            (".cert", b"psyncert 1", b"psyncert 3", b"this is no certificate"),
            (".cert", b"odd 1", b"odd 3", b"out.cert: synth answers to it: fault 54 "),
            (".pg", b'"0/0"', b'"0/9"', b""),
        ):
            name = f"out{ending}"
            with open(os.path.join(self.room, name), "rb") as file:
                right = file.read()
            self.file(name, right.replace(old, new) if old in right else right + b"c more\n")
            done = self.tool("page", "out", path)
            self.assertEqual((done.returncode, done.stdout, done.stderr.count(b"\n")), (2, b"", 1), done.stderr)
            self.assertIn(said, done.stderr)
            self.file(name, right)
        self.file("never", NEVER)
        self.file("out.aag", NEVER)
        for words, name in ((("out", path), b"out.aag"), (("--circuit", "never", path), b"never")):
            done = self.tool("page", *words)
            self.assertEqual(
                (done.returncode, done.stderr),
                (2, b"psyn: " + name + b" loses, so there is no page of it: `verify` tells a counterexample\n"),
            )
        self.assertIn(
            b"don't have the names of its propositions",
            self.tool("page", "--circuit", self.file("other", NEVER.replace(b"o0 g", b"o0 x")), path).stderr,
        )
        self.assertEqual(self.tool("page", "none", path).stderr, b"psyn: none.aag: No such file or directory\n")
        self.assertEqual(
            self.tool("page", "out", "out.pg").stderr,
            b"psyn: out.pg is a game; page wants PREFIX and a specification\n",
        )
        self.assertEqual(self.tool("page", "--parts").stderr.count(b"\n"), 1)

    def test_a_page_that_is_too_large_is_refused(self):
        path = self.solved("out", AUTOMATON)
        given = reading.given(Request(COMMANDS["page"], {}, [os.path.join(self.room, "out"), path], COMMANDS))
        with unittest.mock.patch("psyntool.pages.writing.MOST_BYTES", 10_000), self.assertRaisesRegex(
            Refused, "more than 10,000 bytes"
        ):
            writing.page("out", given.board, [])

    def test_a_picture_wants_graphviz_and_no_more_than_it_can_show(self):
        graph = {number: {"lines": ("", ""), "to": [(number + 1) % 41]} for number in range(41)}
        self.assertEqual(drawing.drawn(graph, None), drawing.Picture("", graph))
        graph = {number: {"lines": ("", ""), "to": range(11)} for number in range(10)}
        self.assertEqual(drawing.drawn(graph, None), drawing.Picture("", graph))
        few = {0: {"lines": ("", ""), "to": [0]}}
        self.assertEqual(drawing.drawn(few, lambda: "no dot"), drawing.Picture("", few))
        loops = [
            "HOA: v1 Start: 0 AP: 0 Acceptance: 0 t --BODY-- " + "".join(
                f"State: {state} [t] {(state + 1) % count} " for state in range(count)
            ) + "--END--"
            for count in (2, 13, 3)
        ]
        parts = [part.part_of("it", "", {}, text) for text in loops]
        if not shutil.which("dot"):
            self.assertEqual(drawing.of_parts(parts), ["", "", ""])
            self.skipTest("Graphviz is not installed")
        self.assertEqual([svg.count('class="node"') for svg in drawing.of_parts(parts)], [3, 0, 4])
        shown = drawing.drawn(few, lambda: "digraph { s0 -> s0; }")
        self.assertIn("<title>s0</title>", shown.svg)
        self.assertEqual((shown.graph, re.findall(r' id="|xmlns', shown.svg)), (None, []))

    def test_it_is_short_and_its_clauses_are_there(self):
        lines = 0
        for name in ASSETS:
            with open(os.path.join(PAGES, name), encoding="utf-8") as file:
                lines += len(file.readlines())
        self.assertLessEqual(lines, MOST_LINES)
        for name, clause in clauses.CLAUSES.items():
            with open(os.path.join(TOP, clause.file), encoding="utf-8") as file:
                record = re.search(rf"(?ms)^pub record {clause.record} .*?(?=^\S|\Z)", file.read())
            self.assertTrue(re.search(rf"(?m)^ +pub {name} : ", record[0]), name)
        for sentences in clauses.SENTENCES:
            self.assertEqual(len(sentences), 3)
            self.assertLessEqual(set(re.findall(r"{(\w+)}", " ".join(sentences))), set(clauses.CLAUSES))


class InChromium(OnFiles):
    """Pages in headless Chromium: they show what `play` prints."""

    def setUp(self):
        super().setUp()
        self.chromium = found(CHROMIUM)
        if not self.chromium:
            counts.left_out("pages", "pages in Chromium")
            self.skipTest("Chromium is not installed")

    def document(self, page, address):
        """The HTML document after the browser has loaded the page at this address."""
        command = [
            self.chromium, "--headless", "--no-sandbox", "--disable-gpu", "--disable-dev-shm-usage",
            f"--user-data-dir={self.room}/profile", "--dump-dom",
        ]
        done = subprocess.run([*command, f"file://{page}{address}"], capture_output=True, check=False, timeout=120)
        self.assertEqual(done.returncode, 0, done.stderr)
        RUNS.append(page)
        counts.ran("pages", "pages in Chromium", len(RUNS))
        return done.stdout.decode()

    def page(self, name, path):
        """The path of the page that `page` makes for a specification; the letters that `play --auto` chooses; and what
        `play --auto` prints, without the last line."""
        self.assertIn(
            self.tool("synth", "-o", name, *(["--parts"] if path.endswith(".parts") else []), path).returncode, (10, 20)
        )
        specification = path if path.endswith(".hoa") else f"{name}.hoa"
        said = self.tool("play", "--auto", name, specification).stdout.decode()
        with open(os.path.join(self.room, f"{name}.stim"), encoding="utf-8") as file:
            moves = [line for line in file.read().split("\n")[:-1] if line != "-" and not line.startswith("#")]
        page = self.file(f"{name}.html", self.tool("page", name, specification).stdout)
        return page, moves, said[: said.rindex("\n", 0, -1)]

    def trace(self, document):
        return html.unescape(re.search(r'<pre id="test">(.*?)</pre>', document, re.S)[1])

    def test_plays_of_the_gallery(self):
        # marked are the present states of the parts that are not broken, and the present state and vertex
        for name, places in (("lift", 7), ("handshake", 5)):
            page, moves, said = self.page(name, os.path.join(GALLERY, f"{name}.parts"))
            document = self.document(page, f"#test={','.join(moves)}")
            self.assertEqual(self.trace(document), said)
            width = int(re.search(r'<svg id="wave"[^>]* width="([0-9]+)"', document)[1])
            loop = re.search(r'<text x="([0-9]+)"[^>]*>the loop begins</text>', document)
            self.assertGreaterEqual(width, int(loop[1]) + 8 * len("the loop begins"))
            self.assertEqual(
                re.findall(r"<span>(now|broken)", document),
                ["now"] * 5 if name == "lift" else ["now", "broken", "now", "now"],
            )
            if shutil.which("dot"):
                self.assertEqual(len(re.findall(r'<g class="(?:node )?here">', document)), places)

    def test_names_that_look_like_parts_of_a_page(self):
        page, moves, said = self.page("odd", self.file("odd.hoa", ODD))
        document = self.document(page, f"#test={','.join(moves)}")
        self.assertEqual(self.trace(document), said)
        self.assertTrue("<title>odd: REALIZABLE</title>" in document)
        self.assertEqual(len(re.findall("<script|<img|<b>", document)), 2)

    def pressed(self, page, address, script):
        """The HTML document after a script has pressed buttons, as a user would."""
        with open(page, encoding="utf-8") as file:
            text = re.sub(r'<meta http-equiv="Content-Security-Policy"[^>]*>', "", file.read())
        pressing = self.file("pressed.html", text.replace("</html>", f"<script>{script}</script></html>").encode())
        return self.document(pressing, address)

    def address(self, document):
        return re.search(r'<a id="address" href="#moves=([^"]*)">', document)[1]

    def rows(self, document):
        body = re.search(r'<table id="trace">.*?<tbody>(.*?)</tbody>', document, re.S)[1]
        return [re.findall(r"<t[hd][^>]*>(.*?)</t[hd]>", row) for row in re.findall(r"<tr.*?</tr>", body)]

    def test_what_is_pressed(self):
        page, moves, said = self.page("handshake", os.path.join(GALLERY, "handshake.parts"))
        # buttons: play to the end, step back to the first step, and then step by step to the end
        steps = f'{press("whole")}{press("back") * (len(moves) - 1)}{press("auto") * (len(moves) - 1)}'
        document = self.pressed(page, "", steps)
        self.assertEqual(self.address(document), ",".join(moves))
        table = [re.split("  +", line) for line in said.split("\n") if re.match(r"\d|the loop begins", line)]
        self.assertEqual(self.rows(document), table)
        self.assertIn("step 7 breaks the guarantee register", re.search(r'<p class="end">(.*?)</p>', document, re.S)[1])
        # the page's address restores a play; the page has the keys of `tools/psyn play`; a letter can also be chosen by
        # its propositions
        keys = "".join(
            f'document.getElementById("play").dispatchEvent(new KeyboardEvent("keydown", {{ key: "{key}" }}));'
            for key in "aab2"
        )
        document = self.pressed(page, "#moves=0,0", keys)
        self.assertEqual(self.address(document), "0,0,0,1")
        letter = 'document.querySelector("#boxes input").click(); document.querySelector("#letter button").click();'
        self.assertEqual(self.address(self.pressed(page, "", letter)), "1")
        # the played stimulus can be saved, the focus stays on the place of a removed button, and each button has a name
        document = self.pressed(page, "#moves=0", FOCUS)
        self.assertTrue(re.search(r"<title>1[.] !take .*/1[.] !take .*</title>", document))
        self.assertTrue('download="handshake.stim" href="data:text/plain,"' in document)
        document = self.pressed(page, "#moves=0,0", "")
        self.assertTrue('download="handshake.stim" href="data:text/plain,0%0A0%0A"' in document)
        self.assertEqual(re.findall(r"<button[^>]*></button>", document), [])
        self.assertTrue('<p class="end">The address has no moves of this board.' in self.document(page, "#moves=0,2"))


def press(name):
    return f'document.getElementById("{name}").click();'


if __name__ == "__main__":
    unittest.main()
