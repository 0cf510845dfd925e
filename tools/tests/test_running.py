"""Tests of how a run ends: exit statuses with --check, lines of JSON, several files in one run, limits of time and
memory, and wrong solutions that are kept."""
import json
import os
import shlex
import subprocess
import sys
import unittest

from psyntool import families, progress, reporting
from psyntool.program import path as program
from tests.tool import AUTOMATON, GAME, TOOL, OnFiles

ERRING = os.path.join(os.path.dirname(os.path.abspath(__file__)), "erring.py")
GRANT = b"aag 1 1 0 1 0\n2\n2\ni0 r\no0 g\n"
NEVER = b"aag 1 1 0 1 0\n2\n0\ni0 r\no0 g\n"
SECONDS = "no answer within 1 s (--time)"
# A program, and a solver, that never ends.
HANGING = b"#!/bin/sh\nexec sleep 60\n"


class Running(OnFiles):
    @classmethod
    def setUpClass(cls):
        program()

    def setUp(self):
        super().setUp()
        for name, text in (
            ("spec", AUTOMATON), ("grant", GRANT), ("never", NEVER), ("game", GAME), ("lasso", b"1\n-\n0\n"),
            ("hanging", HANGING),
        ):
            self.file(name, text)
        self.file("right", b"0 1 1;\n1 1 1;\n")
        self.file("wrong", b"0 0 0;\n1 0 1;\n")
        self.file("other", b"0 1 0;\n")
        os.chmod(os.path.join(self.room, "hanging"), 0o755)

    def said(self, *words, **more):
        """The lines on standard output and standard error, and the exit status."""
        done = self.tool(*words, **more)
        return done.stdout.decode().splitlines(), done.stderr.decode().splitlines(), done.returncode


class Statuses(Running):
    def test_a_verdict_has_its_own_status(self):
        for words, status in (
            (("verify", "spec", "grant"), 0),
            (("verify", "spec", "never"), 3),
            (("verify", "--quiet", "spec", "never"), 3),
            (("verify", "spec", "game"), 1),
            (("verify", "--env", "spec", "grant"), 1),
            (("lasso", "spec", "grant", "lasso"), 0),
            (("lasso", "--quiet", "spec", "never", "lasso"), 3),
            (("lasso", "--trace", "spec", "never", "lasso"), 3),
            (("judge", "game", "right"), 0),
            (("judge", "game", "wrong"), 3),
            (("judge", "--picture", "x.dot", "--quiet", "game", "wrong"), 3),
            (("judge", "game", "other"), 1),
            (("judge", "game", "none"), 2),
        ):
            with self.subTest(words):
                self.assertEqual(self.tool(*words, "--check").returncode, status)
        self.assertEqual(
            [self.tool("verify", "spec", "never").returncode, self.tool("judge", "game", "wrong").returncode], [0, 1]
        )

    def test_a_program_that_says_nothing_or_nonsense_is_not_believed(self):
        for said, status in (("", 0), ("wins", 3), ("wins\nwins\n", 0)):
            path = self.file("fake", f"#!/bin/sh\ncat > /dev/null\nprintf '%s' '{said}'\nexit {status}\n".encode())
            os.chmod(path, 0o755)
            told = f"psyn: the program ended with status {status} and no answer of psyn"
            for flags in ((), ("--check",), ("--quiet",)):
                fake = {"PSYN": path}
                self.assertEqual(self.said("verify", *flags, "spec", "grant", environment=fake), ([], [told], 1))
                self.assertEqual(self.said("synth", *flags[1:], "spec", environment=fake), ([], [told], 1))
            lines, _, status = self.said("verify", "--json", "spec", "grant", environment=fake)
            answer = json.loads(lines[0])
            said = [answer[name] for name in ("verdict", "status", "error")]
            self.assertEqual(said, [None, 1, told.removeprefix("psyn: ")])

    def test_synth_has_the_statuses_of_make(self):
        self.file("unreal", AUTOMATON.replace(b"controllable-AP: 1", b"controllable-AP:"))
        for words, status in (
            (("spec",), 0), (("-o", "out", "spec"), 0), (("unreal",), 1), (("game",), 1), (("none",), 2)
        ):
            with self.subTest(words):
                self.assertEqual(self.tool("synth", "--check", "--quiet", *words).returncode, status)

    def test_other_commands_have_no_such_flag(self):
        self.assertEqual(
            self.said("solve", "--check", "game")[1:],
            (["psyn: solve has no flag --check: it is for judge, lasso, verify, shrink, agree, synth"], 2),
        )


class Json(Running):
    def told(self, *words, **more):
        """The line of JSON, with the fields that are not null, and the exit status."""
        lines, _, status = self.said("--json", *words, **more)
        self.assertEqual(len(lines), 1, lines)
        told = json.loads(lines[0])
        self.assertEqual(list(told), list(reporting.FIELDS))
        self.assertEqual((told["status"], type(told.pop("seconds"))), (status, float))
        return {name: value for name, value in told.items() if value is not None}

    def test_each_answer_is_a_line(self):
        loses = self.told("verify", "--check", "spec", "never")
        answer = loses.pop("answer")
        self.assertEqual(
            loses,
            {
                "command": "verify", "files": ["spec", "never"], "status": 3, "verdict": "loses", "stem": 1, "lap": 1,
                "ended": "answer",
            },
        )
        self.assertEqual(answer, "loses\n1\n-\n0\n")
        accepted = self.told("lasso", "--trace", "spec", "grant", "lasso")
        self.assertEqual([accepted[name] for name in ("verdict", "stem", "lap")], ["accepted", 1, 1])
        self.assertEqual(accepted["answer"].splitlines()[:2], ["accepted stem 1 lap 1", "step  state  letter  sets"])
        made = self.told("synth", "spec")
        self.assertEqual((made["verdict"], made["answer"]), ("REALIZABLE", f"REALIZABLE\n{GRANT.decode()}"))
        self.assertEqual(
            [self.told("judge", "game", name).get("verdict") for name in ("right", "wrong", "other")],
            ["right", "wrong", None],
        )
        solved = self.told("solve", "game")
        self.assertEqual((solved["answer"][:10], "verdict" in solved), ("psyncert 1", False))

    def test_a_fault_and_a_refusal_are_told(self):
        fault = self.told("judge", "game", "other", "--quiet")
        self.assertEqual(
            [fault[name] for name in ("fault", "name", "offset", "answer")],
            [54, "OtherGame", 7, "fault 54 OtherGame at 7\n"],
        )
        refused = self.told("synth", "none")
        self.assertEqual(
            refused,
            {
                "command": "synth", "files": ["none"], "status": 2, "error": "none: No such file or directory",
                "answer": "", "ended": "fault",
            },
        )

    def test_commands_of_the_tool_have_it_too(self):
        self.assertEqual(self.told("convert", "grant", "--quiet")["answer"].splitlines()[0], "aig 1 1 0 1 0")
        self.assertTrue(self.told("games", "path", "6")["answer"].startswith("parity 5;\n"))
        play = self.told("play", "out", "spec")
        self.assertEqual(play["error"], "play --json wants --auto, since nobody would see what can be chosen")


class Each(Running):
    def test_a_line_for_each_file_or_so_many_as_the_command_reads(self):
        self.assertEqual(
            self.said("each", "synth", "spec", "game", "--moore", "--quiet")[0],
            ["spec: REALIZABLE", "game: fault 1 NotHoa at 0"],
        )
        done = self.said("each", "--check", "--quiet", "verify", "spec", "grant", "spec", "never", "none", "grant")
        self.assertEqual(
            done, (["spec grant: wins", "spec never: loses", "none grant: none: No such file or directory"], [], 3)
        )
        self.assertEqual(
            self.said("each", "check", "game", "-", given=self.tool("solve", "game").stdout), (["game -: valid"], [], 0)
        )
        self.assertEqual(
            self.said("each", "core", "game", "--outs", "g")[0], ["game: game is a game; core reads a list of parts"]
        )
        lines = [json.loads(line) for line in self.said("each", "--json", "--quiet", "synth", "spec", "game")[0]]
        self.assertEqual(
            [(line["files"], line["status"], line["fault"]) for line in lines], [(["spec"], 10, None), (["game"], 1, 1)]
        )

    def test_what_can_not_be_run_so(self):
        for words, why in (
            (("each", "synth"), "each reads COMMAND FILE.., and got 1 word"),
            (("each", "chek", "x"), "there is no command chek (did you mean check?); `tools/psyn help` lists them"),
            (("each", "verify", "a", "b", "c"), "each verify reads AUTOMATON CIRCUIT at a time, and got 3 files"),
            (("each", "show", "a"), "each is not for show, which reads FILE [FILE] [FILE]"),
            (("each", "version", "a"), "each is not for version, which reads no file"),
            (("each", "each", "a"), "each is not for each, which reads COMMAND FILE.."),
            (("each", "synth", "-o", "out", "a"), "-o PREFIX: there is no folder out"),
            (("each", "synth", "--names", "a"), "synth has no flag --names: it is for sim"),
            (("each", "check", "-", "-"), "standard input can be one of the files only"),
        ):
            self.assertEqual(self.said(*words), ([], [f"psyn: {why}"], 2))


class Limits(Running):
    def test_a_program_or_a_solver_that_hangs_is_ended(self):
        hanging = {"PSYN": os.path.join(self.room, "hanging")}
        for flags in ((), ("--quiet",)):
            self.assertEqual(
                self.said("solve", "--time", "1", *flags, "game", environment=hanging), ([], [f"psyn: {SECONDS}"], 124)
            )
        for words in (("solve", "game"), ("synth", "spec")):
            self.assertEqual(self.said("--time=1", *words, "--by", "./hanging {game}"), ([], [f"psyn: {SECONDS}"], 124))
        self.assertEqual(
            self.said("each", "--time", "1", "solve", "game", "game", environment=hanging)[0], [f"game: {SECONDS}"] * 2
        )

    def test_who_is_in_time_is_not_ended(self):
        self.assertEqual(self.said("--time", "60", "--memory", "4000", "verify", "spec", "grant"), (["wins"], [], 0))

    def test_memory_has_a_limit(self):
        path = self.file("large", families.game_of(families.clique(500)).text().encode())
        lines, told, status = self.said("solve", "--memory", "8", path)
        self.assertEqual((lines, status), (["fault 24 OutOfMemory"], 125))
        self.assertTrue(
            any(
                it.startswith("mend: give the process more memory (`ulimit -v`), or give it a smaller input.")
                for it in told
            ),
            told,
        )
        self.assertEqual(self.said("solve", "--memory", "8", "--quiet", path)[::2], (["fault 24 OutOfMemory"], 125))
        lines, told, status = self.said(
            "solve", "--memory", "30", "--by", f"{shlex.quote(sys.executable)} -c 'bytes(1 << 28)'", "game"
        )
        self.assertEqual(
            (lines, told[-2:], status),
            (
                [],
                [
                    "MemoryError",
                    f"psyn: {os.path.basename(sys.executable)} ended with status 1, so there is no solution to judge",
                ],
                1,
            ),
        )

    def test_wrong_numbers(self):
        for flag, unit in (("--time", "SECONDS"), ("--cpu", "SECONDS"), ("--memory", "MIB")):
            self.assertEqual(self.said("solve", flag, "0", "game")[1], [f"psyn: {flag} {unit}: at least 1 is wanted"])
            self.assertEqual(self.said("solve", flag, "1.5", "game")[1], [f"psyn: {flag} {unit}: '1.5' is no number"])


# A program that thinks for a while before it answers.
THINKING = b"#!/bin/sh\ncat > /dev/null\nsleep 2.5\necho wins\n"


class Progress(Running):
    def setUp(self):
        super().setUp()
        self.file("thinking", THINKING)
        os.chmod(os.path.join(self.room, "thinking"), 0o755)
        self.thinking = {"PSYN": "./thinking"}

    def test_a_terminal_shows_the_stage_and_its_seconds(self):
        terminal, behind = os.openpty()
        words = [sys.executable, TOOL, "verify", "spec", "grant"]
        environment = {**os.environ, **self.thinking}
        done = subprocess.run(words, cwd=self.room, env=environment, stdout=subprocess.PIPE, stderr=behind, check=False)
        os.close(behind)
        told = os.read(terminal, 1000)
        os.close(terminal)
        self.assertEqual((done.stdout, done.returncode), (b"wins\n", 0))
        self.assertEqual(told, b"\rverify: 2 s\r           \r")

    def test_elsewhere_lines_are_asked_for(self):
        self.assertEqual(self.said("verify", "spec", "grant", environment=self.thinking), (["wins"], [], 0))
        told = self.said("verify", "--progress", "--quiet", "spec", "grant", environment=self.thinking)
        self.assertEqual(told, (["wins"], ["verify: 0 s"], 0))
        lines = self.said("solve", "--progress", "--by", "cp right {solution}", "game")[1]
        self.assertEqual(lines, ["cp: 0 s", "judge: 0 s"])

    def test_the_thing_among_many_is_named(self):
        titles = [progress.Stage("synth").title for _ in progress.counted("guarantees", "ab")]
        self.assertEqual(titles, ["guarantees 1 of 2, synth", "guarantees 2 of 2, synth"])
        self.assertEqual(progress.Stage("synth").title, "synth")


class Kept(Running):
    def test_a_wrong_solution_is_kept(self):
        solver = f"{shlex.quote(sys.executable)} -B {shlex.quote(ERRING)} {{game}} {{solution}} "
        for words in (("solve", "game"), ("synth", "spec")):
            lines, told, _ = self.said(*words, "--keep", "kept.sol", "--by", solver + "winner")
            self.assertRegex(lines[0], "^fault (40|50|51) ")
            self.assertEqual(told[0], f"kept.sol has the solution of {os.path.basename(sys.executable)}")
            game = self.file("game of it", self.tool("game", "spec").stdout) if words[0] == "synth" else "game"
            self.assertEqual(self.said("judge", game, "kept.sol")[0], lines)
            os.remove(os.path.join(self.room, "kept.sol"))

    def test_a_right_one_is_not(self):
        improving = os.path.join(os.path.dirname(ERRING), "improving.py")
        done = self.tool(
            "solve",
            "game",
            "--keep",
            "kept.sol",
            "--by",
            f"{shlex.quote(sys.executable)} -B {shlex.quote(improving)} {{game}} {{solution}}",
        )
        self.assertEqual((done.returncode, os.path.exists(os.path.join(self.room, "kept.sol"))), (0, False))

    def test_it_wants_a_solver_and_a_path(self):
        self.assertEqual(self.said("solve", "--keep", "x", "game")[1], ["psyn: solve --keep wants --by COMMAND"])
        self.assertEqual(
            self.said("solve", "--keep", "game", "--by", "./hanging", "game")[1],
            ["psyn: game would be written, and this command reads it: name another file"],
        )
        self.assertEqual(
            self.said("solve", "--keep", "no/x", "--by", "./hanging", "game")[1],
            ["psyn: --keep FILE: there is no folder no"],
        )


if __name__ == "__main__":
    unittest.main()
