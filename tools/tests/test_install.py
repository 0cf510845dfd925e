"""Tests of what tools/install installs, of the man page, and of the completions."""
import importlib
import os
import pty
import re
import shutil
import subprocess
import sys
import tempfile
import time
import unittest

from psyntool.command import EVERYWHERE
from psyntool.program import path as program
from psyntool.table import COMMANDS
from psyntool.usages import USAGES
from upkeep import completions, manual, usages
from upkeep.sweeps import TOP

SLOW = "#!/bin/sh\ncat > /dev/null\nsleep 3.5\necho valid\n"


class Installed(unittest.TestCase):
    @classmethod
    def setUpClass(cls):
        cls.prefix = tempfile.mkdtemp()
        cls.addClassCleanup(shutil.rmtree, cls.prefix)
        done = subprocess.run(
            [sys.executable, os.path.join(TOP, "tools", "install"), cls.prefix], env={**os.environ, "PSYN": program()},
            capture_output=True, check=False
        )
        assert done.returncode == 0, done.stderr

    def psyn(self, *words):
        without = {name: value for name, value in os.environ.items() if name != "PSYN"}
        command = [os.path.join(self.prefix, "bin", "psyn"), *words]
        return subprocess.run(
            command, capture_output=True, check=False, env=without, cwd=os.path.join(TOP, "examples", "files")
        )

    def test_the_tool_answers_and_explains(self):
        self.assertEqual(self.psyn("check", "loop.pg", "loop.cert").stdout, b"valid\n")
        self.assertEqual(self.psyn("synth", "arbiter.hoa").returncode, 10)
        refused = self.psyn("check", "loop.pg", "stays.cert")
        self.assertEqual((refused.stdout, refused.returncode), (b"fault 52 Rank 0 0 1\n", 1))
        self.assertIn(b"mend: ", refused.stderr)

    def test_a_page_has_its_parts(self):
        done = self.psyn("page", "--parts", os.path.join("..", "gallery", "traffic.parts"))
        self.assertEqual((done.returncode, done.stderr), (0, b""))
        self.assertTrue(
            b"<title>traffic: REALIZABLE</title>" in done.stdout and b"function begun(board)" in done.stdout
        )

    def test_the_manual_is_there(self):
        with open(os.path.join(self.prefix, "share", "man", "man1", "psyn.1"), encoding="utf-8") as file:
            self.assertEqual(file.read(), manual.page())

    def test_maintainers_modules_are_left_out_and_the_tool_names_itself(self):
        behind = os.path.join(self.prefix, "libexec", "psyn")
        self.assertEqual(sorted(os.listdir(os.path.join(behind, "tools"))), ["psyn", "psyntool"])
        for words in (("help",), ("chek",), ("synth",)):
            done = self.psyn(*words)
            self.assertNotIn(b"tools/psyn", done.stdout + done.stderr)
        os.rename(os.path.join(behind, "psyn"), os.path.join(behind, "away"))
        self.addCleanup(os.rename, os.path.join(behind, "away"), os.path.join(behind, "psyn"))
        self.assertEqual(
            self.psyn("solve", "loop.pg").stderr,
            b"psyn: the program is not there: unpack or install psyn once more, or name it by PSYN=FILE\n",
        )

    def completed(self, *words, folder=os.path.join(TOP, "examples", "files")):
        path = os.path.join(self.prefix, "share", "bash-completion", "completions", "psyn")
        script = 'source "$0"; COMP_WORDS=("$@"); COMP_CWORD=$(($# - 1)); _psyn; printf "%s\\n" "${COMPREPLY[@]}"'
        done = subprocess.run(["bash", "-c", script, path, *words], capture_output=True, check=True, cwd=folder)
        return sorted(done.stdout.decode().split("\n")[:-1])

    def test_bash_completes_commands_and_flags(self):
        self.assertEqual(self.completed("psyn", "sy"), ["synth"])
        self.assertEqual(self.completed("psyn", "cl"), ["closed"])
        self.assertEqual(self.completed("psyn", "-o", "out", "synth", "--co"), ["--compact"])
        self.assertEqual(self.completed("psyn", "synth", "x.hoa", "--mo"), ["--moore"])
        self.assertEqual(self.completed("psyn", "check", "--"), sorted(flag.name for flag in EVERYWHERE))
        self.assertEqual(self.completed("psyn", "help", "wa"), ["wave"])
        self.assertEqual(self.completed("psyn", "games", "la"), ["ladder", "ladder2"])
        self.assertEqual(self.completed("psyn", "show", "--reach", ""), [""])
        self.assertIn("true", self.completed("psyn", "solve", "--by", "tru"))
        self.assertEqual(self.completed("psyn", "judge", "--picture", "lo"), ["loop.cert", "loop.pg"])
        self.assertEqual(self.completed("psyn", "solve", "--time", "9", "--keep", "lo"), ["loop.cert", "loop.pg"])
        self.assertEqual(self.completed("psyn", "solve", "--time", ""), [""])

    def test_bash_completes_files_by_their_kinds(self):
        self.assertEqual(self.completed("psyn", "check", "lo"), ["loop.pg"])
        self.assertEqual(self.completed("psyn", "check", "loop.pg", ""), ["loop.cert", "stays.cert"])
        self.assertEqual(self.completed("psyn", "synth", "--moore", "a"), ["arbiter.hoa"])
        self.assertEqual(self.completed("psyn", "sim", "toggle"), ["toggle.aag"])
        self.assertEqual(self.completed("psyn", "synth", "toggle"), ["toggle.aag", "toggle.v"])
        self.assertEqual(self.completed("psyn", "each", "cl"), ["closed"])
        self.assertEqual(self.completed("psyn", "each", "check", "loop.pg", "loop.cert", "lo"), ["loop.pg"])
        self.assertEqual(self.completed("psyn", "each", "synth", "a.hoa", "--mo"), ["--moore"])

    def test_bash_completes_parts_behind_their_flags(self):
        self.assertEqual(self.completed("psyn", "compose", "--assume", "a"), ["arbiter.hoa"])
        self.assertEqual(
            self.completed("psyn", "compose", "--assume", "arbiter.hoa", "--guarantee", "grant.hoa", "d"), ["delay.hoa"]
        )
        self.assertEqual(self.completed("psyn", "compose", "--outs", "g"), [""])
        with tempfile.TemporaryDirectory() as room:
            for name in ("it.hoa", "it.parts", "it.pg"):
                with open(os.path.join(room, name), "wb"):
                    pass
            self.assertEqual(self.completed("psyn", "synth", "--parts", "i", folder=room), ["it.hoa", "it.parts"])
            self.assertEqual(self.completed("psyn", "core", "i", folder=room), ["it.parts"])
        self.assertEqual(self.completed("psyn", "compose", "--assume", "arbiter.hoa", "--stri"), ["--strict"])

    def test_bash_completes_specifications(self):
        with tempfile.TemporaryDirectory() as room:
            for name in ("it.tlsf", "it.hoa", "it.aag", "it.pg"):
                with open(os.path.join(room, name), "wb"):
                    pass
            self.assertEqual(self.completed("psyn", "lasso", "--tlsf", "i", folder=room), ["it.hoa", "it.tlsf"])
            self.assertEqual(self.completed("psyn", "lasso", "--tl"), ["--tlsf"])

    def test_bash_completes_names_with_blanks(self):
        with tempfile.TemporaryDirectory() as room:
            for name in ("my spec.hoa", "my spec.cert", "my other.hoa"):
                with open(os.path.join(room, name), "wb"):
                    pass
            os.mkdir(os.path.join(room, "my folder"))
            self.assertEqual(
                self.completed("psyn", "synth", "my", folder=room), ["my folder", "my other.hoa", "my spec.hoa"]
            )
            self.assertEqual(self.completed("psyn", "synth", "my\\ s", folder=room), ["my spec.hoa"])
            self.assertEqual(self.completed("psyn", "synth", '"my s', folder=room), ["my spec.hoa"])
            self.assertEqual(self.completed("psyn", "-o", "my f", folder=room), ["my folder"])

    @unittest.skipUnless(shutil.which("zsh"), "zsh is not installed")
    def test_zsh_reads_its_completion(self):
        subprocess.run(["zsh", "-n", os.path.join(self.prefix, "share", "zsh", "site-functions", "_psyn")], check=True)


class Tables(unittest.TestCase):
    def test_the_stored_commands_are_those_of_the_program(self):
        with open(usages.STORED, encoding="utf-8") as file:
            self.assertEqual(file.read(), usages.written(), "tools/command-files")
        self.assertEqual(
            [name for name, it in COMMANDS.items() if it.is_of_the_program], [name for name in USAGES if name != "help"]
        )

    def test_a_table_that_cannot_be_read_is_one_line(self):
        row = (
            'Usage { name: "x", flags: &[%s], texts: &[TextKind::Game], added: &[(A_FLAG, TextKind::Circuit)], '
            'replaced: &[(A_FLAG, TextKind::Stimulus)], line: Line::X }'
        )
        flag = 'pub const A_FLAG: &str = "a";'
        self.assertIn(
            '"x": {"flags": ["a"], "texts": ["game"], "added": {"a": "circuit"}, "replaced": {"a": "stimulus"}}\n',
            usages.written(flag + row % "A_FLAG"),
        )
        for code in (flag, row % "", flag + row % "B_FLAG", flag + row % "" + 'Usage { name: "y", line: Line::Y }'):
            with self.assertRaisesRegex(usages.Unreadable, "^crates/ps_program/src/commands.rt: "):
                usages.written(code)

    def test_what_follows_from_the_tables_is_stored(self):
        self.assertEqual(
            subprocess.run([os.path.join(TOP, "tools", "command-files"), "--check"], check=False).returncode, 0
        )

    def test_a_flag_takes_the_same_in_each_command(self):
        flags = [flag for command in COMMANDS.values() for flag in command.all_flags] + list(EVERYWHERE)
        self.assertEqual(
            len({(flag.name, flag.value, flag.many) for flag in flags}), len({flag.name for flag in flags})
        )

    def test_each_command_is_a_file_of_its_own(self):
        folder = os.path.join(TOP, "tools", "psyntool", "commands")
        own = [name for name, command in COMMANDS.items() if not command.module]
        self.assertEqual(sorted(name.removesuffix(".py") for name in os.listdir(folder) if name[0] != "_"), sorted(own))
        for command in COMMANDS.values():
            self.assertTrue(callable(importlib.import_module(command.place).run), command.name)

    def test_the_stored_manual_is_written_from_the_tables(self):
        with open(os.path.join(TOP, "docs", "psyn.1"), encoding="utf-8") as file:
            self.assertEqual(file.read(), manual.page(), "tools/command-files")

    def test_each_command_and_flag_is_in_the_manual_and_completed(self):
        for name, command in COMMANDS.items():
            for text in (completions.bash(), completions.zsh(), manual.page().replace("\\-", "-")):
                self.assertIn(name, text)
                self.assertEqual([flag.name for flag in (*command.all_flags, *EVERYWHERE) if flag.name not in text], [])


class OnATerminal(unittest.TestCase):
    def test_a_run_above_two_seconds_tells_how_long(self):
        files = os.path.join(TOP, "examples", "files")
        with tempfile.TemporaryDirectory() as room:
            slow = os.path.join(room, "slow")
            with open(slow, "w", encoding="utf-8") as file:
                file.write(SLOW)
            os.chmod(slow, 0o755)
            words = [
                sys.executable,
                os.path.join(TOP, "tools", "psyn"),
                "check",
                *(os.path.join(files, name) for name in ("loop.pg", "loop.cert")),
            ]
            ours, theirs = pty.openpty()
            running = subprocess.Popen(words, stdout=subprocess.PIPE, stderr=theirs, env={**os.environ, "PSYN": slow})
            answer = running.communicate()[0]
            os.close(theirs)
            time.sleep(0.1)
            told = os.read(ours, 1000)
            os.close(ours)
        self.assertEqual(answer, b"valid\n")
        self.assertRegex(told, rb"\rcheck: [23] s")


if __name__ == "__main__":
    unittest.main()
