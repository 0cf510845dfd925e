"""Tests what `.ci/run` does besides `tools/test-all`: it installs packages if it can, keeps the exit status, and lists
last what was skipped. Tests also what `tools/gate-times` counts below a stand-in for `rt`, and says of its failures."""
import importlib.machinery
import importlib.util
import os
import shutil
import subprocess
import sys

from tests.tool import OnFiles
from upkeep.sweeps import TOOLS, TOP

# The programs that the script runs; no other program is on its PATH.
NEEDED = ("bash", "cat", "dirname", "env", "grep", "mktemp", "rm", "sh", "tee", "timeout")
PACKAGES = ["chromium", "nodejs", "graphviz", "yosys", "berkeley-abc", "lbt", "spin", "iverilog"]
TESTS = (
    "#!/bin/sh\necho 'skipped: a test: node is not installed'\necho '63 passed, 0 failed'\necho 'tools: 80 passed, "
    "1 failed, 1 skipped'\nexit 3\n"
)
# A stand-in for apt-get: it installs every package except yosys; some programs have other names than their packages.
REGISTRY = """\
#!/bin/sh
echo "$*" >> "$ROOM/asked"
for name; do :; done
case $name in
  update) exit $UPDATE ;;
  yosys) exit 100 ;;
  nodejs) name=node ;;
  graphviz) name=dot ;;
esac
: > "$ROOM/programs/$name" && "$ROOM/programs/chmod" 755 "$ROOM/programs/$name"
"""


# A stand-in for `rt`: it leaves the prover to run on by itself for a while, as a child whose parent has ended.
CHECKS = """\
#!/bin/bash
echo "asked: $*"
[ $STATUS = 0 ] || { echo '3 passed, 0 failed'; exit $STATUS; }
mkdir -p rt-edit-1
(bash -c 'exec -a /kit/rattle "$0" -c "$1" --crate-name ps_left' "$BUSY" "$CODE" &)
(cd rt-edit-1 && bash -c 'exec -a rattle "$0" -c "$1" --crate-name ps_below' "$BUSY" "$CODE")
bash -c 'exec -a rattle "$0" -c "$1" --test --crate-name ps_tests' "$BUSY" "$CODE"
echo '3 passed, 0 failed'
"""
CODE = "import time\nend = time.process_time() + 0.8\nwhile time.process_time() < end: pass"


class Gate(OnFiles):
    def ran(self, status):
        os.chmod(self.file("rt", CHECKS.encode()), 0o755)
        environment = {
            **os.environ, "PATH": f"{self.room}:{os.environ['PATH']}", "BUSY": sys.executable, "CODE": CODE,
            "STATUS": str(status),
        }
        command = [sys.executable, "-W", "error", "-X", "dev", os.path.join(TOP, "tools", "gate-times")]
        done = subprocess.run(command, env=environment, cwd=self.room, capture_output=True, text=True, check=False)
        self.assertEqual(done.stderr, "")
        return done.stdout.splitlines(), done.returncode

    def test_only_what_rt_starts_is_counted(self):
        other = subprocess.Popen([
            "bash", "-c", 'exec -a rattle "$0" -c "$1" --crate-name ps_other', sys.executable, CODE.replace("0.8", "60")
        ])
        self.addCleanup(other.wait)
        self.addCleanup(other.kill)
        lines, status = self.ran(0)
        self.assertEqual((lines[:2], lines[-1], status), (["asked: ci", "3 passed, 0 failed"], "3 passed, 0 failed", 0))
        self.assertEqual(lines[4].split(), ["crate", "proof", "tests", "edits", "sum"])
        self.assertEqual(sorted(line.split()[0] for line in lines[5:-2]), ["all", "ps_below", "ps_left", "ps_tests"])
        self.assertRegex(lines[-2], r"\Agate: \d+ processor minutes \(proofs \d+, tests \d+, edits \d+\)\Z")

    def test_a_gate_that_fails(self):
        self.assertEqual(self.ran(1)[1], 1)

    def fails(self, *said):
        """The lines `gate: ..` behind the table where `rt` prints these lines and fails, without the one of minutes."""
        self.file("said", "\n".join([*said, "1 passed, 2 failed"]).encode())
        os.chmod(self.file("rt", f"#!/bin/sh\ncat {self.room}/said\nexit 1\n".encode()), 0o755)
        environment = {**os.environ, "PATH": f"{self.room}:{os.environ['PATH']}"}
        command = [sys.executable, os.path.join(TOOLS, "gate-times")]
        lines = subprocess.run(
            command, env=environment, capture_output=True, text=True, check=False
        ).stdout.splitlines()
        self.assertEqual(lines[-1], "1 passed, 2 failed")
        return [line for line in lines[:-2] if line.startswith("gate: ")]

    def test_a_failure_has_a_reason(self):
        silent = (
            "== ps_a",
            "note: src/a.rt:1:1: long",
            "rt: ps_a NOT PROVED",
            "rt: ps_b NOT PROVED: its library ps_a failed",
            "rt: FAILED: ps_a ps_b",
        )
        self.assertEqual(self.fails(*silent), ["gate: ps_a failed without a reason in its output: run it again"])
        told = (
            "== ps_a", "src/a.rt:1:1: error[name]: no `b`", "rt: ps_a NOT PROVED", "== ps_b: its tests",
            "fn f: not proved", "rt: ps_b: its tests are NOT PROVED",
        )
        self.assertEqual(self.fails(*told), [])
        self.assertRegex(
            "".join(
                self.fails(*told[:1], "error: cannot write out/a: No space left on device (os error 28)", *told[2:])
            ),
            r"\Agate: a disk was full \(\d+ MB",
        )
        killed = (
            "rt: must-fail ps_c/one.edit: NOT TRIED: its check was killed, most likely for memory, "
            "so nothing is known of it"
        )
        again = (
            "== ps_a", "rt: the check was killed, most likely for memory: once more", "rt: ps_a NOT PROVED", killed
        )
        self.assertEqual(
            self.fails(*again),
            [f"gate: the prover of {it} was killed, most likely for memory" for it in ("ps_a", "ps_c")],
        )

    def test_a_disk_that_was_full_is_told(self):
        loader = importlib.machinery.SourceFileLoader("gate_times", os.path.join(TOOLS, "gate-times"))
        tool = importlib.util.module_from_spec(importlib.util.spec_from_loader(loader.name, loader))
        loader.exec_module(tool)
        said = [
            "gate: a disk was full (3 MB were left at one time): make room, and run it again",
            "gate: ps_a failed without a reason in its output: run it again",
        ]
        self.assertEqual(tool.causes(["== ps_a", "rt: ps_a NOT PROVED"], 3), said)
        self.assertEqual(tool.causes(["== ps_a", "rt: ps_a NOT PROVED"], tool.FULL), said[1:])

    def test_without_rt(self):
        command = [sys.executable, os.path.join(TOP, "tools", "gate-times")]
        done = subprocess.run(command, env={"PATH": self.room}, capture_output=True, text=True, check=False)
        self.assertEqual(
            (done.stdout, done.stderr, done.returncode),
            ("", "gate-times: rt can't be run: No such file or directory\n", 1),
        )


class Script(OnFiles):
    def setUp(self):
        super().setUp()
        self.programs = os.path.join(self.room, "programs")
        for folder in (".ci", "tools", "programs"):
            os.mkdir(os.path.join(self.room, folder))
        shutil.copy(os.path.join(TOP, ".ci", "run"), os.path.join(self.room, ".ci"))
        for name in (*NEEDED, "chmod"):
            os.symlink(shutil.which(name), os.path.join(self.programs, name))
        self.program(os.path.join("tools", "test-all"), TESTS)
        self.program(os.path.join("programs", "apt-get"), REGISTRY)

    def program(self, name, text):
        os.chmod(self.file(name, text.encode()), 0o755)

    def ran(self, user, update=0):
        """The lines that the script prints after those of the tests, and what apt-get was asked to do."""
        self.program(os.path.join("programs", "id"), f"#!/bin/sh\necho {user}\n")
        environment = {"PATH": self.programs, "ROOM": self.room, "UPDATE": str(update)}
        done = subprocess.run(
            [os.path.join(self.room, ".ci", "run")], env=environment, capture_output=True, text=True, check=False
        )
        self.assertEqual((done.returncode, done.stderr), (3, ""))
        lines = done.stdout.splitlines()
        self.assertEqual(lines[:3], [line.split("'")[1] for line in TESTS.splitlines()[1:4]])
        try:
            with open(os.path.join(self.room, "asked"), encoding="utf-8") as file:
                return lines[3:], [line.split()[-1] for line in file]
        except FileNotFoundError:
            return lines[3:], []

    def test_as_root_it_installs_what_is_missing(self):
        self.program(os.path.join("programs", "iverilog"), "#!/bin/sh\n")
        skipped = "skipped: a test: node is not installed"
        self.assertEqual(self.ran(0), (["not installed: yosys", skipped], ["update", *PACKAGES[:-1]]))

    def test_it_goes_on_without_a_registry_and_as_another_user(self):
        lines = [f"not installed: {' '.join(PACKAGES)}", "skipped: a test: node is not installed"]
        self.assertEqual(self.ran(0, update=100), (lines, ["update"]))
        os.remove(os.path.join(self.room, "asked"))
        self.assertEqual(self.ran(1000), (lines, []))

    def test_where_nothing_was_skipped_it_says_so(self):
        self.program(os.path.join("tools", "test-all"), TESTS.replace("skipped: a test", "a test"))
        for name in ("chromium", "node", "dot", "yosys", "berkeley-abc", "lbt", "spin", "iverilog"):
            self.program(os.path.join("programs", name), "#!/bin/sh\n")
        done = subprocess.run(
            [os.path.join(self.room, ".ci", "run")], env={"PATH": self.programs}, capture_output=True, text=True,
            check=False,
        )
        self.assertEqual((done.stdout.splitlines()[3:], done.returncode), (["no test was skipped"], 3))
