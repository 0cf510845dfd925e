"""A release archive, unpacked into an empty folder, does what the README shows, and psyn can be installed from it."""
import importlib.machinery
import importlib.util
import io
import os
import re
import subprocess
import sys
import tarfile
import tempfile
import unittest
from unittest import mock

from psyntool import releases
from psyntool.program import path as program
from upkeep import documents, packing
from upkeep.sweeps import TOP

RELEASE = releases.Release("0.0.1", "c" * 40, "rattle-kit-0 logic 0")
LOG = (
    "1 passed, 2 failed\nx: 9 passed\n63 passed, 0 failed (in 10 s)\nrows: 3 of 3 a\ntools: 80 passed, "
    "0 failed, 2 skipped\n"
)
FOLDER = "psyn-0.0.1-here"


def archive_of(files):
    return packing.packed(files, FOLDER, 1_700_000_000)


class Archive(unittest.TestCase):
    @classmethod
    def setUpClass(cls):
        cls.files = packing.contents(program(), RELEASE, packing.gate_lines(LOG))

    def setUp(self):
        room = tempfile.TemporaryDirectory()
        self.addCleanup(room.cleanup)
        self.room = room.name
        self.environment = {name: value for name, value in os.environ.items() if name != "PSYN"}

    def unpacked(self):
        with tarfile.open(fileobj=io.BytesIO(archive_of(self.files))) as archive:
            archive.extractall(self.room, filter="data")
        return os.path.join(self.room, FOLDER)

    def ran(self, *words):
        return subprocess.run(
            [sys.executable, *words], capture_output=True, text=True, check=False, env=self.environment, cwd=self.room
        )

    def test_what_is_in_it(self):
        self.assertLessEqual(
            {
                "psyn", "tools/psyn", "tools/psyntool/pages/rules.js", "docs/psyn.1", "docs/PROVED.md",
                "tools/check_certificate.py", "README.md",
            },
            set(self.files),
        )
        self.assertEqual(
            [name for name in self.files if name.startswith(("tools/upkeep", "tools/tests", "crates", "bench"))], []
        )
        self.assertEqual(
            self.files["GATE"][0].decode().splitlines(),
            [f"commit {'c' * 40}", "63 passed, 0 failed (in 10 s)", "tools: 80 passed, 0 failed, 2 skipped"],
        )
        self.assertEqual(archive_of(self.files), archive_of(self.files))

    def test_the_commands_of_the_readme_run_where_it_is_unpacked(self):
        place = self.unpacked()
        fences = [
            fence for fence in documents.fences_of(documents.read("README.md")) if fence.is_run() and not fence.marks
        ]
        self.assertTrue(sum(len(fence.commands()) for fence in fences))
        self.assertEqual(documents.wrong_answers("README.md", fences, place, self.environment), [])
        sums = subprocess.run(
            ["sha256sum", "--check", "--quiet", packing.SUMS], cwd=place, capture_output=True, text=True, check=False
        )
        self.assertEqual((sums.stdout, sums.stderr, sums.returncode), ("", "", 0))

    def test_it_is_installed_from_where_it_is_unpacked(self):
        place = self.unpacked()
        self.assertEqual(self.ran(os.path.join(place, "tools", "install"), "prefix").returncode, 0)
        self.installed_is_right()

    def test_it_is_installed_from_the_archive(self):
        self.write(archive_of(self.files))
        self.assertEqual(self.ran(os.path.join(TOP, "tools", "install"), "prefix", "--from", "archive").returncode, 0)
        self.installed_is_right()

    def installed_is_right(self):
        psyn, examples = os.path.join(self.room, "prefix", "bin", "psyn"), os.path.join(TOP, "examples", "files")
        self.assertEqual(
            self.ran(psyn, "check", *(os.path.join(examples, name) for name in ("loop.pg", "loop.cert"))).stdout,
            "valid\n",
        )
        self.version_tells_the_program(psyn)
        self.assertTrue(os.path.getsize(os.path.join(self.room, "prefix", "share", "zsh", "site-functions", "_psyn")))

    def version_tells_the_program(self, psyn):
        """`version` says that a program is proved only if it is the one that the release was packed with."""
        behind, total = os.path.join(self.room, "prefix", "libexec", "psyn", "psyn"), releases.sum_of(program())
        first, second = self.ran(psyn, "--version").stdout.splitlines()[:2]
        self.assertEqual(first, f"psyn 0.0.1, commit {'c' * 40}, proved with rattle-kit-0 logic 0")
        self.assertEqual(second, f"program {behind}, SHA-256 {total}: of this release")
        with open(behind, "ab") as file:
            file.write(b"\0")
        first, second = self.ran(psyn, "--version").stdout.splitlines()[:2]
        self.assertEqual(first, f"psyn 0.0.1, commit {'c' * 40}")
        self.assertEqual(second, f"program {behind}, SHA-256 {releases.sum_of(behind)}: not of a release")

    def write(self, data):
        with open(os.path.join(self.room, "archive"), "wb") as file:
            file.write(data)

    def refused(self, data):
        self.write(data)
        done = self.ran(os.path.join(TOP, "tools", "install"), "prefix", "--from", "archive")
        self.assertFalse(os.path.exists(os.path.join(self.room, "prefix")))
        return done.stdout, done.stderr, done.returncode

    def test_another_archive_is_refused(self):
        changed = {**self.files, "docs/PROVED.md": (b"all\n", False)}
        self.assertEqual(
            self.refused(archive_of(changed)),
            ("", "tools/install: archive: the sum of docs/PROVED.md is another one than SHA256SUMS says\n", 1),
        )
        added = {**self.files, "docs/more": (b"more\n", False)}
        self.assertEqual(
            self.refused(archive_of(added)),
            ("", "tools/install: archive: the sum of docs/more is another one than SHA256SUMS says\n", 1),
        )
        self.assertIn("has no SHA256SUMS", self.refused(archive_of({"psyn": (b"", True)}))[1])
        self.assertRegex(
            self.refused(b"no archive")[1], r"\Atools/install: archive is no archive that can be unpacked: .*\n\Z"
        )
        self.assertRegex(self.refused(archive_of(self.files)[:-100])[1], r"\Atools/install: archive.*\n\Z")


class Gate(unittest.TestCase):
    def test_a_gate_that_did_not_pass_is_refused(self):
        for log in (
            "", "63 passed, 0 failed\n", LOG.replace("63 passed, 0", "63 passed, 1"),
            LOG.replace("80 passed, 0", "79 passed, 1"), LOG.replace("63", "0"),
        ):
            with self.subTest(log), self.assertRaises(packing.NotPassed):
                packing.gate_lines(log)

    def test_a_release_of_a_changed_tree_or_of_another_log_is_refused(self):
        done = subprocess.run(
            [sys.executable, os.path.join(TOP, "tools", "release"), os.devnull],
            capture_output=True,
            text=True,
            check=False,
        )
        self.assertEqual((done.stdout, done.returncode), ("", 1))
        self.assertRegex(done.stderr, r"\Atools/release: .*\n\Z")

    def test_a_release_with_stale_edits_is_refused(self):
        loader = importlib.machinery.SourceFileLoader("release", os.path.join(TOP, "tools", "release"))
        tool = importlib.util.module_from_spec(importlib.util.spec_from_loader(loader.name, loader))
        loader.exec_module(tool)
        with tempfile.NamedTemporaryFile("w", encoding="utf-8") as log, mock.patch.object(
            releases, "of_repository", return_value=RELEASE
        ):
            log.write(LOG)
            log.flush()
            with mock.patch.object(tool.edits, "stale", return_value=[("ps_a", "one")]), self.assertRaisesRegex(
                tool.Refused, "edits are stale"
            ):
                tool.checked(log.name)


class Version(unittest.TestCase):
    def test_the_repository_says_what_it_is(self):
        first, second, third, end = releases.lines().split("\n")
        self.assertRegex(first, r"^psyn \d+\.\d+\.\d+, commit ([0-9a-f]{40}( with changes)?|unknown)$")
        self.assertTrue(second.endswith(f", SHA-256 {releases.sum_of(program())}: not of a release"))
        self.assertTrue(third and not end)

    def test_the_file_of_a_release_is_read_again(self):
        self.assertEqual(releases.of_text(RELEASE.text()), RELEASE)
        self.assertEqual(releases.of_text("").version, "unknown")
        self.assertTrue(re.fullmatch(r"\d+\.\d+\.\d+\n", open_version()))


def open_version():
    with open(os.path.join(TOP, "VERSION"), encoding="utf-8") as file:
        return file.read()


if __name__ == "__main__":
    unittest.main()
