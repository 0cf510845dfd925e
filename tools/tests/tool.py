"""What the tests of the tool share: example texts, a temporary folder, and a function that runs tools/psyn."""
import os
import shutil
import subprocess
import sys
import tempfile
import unittest

from upkeep.sweeps import TOP

TOOL = os.path.join(TOP, "tools", "psyn")
GAME = b"0 0 1 0,1; 1 1 1 1;\n"
CERTIFICATE = b"psyncert 1\nvertices 2\nodd 1\neven 0\n0 1 1 0\n1 1 1 0\n"
CIRCUIT = b"aag 5 1 1 3 3\n2\n4 10 1\n4\n10\n1\n10 9 7\n8 5 3\n6 4 2\ni0 push\nl0 lamp\no0 dark\n"
AUTOMATON = (
    b'HOA: v1 /* two /* */ states */\nStates: 2\nStart: 0\nAP: 2 "r" "g"\ncontrollable-AP: 1\nAcceptance: 1 Inf(0)\n'
    b'--BODY--\nState: 0 "off"\n[!0|1] 0 {0}\n[0&!1] 1\nState: 1\n[1] 0 {0}\n[!1] 1\n--END--\n'
)


class OnFiles(unittest.TestCase):
    """Tests, each with a temporary folder of its own."""

    def setUp(self):
        self.room = tempfile.mkdtemp()
        self.addCleanup(shutil.rmtree, self.room)

    def file(self, name, content):
        path = os.path.join(self.room, name)
        with open(path, "wb") as file:
            file.write(content)
        return path

    def tool(self, *words, given=b"", environment=None):
        # warnings about unclosed resources and deprecated features would appear on standard error; as in tools/psyn, no
        # packages of others are looked for, and memory is taken as usual, which takes a third of the time less
        command = [sys.executable, "-S", "-W", "error", "-X", "dev", TOOL, *words]
        return subprocess.run(
            command, input=given, capture_output=True, check=False, cwd=self.room,
            env={**os.environ, "PYTHONMALLOC": "pymalloc", **(environment or {})},
        )
