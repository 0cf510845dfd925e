"""Tests that a tool which only prints ends without a message if the reader of its output closes the pipe."""
import os
import subprocess
import sys

from tests.tool import OnFiles
from upkeep.sweeps import TOOLS, TOP


def ending(words, room):
    """What a tool writes to standard error if no one reads its output. A stand-in for `rt` is in the folder `room`."""
    environment = {**os.environ, "PATH": f"{room}:{os.environ['PATH']}"}
    read, write = os.pipe()
    os.close(read)
    try:
        command = [sys.executable, os.path.join(TOOLS, words[0]), *words[1:]]
        ran = subprocess.run(
            command, cwd=TOP, env=environment, stdin=subprocess.DEVNULL, stdout=write, stderr=subprocess.PIPE,
            text=True, check=False,
        )
    finally:
        os.close(write)
    return ran.stderr


class Pipes(OnFiles):
    def test_a_closed_pipe_ends_a_tool_without_a_message(self):
        os.chmod(self.file("rt", b"#!/bin/sh\necho '1 passed, 0 failed'\n"), 0o755)
        for words in (["wrap-lines", "--check"], ["draw-crates"], ["gate-times"]):
            with self.subTest(tool=words[0]):
                self.assertEqual(ending(words, self.room), "")
