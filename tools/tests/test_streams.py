"""Tests psyn's answers when a read or a write fails, and that tools/refuse-streams detects a program that ignores the
failure."""
import os
import subprocess
import tempfile
import unittest

from upkeep import counts, streams, sweeps
from psyntool.program import path as program

ANSWER = (b"closed\n", 0)
CARELESS = """\
#include <errno.h>
#include <stdio.h>
#include <unistd.h>

/* Reads again where a read was interrupted, and does not look at what its write answers. */
int main(void) {
    char byte[1];
    for (;;) {
        ssize_t count = read(0, byte, 1);
        if (count == 0 || (count < 0 && errno != EINTR))
            break;
    }
    (void)!write(1, "closed\\n", 7);
    return 0;
}
"""


class Rules(unittest.TestCase):
    def test_a_failed_read_is_a_read_fault_and_nothing_is_read_behind_it(self):
        self.assertTrue(streams.is_right("fails", "rRw", streams.READ_FAULT, ANSWER))
        self.assertFalse(streams.is_right("fails", "rRrw", streams.READ_FAULT, ANSWER))
        self.assertFalse(streams.is_right("interrupted", "rRw", ANSWER, ANSWER))

    def test_a_failed_write_leaves_a_beginning_and_nothing_is_written_behind_it(self):
        self.assertTrue(streams.is_right("fails", "rrwW", (b"clo", 1), ANSWER))
        self.assertFalse(streams.is_right("fails", "rrW", (b"", 0), ANSWER))
        self.assertFalse(streams.is_right("fails", "rrW", (b"lo", 1), ANSWER))
        self.assertFalse(streams.is_right("none", "rrWw", (b"closed\n", 1), ANSWER))

    def test_one_byte_changes_nothing(self):
        self.assertTrue(streams.is_right("one", "Rrrw", ANSWER, ANSWER))
        self.assertFalse(streams.is_right("one", "Rrrw", (b"", 1), ANSWER))


class Sweeps(unittest.TestCase):
    def test_a_careless_program_is_seen(self):
        with tempfile.TemporaryDirectory() as room, sweeps.library("refuse_stream.c") as shim:
            source, program, text = (os.path.join(room, name) for name in ("careless.c", "careless", "text"))
            for path, content in ((source, CARELESS), (text, "ab")):
                with open(path, "w", encoding="utf-8") as file:
                    file.write(content)
            subprocess.run(["cc", "-o", program, source], check=True)
            spoiled, wrong = streams.sweep(program, shim, text, ANSWER)
        ways = [(way, number) for way, number, _, _ in wrong]
        # The program makes three reads and a write: it treats a failed read as the end of the input, and repeats an
        # interrupted read.
        self.assertEqual(
            ways,
            [(way, number) for way in ("fails", "interrupted") for number in (1, 2, 3, 4)]
            + [("one", 0), ("one", 4), ("none", 4)],
        )
        self.assertEqual(spoiled, 4 + 4 + 5 + 1)

    def test_each_example_meets_each_spoiled_call(self):
        folder, path = os.path.join(sweeps.TOP, "examples"), program()
        inputs = sweeps.inputs_of(folder)
        with sweeps.library("refuse_stream.c") as shim:
            swept = sweeps.at_once(
                lambda name: streams.sweep(path, shim, os.path.join(folder, name), inputs[name]), inputs
            )
        counts.ran("sweeps", "examples with each read and write spoiled", len(swept))
        self.assertEqual([(name, wrong) for name, (_, wrong) in zip(inputs, swept) if wrong], [])

    def test_each_byte_is_a_read_and_a_write_that_may_fail(self):
        folder, path, runs = os.path.join(sweeps.TOP, "examples"), program(), 0
        inputs = sweeps.inputs_of(folder)
        with sweeps.library("refuse_stream.c") as shim:
            for name in ("closed-escape-repaired", "synth-full"):
                done, wrong = streams.sweep_by_bytes(
                    path, shim, os.path.join(folder, name), inputs[name], sweeps.at_once
                )
                runs += done
                self.assertEqual(wrong, [], name)
        counts.ran("sweeps", "runs byte by byte with a read or a write that fails", runs)


class Ends(unittest.TestCase):
    def test_a_reader_without_an_end_is_a_read_fault_in_bounded_memory(self):
        limited = ["bash", "-c", 'ulimit -v 1048576; yes | "$0"', program()]
        done = subprocess.run(limited, stdout=subprocess.PIPE, timeout=streams.SECONDS, check=False)
        self.assertEqual((done.stdout, done.returncode), streams.READ_FAULT)

    def test_one_byte_too_many_is_read_and_none_behind_it(self):
        with tempfile.TemporaryFile() as zeros:
            zeros.truncate(100_000_000)
            done = subprocess.run(
                [program()], stdin=zeros, stdout=subprocess.PIPE, timeout=streams.SECONDS, check=False
            )
            self.assertEqual((done.stdout, done.returncode), streams.READ_FAULT)
            self.assertEqual(os.lseek(zeros.fileno(), 0, os.SEEK_CUR), 67_108_865)


if __name__ == "__main__":
    unittest.main()
