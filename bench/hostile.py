#!/usr/bin/env python3
"""Runs psyn on texts that are made to be hard, and prints how long each run takes and how much memory it uses.

  bench/hostile.py PSYN [--only KIND,..] [--commands COMMAND,..] [--rungs N] [--seconds N] [--mebibytes N] [--stack
  KIBIBYTES]

hostile_texts.py defines the kinds of texts; most texts have 10 to 16 MiB, and games made of rungs have 40 rungs. Each
text is given to each command that reads it. By default, a run has a stack of 1,024 KiB, at most 1,024 MiB of memory (a
larger request is refused), and at most 60 seconds of processor time. A line for each run has the kind of its texts, its
number among the runs of this kind, and the command. Then the line has the processor seconds, the elapsed seconds, the
greatest memory use (MB), the bytes of the answer, the exit status, and the answer's first line. The line ends with
those of the following words that apply:

  LARGER    out of memory is the right answer, because the answer, or the counts in it, exceed any memory
  SLOW      more than 10 seconds of processor time
  LARGE     psyn answered out of memory, and this is not the right answer
  ENDED     a signal or an unknown exit status ended the run: an error, unless the time limit ended it

The last line has the number of all runs and, for each of these words, the number of runs whose line has the word. Then
it has the number of wrong runs; numbers that are 0 are left out. A run is wrong if it has the word ENDED, or has the
word LARGER without answering out of memory. A run that the time limit ended is never wrong. The exit status is 1 if a
run is wrong."""
import argparse
import collections
import multiprocessing
import os
import resource
import signal
import subprocess
import sys
import tempfile
import time

sys.dont_write_bytecode = True
sys.path.insert(0, os.path.dirname(os.path.abspath(__file__)))

from hostile_texts import BY_RUNGS, KINDS  # noqa: E402

SLOW = 10
STATUSES = (0, 1, 2, 10, 20)
OUT_OF_MEMORY = b"fault 24 OutOfMemory\n"


def limits(given):
    """Returns a function that sets the limits of the child process."""
    def hold():
        resource.setrlimit(resource.RLIMIT_STACK, (given.stack << 10, given.stack << 10))
        resource.setrlimit(resource.RLIMIT_AS, (given.mebibytes << 20, given.mebibytes << 20))
        resource.setrlimit(resource.RLIMIT_CPU, (given.seconds, given.seconds + 1))
        resource.setrlimit(resource.RLIMIT_CORE, (0, 0))
    return hold


def written(kind, rungs, room):
    """Writes the inputs of one kind of hostile texts to files. For each input, returns the command, and whether the
    right answer to the input is out of memory."""
    told = []
    for number, run in enumerate(kind(rungs) if kind in BY_RUNGS else kind()):
        with open(os.path.join(room, f"{number}.input"), "wb") as file:
            # A text before another one loses its last newline here, because the separator begins with a newline.
            texts = [text.removesuffix("\n") for text in run.texts[:-1]] + list(run.texts[-1:])
            file.write((run.command + "\n" + "\n%%\n".join(texts)).encode())
        told.append((run.command, run.is_larger))
    return told


def written_apart(kind, rungs, room):
    """Calls `written` in a process of its own, so that the memory that the texts take is not counted for the processes
    that the script starts later."""
    with multiprocessing.get_context("fork").Pool(1) as pool:
        return pool.apply(written, (kind, rungs, room))


def measured(given, path):
    """The exit status (negative: a signal), the beginning and the length of the answer, the resources used, and the
    elapsed seconds."""
    with open(path, "rb") as text, tempfile.TemporaryFile() as answer:
        begin = time.monotonic()
        child = subprocess.Popen([given.psyn], stdin=text, stdout=answer, preexec_fn=limits(given))
        _, status, used = os.wait4(child.pid, 0)
        child.returncode = os.waitstatus_to_exitcode(status)
        seconds = time.monotonic() - begin
        length = answer.seek(0, os.SEEK_END)
        answer.seek(0)
        return child.returncode, answer.read(80), length, used, seconds


def marks(is_larger, status, start, processor):
    """Those of the words LARGER, SLOW, LARGE and ENDED that apply to a run."""
    found = ["LARGER"] if is_larger else []
    if processor > SLOW:
        found.append("SLOW")
    if start == OUT_OF_MEMORY and not is_larger:
        found.append("LARGE")
    if status not in STATUSES:
        found.append("ENDED")
    return found


def is_wrong(is_larger, status, start):
    if status in (-signal.SIGXCPU, -signal.SIGKILL):
        return False
    return status not in STATUSES or (is_larger and start != OUT_OF_MEMORY)


def measure_kind(given, kind, counts):
    """Prints a line for each run on one kind of texts, and counts, for each word that a line may end with, the runs
    with this word."""
    with tempfile.TemporaryDirectory() as room:
        for number, (command, is_larger) in enumerate(written_apart(kind, given.rungs, room)):
            if given.commands and command not in given.commands.split(","):
                continue
            status, start, length, used, seconds = measured(given, os.path.join(room, f"{number}.input"))
            processor = used.ru_utime + used.ru_stime
            said = marks(is_larger, status, start, processor)
            counts.update(["runs", *said, *["wrong"] * is_wrong(is_larger, status, start)])
            first = start.split(b"\n")[0][:44].decode(errors="replace")
            row = (
                f"{kind.__name__:19} {number:2} {command[:22]:22} {processor:8.2f} {seconds:8.2f} "
                f"{used.ru_maxrss >> 10:8} {length:10} {status:7}  {first}"
            )
            print(row, *said, flush=True)


def measure(given, kinds):
    counts = collections.Counter()
    print(
        "kind                no command                  proc s  clock s       MB      bytes  status  answer",
        flush=True,
    )
    for kind in kinds:
        measure_kind(given, kind, counts)
    print(", ".join(f"{count} {mark}" for mark, count in counts.items()))
    return 1 if counts["wrong"] else 0


def main():
    parser = argparse.ArgumentParser(usage=__doc__)
    parser.add_argument("psyn", type=os.path.abspath)
    parser.add_argument("--only", default="")
    parser.add_argument("--commands", default="")
    parser.add_argument("--rungs", type=int, default=40)
    parser.add_argument("--seconds", type=int, default=60)
    parser.add_argument("--mebibytes", type=int, default=1024)
    parser.add_argument("--stack", type=int, default=1024)
    given = parser.parse_args()
    wanted = given.only.split(",") if given.only else [kind.__name__ for kind in KINDS]
    return measure(given, [kind for kind in KINDS if kind.__name__ in wanted])


if __name__ == "__main__":
    sys.exit(main())
