"""Careless use: command lines that are wrong or are interrupted, with the output and the files that the tool must
produce, as listed in tools/tests/careless.toml.

A `[[line]]` has

  name      what the line shows; no name occurs twice
  defect    the number of the bug report that the line tests, if there is one
  command   what bash runs, in a folder with `slow.pg` and the files of `FILES` and `PROGRAMS`
  cut       an interruption of the command: Ctrl-C, TERM, HUP or KILL while the program works, or `closed pipe`
  output    the expected standard output; if it is left out, any output is right
  error     the exact standard error
  status    the exit status as a shell reports it: 128 plus the signal's number if a signal ended the command
  files     the files that the command leaves and that were not there before

In a command, `psyn` runs the tool, and `install-psyn` runs tools/install. With `closed pipe`, nobody reads the standard
output. Ctrl-C is typed at a terminal, to which both standard output and standard error go. The program must not be
running any more when the tool has ended.
"""
import os
import pty
import shutil
import signal
import subprocess
import sys
import termios
import threading
import time
import tomllib

from upkeep.sweeps import TOP

sys.path.insert(0, os.path.join(TOP, "bench"))

import hostile_texts  # noqa: E402

KEYS = {"name", "defect", "command", "cut", "output", "error", "status", "files"}
SIGNALS = {"TERM": signal.SIGTERM, "HUP": signal.SIGHUP, "KILL": signal.SIGKILL}
SECONDS = 300
# The number of rungs (parts of equal form) in a game that psyn needs minutes to solve.
RUNGS = 300
FILES = (
    "arbiter.hoa", "grant.hoa", "delay.hoa", "loop.pg", "loop.cert", "stays.cert", "toggle.aag", "lamp.aag",
    "presses.stim",
)
# Programs that stand in for psyn: one that runs long, psyn itself after it has written its process id, and one that is
# killed during its answer. Further programs give no answer, a strange answer, a verdict alone or half an answer. The
# last file, `text`, can't be executed.
PROGRAMS = {
    "slow": "#!/bin/sh\necho $$ > pid\nexec sleep 60\n",
    "real": '#!/bin/sh\necho $$ > pid\nexec "$REAL"\n',
    "killed": "#!/bin/sh\ncat > in\nrm in\necho REALIZABLE\nkill -9 $$\n",
    "silent": "#!/bin/sh\nexit 0\n",
    "strange": "#!/bin/sh\necho hello\nexit 3\n",
    "bare": "#!/bin/sh\necho REALIZABLE\nexit 10\n",
    "half": "#!/bin/sh\nprintf 'REALIZABLE\\naag 0 0 0 0 0\\n%%%%\\n'\nexit 10\n",
    "text": "no program\n",
}
# Held while a program is written or a process is started. A process that is started meanwhile would have the program's
# file open for a moment, and a file that is open for writing can't be executed ("Text file busy").
WRITING_OR_STARTING = threading.Lock()


def read(path):
    """The `[[line]]` tables of a TOML file."""
    with open(path, "rb") as file:
        lines = tomllib.load(file)["line"]
    wrong = [
        line.get("name", "?")
        for line in lines if set(line) - KEYS or not {"name", "command", "error", "status"} <= set(line)
    ]
    names = [line["name"] for line in lines]
    if wrong or len(set(names)) < len(names):
        raise ValueError(f"{path}: {wrong or 'a name stands twice'}")
    return lines


def started(tool):
    """A script that runs one of the tools with Python's warnings on, so that an unclosed resource or a deprecated call
    appears on standard error."""
    return f"#!/bin/sh\nexec {sys.executable} -W error -X dev {os.path.join(TOP, 'tools', tool)} \"$@\"\n"


def furnish(room):
    """Puts the files, the stand-in programs and the tool into a folder."""
    with open(os.path.join(room, "slow.pg"), "w", encoding="utf-8") as file:
        file.write(hostile_texts.game_by_rungs(hostile_texts.SLOW_TO_IMPROVE, RUNGS))
    for name in FILES:
        with open(os.path.join(TOP, "examples", "files", name), "rb") as source, open(
            os.path.join(room, name), "wb"
        ) as file:
            file.write(source.read())
    shutil.copytree(os.path.join(TOP, "examples", "parts"), os.path.join(room, "parts"))
    tools = {os.path.join("bin", name): started(tool) for name, tool in (("psyn", "psyn"), ("install-psyn", "install"))}
    os.mkdir(os.path.join(room, "bin"))
    for name, text in {**PROGRAMS, **tools}.items():
        with WRITING_OR_STARTING, open(os.path.join(room, name), "w", encoding="utf-8") as file:
            file.write(text)
        os.chmod(os.path.join(room, name), 0o644 if name == "text" else 0o755)


class Run:
    """A run of a command line."""

    def __init__(self, room, line, program):
        self.room = room
        self.line = line
        environment = {
            **os.environ, "PATH": f"{os.path.join(room, 'bin')}:{os.environ['PATH']}", "PSYN": program, "REAL": program
        }
        self.more = {"cwd": room, "env": environment, "stdin": subprocess.DEVNULL}
        # the caller of the tests may ignore signals, as a shell does for commands started with `&`
        self.words = [
            "env",
            "--default-signal=INT,HUP,TERM",
            "bash",
            "-c",
            f"{'exec env ' if line.get('cut') else ''}{line['command']}",
        ]

    def wait_until_at_work(self, child):
        """Waits until the stand-in program has written its process id, or the tool has ended."""
        until = time.monotonic() + SECONDS
        while child.poll() is None and time.monotonic() < until:
            if self.number_of_program():
                return
            time.sleep(0.02)

    def number_of_program(self):
        try:
            with open(os.path.join(self.room, "pid"), encoding="utf-8") as file:
                return int(file.read() or 0)
        except OSError:
            return 0

    def is_left_at_work(self):
        """Whether the program still runs one second after the tool has ended."""
        number, until = self.number_of_program(), time.monotonic() + 1
        while number and is_at_work(number) and time.monotonic() < until:
            time.sleep(0.02)
        return bool(number) and is_at_work(number)

    def made(self):
        """The command line's standard output, its standard error, and its exit status."""
        cut = self.line.get("cut")
        if cut == "Ctrl-C":
            return self.at_a_terminal()
        output = subprocess.PIPE
        if cut == "closed pipe":
            nobody, output = os.pipe()
            os.close(nobody)
        with process(self.words, stdout=output, stderr=subprocess.PIPE, start_new_session=True, **self.more) as child:
            if cut in SIGNALS:
                self.wait_until_at_work(child)
                child.send_signal(SIGNALS[cut])
            written, error = ended(child)
        if cut == "closed pipe":
            os.close(output)
        return (written or b"").decode(), error.decode(), shell_status(child.returncode)

    def at_a_terminal(self):
        ours, theirs = pty.openpty()
        ways = termios.tcgetattr(theirs)
        ways[3] &= ~termios.ECHO
        termios.tcsetattr(theirs, termios.TCSANOW, ways)
        more = {**self.more, "stdin": theirs}
        with process(["setsid", "-c", "-w", *self.words], stdout=theirs, stderr=theirs, **more) as child:
            os.close(theirs)
            self.wait_until_at_work(child)
            os.write(ours, b"\x03")
            ended(child)
        written = b""
        while True:
            try:
                part = os.read(ours, 4096)
            except OSError:
                break
            if not part:
                break
            written += part
        os.close(ours)
        return "", written.decode().replace("\r\n", "\n"), shell_status(child.returncode)


def process(words, **more):
    """A process that is started while no program is written."""
    with WRITING_OR_STARTING:
        return subprocess.Popen(words, **more)


def ended(child):
    """The output of a command; a command that does not end in time is killed, with all processes that it started."""
    try:
        return child.communicate(timeout=SECONDS)
    except subprocess.TimeoutExpired:
        os.killpg(child.pid, signal.SIGKILL)
        return child.communicate()


def is_at_work(number):
    """Whether a process runs; a zombie counts as ended."""
    try:
        with open(f"/proc/{number}/stat", encoding="utf-8") as file:
            return file.read().rpartition(")")[2].split()[0] not in ("Z", "X")
    except OSError:
        return False


def shell_status(status):
    return 128 - status if status < 0 else status


def wrong_of(room, line, program):
    """Runs one command line of careless.toml in the folder `room`. Returns a message that says what is wrong with the
    run, or None if nothing is."""
    furnish(room)
    before = set(os.listdir(room))
    run = Run(room, line, program)
    output, error, status = run.made()
    if run.is_left_at_work():
        return "the program is left at work"
    files = sorted(set(os.listdir(room)) - before - {"pid"})
    found = {"error": error, "status": status, "files": files, "output": output}
    wanted = {
        "error": line["error"], "status": line["status"], "files": line.get("files", []),
        "output": line.get("output", output),
    }
    return None if found == wanted else f"{found}, wanted {wanted}"
