"""Finds and runs the program: gives it an input and returns its answer."""
import math
import os
import re
import signal
import subprocess
import time
from dataclasses import dataclass

from psyntool import places, progress, signals
from psyntool.ends import Refused, TimeUp

PR_SET_PDEATHSIG = 1
# A program that is ended so many seconds before the limit of its processor time counts as ended by it, since the system
# counts that time in more than one way.
GRAIN = 0.25
# The largest input that the program accepts; it answers fault 25 to a longer one.
MOST_BYTES = 67_108_864
# How an answer begins, by its exit status: a fault, what `synth` answers, and else by the command.
FAULTS = {1: rb"fault \d+ ", 2: rb"fault usage\n"}
OF_SYNTH = {10: rb"REALIZABLE\naag \d", 20: rb"UNREALIZABLE\naag \d"}
ANSWERS = {
    "closed": rb"closed\n",
    "check": rb"valid\n",
    "judge": rb"psyncert \d",
    "sim": rb"[01|]*\n|\Z",
    "lasso": rb"(accepted|rejected|satisfied|violated) stem \d+ lap \d+\n",
    "verify": rb"wins\n\Z|loses\n",
    "shrink": rb"aag \d|loses\n",
    "agree": rb"agrees\n\Z|(accepts|rejects)\n",
    "translate": rb"HOA: v1\n",
    "solve": rb"psyncert \d",
    "game": rb"parity \d",
    "cert": rb"psyncert \d",
}
# Each may be None: the most bytes of memory of each program that is started; the most seconds of processor time of
# each; the last moment of the run; and the last second of processor time of its programs together.
most_memory = most_processor = last_moment = last_second = None


@dataclass(frozen=True)
class LastMoment:
    """A moment by which each program must have ended, on the monotonic clock or by `processor_seconds`, and what is
    said if one has not."""

    at: float
    message: str


@dataclass(frozen=True)
class Answer:
    """What the program wrote, its exit status, and a message if something killed it early."""

    bytes: bytes
    status: int
    died: str

    @property
    def text(self):
        return self.bytes.decode("utf-8", "replace")

    @property
    def is_fault(self):
        return self.bytes.startswith(b"fault ")


def path():
    """The path of the program: $PSYN or, if that is unset, the program that was built or installed."""
    named = os.environ.get("PSYN")
    if named and not os.path.isfile(named):
        raise Refused(
            f"PSYN={named}: {'this is a folder' if os.path.isdir(named) else 'there is no such file'}, and no program"
        )
    if not named and not os.path.isfile(places.PROGRAM):
        raise Refused(f"the program is not there: {places.HOW_TO_HAVE_IT}, or name it by PSYN=FILE")
    return os.path.abspath(named or places.PROGRAM)


def title():
    """The program's name in messages."""
    named = os.environ.get("PSYN")
    return f"PSYN={named}" if named else places.PROGRAM


def before_it_runs():
    """Returns a function by which a child process prepares itself before `exec`: it restores how signals are handled,
    takes the limits over, and ends when the tool does."""
    seconds, bound = seconds_left(), bound_to(os.getpid())

    def prepare():
        signals.give_back()
        signals.let_go()
        limit_memory()
        limit_processor(seconds)
        bound()

    return prepare


def bound_to(parent):
    """Returns a function by which a child of a process asks the system, if it can, to be killed when its parent
    ends."""
    control = control_of_processes()

    def bind():
        if control:
            control(PR_SET_PDEATHSIG, signal.SIGKILL)
        if os.getppid() != parent:
            os.kill(os.getpid(), signal.SIGKILL)

    return bind


def limit_memory():
    """Limits the memory of this process as --memory asks."""
    if most_memory is not None:
        import resource

        hard = resource.getrlimit(resource.RLIMIT_AS)[1]
        most = most_memory if hard == resource.RLIM_INFINITY else min(most_memory, hard)
        resource.setrlimit(resource.RLIMIT_AS, (most, most))


def processor_seconds():
    """The seconds of processor time of the programs that have ended."""
    used = os.times()
    return used.children_user + used.children_system


def seconds_left():
    """The most seconds of processor time of a program that is started now, or None."""
    if last_second is None:
        return most_processor
    refuse_more()
    left = math.ceil(last_second.at - processor_seconds())
    return left if most_processor is None else min(left, most_processor)


def refuse_more():
    """Ends the run if the processor time of its programs is used up."""
    if last_second and processor_seconds() >= last_second.at - GRAIN:
        raise TimeUp(last_second.message)


def limit_processor(seconds):
    """Limits the processor time of this process, which is killed at the limit."""
    if seconds is not None:
        import resource

        hard = resource.getrlimit(resource.RLIMIT_CPU)[1]
        most = seconds if hard == resource.RLIM_INFINITY else min(seconds, hard)
        resource.setrlimit(resource.RLIMIT_CPU, (most, most))


def control_of_processes():
    """The system's function `prctl`, or None if there is none."""
    try:
        import ctypes
    except ImportError:
        return None
    return getattr(ctypes.CDLL(None), "prctl", None)


def started():
    program = path()
    try:
        return subprocess.Popen([program], stdin=subprocess.PIPE, stdout=subprocess.PIPE, preexec_fn=before_it_runs())
    except OSError as error:
        raise Refused(f"{title()} can't be run: {error.strerror}") from None


def waited_for(child, given, title):
    """Waits for the child until the last moment of the run, and returns its output; meanwhile the title and the seconds
    so far are shown."""
    stage = progress.Stage(title)
    stage.begin()
    try:
        while True:
            left = [stage.step] * bool(stage.step)
            left += [max(0, last_moment.at - time.monotonic())] if last_moment else []
            try:
                return child.communicate(given, timeout=min(left, default=None))[0]
            except subprocess.TimeoutExpired:
                given = None
            if last_moment and time.monotonic() >= last_moment.at:
                raise TimeUp(last_moment.message)
            stage.look()
    finally:
        stage.end()


def ask(given, title=""):
    """The program's answer to an input. The title is that of the stage, without it the command."""
    child, command = None, given.split(maxsplit=1)[0].decode()
    try:
        signals.hold()
        child = started()
        signals.let_go()
        written = waited_for(child, given, title or command)
    finally:
        signals.let_go()
        if child:
            end(child)
    if child.returncode < 0:
        refuse_more()
    return Answer(written, child.returncode, why_died(command, written, child.returncode))


def end(child):
    if child.poll() is None:
        child.kill()
    child.wait()
    child.stdin.close()
    child.stdout.close()


def why_died(command, written, status):
    """A message that says what ended the program before its answer was complete, or that this is no answer to the
    command; an empty string if neither is so."""
    if status < 0:
        return f"the program was ended by {signals.name_of(-status)} before its answer was whole"
    form = {**FAULTS, **OF_SYNTH, 0: ANSWERS.get(command)}.get(status)
    if form is None or command != "synth" and status in OF_SYNTH or not re.match(form, written):
        return f"the program ended with status {status} and no answer of psyn"
    return ""
