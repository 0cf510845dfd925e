"""Runs in processes of their own, several at a time.

Each run has a process group of its own, so that Ctrl-C reaches the tool alone, which hands a signal on to the runs and
waits for what they still answer. The second signal ends everything at once.
"""
import os
import pickle
import resource
import selectors
import sys
import tempfile
from dataclasses import dataclass

from psyntool import console, program, signals
from psyntool.ends import FAULT, Stopped
from psyntool.running import Outcome

STEP = 1 << 16


@dataclass(frozen=True)
class Done:
    """How a run ended; the seconds of processor time of its programs, and the most MiB that one of them had."""

    outcome: Outcome
    processor: float
    memory: float


class Worker:
    """The process of a run, which has begun."""

    def __init__(self, run, work, is_alone):
        self.run = run
        self.said = b""
        self.errors = None if is_alone else tempfile.TemporaryFile()
        self.reading, writing = os.pipe()
        bound = program.bound_to(os.getpid())
        self.number = os.fork()
        if self.number == 0:
            self.serve(work, writing, bound)
        apart(self.number)
        os.close(writing)

    def serve(self, work, writing, bound):
        """The child's whole life: it sends what came of the run, and ends with status 0 if all of it is sent."""
        status = FAULT
        try:
            apart(0)
            bound()
            signals.let_go()
            if self.errors:
                os.dup2(self.errors.fileno(), console.ERROR)
            said = pickle.dumps(measured(work, self.run))
            while said:
                said = said[os.write(writing, said[:STEP]) :]
            status = 0
        except Stopped:
            pass
        except BaseException:
            # A bug of the tool, which is told as one that no process of its own has.
            sys.excepthook(*sys.exc_info())
        finally:
            os._exit(status)

    def read(self):
        """Reads what the process has sent, and returns whether more can follow."""
        part = os.read(self.reading, STEP)
        self.said += part
        return bool(part)

    def done(self):
        """How the run ended; None if a signal ended it early. What it told goes to standard error."""
        status = os.waitpid(self.number, 0)[1]
        self.number = None
        self.close()
        if status == 0:
            return pickle.loads(self.said)
        if signals.pending:
            return None
        how = f"ended by {signals.name_of(os.WTERMSIG(status))}" if os.WIFSIGNALED(status) else "ended"
        return Done(Outcome(FAULT, f"the run was {how} before its answer was whole", b"", 0.0), 0.0, 0.0)

    def send(self, number):
        if self.number:
            os.kill(self.number, number)

    def close(self):
        """Ends the process if it is still there."""
        if self.number:
            os.killpg(self.number, signals.KILL)
            os.waitpid(self.number, 0)
            self.number = None
        os.close(self.reading)
        if self.errors:
            self.errors.seek(0)
            console.put(self.errors.read().decode("utf-8", "replace"))
            self.errors.close()


def apart(number):
    """Gives a process, or with 0 this one, a group of its own. Both sides do so, since either may be first."""
    try:
        os.setpgid(number, number)
    except OSError:
        pass


def measured(work, run):
    """What comes of a run in this process, which has had no other child."""
    outcome = work(run)
    used = resource.getrusage(resource.RUSAGE_CHILDREN)
    return Done(outcome, used.ru_utime + used.ru_stime, used.ru_maxrss / 1024)


def at_once(most, runs, work):
    """Each run with how it ended, in the order of their ends; at most so many are under way at a time. The function
    `work` gives a run's outcome, in a process of its own. After a signal no run is begun."""
    waiting, working = iter(runs), set()
    signals.hold()
    try:
        with selectors.DefaultSelector() as selector:
            while True:
                begin(selector, waiting, working, most, work)
                if not working:
                    return
                for key in ready(selector, working):
                    if key.data.read():
                        continue
                    selector.unregister(key.fileobj)
                    working.discard(key.data)
                    done = key.data.done()
                    if done:
                        yield key.data.run, done
    finally:
        for worker in working:
            worker.close()
        signals.let_go()


def begin(selector, waiting, working, most, work):
    """Begins runs until so many are under way, or none is left."""
    while len(working) < most and not signals.pending:
        run = next(waiting, None)
        if run is None:
            return
        worker = Worker(run, work, most == 1)
        working.add(worker)
        selector.register(worker.reading, selectors.EVENT_READ, worker)


def ready(selector, working):
    """The keys of workers from which there is something to read; a signal is handed on to all of them."""
    try:
        signals.let_go()
        return [key for key, _ in selector.select()]
    except Stopped as stop:
        signals.pending = stop
        for worker in working:
            worker.send(stop.number)
        return []
    finally:
        signals.hold()
