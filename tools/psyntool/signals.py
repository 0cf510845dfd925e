"""Signals: INT (Ctrl-C), TERM and HUP end the tool together with the program that it runs."""
import os
import signal

from psyntool.ends import BY_SIGNAL, Stopped

KILL = signal.SIGKILL
TAKEN = (signal.SIGINT, signal.SIGTERM, signal.SIGHUP)
# The `Stopped` of a signal that ended a search; what it found is written before the tool ends by the signal.
pending = None
WORDS = {signal.SIGINT: "stopped by Ctrl-C", signal.SIGTERM: "ended by TERM", signal.SIGHUP: "ended by HUP"}


def stop(number, _frame):
    """Raises `Stopped`; from then on, a second signal ends the tool at once."""
    give_back()
    raise Stopped(number)


def take():
    """Lets the signals raise `Stopped`, except those that the tool's caller ignores."""
    for number in TAKEN:
        if signal.getsignal(number) != signal.SIG_IGN:
            signal.signal(number, stop)


def give_back():
    for number in TAKEN:
        if signal.getsignal(number) != signal.SIG_IGN:
            signal.signal(number, signal.SIG_DFL)


def hold():
    """Blocks the signals until `let_go` is called."""
    signal.pthread_sigmask(signal.SIG_BLOCK, TAKEN)


def let_go():
    signal.pthread_sigmask(signal.SIG_UNBLOCK, TAKEN)


def name_of(number):
    return signal.Signals(number).name if number in set(signal.Signals) else f"signal {number}"


def end_by(number):
    """Ends the process by the given signal, so that a shell sees what ended it; returns an exit status if the signal is
    ignored."""
    give_back()
    os.kill(os.getpid(), number)
    return BY_SIGNAL + number
