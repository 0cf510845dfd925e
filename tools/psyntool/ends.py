"""How a run of the tool ends: the exit statuses, and the exceptions that end a run early.

A run may also end with `Unreadable` or an `OSError`; any other exception is a bug of the tool.
"""

FAULT = 1
REFUSED = 2
# With --check: the verdict is the other one.
OTHER = 3
# No answer within the seconds of --time or --cpu; none within the memory of --memory.
LATE = 124
NO_MEMORY = 125
# The numbers of the faults by which `judge` says that a solution of the game is wrong.
WRONG_SOLUTIONS = ("40", "50", "51")
# For a process that a signal killed, a shell reports the exit status 128 plus the signal's number.
BY_SIGNAL = 128


class Refused(Exception):
    """A command line or a file is refused; the message says why, and what the user can do."""


class Unwritten(Exception):
    """The program's answer is missing or could not be written completely. The message gives the reason, and is empty if
    the reader of standard output has closed the pipe."""


class TimeUp(Unwritten):
    """The seconds of --time or --cpu are over."""


class Stopped(KeyboardInterrupt):
    """The signal INT (Ctrl-C), TERM or HUP ends the run."""

    def __init__(self, number):
        super().__init__(number)
        self.number = number
