"""What the tool is at work on: the stage that it has begun and its seconds, on a terminal, or elsewhere in lines with
--progress."""
import time

from psyntool import console

# On a terminal, a stage is shown from so many seconds on, each second; elsewhere at its begin, and each so many.
FIRST, EVERY = 2, 10
# Whether --progress is given; and of which things a stage is about one.
is_asked = False
within = ""


class Stage:
    """A stage, which has begun."""

    def __init__(self, title):
        self.title = within + title
        self.began = time.monotonic()
        self.shown = ""
        self.is_terminal = console.is_terminal()
        self.step = 1 if self.is_terminal else EVERY if is_asked else None

    def begin(self):
        if self.step == EVERY:
            console.tell(f"{self.title}: 0 s")

    def look(self):
        """Shows the seconds, if the time has come."""
        seconds = time.monotonic() - self.began
        if self.is_terminal and seconds >= FIRST:
            self.put(f"{self.title}: {seconds:.0f} s")
        elif self.step == EVERY and seconds >= EVERY:
            console.tell(f"{self.title}: {seconds:.0f} s")

    def put(self, text):
        console.put("\r" + text.ljust(len(self.shown)))
        self.shown = text

    def end(self):
        console.put("\r" + " " * len(self.shown) + "\r" if self.shown else "")


def counted(what, things):
    """The things one after another; on a terminal, after each second, and in the titles of stages, stands how many are
    begun."""
    global within
    line, last = Stage(what), time.monotonic()
    try:
        for count, one in enumerate(things, 1):
            within = f"{what} {count:,} of {len(things):,}, "
            if line.is_terminal and time.monotonic() - last > 1:
                last = time.monotonic()
                line.put(within.rstrip(", "))
            yield one
    finally:
        within = ""
        line.end()
