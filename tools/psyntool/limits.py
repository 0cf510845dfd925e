"""The limits that the flags --time, --cpu and --memory set for the programs that a run starts: on the seconds of all of
them together, by the clock with the tool's own work, and of processor time; and on the memory of each. The tool itself
limits the processor time of some."""
import time

from psyntool import program
from psyntool.command import CPU, LIMITS, MEMORY, TIME
from psyntool.ends import Refused

MEBIBYTE = 1 << 20


def begin(request):
    """Sets the limits of a run, and begins to count its seconds."""
    numbers = {flag: request.number(flag) for flag in LIMITS}
    for flag, number in numbers.items():
        if number == 0:
            raise Refused(f"{flag.shown}: at least 1 is wanted")
    seconds, processor, mebibytes = numbers[TIME], numbers[CPU], numbers[MEMORY]
    program.most_memory = mebibytes and mebibytes * MEBIBYTE
    program.last_moment = seconds and program.LastMoment(
        time.monotonic() + seconds, f"no answer within {seconds} s ({TIME.name})"
    )
    program.last_second = processor and program.LastMoment(
        program.processor_seconds() + processor, f"no answer within {processor} s of processor time ({CPU.name})"
    )


def end():
    """Takes the limits away."""
    program.most_memory = program.last_moment = program.last_second = None


def briefly(seconds, function, *values):
    """The result of a function. A program that it starts is killed after so many seconds of processor time, which do
    not depend on what else the machine does; the answer then says what ended it."""
    program.most_processor = seconds
    try:
        return function(*values)
    finally:
        program.most_processor = None
