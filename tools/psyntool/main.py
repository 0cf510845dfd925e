"""The tool's main function: parses the command line, runs the command, and returns the exit status."""
from psyntool import console, running, signals, words
from psyntool.command import JSON
from psyntool.ends import Stopped
from psyntool.table import COMMANDS


def main(line):
    """Runs a command line, and returns the exit status."""
    console.fill_closed()
    signals.take()
    try:
        status, message = running.ended(run, line)
    except Stopped as stop:
        console.tell(f"psyn: {signals.WORDS[stop.number]}")
        return signals.end_by(stop.number)
    if signals.pending:
        return signals.end_by(signals.pending.number)
    if message:
        console.tell(f"psyn: {message}")
    return status


def run(line):
    request = words.request_of(line, COMMANDS)
    if request.command.runs_another:
        return request.command.run(request)
    if request.has(JSON):
        from psyntool import reporting

        return reporting.run(request)
    return running.run(request)
