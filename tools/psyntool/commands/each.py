"""`each`: runs a command on several files, on the files of folders, or on lists of instances, several at a time, and
prints a line for each run as it ends; with --join, prints the table of what the logs of such runs hold."""
from psyntool import console, running, words
from psyntool.command import (
    FORCE, JOBS, JOIN, JSON, KEEP, LOG, PICTURE, SET, STIMULUS, TO_FILES, TO_FOLDER, WAVE, Request
)  # fmt: skip
from psyntool.ends import FAULT, Refused
from psyntool.kinds import Kind

# Flags of this command, which its runs do not have.
OWN = (JOBS, LOG, JOIN, TO_FOLDER, FORCE)
# Flags whose value is one file, which every run would write.
OF_ONE_FILE = (STIMULUS, WAVE, PICTURE, KEEP)
ANSWERED = (0, 10, 20)


def run(request):
    """Returns 0 if each run is answered, and otherwise the first exit status of another kind."""
    if request.has(JOIN):
        return join(request)
    from psyntool.runs import circuits, instances, logs, workers

    jobs, (command, given, paths) = jobs_of(request), checked(request)
    runs = instances.runs_of(command, given, paths)
    with logs.opened(request.value(LOG)) as log:
        runs = [run for run in runs if not log or not log.has(command, run)]
        stored = circuits.paths_of(request, request.value(TO_FOLDER), runs) if request.has(TO_FOLDER) else {}

        def asked(run):
            return request_of(command, given, run, request.table)

        status = 0
        for run, done in workers.at_once(jobs, runs, lambda run: running.captured(asked(run))):
            if run in stored:
                circuits.write(stored[run], done.outcome.written)
            if log:
                log.add(logs.record_of(asked(run), run, done))
            console.write_text(line_of(asked(run), run, done.outcome))
            status = status or (0 if done.outcome.status in ANSWERED else done.outcome.status)
        return status


def request_of(command, given, run, table):
    """The command line of a run."""
    sets = [*given.get(SET.name, ()), *((0, said) for said in run.settings)]
    flags = {**given, SET.name: sets} if sets else given
    return Request(command, command.recognised(flags, run.files), list(run.files), table)


def jobs_of(request):
    """How many runs are under way at a time."""
    jobs = request.number(JOBS) if request.has(JOBS) else 1
    if jobs == 0:
        raise Refused(f"{JOBS.shown}: at least 1 is wanted")
    return jobs


def join(request):
    """Prints the table of what logs hold; the status is 1 if runs disagree."""
    from psyntool.runs import joining

    others = [flag.name for flag in OWN if request.has(flag) and flag != JOIN]
    if others:
        raise Refused(f"{request.command.name} {JOIN.name} can't have {others[0]}")
    if not request.words:
        raise Refused(f"{request.command.name} {JOIN.name} reads LOG.., and got 0 words")
    lines, is_disputed = joining.joined(request.words)
    console.write_text("".join(f"{line}\n" for line in lines))
    return FAULT if is_disputed else 0


def checked(request):
    """The command that is to be run, its flags, and the files, after a check of the command line."""
    if len(request.words) < 2:
        raise Refused(
            f"{request.command.name} reads {' '.join(request.command.wanted())}, "
            f"and got {words.counted(request.words, 'word')}"
        )
    command, *files = request.words
    command = words.command_of(command, request.table)
    given = {name: value for name, value in request.given.items() if name not in [flag.name for flag in OWN]}
    words.check_flags(command, given, request.table)
    words.check_apart(command, command.recognised(given, files))
    kinds = command.kinds(given)
    if not kinds or not all(isinstance(kind, Kind) and kind is not Kind.FILE for kind in kinds):
        raise Refused(
            f"{request.command.name} is not for {command.name}, "
            f"which reads {' '.join(command.wanted(given)) or 'no file'}"
        )
    for flag in OF_ONE_FILE:
        if request.has(flag):
            raise Refused(
                f"{request.command.name} {command.name} can't have {flag.name}, which names one file for all runs"
            )
    if request.has(TO_FOLDER) and TO_FILES not in command.own:
        raise Refused(f"{request.command.name} {command.name} can't have {TO_FOLDER.name}, which is for synth")
    request.refuse_without(FORCE, TO_FOLDER)
    if files.count("-") > 1:
        raise Refused("standard input can be one of the files only")
    if "-" in files:
        # The runs are processes that do not have the terminal.
        console.read_ahead()
    return command, given, files


def line_of(request, run, outcome):
    """The line about a run: its files and parameters, and the first line of its answer, or why there is none."""
    if request.has(JSON):
        from psyntool import reporting

        return reporting.line_of(request, outcome)
    said = outcome.message or outcome.written.split(b"\n")[0].decode("utf-8", "surrogateescape") or "no answer"
    return f"{run.title}: {said}\n"
