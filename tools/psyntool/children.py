"""Runs external programs, such as other solvers, each in a process group of its own, so that the whole group can be
killed."""
import os
import subprocess

from psyntool import program, signals


def run(words, **streams):
    """Runs a command without a shell, waits for its end, and returns its exit status. If the command can't be started,
    the exception of `Popen` is raised."""
    child = None
    try:
        signals.hold()
        child = subprocess.Popen(words, process_group=0, preexec_fn=program.before_it_runs(), **streams)
        signals.let_go()
        program.waited_for(child, None, os.path.basename(words[0]))
    finally:
        signals.let_go()
        if child:
            end(child)
    if child.returncode < 0:
        program.refuse_more()
    return child.returncode


def end(child):
    """Kills a command's process group if the command is still running."""
    if child.poll() is None:
        os.killpg(child.pid, signals.KILL)
    child.wait()


def ended(status):
    return f"was ended by {signals.name_of(-status)}" if status < 0 else f"ended with status {status}"
