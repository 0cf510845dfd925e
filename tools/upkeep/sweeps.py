"""A sweep is a series of runs of psyn, in each of which one allocation, read or write fails. The tools for sweeps share
this module: the inputs, the program, and the C library that LD_PRELOAD loads."""
import concurrent.futures
import contextlib
import os
import subprocess
import sys
import tempfile

TOOLS = os.path.dirname(os.path.dirname(os.path.abspath(__file__)))
TOP = os.path.dirname(TOOLS)


def status_of(answer):
    """The exit status that belongs to an answer."""
    if answer == b"fault usage\n":
        return 2
    if answer.startswith(b"fault "):
        return 1
    return {b"REALIZABLE": 10, b"UNREALIZABLE": 20}.get(answer.split(b"\n")[0], 0)


def inputs_of(folder):
    """The names of the inputs in a folder, each with its answer and the exit status that belongs to the answer."""
    inputs = {}
    for name in sorted(os.listdir(folder)):
        if not name.endswith(".stdout") and os.path.isfile(os.path.join(folder, name)):
            with open(os.path.join(folder, name + ".stdout"), "rb") as file:
                answer = file.read()
            inputs[name] = (answer, status_of(answer))
    return inputs


def program_and_folder(words):
    """The program and the folder of inputs that a command line names."""
    program = os.environ.get("PSYN") or os.path.join(TOP, "crates", "psyn", "out", "psyn")
    folder, words = os.path.join(TOP, "examples"), list(words)
    while words:
        word = words.pop(0)
        if word == "--program" and words:
            program = words.pop(0)
        else:
            folder = word
    if not os.path.exists(program):
        sys.exit(f"there is no {program}: `rt run` in crates/psyn makes it")
    return os.path.abspath(program), folder


@contextlib.contextmanager
def library(source):
    """Compiles a C file in the folder tools to a shared library for LD_PRELOAD."""
    with tempfile.TemporaryDirectory() as made:
        shim = os.path.join(made, source.replace(".c", ".so"))
        subprocess.run(["cc", "-O2", "-shared", "-fPIC", "-o", shim, os.path.join(TOOLS, source)], check=True)
        yield shim


def at_once(work, items):
    """The results of `work` for all items, in their order, computed in as many threads as there are processors."""
    with concurrent.futures.ThreadPoolExecutor(os.cpu_count()) as pool:
        return list(pool.map(work, items))
