"""The files of the circuits of many runs, below a folder."""
import os

from psyntool import outputs
from psyntool.command import AIG, FORCE, TO_FOLDER
from psyntool.ends import Refused, Unwritten
from psyntool.texts import Unreadable, report



def paths_of(request, folder, runs):
    """The path of the circuit of each run, after a check that it can be written there."""
    if not os.path.isdir(folder):
        raise Refused(f"{TO_FOLDER.shown}: there is no folder {folder}")
    ending, paths = ".aig" if request.has(AIG) else ".aag", {}
    for run in runs:
        path = os.path.normpath(os.path.join(folder, run.stem + ending))
        if path in paths:
            raise Refused(
                f"{TO_FOLDER.shown}: the circuits of {paths[path].title} and of {run.title} would both be {path}"
            )
        if not request.has(FORCE) and not outputs.is_by_psyn(path):
            raise Refused(
                f"{TO_FOLDER.shown}: {path} is there, and psyn has not written it: {FORCE.name} writes over it"
            )
        paths[path] = run
    return {run: path for path, run in paths.items()}


def write(path, answer):
    """Writes the circuit of an answer of `synth`, if it has one."""
    circuit = circuit_of(answer)
    if circuit is None:
        return
    folder = os.path.dirname(path) or os.curdir
    try:
        os.makedirs(folder, exist_ok=True)
    except OSError as error:
        raise Unwritten(f"{folder}: {error.strerror}") from None
    outputs.write_all({path: circuit + outputs.CIRCUIT_ENDING.encode()})


def circuit_of(answer):
    """The circuit of an answer, or None."""
    word, _, rest = answer.partition(b"\n")
    if word.decode("utf-8", "replace") not in report.WORDS:
        return None
    if rest.startswith(b"aig "):
        return rest
    try:
        return report.read(answer.decode("utf-8", "surrogateescape")).parts[0].encode("utf-8", "surrogateescape")
    except Unreadable:
        return None
