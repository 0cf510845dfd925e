"""Writes several files completely, or none of them: first under temporary names, and then renames them. A file that the
command reads is never written over, and a file that psyn has not written only with `--force`."""
import os
import re

from psyntool.command import FORCE
from psyntool.ends import Refused, Unwritten

# The comment section of a circuit, and the first line of a stimulus, that say who wrote the file.
CIRCUIT_ENDING = "c\nwritten by psyn\n"
STIMULUS_BEGINNING = "# written by psyn\n"
# For each file name ending, a line by which a file that psyn has written can be told. No game or certificate may have a
# comment: a game that psyn writes names its first vertex by a state and a priority, and only psyn's certificates begin
# with `psyncert`.
SIGNS = {
    ".aag": rb"(?m)^c\nwritten by psyn\n\Z",
    ".aig": rb"(?m)^c\nwritten by psyn\n\Z",
    ".pg": rb'\Aparity \d+;\n\d+ \d+ [01] [\d,]+ "[^"]*/\d+";\n',
    ".cert": rb"\Apsyncert [12]\n",
    ".hoa": rb'\AHOA: v1\ntool: "psyn (compose|translate)"\n',
    ".stim": rb"\A# written by psyn\n",
    ".tlsf": rb"\A// written by psyn tlsf\n",
}


def own(request, paths, flag, prefix):
    """The paths PREFIX.., after a check that files can be written there. A file that is there already must be empty or
    written by psyn, unless `--force` is given."""
    for path in checked(paths, flag, prefix):
        if not request.has(FORCE) and not is_by_psyn(path):
            raise Refused(f"{flag}: {path} is there, and psyn has not written it: {FORCE.name} writes over it")
    return paths


def is_by_psyn(path):
    """Whether the file is missing or empty, or has the line by which psyn's files can be told."""
    if not os.path.exists(path) or not os.path.getsize(path):
        return True
    with open(path, "rb") as file:
        return bool(re.search(SIGNS[os.path.splitext(path)[1]], file.read()))


def refuse_read(request, paths):
    """Refuses to write over a file that the command has read."""
    for path in filter(os.path.exists, paths):
        if any(os.path.samefile(path, other) for other in request.read if os.path.exists(other)):
            raise Refused(f"{path} would be written, and this command reads it: name another file")


def checked(paths, flag, prefix):
    """The paths, after a check that files can be written there, so that no long run is wasted."""
    folder, begin = os.path.split(prefix)
    if not begin or begin in (os.curdir, os.pardir):
        wanted = "the name of a file" if [*paths] == [prefix] else "the beginning of the names of files"
        raise Refused(f"{flag}: {prefix!r} names a folder; {wanted} is wanted")
    if not os.path.isdir(folder or os.curdir):
        raise Refused(f"{flag}: there is no folder {folder}")
    if not os.access(folder or os.curdir, os.W_OK | os.X_OK):
        raise Refused(f"{flag}: nothing can be written to the folder {folder or os.curdir}")
    if os.path.exists(prefix) and not os.path.isfile(prefix) and not os.path.isdir(prefix):
        raise Refused(f"{flag}: {prefix} is no plain file")
    for path in paths:
        if os.path.isdir(path):
            raise Refused(f"{flag}: {path} is a folder")
        # a device or a pipe is refused, because renaming the finished file to this path would replace it
        if os.path.exists(path) and not os.path.isfile(path):
            raise Refused(f"{flag}: {path} is no plain file")
    return paths


def write_all(texts):
    """Writes each text, or bytes, to its path. If a text can't be written, no file is changed."""
    drafts = {}
    try:
        for path, text in texts.items():
            drafts[path] = f"{path}.{os.getpid()}.part"
            written(drafts[path], text)
        for path in texts:
            os.replace(drafts[path], path)
            del drafts[path]
    except OSError as error:
        raise Unwritten(f"{path}: {error.strerror}") from None
    finally:
        for draft in drafts.values():
            gone(draft)


def written(path, text):
    with open(path, "xb") as file:
        file.write(text if isinstance(text, bytes) else text.encode("utf-8", "surrogateescape"))


def gone(path):
    try:
        os.remove(path)
    except OSError:
        pass
