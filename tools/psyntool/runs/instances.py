"""Which runs a command line of `each` asks for: of files, of the files in folders, and of lists of instances.

A list is a file that ends in `.runs`. Each of its lines has the files of a run, by paths from the list's folder, and
parameters: `arbiter.tlsf --set n=3`. A line that begins with `#` is a comment. A specification can have its own list,
in comments `// psyn: --set n=3`, which counts unless --set is given.
"""
import os
import re
import shlex
from dataclasses import dataclass, replace

from psyntool import words
from psyntool.command import SET
from psyntool.ends import Refused
from psyntool.files import title_of
from psyntool.kinds import Kind, kind_of_file

LIST = ".runs"
INSTANCE = re.compile(rb"(?m)^[ \t]*(?://|#)[ \t#]*psyn:[ \t]*(.*?)[ \t\r]*$")


@dataclass(frozen=True)
class Run:
    """The files of a run; its parameters, each NAME=VALUE; and the path of the first file from the folder, or from the
    list's folder, that the command line names."""

    files: tuple
    settings: tuple = ()
    place: str = ""

    @property
    def title(self):
        return " ".join([*self.files, *(f"{SET.name} {said}" for said in self.settings)])

    @property
    def stem(self):
        """The beginning of the name of a file that is written about the run: the path below the folder, without its
        ending, and the parameters."""
        return "_".join([os.path.splitext(self.place)[0], *(said.replace("=", "") for said in self.settings)])


def runs_of(command, given, paths):
    """The runs of a command with flags, on files, folders and lists."""
    kinds, found, group = command.kinds(given), [], []
    for path in paths:
        if not group and path.endswith(LIST):
            found += of_list(command, kinds, path)
        elif not group and os.path.isdir(path):
            found += of_folder(command, kinds, path)
        else:
            group.append(path)
        if len(group) == len(kinds):
            found += instances(command, given, Run(tuple(group), (), os.path.basename(group[0])))
            group = []
    if group:
        raise Refused(
            f"each {command.name} reads {' '.join(command.wanted(given))} at a time, and got {len(paths)} files"
        )
    return found


def of_folder(command, kinds, folder):
    """A run for each file below a folder whose name ends as the command's files do."""
    if len(kinds) > 1:
        raise Refused(f"{folder} is a folder, and {command.name} reads {len(kinds)} files at a time: list them, in a "
                      f"file that ends in {LIST}")
    endings = tuple(
        f".{ending}" for kind in (*kinds, *command.replaced.values()) if isinstance(kind, Kind)
        for ending in kind.endings
    )
    found = [
        os.path.join(place, name)
        for place, _, names in os.walk(folder, onerror=unread)
        for name in names
        if name.endswith(endings)
    ]
    if not found:
        raise Refused(f"{folder}: no file there ends in {' or '.join(dict.fromkeys(endings))}")
    return [
        run
        for path in sorted(found)
        for run in instances(command, {}, Run((path,), (), os.path.relpath(path, folder)))
    ]


def unread(error):
    raise Refused(f"{error.filename}: {error.strerror}")


def of_list(command, kinds, path):
    """The runs of a list."""
    folder, found = os.path.dirname(path), []
    try:
        with open(path, encoding="utf-8") as file:
            lines = file.read().splitlines()
    except (OSError, UnicodeDecodeError) as error:
        raise Refused(f"{title_of(path)}: {getattr(error, 'strerror', None) or 'this is no text in UTF-8'}") from None
    for row, line in enumerate(lines, 1):
        if not line.strip() or line.lstrip().startswith("#"):
            continue
        names, settings = parted(command, line, f"{title_of(path)}:{row}")
        if len(names) != len(kinds):
            raise Refused(
                f"{title_of(path)}:{row}: {command.name} reads {words.counted(kinds, 'file')}, "
                f"and here {'stands' if len(names) == 1 else 'stand'} {len(names)}"
            )
        found.append(Run(tuple(os.path.join(folder, name) for name in names), settings, place_of(names[0])))
    if not found:
        raise Refused(f"{title_of(path)}: this list names no file")
    return found


def place_of(name):
    """The path of a file from the folder of its list; of a file that is not below this folder, its name alone."""
    place = os.path.normpath(name)
    is_below = not os.path.isabs(place) and place.split(os.sep)[0] != os.pardir
    return place if is_below else os.path.basename(place)


def parted(command, line, place):
    """The names of files and the parameters on a line."""
    try:
        said = shlex.split(line, comments=True)
    except ValueError as error:
        raise Refused(f"{place}: this can't be taken apart: {str(error)[:1].lower()}{str(error)[1:]}") from None
    try:
        given, names = words.split(said, {SET.name: SET})
    except Refused as error:
        raise Refused(f"{place}: {error}") from None
    if given and SET not in command.all_flags:
        raise Refused(f"{place}: {command.name} has no flag {SET.name}")
    return names, tuple(value for _, value in given.get(SET.name, ()))


def instances(command, given, run):
    """The run, or one for each comment of its specification that has parameters."""
    path = run.files[0]
    if SET not in command.all_flags or SET.name in given or not os.path.isfile(path):
        return [run]
    if kind_of_file(path) is not Kind.SPECIFICATION:
        return [run]
    try:
        with open(path, "rb") as file:
            text = file.read()
    except OSError:
        # The run itself tells why the file can't be read.
        return [run]
    found = []
    for comment in INSTANCE.finditer(text):
        row = text.count(b"\n", 0, comment.start()) + 1
        place = f"{title_of(path)}:{row}"
        names, settings = parted(command, comment[1].decode("utf-8", "replace"), place)
        if names or not settings:
            raise Refused(f"{place}: `psyn:` wants {SET.shown} behind it")
        found.append(replace(run, settings=settings))
    return found or [run]
