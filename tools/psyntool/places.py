"""Where the tool's files are: in the repository, in an unpacked archive, or in an installation; and the tool's name
there."""
import os

TOP = os.path.dirname(os.path.dirname(os.path.dirname(os.path.realpath(__file__))))
IS_REPOSITORY = os.path.isdir(os.path.join(TOP, "crates"))
IS_INSTALLED = not os.path.isfile(os.path.join(TOP, "tools", "install"))
NAME = "psyn" if IS_INSTALLED else "tools/psyn"
# The path of the program: where `rt run` builds it, or where it is installed.
PROGRAM = os.path.join(TOP, "crates", "psyn", "out", "psyn") if IS_REPOSITORY else os.path.join(TOP, "psyn")
HOW_TO_HAVE_IT = "run `rt run < stdin` in crates/psyn once" if IS_REPOSITORY else "unpack or install psyn once more"


def stored(*path):
    """The contents of a file of the repository, or of the installed tool; empty if it does not exist."""
    try:
        with open(os.path.join(TOP, *path), encoding="utf-8") as file:
            return file.read()
    except OSError:
        return ""
