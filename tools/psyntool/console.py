"""Reads and writes the standard streams by their descriptors, without buffers that could still hold data when the tool
ends."""
import errno
import os

from psyntool.ends import Refused, Unwritten

INPUT, OUTPUT, ERROR = 0, 1, 2
STEP = 1 << 20
# More than the program reads.
MOST = (1 << 26) + 1
# A list that keeps what would go to standard output, or None.
kept = None
# What was read of standard input to see what it is, and is read again.
ahead = b""


def fill_closed():
    """Opens /dev/null in place of each closed standard stream, so that no file that is opened later gets the stream's
    descriptor. Standard input is opened for writing and standard output for reading, so that each use of them fails.
    What is written to a closed standard error is lost."""
    for number, way in ((INPUT, os.O_WRONLY), (OUTPUT, os.O_RDONLY), (ERROR, os.O_WRONLY)):
        try:
            os.fstat(number)
        except OSError:
            os.open(os.devnull, way)


def is_terminal():
    """Whether standard error is a terminal."""
    return os.isatty(ERROR)


def tell(*lines):
    """Writes lines to standard error; errors of writing are ignored."""
    put("".join(f"{line}\n" for line in lines))


def put(text):
    try:
        os.write(ERROR, text.encode("utf-8", "backslashreplace"))
    except OSError:
        pass


def write(answer):
    """Writes all given bytes to standard output, or keeps them."""
    if kept is not None:
        kept.append(bytes(answer))
        return
    rest = memoryview(answer)
    while rest:
        try:
            rest = rest[os.write(OUTPUT, rest[:STEP]) :]
        except OSError as error:
            told = {errno.EPIPE: "", errno.EBADF: "standard output is closed"}
            raise Unwritten(told.get(error.errno, f"the answer could not be written whole: {error.strerror}")) from None


def write_text(text):
    write(text.encode("utf-8", "surrogateescape"))


def lines():
    """The lines that are typed on standard input, with surrounding blanks removed."""
    rest, is_open = b"", True
    while is_open:
        part = read_some(STEP)
        is_open = bool(part)
        *whole, rest = (rest + part).split(b"\n")
        yield from (line.decode("utf-8", "replace").strip() for line in whole)
    if rest:
        yield rest.decode("utf-8", "replace").strip()


def beginning(most, suffices):
    """The first bytes of standard input, which stay to be read: `most` of them, or as many as suffice."""
    global ahead
    found = ahead
    while len(found) < most and not suffices(found):
        ahead = b""
        part = read_some(most - len(found))
        found += part
        ahead = found
        if not part:
            break
    return found


def read_ahead():
    """Reads standard input, up to what no command reads more of; it stays to be read."""
    global ahead
    ahead = read(MOST)


def read_some(most):
    """Reads at most `most` bytes that standard input has now; returns no bytes at the end of the input."""
    global ahead
    if ahead:
        part, ahead = ahead[:most], ahead[most:]
        return part
    try:
        return os.read(INPUT, most)
    except OSError as error:
        raise Refused(
            "standard input is closed" if error.errno == errno.EBADF else f"standard input: {error.strerror}"
        ) from None


def read(most):
    """Reads `most` bytes of standard input, or all of it if it is shorter."""
    parts, left = [], most
    while left:
        part = read_some(min(STEP, left))
        if not part:
            break
        parts.append(part)
        left -= len(part)
    return b"".join(parts)
