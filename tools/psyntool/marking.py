"""Positions in texts as people read them: file, line and column, and the line with a mark below it."""

WIDTH = 100


def line_and_column(data, offset):
    """The line and the column of a byte, both counted from 1."""
    return data.count(b"\n", 0, offset) + 1, offset - data.rfind(b"\n", 0, offset)


def shown(data, offset, width=WIDTH):
    """The line that contains a byte, with a mark under the byte."""
    start = data.rfind(b"\n", 0, offset) + 1
    stop = data.find(b"\n", offset)
    line = data[start : len(data) if stop < 0 else stop].decode("utf-8", "replace").replace("\t", " ")
    column = len(data[start:offset].decode("utf-8", "replace"))
    cut = max(0, column - width // 2)
    printable = "".join(sign if sign.isprintable() else "?" for sign in line[cut : cut + width])
    return [f"  {printable}", "  " + " " * (column - cut) + "^"]


def placed(text, offset, what):
    """A message about a byte of the text: its file, line and column with the words `what`, and then the line of the
    file, with a mark below the byte."""
    at = text.place_in_file(offset)
    row, column = line_and_column(text.original, at)
    return [f"{text.name}:{row}:{column}: {what}", *shown(text.original, at)]
