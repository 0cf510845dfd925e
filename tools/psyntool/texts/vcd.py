"""A VCD file of what `sim` printed, with the circuit's names, for a wave viewer."""
import re

from psyntool.texts import Unreadable, in_unicode

SCOPES = (("latches", "l"), ("inputs", "i"), ("outputs", "o"))


def code_of(number):
    """A short VCD identifier of printable characters."""
    signs = ""
    while True:
        signs += chr(33 + number % 94)
        number //= 94
        if not number:
            return signs


def plain(name):
    """A name in the form that VCD allows: without blanks and signs that are not printed, and without `$` at its
    beginning, which marks VCD's keywords."""
    return re.sub(r"[\s\x00-\x1f\x7f-\x9f]|^\$", "_", in_unicode(name))


def declarations(scopes):
    """The VCD lines that declare the names of each scope, with identifiers numbered one after another."""
    lines, number = [], 0
    for scope, names in scopes:
        lines.append(f"$scope module {scope} $end")
        for name in names:
            lines.append(f"$var wire 1 {code_of(number)} {plain(name)} $end")
            number += 1
        lines.append("$upscope $end")
    return lines


def wave(circuit, trace, lap_from=None):
    """The VCD text of the values of latches, inputs and outputs, with one unit of time for each letter. For a lasso, a
    further signal says whether the lap has begun."""
    scopes = [(scope, circuit.names(kind)) for scope, kind in SCOPES]
    counts = [len(names) for _, names in scopes]
    rows = [row.split("|") for row in trace.split("\n")[:-1]]
    for time, row in enumerate(rows):
        if [len(part) for part in row] != counts:
            raise Unreadable(f"line {time + 1} of the trace is not one of this circuit: {'|'.join(row)[:60]!r}")
    scopes += [] if lap_from is None else [("lasso", ["lap"])]
    lines = [
        "$timescale 1 ns $end",
        "$scope module circuit $end",
        *declarations(scopes),
        "$upscope $end",
        "$enddefinitions $end",
    ]
    before = None
    for time, row in enumerate(rows):
        values = "".join(row) + ("" if lap_from is None else str(int(time >= lap_from)))
        lines.append(f"#{time}")
        lines += [
            f"{value}{code_of(place)}" for place, value in enumerate(values) if before is None or before[place] != value
        ]
        before = values
    return "\n".join([*lines, f"#{len(rows)}", ""])
