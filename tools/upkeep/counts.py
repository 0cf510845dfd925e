"""Counts how many tests ran, and compares them with examples/rows/COUNTS.toml, so that a test that did not run is
noticed."""
import os
import tomllib

from upkeep.sweeps import TOP

STORED = os.path.join(TOP, "examples", "rows", "COUNTS.toml")
RAN = {}
LEFT_OUT = set()


def ran(table, name, count):
    """Records how many tests of a kind ran."""
    RAN.setdefault(table, {})[name] = count


def left_out(table, name):
    """Records that tests of a kind can't run here, because a program that does not belong to psyn is missing."""
    LEFT_OUT.add((table, name))


def report():
    """A line for each kind of tests, and whether as many ran as COUNTS.toml says."""
    with open(STORED, "rb") as file:
        stored = tomllib.load(file)
    lines, are_all = [], True
    for table in sorted({*RAN, *stored}):
        ran_here, wanted = RAN.get(table, {}), stored.get(table, {})
        for name in sorted({*ran_here, *wanted}):
            count, of = ran_here.get(name, 0), wanted.get(name, 0)
            is_left_out = (table, name) in LEFT_OUT
            are_all = are_all and (is_left_out or count == of)
            lines.append(f"{table}: {'left out' if is_left_out else count} of {of} {name}")
    return lines, are_all
