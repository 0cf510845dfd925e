"""Draws the dependency graph of the crates in docs/architecture.md from crates.txt."""
import os
import re

from upkeep.sweeps import TOP

LISTED = os.path.join(TOP, "crates.txt")
DRAWN = os.path.join(TOP, "docs", "architecture.md")
FENCE = re.compile(r"(```text crates\n)(.*?)(```\n)", re.DOTALL)
WIDTH = 20


class Unread(Exception):
    """The text is not a list of crates, or the page has no place for the drawing."""


def crates_in(text):
    """The crates of the repository, each with the crates that it depends on."""
    lists = {}
    for line in text.splitlines():
        said = line.partition("#")[0].strip()
        if said:
            name, colon, below = said.partition(":")
            if not colon or name.strip() in lists:
                raise Unread(f"crates.txt: no crate of its own: {line}")
            lists[name.strip()] = below.split()
    return {name: [it for it in below if it in lists] for name, below in lists.items()}


def heights(below):
    """For each crate the length of the longest chain of dependencies below it."""
    height = {}
    while len(height) < len(below):
        ready = [it for it in below if it not in height and all(low in height for low in below[it])]
        if not ready:
            raise Unread("crates.txt: some crates stand on each other")
        height.update({it: 1 + max((height[low] for low in below[it]), default=-1) for it in ready})
    return height


def stood_on(below):
    """The dependencies of each crate, without those that are also dependencies of another dependency."""
    height, under = heights(below), {}
    for name in sorted(below, key=height.get):
        under[name] = set(below[name]).union(*(under[it] for it in below[name]))
    return {name: [it for it in lows if not any(it in under[other] for other in lows)] for name, lows in below.items()}


def drawing(text):
    """A line for each crate, with the longest chain of dependencies first: the crate's name and its dependencies."""
    below = crates_in(text)
    height, direct = heights(below), stood_on(below)
    names = sorted(below, key=lambda it: (-height[it], it))
    return "".join(f"{name:{WIDTH}}{' '.join(sorted(direct[name]))}".rstrip() + "\n" for name in names)


def redrawn(page, text):
    """The page with the new drawing in place of the old one."""
    if len(FENCE.findall(page)) != 1:
        raise Unread("docs/architecture.md: no fence, or more than one, begins with ```text crates")
    return FENCE.sub(lambda found: found[1] + drawing(text) + found[3], page)
