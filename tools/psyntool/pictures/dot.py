"""What all pictures in Graphviz DOT share: quoting, legends, and the choice of the vertices to draw."""
import html
import math
import re
from collections import Counter

from psyntool.ends import Refused

# Without the limits `nslimit` and `nslimit1`, `dot` can take minutes for a graph with edge labels.
FONT = "  graph [fontname=Helvetica, nslimit=2, nslimit1=2]; node [fontname=Helvetica]; edge [fontname=Helvetica];"
WIDTH = 28
# A picture with more vertices than this is unreadable, and `dot` takes minutes for it.
MOST = 400


def quoted(text):
    """A string in quotes for DOT; `&` is escaped where Graphviz would read an HTML entity such as `&amp;`."""
    text = re.sub(r"&(?=#?\w+;)", "&amp;", text)
    return '"' + text.replace("\\", "\\\\").replace('"', '\\"').replace("\n", "\\n") + '"'


def legend(rows):
    """A legend beside the picture: for each sign its meaning and, if not empty, its colour."""
    cells = []
    for sign, meaning, colour in rows:
        shade = f' bgcolor="{colour}"' if colour else ""
        said = [html.escape(part) for part in (sign, meaning)]
        cells.append(f'<tr><td align="left"{shade}>{said[0]}</td><td align="left">{said[1]}</td></tr>')
    return (
        f'  labelloc=t; labeljust=l; label=<<table border="0" cellborder="0" cellspacing="2">{"".join(cells)}</table>>;'
    )


def wrapped(text, ends, width=WIDTH):
    """The text broken into lines of at most `width` characters, after blanks or the given characters."""
    lines, line = [], ""
    for part in re.findall(rf"[^{ends} ]*[{ends} ]*", text):
        if line and len((line + part).rstrip()) > width:
            lines.append(line.rstrip())
            line = ""
        line += part
    return "\n".join(filter(None, [*lines, line.rstrip()]))


def levels(begins, successors):
    """A dictionary from each vertex that can be reached from `begins` to the smallest number of steps to it."""
    found, now, steps = dict.fromkeys(begins, 0), list(begins), 0
    while now:
        steps += 1
        now = list(dict.fromkeys(after for one in now for after in successors(one) if after not in found))
        found.update(dict.fromkeys(now, steps))
    return found


def most_steps(found, successors, most_edges):
    """The greatest number of steps in which so few vertices can be reached, and so few edges lead from them, that they
    fit in a picture."""
    counts, edges, total, links = Counter(found.values()), Counter(), 0, 0
    for one, steps in found.items():
        edges[steps] += len(set(successors(one)))
    for steps in sorted(counts):
        total, links = total + counts[steps], links + edges[steps]
        if total > MOST or links > most_edges:
            return max(0, steps - 1)
    return max(counts, default=0)


def within(what, count, begins, successors, reach, begin, most_edges=math.inf):
    """The vertices that a picture shows: those that can be reached from `begins` in at most `reach` steps, or None for
    all. A picture of too many vertices or edges is refused."""
    found = levels(begins, successors)
    drawn = {one for one, steps in found.items() if reach is None or steps <= reach}
    edges = sum(len(set(successors(one))) for one in drawn)
    if edges <= most_edges and (count if reach is None else len(drawn)) <= MOST:
        return None if reach is None else drawn
    fitting = most_steps(found, successors, most_edges)
    has = f"this {what} has {count} vertices" if reach is None else f"--reach {reach} draws {len(drawn)} vertices"
    most = MOST
    if edges > most_edges:
        has, most = has.replace("vertices", f"vertices and {edges} edges"), f"{most_edges} edges"
    raise Refused(
        f"{has}, and a picture of more than {most} can't be read: "
        f"--reach {fitting} draws what so many steps from {begin} reach"
    )
