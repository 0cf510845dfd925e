"""Pictures of automata."""
import html

from psyntool.pictures.dot import FONT, WIDTH, legend, quoted, within, wrapped

LONGEST_NAME_IN_A_CIRCLE = 8
# If more pairs of states than this have edges, one line without labels joins two states.
MOST_EDGES = 600
# A picture with more pairs of states than this that have edges is unreadable, and `dot` takes minutes for it.
MOST_JOINED = 2_000
# If more pairs of states than this have edges, labels go into tables at the states, so that no label covers another.
FEW_EDGES = 8
TABLE_WIDTH = 48
LINES = "a line stands for all edges of two states; with --reach N, fewer are drawn, with their labels"
FURTHER = "what lies further on is not drawn"


def picture(automaton, reach=None, has_legend=True):
    """States, and edges with their labels and acceptance sets or, if they are many, one line without labels for all
    edges of two states; the legend shows the acceptance condition and the owner of each proposition."""
    targets = {state: [edge.target for edge in automaton.edges.get(state, ())] for state in automaton.states}
    drawn = within("automaton", len(automaton.states), [automaton.start], targets.get, reach, "its start", MOST_JOINED)
    states = [state for state in automaton.states if drawn is None or state in drawn]
    between = {}
    for state in states:
        for edge in automaton.edges.get(state, ()):
            if drawn is None or edge.target in drawn:
                between.setdefault(state, {}).setdefault(edge.target, []).append(edge)
    count = sum(map(len, between.values()))
    notes = [LINES] * (count > MOST_EDGES) + [FURTHER] * (drawn is not None)
    lines = ["digraph automaton {", FONT, "  rankdir=LR; nodesep=0.3; ranksep=0.4;"]
    lines += [*([automaton_legend(automaton, notes)] if has_legend else []), "  node [shape=circle];"]
    lines += ["  begin [shape=point];", f"  begin -> s{automaton.start};"]
    if count > MOST_EDGES:
        lines += [state_line(state, automaton.state_names.get(state, "")) for state in states]
        lines += joined_lines(between)
    elif count <= FEW_EDGES:
        lines += [state_line(state, automaton.state_names.get(state, "")) for state in states]
        lines += [edge_line(automaton, source, *one) for source, targets in between.items() for one in targets.items()]
    else:
        lines += [state_table(automaton, state, between.get(state, {})) for state in states]
        lines += [
            f"  s{source}:t{target} -> s{target};"
            for source, targets in between.items()
            for target in targets
            if source != target
        ]
    return "\n".join([*lines, "}", ""])


def label_of(automaton, edge, width=WIDTH):
    """An edge's label, written with the names of propositions, and its acceptance sets."""
    marks = " ".join(map(str, sorted(edge.marks)))
    return wrapped(automaton.written(edge.label), "&|", width) + (f" {{{marks}}}" if marks else "")


def state_line(state, name):
    """A state is drawn as a circle with its number or, if its name is long, as a box."""
    if len(name) <= LONGEST_NAME_IN_A_CIRCLE:
        return f"  s{state} [label={quoted(f'{state} {name}'.strip())}];"
    said = f"{state}\n{wrapped(name, ',;')}"
    return f"  s{state} [shape=box, style=rounded, label={quoted(said)}];"


def edge_line(automaton, source, target, edges):
    label = "\n".join(label_of(automaton, edge) for edge in edges)
    return f"  s{source} -> s{target} [label={quoted(label)}];"


def joined_lines(between):
    """One line for all edges of two states, with an arrow for each way."""
    for source, targets in between.items():
        for target in targets:
            is_both = source in between.get(target, ())
            if not is_both or source <= target:
                yield f"  s{source} -> s{target}{' [dir=both]' * (is_both and source != target)};"


def state_table(automaton, state, targets):
    """A state as a table: its number and name, and a row for each target, with the labels of the edges that lead
    there."""
    head = html.escape(wrapped(automaton.title_of(state), ",;")).replace("\n", "<br/>")
    rows = [f'<tr><td bgcolor="lightgrey">{head}</td></tr>']
    for target, edges in targets.items():
        label = html.escape("\n".join(label_of(automaton, edge, TABLE_WIDTH) for edge in edges)).replace(
            "\n", '<br align="left"/>'
        )
        rows.append(
            f'<tr><td port="t{target}" align="left" balign="left">{label}<br align="left"/>   to {target}</td></tr>'
        )
    return (
        f'  s{state} [shape=plain, '
        f'label=<<table border="1" cellborder="0" cellspacing="0" cellpadding="3">{"".join(rows)}</table>>];'
    )


def automaton_legend(automaton, notes):
    owned = [", ".join(name for _, name in these) or "nothing" for these in automaton.owners()]
    rows = [("acceptance", automaton.acceptance, ""), ("environment", owned[0], ""), ("controller", owned[1], "")]
    if "controllable-AP:" not in automaton.headers:
        rows[1:] = [("propositions", owned[0], "")]
    if any(edge.marks for edges in automaton.edges.values() for edge in edges):
        rows.append(("{0}", "the edge is in set 0", ""))
    return legend([*rows, *(("", note, "") for note in notes)])
