"""Pictures of circuits."""
from psyntool.pictures.dot import FONT, legend, quoted, within

LEGEND = [
    ("triangle down", "an input", ""),
    ("box", "a latch, which holds a bit from one step to the next", ""),
    ("circle", "a gate: both of its sides are true", ""),
    ("triangle up", "an output", ""),
    ("dashed edge", "negated", ""),
    ("grey edge", "what the latch holds in the next step", ""),
]
# In a picture with more gates than this, gates are drawn as small dots.
FEW_GATES = 60


def picture(circuit, reach=None):
    """Inputs are drawn as triangles, latches as boxes, and gates as circles; the edge of a negated literal is
    dashed."""
    sides = {gate.literal // 2: [side // 2 for side in gate.sides] for gate in circuit.gates}
    sides |= {latch.literal // 2: [latch.next // 2] for latch in circuit.latches}
    count = len(circuit.inputs) + len(sides) + len(circuit.outputs)
    begins = list(dict.fromkeys(literal // 2 for literal in circuit.outputs))
    drawn = within("circuit", count, begins, lambda one: sides.get(one, ()), reach, "the outputs")

    def is_drawn(literal):
        return drawn is None or literal // 2 in drawn

    gates = [gate for gate in circuit.gates if is_drawn(gate.literal)]
    latches = [(place, latch) for place, latch in enumerate(circuit.latches) if is_drawn(latch.literal)]
    rows = [*LEGEND, *([("..", "what lies before it is not drawn", "")] if drawn is not None else [])]
    lines = ["digraph circuit {", FONT, "  rankdir=BT;", legend(rows)]
    for place, literal in enumerate(circuit.inputs):
        if is_drawn(literal):
            lines.append(f"  n{literal // 2} [shape=invtriangle, label={quoted(circuit.name_of('i', place))}];")
    lines += [
        f"  n{latch.literal // 2} [shape=box, label={quoted(circuit.name_of('l', place))}];" for place, latch in latches
    ]
    small = ", width=0.15, height=0.15, fixedsize=true" if len(gates) > FEW_GATES else ""
    lines += [
        f"  n{gate.literal // 2} [shape=circle, label={quoted('' if small else str(gate.literal // 2))}{small}];"
        for gate in gates
    ]
    used = [*circuit.outputs, *(latch.next for _, latch in latches), *(side for gate in gates for side in gate.sides)]
    if any(literal < 2 for literal in used):
        lines.append('  n0 [shape=plaintext, label="0"];')
    for gate in gates:
        lines += wires(gate.sides, f"n{gate.literal // 2}", is_drawn)
    for _, latch in latches:
        lines += wires([latch.next], f"n{latch.literal // 2}", is_drawn, "constraint=false, color=grey40")
    for place, literal in enumerate(circuit.outputs):
        lines.append(f"  o{place} [shape=triangle, label={quoted(circuit.name_of('o', place))}];")
        lines += wires([literal], f"o{place}", is_drawn)
    return "\n".join([*lines, "}", ""])


def wires(literals, target, is_drawn, more=""):
    """The edges from literals to the gates, latches and outputs that read them. In place of a literal that is not
    drawn, the picture shows `..`."""
    lines = []
    for place, literal in enumerate(literals):
        begin = f"n{literal // 2}"
        if literal > 1 and not is_drawn(literal):
            begin = f"before_{target}_{place}"
            lines.append(f'  {begin} [shape=plaintext, label=".."];')
        style = ", ".join(filter(None, ["style=dashed" if literal % 2 else "", more]))
        lines.append(f"  {begin} -> {target}{f' [{style}]' if style else ''};")
    return lines
