"""Writes circuits as functions of C99, which allocate nothing."""
import re

from psyntool.equations import telling
from psyntool.equations.reading import Names, Scope, equations
from psyntool.equations.terms import And, Or, Xor, names_in
from psyntool.equations.writing import Signs, written
from psyntool.texts.verilog import left_out, shown, told

# The words that no identifier of C may be, of C++ too, and those that this text uses itself.
TAKEN = frozenset(
    """
    alignas alignof and and_eq asm auto bitand bitor bool break case catch char class compl const constexpr const_cast
    continue decltype default delete do double dynamic_cast else enum explicit export extern false float for friend goto
    if inline int long mutable namespace new noexcept not not_eq nullptr operator or or_eq private protected public
    register reinterpret_cast restrict return short signed sizeof static static_assert static_cast struct switch
    template this thread_local throw true try typedef typeid typename union unsigned using virtual void volatile
    wchar_t while xor xor_eq inputs outputs state old unused
    """.split()
)
PLAIN = re.compile(r"[A-Za-z][A-Za-z0-9_]*")


class Identifiers(Scope):
    """The names of inputs, outputs, registers and wires, all different."""

    def __init__(self):
        super().__init__()
        self.taken |= TAKEN
        self.changed = []

    def new(self, wanted):
        return super().new(plain(wanted))

    def field(self, kind, wanted):
        """The name of an input or output; if it is not the wanted one, a comment will say so."""
        name = self.new(wanted)
        if name != wanted:
            self.changed.append(f"The {kind} {name} is {shown(wanted)!r} in the circuit.")
        return name


def plain(name):
    """An identifier that is as near as possible to a name. One that begins with `_` would be the compiler's."""
    changed = re.sub(r"[^A-Za-z0-9_]", "_", name)
    return changed if PLAIN.fullmatch(changed) else f"x{changed}" if changed.startswith("_") else f"x_{changed}"


def source(made, title, about=(), remarks=None):
    """The source text of a circuit, whose variables must each be defined once.

    `about` has lines for the comment above it, and `remarks` has further lines for an output, by its name.
    """
    scope = Identifiers()
    inputs, outputs = (tuple(scope.field(kind, name) for name in made.names(kind[0])) for kind in ("input", "output"))
    latches = tuple(scope.new(name) for name in made.names("l"))
    wires = {gate.literal // 2: scope.new(f"n{gate.literal // 2}") for gate in made.gates}
    said = equations(made, Names(inputs, latches, outputs, wires.__getitem__))
    title = plain(title)
    registers = [register.name for register in said.registers]
    signs = signs_of(inputs, outputs, registers)
    head = [*about, *scope.changed, *left_out(latches, said.registers)]
    lines = [
        *commented(head, ""),
        "#include <stdbool.h>",
        "",
        *structure(title, "state", registers),
        *structure(title, "inputs", inputs),
        *structure(title, "outputs", outputs),
        *beginning(title, said.registers),
        *step(title, said, inputs, signs, comments_of(made, said, inputs, remarks or {})),
    ]
    return "\n".join([*lines, ""])


def signs_of(inputs, outputs, registers):
    """How terms are written in the function of a step."""
    places = {
        **{name: f"inputs->{name}" for name in inputs},
        **{name: f"outputs->{name}" for name in outputs},
        **{name: f"old.{name}" for name in registers},
    }
    operators = {And: " && ", Or: " || ", Xor: " != "}
    return Signs(lambda name: places.get(name, name), ("false", "true"), "!", operators, "{} ? {} : {}")


def commented(lines, margin):
    """Lines as comments; one that would end a comment is parted there."""
    return [f"{margin}/* {shown(line).replace('*/', '* /').replace('/*', '/ *')} */" for line in lines]


def structure(title, kind, names):
    """A type with a truth value for each name. A type of C has at least one."""
    fields = [f"  bool {name};" for name in names] or ["  bool unused;"]
    return ["typedef struct {", *fields, f"}} {title}_{kind};", ""]


def beginning(title, registers):
    """The function that gives the registers their first values."""
    firsts = [f"  state->{it.name} = {'true' if it.first else 'false'};" for it in registers]
    return [
        *commented(["The first step comes next."], ""),
        f"void {title}_init({title}_state *state);",
        f"void {title}_init({title}_state *state)",
        "{",
        *(firsts or ["  state->unused = false;"]),
        "}",
        "",
    ]


def comments_of(made, said, inputs, remarks):
    """The comment of each output."""
    phrases = telling.phrases(made, said)
    return {
        port: [told(port, phrases.get(port), said.sources[port], inputs), *remarks.get(name, ())]
        for (port, _), name in zip(said.outputs, made.names("o"))
    }


def step(title, said, inputs, signs, comments):
    """The function of a step: the outputs for inputs, and the next values of the registers."""
    defined = {**dict(said.wires), **dict(said.outputs)}
    body = []
    for name in ordered(defined):
        text = written(defined[name], signs)
        if name in comments:
            body += [*commented(comments[name], "  "), f"  outputs->{name} = {text};"]
        else:
            body.append(f"  const bool {name} = {text};")
    body += [f"  state->{it.name} = {written(it.next, signs)};" for it in said.registers]
    terms = [*defined.values(), *(it.next for it in said.registers)]
    read = {name for term in terms for name in names_in(term)}
    kept = [f"  const {title}_state old = *state;"] if read & {it.name for it in said.registers} else []
    used = {"state": said.registers, "inputs": read & set(inputs), "outputs": said.outputs}
    unread = [f"  (void){name};" for name, uses in used.items() if not uses]
    head = f"void {title}_step({title}_state *state, const {title}_inputs *inputs, {title}_outputs *outputs)"
    comment = commented(["One step: the outputs that answer the inputs."], "")
    return [*comment, f"{head};", head, "{", *kept, *unread, *body, "}"]


def ordered(defined):
    """The names, each behind those that its term reads."""
    order, found = [], set()
    for first in defined:
        waiting = [first]
        while waiting:
            name = waiting[-1]
            before = [other for other in names_in(defined[name]) if other in defined and other not in found]
            if name in found or not before:
                waiting.pop()
                order += [name] if name not in found else []
                found.add(name)
            else:
                waiting += before
    return order

