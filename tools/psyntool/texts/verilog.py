"""Writes circuits as modules of Verilog, which synthesis tools read."""
import re

from psyntool.equations import telling
from psyntool.equations.reading import Names, Scope, equations
from psyntool.equations.terms import And, Or, Xor
from psyntool.equations.writing import Signs, written
from psyntool.texts import assertions

# The words that no plain identifier of Verilog-2005 or of SystemVerilog-2017 may be.
KEYWORDS = frozenset(
    """
    accept_on alias always always_comb always_ff always_latch and assert assign assume automatic before begin bind bins
    binsof bit break buf bufif0 bufif1 byte case casex casez cell chandle checker class clocking cmos config const
    constraint context continue cover covergroup coverpoint cross deassign default defparam design disable dist do edge
    else end endcase endchecker endclass endclocking endconfig endfunction endgenerate endgroup endinterface endmodule
    endpackage endprimitive endprogram endproperty endsequence endspecify endtable endtask enum event eventually expect
    export extends extern final first_match for force foreach forever fork forkjoin function generate genvar global
    highz0 highz1 if iff ifnone ignore_bins illegal_bins implements implies import incdir include initial inout input
    inside instance int integer interconnect interface intersect join join_any join_none large let liblist library local
    localparam logic longint macromodule matches medium modport module nand negedge nettype new nexttime nmos nor
    noshowcancelled not notif0 notif1 null or output package packed parameter pmos posedge primitive priority program
    property protected pull0 pull1 pulldown pullup pulsestyle_ondetect pulsestyle_onevent pure rand randc randcase
    randsequence rcmos real realtime ref reg reject_on release repeat restrict return rnmos rpmos rtran rtranif0
    rtranif1 s_always s_eventually s_nexttime s_until s_until_with scalared sequence shortint shortreal showcancelled
    signed small soft solve specify specparam static string strong strong0 strong1 struct super supply0 supply1
    sync_accept_on sync_reject_on table tagged task this throughout time timeprecision timeunit tran tranif0 tranif1
    tri tri0 tri1 triand trior trireg type typedef union unique unique0 unsigned until until_with untyped use uwire var
    vectored virtual void wait wait_order wand weak weak0 weak1 while wildcard wire with within wor xnor xor
    """.split()
)
PLAIN = re.compile(r"[A-Za-z_][A-Za-z0-9_$]*")
# What neither a plain identifier has, nor one that a backslash begins and a blank ends.
NEVER = re.compile(r"[^!-~]")
CLOCK, RESET = "clk", "reset"


def identifier(name):
    """A name as an identifier: as it is, or between a backslash and a blank."""
    return name if PLAIN.fullmatch(name) and name not in KEYWORDS else f"\\{name} "


SIGNS = Signs(identifier, ("1'b0", "1'b1"), "~", {And: " & ", Or: " | ", Xor: " ^ "}, "{} ? {} : {}")


class Ports(Scope):
    """The names of a module, as they are without the backslash and the blank."""

    def __init__(self):
        super().__init__()
        self.changed = []

    def new(self, wanted):
        return super().new(NEVER.sub("_", wanted) or "_")

    def port(self, kind, wanted):
        """The name of an input or output; if it is not the wanted one, a comment will say so."""
        name = self.new(wanted)
        if name != wanted:
            self.changed.append(f"The {kind} {name} is {shown(wanted)!r} in the circuit.")
        return name


def shown(line):
    """A line as a comment can have it: with a blank in place of what is no letter, digit or sign."""
    return "".join(sign if sign.isprintable() else " " for sign in line)


def module(made, title, about=(), remarks=None, asserted=None):
    """The module of a circuit, whose variables must each be defined once.

    `about` has lines for the comment above it, and `remarks` has further lines for an output, by its name. The
    sentences of the specification `asserted` become assertions; the module then has a clock in any case.
    """
    scope = Ports()
    inputs, outputs = (tuple(scope.port(kind, name) for name in made.names(kind[0])) for kind in ("input", "output"))
    clocks = (scope.new(CLOCK), scope.new(RESET))
    latches = tuple(scope.new(name) for name in made.names("l"))
    wires = {gate.literal // 2: scope.new(f"n{gate.literal // 2}") for gate in made.gates}
    said = equations(made, Names(inputs, latches, outputs, wires.__getitem__))
    clocks = clocks if said.registers or asserted else ()
    ports = [*(("input", name) for name in (*clocks, *inputs)), *(("output", name) for name in outputs)]
    body = [
        *declared(said),
        *assigned(made, said, inputs, remarks or {}),
        *(clocked(said.registers, *clocks) if said.registers else []),
        *(asserting(made, asserted, (*inputs, *outputs), clocks, scope) if asserted else []),
    ]
    about = [*about, *timing(clocks if said.registers else ()), *scope.changed, *left_out(latches, said.registers)]
    lines = [f"// {shown(line)}" for line in about]
    return "\n".join(
        [*lines, *heading(plain(title), ports), *(f"  {line}" if line else "" for line in body), "endmodule", ""]
    )


def asserting(made, basic, ports, clocks, scope):
    """The assertions of a specification in the names of the module's ports."""
    names = dict(zip([*made.names("i"), *made.names("o")], map(identifier, ports)))
    clock, reset = map(identifier, clocks)
    lines = assertions.block(basic, names.__getitem__, clock, reset, lambda name: identifier(scope.new(name)))
    return [f"// {shown(line[3:])}" if line.startswith("// ") else line for line in lines]


def plain(title):
    """A plain identifier that is as near as possible to a title."""
    name = re.sub(r"[^A-Za-z0-9_]", "_", title)
    return name if PLAIN.fullmatch(name) and name not in KEYWORDS else f"m_{name}"


def text(term):
    return written(term, SIGNS)


def timing(clocks):
    """What the comment above a module says about its clock and its reset."""
    if not clocks:
        return ["There is no register, and so no clock."]
    return ["A rising edge of {} ends a step. If {} is 1 there, the next step is the first one.".format(*clocks)]


def left_out(latches, registers):
    kept = {register.name for register in registers}
    names = [name for name in latches if name not in kept]
    return (
        [f"No output depends on {', '.join(names)}, which {'is' if len(names) == 1 else 'are'} left out."]
        if names
        else []
    )


def heading(name, ports):
    """The lines up to the end of the list of ports."""
    lines = [f"  {way} wire {identifier(port)}" for way, port in ports]
    return (
        [f"module {name} (", *(f"{line}," for line in lines[:-1]), lines[-1], ");"] if ports else [f"module {name} ();"]
    )


def declared(said):
    """The registers, and the wires with their terms."""
    registers = [f"reg {identifier(it.name)} = 1'b{it.first};" for it in said.registers]
    return [*registers, *(f"wire {identifier(name)} = {text(term)};" for name, term in said.wires)]


def assigned(made, said, inputs, remarks):
    """The outputs, each behind an empty line and its comment."""
    lines, phrases = [], telling.phrases(made, said)
    for (port, term), name in zip(said.outputs, made.names("o")):
        comment = [told(port, phrases.get(port), said.sources[port], inputs), *remarks.get(name, ())]
        lines += ["", *(f"// {shown(line)}" for line in comment), f"assign {identifier(port)} = {text(term)};"]
    return lines


def told(port, phrase, sources, inputs):
    """What an output is, or what it is computed from."""
    if phrase:
        return f"{port} is {phrase}."
    sides = [[name for name in sources if (name in inputs) == is_input] for is_input in (True, False)]
    said = [
        f"the {title}{'s' * (len(names) > 1)} {', '.join(names)}"
        for title, names in zip(("input", "register"), sides)
        if names
    ]
    return f"{port} is computed from {' and '.join(said)}."


def clocked(registers, clock, reset):
    """The block that moves the registers to their next values."""
    firsts = [f"    {identifier(it.name)} <= 1'b{it.first};" for it in registers]
    nexts = [f"    {identifier(it.name)} <= {text(it.next)};" for it in registers]
    return [
        "",
        f"always @(posedge {identifier(clock)})",
        f"  if ({identifier(reset)}) begin",
        *firsts,
        "  end else begin",
        *nexts,
        "  end",
    ]
