"""Smaller circuits that win too: the program's answers to `shrink`, and what abc makes of a circuit before."""
import os
import shutil
import tempfile
from dataclasses import dataclass, replace

from psyntool import asking, children, console, files, program, signals
from psyntool.command import ABC, ENV, MOORE, TLSF
from psyntool.ends import Refused, Stopped, TimeUp, Unwritten
from psyntool.files import Text
from psyntool.kinds import Kind
from psyntool.texts import binary, circuit, report

NAMES = ("abc", "berkeley-abc", "yosys-abc")
# abc can't handle latches with reset value 1, so the command `zero` inverts them.
SCRIPT = "read_aiger before.aig; zero; strash; scorr; scleanup; dc2; dc2; dc2; write_aiger -s after.aig"


def abc_of(request):
    """The name of the installed abc if the request asks for it, else None."""
    if not request.has(ABC):
        return None
    found = next((name for name in NAMES if shutil.which(name)), None)
    if found is None:
        raise Refused(f"{request.command.name} {ABC.name} needs abc: none of {', '.join(NAMES)} is installed")
    return found


def with_abc(abc, text):
    """The text of the circuit that abc makes of a circuit, or the circuit's own text if abc makes it no smaller."""
    before = circuit.read(text.string)
    # a circuit with neither gates nor latches is not given to abc, which would refuse it
    after = by_abc(abc, before) if size(before) > (0, 0) else before
    if size(after) >= size(before):
        return text
    return Text(Kind.CIRCUIT, f"the circuit of {abc}", after.text().encode("utf-8", "surrogateescape"))


def by_abc(abc, made):
    """The circuit that abc makes of a circuit, without the latch symbols and the comment, which abc invents."""
    with tempfile.TemporaryDirectory() as room:
        with open(os.path.join(room, "before.aig"), "wb") as file:
            file.write(binary.binary_form(made))
        with open(os.devnull, "r+b") as nowhere:
            status = children.run([abc, "-q", SCRIPT], cwd=room, stdin=nowhere, stdout=nowhere, stderr=nowhere)
        path = os.path.join(room, "after.aig")
        if status or not os.path.isfile(path):
            raise Unwritten(f"{abc} {children.ended(status)}, and wrote no circuit")
        with open(path, "rb") as file:
            after = circuit.read(binary.ascii_form(file.read()).decode("utf-8", "surrogateescape"))
    symbols = {place: name for place, name in after.symbols.items() if place[0] != "l"}
    return replace(after, symbols=symbols, comment="")


def size(made):
    return len(made.gates), len(made.latches)


def sizes_told(before, after):
    """A line with the numbers of gates and latches of two texts of circuits."""
    (gates, latches), (fewer, left) = (
        size(circuit.read(text.decode("utf-8", "surrogateescape"))) for text in (before, after)
    )
    return f"gates: {gates} before, {fewer} after; latches: {latches} before, {left} after"


def circuit_of(answer, passed):
    """The text of the circuit that an answer of `synth` has, and the flags by which `shrink` reads it; `passed` are
    those of `synth`, for an automaton or for a specification."""
    printed = report.read(answer.bytes.decode("utf-8", "surrogateescape")).parts[0]
    given = Text(Kind.CIRCUIT, "the circuit", printed.encode("utf-8", "surrogateescape"))
    flags = [name for name in passed if name in (MOORE.name, TLSF.name)]
    return given, [*([ENV.name] if answer.status == 20 else []), *flags]


def of_answer(specified, answer, passed):
    """The program's answer to `shrink` of the circuit that an answer of `synth` has."""
    given, flags = circuit_of(answer, passed)
    return program.ask(files.joined("shrink", flags, [specified, given]))


def is_circuit(answer):
    """Whether an answer of `shrink` is a circuit, which wins."""
    return asking.is_had(answer) and answer.bytes.startswith(b"aag ")


# ---- rounds


@dataclass(frozen=True)
class Found:
    """What rounds of `shrink` made of a circuit: its text, their number, and why they ended early, or nothing."""

    text: Text
    rounds: int
    why: str


def in_rounds(flags, specified, given):
    """The circuit that `shrink` makes of a circuit that wins, in rounds, each from what the one before it made. They
    end if one makes it no smaller; if no time is left or a signal stops them, what is there is kept."""
    now, count, is_smaller, why = given, 0, True, ""
    try:
        while is_smaller:
            answer = program.ask(files.joined("shrink", flags, [specified, now]), f"shrink, round {count + 1}")
            if not is_circuit(answer):
                why = f"shrink: {answer.died or answer.text.partition(chr(10))[0]}"
                break
            is_smaller = sizes(answer.bytes) < sizes(now.bytes)
            if is_smaller or not count:
                now, count = Text(Kind.CIRCUIT, given.name, answer.bytes), count + 1
    except TimeUp as error:
        why = str(error)
    except Stopped as stop:
        signals.pending = stop
        why = signals.WORDS[stop.number]
    return Found(now, count, why)


def sizes(text):
    return size(circuit.read(text.decode("utf-8", "surrogateescape")))


def tell(request, given, found):
    """Tells what the rounds made of a circuit, and whether they ended early."""
    if found.why:
        which = f"is that of round {found.rounds}" if found.rounds else "stays as it is"
        console.tell(f"psyn: the circuit {which}: {found.why}")
    if found.rounds and not request.quiet:
        console.tell(sizes_told(given.bytes, found.text.bytes) + f"; rounds: {found.rounds}" * (found.rounds > 1))


def in_answer(request, specified, answer, passed):
    """An answer of `synth` with a smaller circuit in place of its own; `passed` are the flags of `synth`. If the
    program gives none, standard error says why, and the answer stays as it is."""
    if not asking.is_had(answer):
        return answer
    given, flags = circuit_of(answer, passed)
    found = in_rounds(flags, specified, given)
    tell(request, given, found)
    return replace(answer, bytes=answer.bytes.replace(given.bytes, found.text.bytes, 1))
