"""`verify`: whether the automaton accepts each lasso trace of a controller's circuit, or no lasso trace of an
environment's circuit; or whether they satisfy a specification. If the circuit loses, the output has a stimulus on which
it loses, and the run on this stimulus step by step."""
import os

from psyntool import asking, console, files, outputs, program
from psyntool.command import ENV, STIMULUS, WAVE
from psyntool.ends import Refused
from psyntool.kinds import Kind


def run(request):
    flags = checked(request)
    if request.quiet and not flags:
        return asking.run(request)
    texts = request.texts()
    outputs.refuse_read(request, [request.value(flag) for flag in flags])
    return hand_on(request, texts, program.ask(files.joined("verify", request.passed, texts)))


def checked(request):
    """The flags that name files for what is known of a circuit that loses, after a check that these can be written."""
    flags = [flag for flag in (STIMULUS, WAVE) if request.has(flag)]
    for flag in flags:
        outputs.checked([request.value(flag)], flag.shown, request.value(flag))
    if len({os.path.realpath(request.value(flag)) for flag in flags}) < len(flags):
        raise Refused(f"{STIMULUS.name} and {WAVE.name} name the same file")
    return flags


def hand_on(request, texts, answer):
    """Writes an answer of `verify` or `shrink`, and returns the exit status. If the circuit loses, writes what the
    flags ask for to files, and shows the lost run."""
    status = asking.hand_on(request, texts, answer)
    if not asking.is_had(answer) or not answer.bytes.startswith(asking.LOSES):
        return status
    from psyntool import tracing
    from psyntool.texts import stimulus

    given = files.Text(Kind.STIMULUS, "the stimulus", answer.bytes.removeprefix(asking.LOSES))
    read = stimulus.read(given.string)
    made = {STIMULUS: lambda: given.bytes, WAVE: lambda: wave_of(texts[1], read)}
    outputs.write_all({request.value(flag): made[flag]() for flag in (STIMULUS, WAVE) if request.has(flag)})
    if not request.quiet:
        console.tell(
            *tracing.trace(
                [*texts, given],
                len(read.stem),
                len(read.lap),
                is_stopped=True,
                flags=[flag for flag in request.passed if flag == ENV.name],
            ).splitlines()
        )
    return status


def wave_of(text, read):
    """A VCD text of what the circuit does on a lasso stimulus: on the stem, and then on laps (repetitions of the
    repeated part) until the latches at the start of a lap repeat."""
    from psyntool.commands import wave
    from psyntool.texts import circuit, vcd

    return vcd.wave(circuit.read(text.string), wave.until_it_comes_again([text], read).text, len(read.stem))
