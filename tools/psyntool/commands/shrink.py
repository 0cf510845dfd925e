"""`shrink`: a smaller circuit that wins too, in rounds. With --abc, abc makes the circuit smaller first. If the circuit
loses, the output is that of `verify`."""
from psyntool import console, files, outputs, program, shrinking
from psyntool.command import ABC
from psyntool.commands import verify

WINS = b"wins\n"


def run(request):
    flags, abc = verify.checked(request), shrinking.abc_of(request)
    texts = request.texts()
    outputs.refuse_read(request, [request.value(flag) for flag in flags])
    judged = program.ask(files.joined("verify", request.passed, texts))
    if judged.bytes != WINS:
        return verify.hand_on(request, texts, judged)
    given = by_abc(request, texts, abc) if request.has(ABC) else texts[1]
    found = shrinking.in_rounds(request.passed, texts[0], given)
    console.write(found.text.bytes)
    shrinking.tell(request, texts[1], found)
    return 0


def by_abc(request, texts, abc):
    """What abc makes of the circuit, if that wins too, else the circuit."""
    made = shrinking.with_abc(abc, texts[1])
    is_right = program.ask(files.joined("verify", request.passed, [texts[0], made])).bytes == WINS
    return made if is_right else texts[1]
