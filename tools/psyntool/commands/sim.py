"""`sim`: what a circuit does, letter by letter; with --names, below a line of the names of its latches, inputs and
outputs."""
from psyntool import asking, console, files, program
from psyntool.command import NAMES


def run(request):
    if not request.has(NAMES):
        return asking.run(request)
    texts = request.texts()
    answer = program.ask(files.joined("sim", request.passed, texts))
    if asking.is_had(answer):
        from psyntool.texts import circuit

        read = circuit.read(texts[0].string)
        console.write_text("|".join(" ".join(read.names(kind)) for kind in "lio") + "\n")
    return asking.hand_on(request, texts, answer)
