"""`lasso`: whether an automaton accepts a circuit's trace on a lasso stimulus, or with --tlsf whether the trace
satisfies a specification; with --trace, prints the automaton's run step by step, or the letters with the sentences that
they violate."""
import re

from psyntool import asking, console, files, program
from psyntool.command import ENV, TRACE


def run(request):
    if not request.has(TRACE):
        return asking.run(request)
    texts = request.texts()
    answer = program.ask(files.joined("lasso", request.passed, texts))
    status = asking.hand_on(request, texts, answer)
    if asking.is_had(answer):
        from psyntool import tracing

        flags = [flag for flag in request.passed if flag == ENV.name]
        console.write_text(tracing.trace(texts, *map(int, re.findall(r"\d+", answer.text)[-2:]), flags=flags))
    return status
