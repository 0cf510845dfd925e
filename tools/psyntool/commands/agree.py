"""`agree`: whether an automaton accepts exactly the words that satisfy a specification. If not, the output has a word
on which they differ; the automaton's run on it is shown step by step, and the sentences that the word violates."""
from psyntool import asking, console, files, program, tracing

DIFFERS = {
    "accepts": "the automaton accepts this word, which violates the specification",
    "rejects": "the automaton rejects this word, which satisfies the specification",
}


def run(request):
    if request.quiet:
        return asking.run(request)
    texts = request.texts()
    answer = program.ask(files.joined("agree", request.passed, texts))
    status = asking.hand_on(request, texts, answer)
    first, _, word = answer.text.partition("\n")
    if asking.is_had(answer) and first in DIFFERS:
        console.tell(DIFFERS[first], *told(texts, word, first == "rejects"))
    return status


def told(texts, word, is_satisfying):
    """A table of the automaton's run on a word, on its stem and on one lap, and the guarantees that the word violates;
    of a word that satisfies the specification, the assumptions."""
    from psyntool.texts import automaton, specification
    from psyntool.tlsf import violations

    rows = word.splitlines()
    stem = rows.index("-")
    del rows[stem]
    if len(rows) > tracing.LONGEST:
        return [f"the word has {len(rows)} letters, and is not shown"]
    names = specification.names(texts[0].string)
    letters = [{name for name, digit in zip(names, row) if digit == "1"} for row in rows]
    broken = violations.of_word(texts[0], letters, stem, is_satisfying)
    return [
        *tracing.run_of(automaton.read(texts[1].string), names, letters, stem),
        *(line for one in broken for line in one.told()),
    ]
