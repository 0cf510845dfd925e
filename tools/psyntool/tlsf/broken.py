"""What is wrong with a specification that the program refuses by fault 80 or 81, as the tool's own reader finds it."""
from psyntool.tlsf import elsewhere, expanding, grouping, readings
from psyntool.tlsf.expressions import OF_FORMULAS
from psyntool.tlsf.names import hint
from psyntool.tlsf.reading import LISTS, Reader, declared_by
from psyntool.tlsf.tokens import Token, Wrong, tokens_of

NAME = 81
# Words of the program's formulas, which can't be names.
NO_NAMES = frozenset((*OF_FORMULAS, "U", "R", "W", "true", "false"))


def told(text: str, number: int, offset: int):
    """The offset of what is wrong, and a message; None if the tool finds nothing. The program has found a fault at the
    given offset."""
    try:
        tokens = tokens_of(text)
    except Wrong as error:
        return error.offset, str(error)
    found = of_reader(text)
    if found and found[0] == offset:
        return found
    if number == NAME:
        return of_name(tokens, offset) or found
    return of_mix(tokens, offset) or of_declaration(tokens, offset) or found


def of_reader(text: str):
    try:
        expanding.basic(text, {})
    except Wrong as error:
        return error.offset, str(error)
    return None


def of_mix(tokens: list[Token], offset: int):
    """How to write the expression at an offset, if it mixes operators without parentheses."""
    reader = Reader(tokens, declared_by(tokens))
    reader.spans_of = grouping.spans_wanted
    try:
        with expanding.deep_calls():
            reader.read()
    except Wrong:
        pass
    for begin, end, spans in reader.mixed:
        if tokens[begin].start <= offset < tokens[end - 1].stop:
            found = readings.both(tokens[begin:end], reader.declared, spans, grouping.spans_wanted)
            return offset, f"these operators want parentheses: write {found}"
    return None


def of_name(tokens: list[Token], offset: int):
    """What is wrong with the name at an offset."""
    name = next((token.text for token in tokens if token.start == offset), None)
    if name is None:
        return None
    declared = [token for token in declarations(tokens) if token.text not in NO_NAMES]
    if any(token.start == offset for token in declared):
        return offset, f"`{name}` is declared before"
    if name in NO_NAMES:
        return offset, f"`{name}` is a word of TLSF, and can't be a name"
    if any(token.text == name for token in declared):
        return offset, f"`{name}` is declared only below: put INPUTS and OUTPUTS before the formulas"
    near = hint(name, sorted({token.text for token in declared})) or elsewhere.hint(name)
    return offset, f"there is no `{name}`{near}"


def of_declaration(tokens: list[Token], offset: int):
    """What is wrong with a token among declarations."""
    names = declarations(tokens)
    for before, token in zip(tokens, tokens[1:]):
        if token.start == offset and before in names:
            return offset, f"`;` is expected here, and this is {token.shown}"
    return None


def declarations(tokens: list[Token]) -> list[Token]:
    """The names that INPUTS and OUTPUTS declare."""
    found, is_inside = [], False
    for before, token in zip([None, *tokens], tokens):
        if token.kind == "{" and before is not None and before.text in LISTS:
            is_inside = True
        elif token.kind == "}":
            is_inside = False
        elif is_inside and token.kind == "word":
            found.append(token)
    return found
