"""Letters of a stimulus by names: a line names the inputs that are true, and may name others that are false with
`!`."""
import re

from psyntool.ends import Refused
from psyntool.kinds import Kind
from psyntool.texts import Unreadable
from psyntool.words import nearest

DIGITS = re.compile(r"[01]*|-")


def by_digits(texts):
    """Replaces each letter by names in the stimulus, if the texts have one beside its circuit, by a line of digits."""
    found = {text.kind: text for text in texts}
    if not {Kind.CIRCUIT, Kind.STIMULUS} <= found.keys() or not re.search(rb"[^01\n-]", found[Kind.STIMULUS].bytes):
        return
    from psyntool.texts import circuit

    try:
        names = circuit.read(found[Kind.CIRCUIT].string).names("i")
    except Unreadable:
        return
    text = found[Kind.STIMULUS]
    text.change_lines(
        lambda row, line: digits_of(text.name, row, line.decode("utf-8", "surrogateescape"), names).encode(
            "utf-8", "surrogateescape"
        )
    )


def digits_of(title, row, line, names):
    """The digits of a letter by names. Any other line is left to the program: one of digits, and one without a name
    that holds no letter of the alphabet."""
    words = [line.strip()] if line.strip().removeprefix("!") in names else line.split()
    unknown = next((word for word in words if word.removeprefix("!") not in names), None)
    if (
        DIGITS.fullmatch(line)
        or unknown is not None
        and len(unknown) == len(line.strip())
        and not any(map(str.isalpha, line))
    ):
        return line
    if unknown is not None:
        raise Refused(f"{title}:{row}: the circuit has no input {unknown}{nearest(unknown.removeprefix('!'), names)}")
    true = {word for word in words if not word.startswith("!")}
    return "".join("01"[name in true] for name in names)
