"""Explains a fault: its file, line and column, what the input texts show about it, and what docs/FAULTS.md says."""
import re
from collections import Counter

from psyntool import faults, judging
from psyntool.command import ENV, IN_ORDER, wrong_kinds
from psyntool.kinds import Kind
from psyntool.marking import placed
from psyntool.program import MOST_BYTES
from psyntool.texts import Unreadable, automaton, circuit, labels, specification

# The numbers of three faults that the functions below treat as special cases. Fault 25 (the input could not be read)
# means here that the input is too long, because the tool itself passes the input to the program.
READ_FAULT, SYNTAX, OTHER_GAME, SYMBOLS = 25, 53, 54, 72
# Faults of specifications of which the tool's own reader tells more.
BROKEN = (80, 81)
# A text of more bytes than this is not parsed to explain a fault, because parsing it in Python would take longer than
# the program's own run.
LONGEST = 1 << 21
# Some faults of certificates are also reported for solutions; their place is then in the solution.
SPEAKS_TOO = {Kind.CERTIFICATE: Kind.SOLUTION}


def lines(request, texts, answer):
    """A few lines that explain a fault."""
    found = re.fullmatch(r"fault (usage|(\d+) (\w+)(?: at (\d+))?(.*))\n", answer.text)
    if not found:
        return []
    number = int(found[2]) if found[2] else None
    fault = next((it for it in faults.read_document() if it.number == number and (number or it.name == found[1])), None)
    wrong = wrong_kinds(request.command, texts)
    if wrong and (wrong.endswith(IN_ORDER) or not any(map(is_in_doubt, texts))):
        return [wrong]
    told = [wrong] if wrong else []
    if number in BROKEN and texts[0].kind is Kind.SPECIFICATION:
        told = of_reader(texts[0], number, int(found[4]))
        if told:
            return told
    if number == READ_FAULT:
        return [f"cause: the files have more than {MOST_BYTES:,} bytes together, the most that psyn reads"]
    if fault and fault.kind and found[4]:
        told += place_of(
            fault,
            next((it for it in texts if it.kind in (fault.kind, SPEAKS_TOO.get(fault.kind))), None),
            int(found[4]),
        )
    told += seen_in_texts(number, found[5] or "", request, texts)
    told += seen_in_solution(number, found[4], found[5] or "", texts)
    entries = fault.entries if fault else {}
    if texts[-1].kind is Kind.SOLUTION:
        entries = judging.ENTRIES.get(number, entries)
    if number is None:
        return [*told, "cause: this program knows no such command line: it is not of the same version as this tool"]
    return told + [f"{word.lower()}: {entries[word]}" for word in ("Cause", "Place", "Mend") if word in entries]


def is_in_doubt(text):
    """Whether a text is a game or a solution, and begins with numbers as the other kind does, where one is missing or
    one too many."""
    kinds = {text.kind, text.looks_like}
    return kinds == {Kind.GAME, Kind.SOLUTION} and text.bytes.lstrip()[:1].isdigit()


def of_reader(text, number, offset):
    """What the tool's own reader finds wrong with a specification, at its place; nothing for a long text."""
    from psyntool.tlsf import broken
    from psyntool.tlsf.tokens import ENCODING

    found = None if len(text.bytes) > LONGEST else broken.told(text.bytes.decode(ENCODING), number, offset)
    return placed(text, *found) if found else []


def place_of(fault, text, offset):
    return placed(text, offset, fault.name) if text else []


# ---- explanations for which the input texts are parsed


def seen_in_texts(number, behind, request, texts):
    """Further lines that explain a fault without an offset, if the input texts can be parsed."""
    seen = {17: acceptance_line, 21: clashing_edges, SYMBOLS: wrong_symbols}.get(number)
    kinds = (Kind.AUTOMATON, Kind.SPECIFICATION) if number == SYMBOLS else (Kind.AUTOMATON,)
    if (
        not seen
        or texts[0].kind not in kinds
        or number == SYMBOLS
        and len(texts) < 2
        or any(len(text.bytes) > LONGEST for text in texts)
    ):
        return []
    try:
        return seen(behind, request, texts)
    except Unreadable:
        return []


def seen_in_solution(number, offset, behind, texts):
    """Further lines that explain an error in a solution, with the names of the game's vertices."""
    if texts[-1].kind is not Kind.SOLUTION or any(len(text.bytes) > LONGEST for text in texts):
        return []
    try:
        if number == SYNTAX:
            return judging.wrong_form(int(offset), texts)
        if number == OTHER_GAME:
            return judging.other_game(int(offset), texts)
        seen = {40: judging.lost_cycle, 50: judging.wrong_move, 51: judging.escape}.get(number)
        return seen(behind, texts) if seen else []
    except Unreadable:
        return []


def acceptance_line(_behind, _request, texts):
    found = re.search(rb"(?m)\bAcceptance:", texts[0].bytes)
    return placed(texts[0], found.start(), "NonParity") if found else []


def byte_place(text, place):
    """The byte offset at which the character with the given index begins."""
    return len(text.string[:place].encode("utf-8", "surrogateescape"))


def clashing_edges(behind, _request, texts):
    """Two edges of a state that share a letter, and a letter that they share."""
    state, first, second = map(int, re.findall(r"\d+", behind))
    read = automaton.read(texts[0].string)
    edges = dict(enumerate(read.edges.get(state, ())))
    edges, told = {number: edges[number] for number in (first, second) if number in edges}, []
    for number, edge in edges.items():
        told += placed(texts[0], byte_place(texts[0], edge.offset), f"edge {number} of state {read.title_of(state)}")
    letter = labels.meeting([edge.label for edge in edges.values()], read.aliases)
    if letter is not None and len(edges) == 2:
        said = labels.letter_text(letter, read.names)
        told.append(f"both take the letter {said}" if said else "both take each letter")
    return told


def wrong_symbols(_behind, request, texts):
    """Which names of propositions, of the automaton or of the specification, are missing among the circuit's symbols,
    and which symbols are not names of propositions."""
    names, judged = names_of_owners(texts[0]), circuit.read(texts[1].string)
    inputs, outputs = reversed(names) if request.has(ENV) else names
    if not [*differing("inputs", "i", outputs, judged), *differing("outputs", "o", inputs, judged)]:
        return [
            "the symbols are those of "
            f"{'a controller: ask without' if request.has(ENV) else 'an environment: ask with'} {ENV.name}"
        ]
    others = [name for name in judged.names("i") if name not in (*inputs, *outputs)]
    is_more = others and set(inputs) <= set(judged.names("i"))
    are_read = (
        [f"the circuit reads {', '.join(others)}, which the {texts[0].kind.title} does not mention"] if is_more else []
    )
    return [*differing("inputs", "i", inputs, judged), *differing("outputs", "o", outputs, judged), *are_read]


def names_of_owners(text):
    """The names of the environment's propositions, and those of the controller's, in an automaton or a
    specification."""
    if text.kind is Kind.SPECIFICATION:
        return specification.owners(text.string)
    return [[name for _, name in owned] for owned in automaton.read(text.string).owners()]


def differing(title, kind, wanted, judged):
    """How the symbols of the circuit's inputs, or of its outputs, differ from the expected names."""
    there = [judged.symbols.get((kind, number)) for number in range(len(judged.names(kind)))]
    spare = Counter(filter(None, there)) - Counter(wanted)
    parts = [
        ("missing", [name for name in wanted if name not in set(there)]),
        ("too many", list(spare)),
        ("without a name", [str(there.count(None))]),
    ]
    said = [f"{word} {', '.join(names)}" for word, names in parts if names and names != ["0"]]
    return [f"among the circuit's {title}: {'; '.join(said)}"] if said else []
