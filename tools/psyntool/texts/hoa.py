"""Parses the Hanoi Omega-Automata format: tokens, header items, and states with their edges."""
import re
from dataclasses import dataclass, field
from typing import NamedTuple

from psyntool.texts import NUMBER, Unreadable
from psyntool.texts.labels import AND, NOT, Alias, Operator, Proposition

TOKEN = re.compile(r'/\*|\*/|"(?:\\.|[^"\\])*"|--[A-Z]+--|@[\w-]+|[A-Za-z_][\w-]*:?|\d+|[^\s]', re.S)
STOP = "--END--"
CAUSE = "this HOA text can't be read: run `lasso` or `game` to see where it goes wrong"
BINDS = {"|": 1, "&": 2}
NESTED = Operator("()", 1)


class Token(NamedTuple):
    text: str
    offset: int


@dataclass(frozen=True)
class Edge:
    """An edge: its source, its label in postfix form, its target, its acceptance sets (with those of its source), and
    its offset in the text."""

    source: int
    label: tuple
    target: int
    marks: frozenset
    offset: int


def tokens_of(text, last=""):
    """The tokens of a text without its comments, up to the first token that is `last` if there is one. Comments nest,
    and a string may contain `/*` or `*/`."""
    tokens, depth, at = [], 0, 0
    for found in TOKEN.finditer(text):
        if found.start() < at:
            continue
        sign = found[0]
        if depth and sign not in ("/*", "*/"):
            at = found.start() + 1 if sign[0] == '"' else at
        elif sign == "/*":
            depth += 1
        elif sign == "*/" and depth:
            depth -= 1
        else:
            tokens.append(Token(sign, found.start()))
            if sign == last:
                break
    return tokens


class Reader:
    """A list of tokens, and the parser's position in it."""

    def __init__(self, tokens):
        self.tokens = tokens
        self.at = 0
        # the labels of edges that were parsed, by their tokens
        self.labels = {}

    @property
    def now(self):
        return self.tokens[self.at].text if self.at < len(self.tokens) else ""

    @property
    def offset(self):
        return self.tokens[self.at].offset if self.at < len(self.tokens) else 0

    def take(self, pattern="", must=True):
        """Takes the next token if its text matches the pattern, and returns this text. If no token is left or its text
        does not match, raises `Unreadable` or, if `must` is false, returns an empty text."""
        text = self.now
        if not text or not re.fullmatch(pattern or ".*", text, re.S):
            if must:
                raise Unreadable(CAUSE)
            return ""
        self.at += 1
        return text

    def number(self):
        return int(self.take(NUMBER))

    def numbers(self):
        found = []
        while re.fullmatch(NUMBER, self.now):
            found.append(self.number())
        return found

    def formula(self, atom):
        """Parses a formula of !, &, | and parentheses into postfix form; `atom` parses the atoms. After each formula
        that was in parentheses, the postfix form has the operator `NESTED`."""
        output, waiting, wants_atom = [], [], True
        while True:
            sign = self.now
            if wants_atom and sign in ("!", "("):
                waiting.append(self.take())
            elif wants_atom:
                output.append(atom())
                wants_atom = False
            elif sign in BINDS:
                release(waiting, output, BINDS[sign])
                waiting.append(self.take())
                wants_atom = True
            elif sign == ")" and "(" in waiting:
                self.take()
                release(waiting, output, 0)
                waiting.pop()
                output.append(NESTED)
            else:
                release(waiting, output, 0)
                self.refuse_if(bool(waiting))
                return output

    def refuse_if(self, is_wrong):
        if is_wrong:
            raise Unreadable(CAUSE)


def release(waiting, output, binds):
    """Moves operators from the stack to the postfix form, down to an open parenthesis or to an operator that binds less
    strongly."""
    while waiting and waiting[-1] != "(" and BINDS.get(waiting[-1], 3) >= binds:
        sign = waiting.pop()
        output.append(Operator(sign, 1 if sign == "!" else 2))


def label_of(reader):
    """Parses a label into postfix form."""

    def atom():
        if reader.now in ("t", "f"):
            return reader.take() == "t"
        if reader.now.startswith("@"):
            return Alias(reader.take()[1:])
        return Proposition(reader.number())

    return tuple(part for part in reader.formula(atom) if part != NESTED)


def known_label(reader, aliases):
    """Parses a label. Each alias in the label must be defined before it."""
    label = label_of(reader)
    reader.refuse_if(any(isinstance(part, Alias) and part.name not in aliases for part in label))
    return label


def condition_of(reader):
    """Parses the condition after `Acceptance: N`, in the form that the module `acceptance` describes."""

    def atom():
        if reader.now in ("t", "f"):
            return reader.take() == "t"
        sign = reader.take("Inf|Fin")
        reader.take(r"\(")
        is_complemented = bool(reader.take("!", must=False))
        mark = reader.number()
        reader.take(r"\)")
        return (sign, ~mark if is_complemented else mark)

    stack = []
    for part in reader.formula(atom):
        if not isinstance(part, Operator):
            stack.append((part, False))
        elif part.sign == "()":
            stack.append((stack.pop()[0], True))
        else:
            reader.refuse_if(part.sign == "!")
            right, (left, is_closed) = stack.pop()[0], stack.pop()
            is_same = not is_closed and not isinstance(left, bool) and left[0] == part.sign
            stack.append(((part.sign, [*(left[1] if is_same else [left]), right]), False))
    return stack[0][0]


@dataclass
class Header:
    """The header items before `--BODY--`. `acceptance` is the condition as it is written, and `others` has, by item
    name, the tokens that are not parsed."""

    start: int = 0
    names: tuple = ()
    controllable: frozenset = frozenset()
    condition: object = None
    acceptance: str = ""
    aliases: dict = field(default_factory=dict)
    others: dict = field(default_factory=dict)


def header_of(reader, text):
    """Parses the header of a text."""
    head = Header()
    while reader.now != "--BODY--":
        name = reader.take(".*:")
        begin = reader.offset
        if name == "Start:":
            head.start = reader.number()
        elif name == "AP:":
            head.names = tuple(unquoted(reader.take('".*"')) for _ in range(reader.number()))
        elif name == "controllable-AP:":
            head.controllable = frozenset(reader.numbers())
        elif name == "Alias:":
            alias = reader.take("@.*")[1:]
            reader.refuse_if(alias in head.aliases)
            head.aliases[alias] = known_label(reader, head.aliases)
        elif name == "Acceptance:":
            reader.number()
            head.condition = condition_of(reader)
            head.acceptance = " ".join(text[begin : reader.offset].split()[1:])
        rest = head.others.setdefault(name, [])
        while reader.now != "--BODY--" and not reader.now.endswith(":"):
            rest.append(reader.take())
    return head


def unquoted(text):
    return re.sub(r"(?s)\\(.)", r"\1", text[1:-1])


def marks_of(reader):
    if not reader.take(r"\{", must=False):
        return frozenset()
    marks = frozenset(reader.numbers())
    reader.take(r"\}")
    return marks


def bracketed(reader, aliases):
    """Parses a label in brackets; None if there is none."""
    if not reader.take(r"\[", must=False):
        return None
    end = reader.at
    while end < len(reader.tokens) and reader.tokens[end].text != "]":
        end += 1
    key = " ".join(token.text for token in reader.tokens[reader.at : end])
    if key in reader.labels:
        reader.at = end
    else:
        reader.labels[key] = known_label(reader, aliases)
    reader.take(r"\]")
    return reader.labels[key]


def nth_letter(place, count):
    """The label that holds only at the letter with the given number, whose bit p is the truth of proposition p."""
    parts = []
    for number in range(count):
        parts += [Proposition(number), *([] if place >> number & 1 else [NOT]), *([AND] if number else [])]
    return tuple(parts) or (True,)


def state_of(reader, head):
    """Parses a state: its number, its name and its edges. Edges without labels stand for the letters in increasing
    order."""
    reader.take("State:")
    label = bracketed(reader, head.aliases)
    state = reader.number()
    name = unquoted(reader.take('".*"', must=False) or '""')
    marks, edges = marks_of(reader), []
    while reader.now not in ("State:", STOP):
        begin = reader.offset
        own = bracketed(reader, head.aliases)
        target = reader.number()
        said = own or label or nth_letter(len(edges), len(head.names))
        edges.append(Edge(state, said, target, marks | marks_of(reader), begin))
    return state, name, tuple(edges)
