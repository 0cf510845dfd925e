"""Parses as much of the syntax of proof files (antt) as the tools need: definitions, their clauses, and expressions in
bodies."""
import bisect
import re

TOKEN = re.compile(r'"(?:[^"\\]|\\.)*"|[()\[\]{},;]|[^\s()\[\]{},;]+')
SIGNATURE = re.compile(r"(\s*)(pub )?([^\s:(){},\[\]=]+) :( |$)")
NO_DEFINITION = {
    "abbrev", "record", "data", "use", "mod", "module", "open", "infixl", "infixr", "infix", "unfoldable", "opaque",
    "ruleset", "syntax", "mutual", "where", "--",
}
LINKS = (")", "]", "}", ",", ";", "|", "in", "∙", "≡", "×", "→", "=", ".")


def without_comments(text):
    """The text with its comments replaced by blanks, so that no offset changes."""
    return re.sub(r"(?m)(^|(?<=\s))--(?=[\s-]|$).*$", lambda found: " " * len(found[0]), text)


def tokens_of(text):
    """The tokens of a text, each with its start and its end. A `.` at the end of a word, as after the binders of a
    `λ`, is a token of its own."""
    tokens = []
    for found in TOKEN.finditer(without_comments(text)):
        start, end, token = found.start(), found.end(), found[0]
        if len(token) > 1 and token.endswith(".") and not token.startswith('"'):
            tokens += [(start, end - 1, token[:-1]), (end - 1, end, ".")]
        else:
            tokens.append((start, end, token))
    return tokens


def cites(name):
    """A regular expression that matches the name as a whole token."""
    return re.compile(r"(?<![^\s(){}\[\],;])" + re.escape(name) + r"(?![^\s(){}\[\],;])")


def indent_of(line):
    return len(line) - len(line.lstrip())


def closing(tokens, at):
    """The index of the bracket that closes the bracket at `at`."""
    depth = 0
    for index in range(at, len(tokens)):
        depth += (tokens[index][2] in ("(", "[", "{")) - (tokens[index][2] in (")", "]", "}"))
        if depth == 0:
            return index
    return len(tokens) - 1


def end_of(tokens, at, stops):
    """The index after the expression that begins at an index: the expression ends at a stop word, or where a bracket or
    a `let` around it ends."""
    depth, lets = 0, 0
    for index in range(at, len(tokens)):
        token = tokens[index][2]
        depth += (token in ("(", "[", "{")) - (token in (")", "]", "}"))
        if depth == 0:
            lets += (token == "let") - (token == "in")
        if depth < 0 or lets < 0 or depth == 0 and token in stops:
            return index
    return len(tokens)


class Definition:
    """A definition: a signature, and the clauses after it. `first` is the index of the line where the signature begins,
    and `last` is the index after the last clause's last line."""

    def __init__(self, name, indent, first, signature):
        self.name = name
        self.indent = indent
        self.first = first
        self.last = first
        self.signature = signature
        self.unfolding = []
        self.clauses = []


def groups_of(lines):
    """The lines of a module at which a definition or another item begins, each with its indentation and the line where
    the item ends."""
    starts, indents = [], [0]
    for number, line in enumerate(lines):
        if not line.strip() or indent_of(line) not in indents or line.strip()[0] in ")]}":
            continue
        indents = [it for it in indents if it <= indent_of(line)]
        starts.append((number, indent_of(line)))
        if re.match(r"\s*module\b", line):
            head = number
            while not re.search(r"\bwhere\s*$", lines[head]):
                head += 1
            inside = next((it for it in lines[head + 1 :] if it.strip()), "")
            indents += [indent_of(inside)] if indent_of(inside) > indents[-1] else []
    ends = [start for start, _ in starts[1:]] + [len(lines)]
    return [(start, indent, end) for (start, indent), end in zip(starts, ends)]


def shortened(lines, first, last):
    """The lines from index `first` up to, but not including, index `last`, without blank lines at their end."""
    while last > first and not lines[last - 1].strip():
        last -= 1
    return lines[first:last]


def definitions_of(text):
    """The definitions of a file that have clauses, and the lines of the file."""
    lines = text.split("\n")
    found, now = [], None
    for first, indent, last in groups_of(lines):
        group = shortened(lines, first, last)
        word, head = lines[first].split()[0], SIGNATURE.match(lines[first])
        begins = head and word not in NO_DEFINITION and (word != "pub" or head[2])
        if now and indent == now.indent and word == now.name and not begins:
            now.clauses.append(group)
            now.last = first + len(group)
        elif now and indent == now.indent and word == "unfolding" and not now.clauses:
            now.unfolding += group
        else:
            now = Definition(head[3], indent, first, group) if begins else None
            found += [now] if now else []
    return [it for it in found if it.clauses], lines


class Clause:
    """A clause: an equation of a definition or of its where-block. Offsets count from the start of the definition's
    clauses."""

    def __init__(self, start, text, indent, outer):
        self.start = start
        self.end = start + len(text)
        self.indent = indent
        self.outer = outer
        self.name = text.split()[0]
        self.local = set()
        behind = re.search(rf"(?m)^{' ' * (indent + 2)}where$", text)
        self.where = text[behind.end() + 1 :] if behind else ""
        self.where_start = start + behind.end() + 1 if behind else self.end
        main = text[: behind.start()].rstrip() if behind else text
        equals = self.equals(main)
        self.is_equation = equals is not None
        if self.is_equation:
            self.head = main[: equals[0]].rstrip()
            self.body = main[equals[1] :]
            self.body_start = start + equals[1]

    @staticmethod
    def equals(text):
        depth = 0
        for start, end, token in tokens_of(text):
            depth += (token in ("(", "[", "{")) - (token in (")", "]", "}"))
            if depth == 0 and token in (":", "="):
                return (start, end) if token == "=" else None
        return None

    def reachable(self):
        """The names that the where-blocks around the clause define."""
        return self.outer.local | self.outer.reachable() if self.outer else set()


def clauses_of(lines, indent, start=0, outer=None):
    """The clauses in these lines, with those in where-blocks."""
    clauses = []
    offsets = [start]
    for line in lines:
        offsets.append(offsets[-1] + len(line) + 1)
    heads = [at for at, it in enumerate(lines) if it.strip() and indent_of(it) == indent and it.strip()[0] not in ")]}"]
    for at, end in zip(heads, [*heads[1:], len(lines)]):
        if lines[at].strip().startswith(("--", "unfolding")):
            continue
        clause = Clause(offsets[at], "\n".join(shortened(lines, at, end)), indent, outer)
        if not clause.is_equation:
            continue
        clauses.append(clause)
        inside = clause.where.split("\n")
        indents = [indent_of(line) for line in inside if line.strip()]
        if indents:
            below = clauses_of(inside, min(indents), clause.where_start, clause)
            clause.local = {it.name for it in below if it.outer is clause}
            clauses += below
    return clauses


def places_of(body):
    """The expressions in a body that have a known type: for each its start, its end and its kind."""
    tokens, found = tokens_of(body), {}

    def put(first, end, kind):
        if end > first:
            found.setdefault((tokens[first][0], tokens[end - 1][1]), kind)

    def point(at):
        """The index of the token `.` that follows the binders of a `λ`."""
        while at < len(tokens) and tokens[at][2] != ".":
            at = closing(tokens, at) + 1 if tokens[at][2] in ("(", "[", "{") else at + 1
        return at

    def put_all(first, end, kind):
        """Adds an expression to the found ones, and also what follows each `let` and each `λ` in it."""
        put(first, end, kind)
        while first < end and tokens[first][2] in ("let", "λ"):
            if tokens[first][2] == "λ":
                first, kind = point(first) + 1, "lambda"
            else:
                equals = end_of(tokens, first + 1, ("=",))
                first, kind = end_of(tokens, equals + 1, ()) + 1, "rest"
            put(first, end, kind)

    put_all(0, len(tokens), "body")
    for at, (_, _, token) in enumerate(tokens):
        if token == "let":
            equals = end_of(tokens, at + 1, ("=",))
            if any(it[2] == ":" for it in tokens[at:equals]):
                put_all(equals + 1, end_of(tokens, equals + 1, ()), "let")
        elif token == "λ":
            put_all(point(at) + 1, end_of(tokens, point(at) + 1, (",", ";", "|")), "lambda")
        elif token == "↦":
            put_all(at + 1, end_of(tokens, at + 1, ("|",)), "branch")
        elif token == "{" and at and tokens[at - 1][2] == "record":
            field, end = at + 1, closing(tokens, at)
            while field + 1 < end and tokens[field + 1][2] == "=":
                behind = end_of(tokens, field + 2, (";",))
                put_all(field + 2, behind, "field")
                field = behind + 1
        elif token == "(":
            put_parts(tokens, at, put, put_all)
    return [(first, end, kind) for (first, end), kind in found.items()]


def put_parts(tokens, at, put, put_all):
    """Adds to the found expressions the components of a tuple, or the expression in parentheses, and all expressions
    inside what it adds."""
    end, first, parts = closing(tokens, at), at + 1, []
    while first < end:
        behind = end_of(tokens, first, (",",))
        parts.append((first, behind))
        first = behind + 1
    is_list = at and tokens[at - 1][2] in ("search", "grind", "omega", "simp", "rw", "cc", "assumption", "first_of")
    if len(parts) > 1 and not is_list:
        for first, behind in parts:
            put_all(first, behind, "part")
    elif len(parts) == 1 and tokens[at + 1][2] != "λ":
        put(at, end + 1, "argument")


def applications(text, names, bound):
    """The applications of the given names in a text that mention no variable bound in the text; applications inside
    others are left out."""
    tokens, found = tokens_of(text), []
    for at, (start, _, token) in enumerate(tokens):
        if token not in names or at and tokens[at - 1][2] not in ("(", "[", "=", "in", ".", ",", "∙", "↦", ";"):
            continue
        end = at + 1
        while end < len(tokens) and tokens[end][2] not in LINKS:
            end = closing(tokens, end) + 1 if tokens[end][2] in ("(", "[", "{") else end + 1
        whole = " ".join(text[start : tokens[end - 1][1]].split())
        if len(whole) < 160 and not bound & {it for _, _, it in tokens_of(whole)} and whole not in found:
            found.append(whole)
    return [it for it in found if not any(it != other and it in other for other in found)]


def bound_in(text):
    """The names that a text binds by `let`, `λ` and `↦`."""
    tokens, bound = tokens_of(text), set()
    places = [it[0] for it in tokens]
    for at, (_, _, token) in enumerate(tokens):
        if token == "let":
            bound.add(tokens[at + 1][2])
        elif token == "λ":
            end = next((it for it in range(at, len(tokens)) if tokens[it][2] == "."), at)
            bound |= {it[2] for it in tokens[at + 1 : end]}
        elif token == "↦":
            opened = max(text.rfind("|", 0, tokens[at][0]), text.rfind("[", 0, tokens[at][0]))
            bound |= {it[2] for it in tokens[bisect.bisect(places, opened) : at]}
    return {it for it in bound if re.match(r"[^\W\d]", it)}
