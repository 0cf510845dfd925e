"""Lays out definitions, proofs and clauses: text that fits on one line is put on one line, and a longer line is broken
where the cost is least."""
import re
import textwrap

from upkeep.antt import indent_of

WIDTH = 120
# The costs of a line break after a word and before a word; a lower cost is better. A word that a table lacks costs 3.
BEHIND = {"=": 0, "→": 0, "in": 0, ";": 0, ",": 0, "↦": 1, "×": 1, "⊎": 1, "++": 2, "&&": 2}
BEFORE = {"∙": 0, "|": 0, "where": 0, "[": 2, "→": 1, "⊎": 1, "×": 1, "++": 1}
ENDS = re.compile(r"(\bin|[;{\[(]|\bwhere)$")
BEGINS = re.compile(r"(\||[}\])]|where\b|unfolding\b|let\b|--|record\b)")
NO_BODY = re.compile(r"\s*(pub )?(use|mod|module|infix[lr]?|mutual|data|record)\b")


def is_code(line):
    return bool(line.strip()) and not line.strip().startswith("--")


def badness(depth, before, behind):
    """The cost of a break between two words, at a depth of brackets."""
    last = before[-1] if before[-1] in ";,." and len(before) > 1 else before
    kind = min(BEHIND.get(last, 3), BEFORE.get(behind, 3))
    if before[0] in "([{" and before[-1] not in ",;":
        kind += 6
    if last == ".":
        kind = 7
    if last == "=" and depth > 0:
        kind = 9
    if behind[0] == "{":
        kind += 30
    return depth * 6 + kind


def worst(lines):
    """The cost of the worst of the given line breaks."""
    depth, bad = 0, 0
    lines = [line for line in lines if line.strip()]
    for line, below in zip(lines, lines[1:]):
        depth += sum(line.count(it) for it in "([{") - sum(line.count(it) for it in ")]}")
        bad = max(bad, badness(depth, line.split()[-1], below.split()[0]))
    return bad


def spaces_of(line):
    """The spaces between words: the offset of each, and the number of open brackets there."""
    depth, in_text, spaces = 0, False, []
    for place, sign in enumerate(line):
        in_text ^= sign == '"'
        if not in_text:
            depth += (sign in "([{") - (sign in ")]}")
            if sign == " " and line[:place].strip():
                spaces.append((place, depth))
    return spaces


def broken(line, indent):
    """The line broken into the fewest lines within the width and, among these, at the cheapest places; the lines after
    the first are indented by `indent`."""
    if len(line) <= WIDTH:
        return [line]
    places = [(-1, 0), *spaces_of(line), (len(line), 0)]
    best = [(0, 0, None)]
    for end, (place, depth) in enumerate(places[1:], 1):
        ways = []
        for start in range(end - 1, -1, -1):
            width = place - places[start][0] - 1 + (indent if start else 0)
            if width > WIDTH and start < end - 1:
                break
            bad = 0 if end == len(places) - 1 else badness(depth, line[:place].split()[-1], line[place:].split()[0])
            ways.append((best[start][0] + 1, best[start][1] + bad + (10**6 if width > WIDTH else 0), -start))
        lines, bad, start = min(ways)
        best.append((lines, bad, -start))
    cuts, at = [len(places) - 1], len(places) - 1
    while at:
        at = best[at][2]
        cuts.insert(0, at)
    parts = [line[places[one][0] + 1 : places[other][0]] for one, other in zip(cuts, cuts[1:])]
    return [parts[0], *(" " * indent + part.strip() for part in parts[1:])]


def paragraphs(lines):
    """Groups the lines of a signature or a clause into runs; line breaks inside a run may be moved."""
    runs, blocks = [], []
    for at, line in enumerate(lines):
        before = runs[-1][-1].rstrip() if runs else ""
        if re.search(r"\bwhere$", before):
            blocks.append(indent_of(next((it for it in lines[at:] if it.strip()), line)))
        blocks = [it for it in blocks if it <= indent_of(line) or not line.strip()]
        begins = bool(blocks) and blocks[-1] == indent_of(line) and line.strip()[:1] not in tuple(")]}")
        is_head = before.endswith("=") and len(runs[-1]) == 1 and line.strip().startswith("record") if runs else False
        goes_on = (
            bool(runs) and is_code(before) and is_code(line) and " -- " not in before and not ENDS.search(before)
            and (is_head or not BEGINS.match(line.strip())) and not begins
        )  # fmt: skip
        if goes_on:
            runs[-1].append(line)
        else:
            runs.append([line])
    return runs


def filled(lines):
    """The lines of one signature or clause, laid out anew where that saves lines and makes no break worse."""
    out = []
    for run in paragraphs(lines):
        whole = " ".join([run[0].rstrip(), *(line.strip() for line in run[1:])])
        indents = [indent_of(line) for line in run[1:] if line.strip()[0] not in ")]}"]
        indent = (
            max(min(indents, default=0), indent_of(run[0]) + (0 if out else 4))
            if len(run) > 1
            else indent_of(run[0]) + 4
        )
        new = broken(whole, indent) if is_code(run[0]) else run
        is_long = any(len(line) > WIDTH for line in run)
        is_better = len(new) < len(run) and max(map(len, new)) <= WIDTH and worst(new) <= max(worst(run), 2)
        out += new if is_long or is_better else run
    return out


def filled_text(text):
    """The text of a proof file, with each signature and clause laid out."""
    lines, out, at = text.split("\n"), [], 0
    while at < len(lines):
        end = at + 1
        if is_code(lines[at]) and not NO_BODY.match(lines[at]):
            while end < len(lines) and is_code(lines[end]) and indent_of(lines[end]) > indent_of(lines[at]):
                end += 1
            out += filled(lines[at:end])
        else:
            out.append(lines[at])
        at = end
    return "\n".join(out)


# Patterns for a line of a comment, with the indentation of its text, and for a list entry: a name, a gap, and a
# description.
COMMENT = re.compile(r"(\s*--)(\s*)(.*)")
ENTRY = re.compile(r"\S.*?\s{2,}\S")
# In .rt files, only lines that begin with one of these words are laid out by this module; `rt fmt` lays out all other
# lines.
CLAUSE = re.compile(r"\s*(ghost|requires|ensures)\b")
# How a line of a document begins that is no prose; and how an item of a list begins.
NO_PROSE = ("|", "#", "```", ">", "    ")
BULLET = re.compile(r"\s*(- |\d+\. )")
# A row of a table in a document or in a comment: one line of any length.
ROW = re.compile(r"\s*(--|//[/!]?)?\s*\|.*\|\s*")
IMPORT = re.compile(r"(\s*(?:pub |ghost )?use [^{]*\{)(.*)(\}.*)")


def kinds_of(lines):
    """For each line of a comment its kind: `text` of a paragraph, `entry` of a list (or the text of an entry), or
    `example`."""
    kinds, entry, more = [], None, None
    for line in lines:
        _, gap, text = COMMENT.fullmatch(line).groups()
        if ROW.fullmatch(line):
            kind, entry, more = "row", None, None
        elif not text or text.startswith("#") or len(gap) < 2:
            kind, entry, more = ("text" if text and not text.startswith("#") else "example"), None, None
        elif entry is not None and len(gap) > entry:
            more = len(gap) if more is None else more
            kind = "entry" if len(gap) == more else "example"
        elif ENTRY.match(text):
            kind, entry, more = "entry", len(gap), None
        else:
            kind, entry, more = "example", None, None
        kinds.append(kind)
    return kinds


def comment_filled(lines):
    """The lines of a comment, broken at the width. What is cut off a line begins the next line of the same paragraph or
    entry."""
    kinds, out = kinds_of(lines), []
    starts = [kind == "entry" and bool(ENTRY.match(COMMENT.fullmatch(line)[3])) for kind, line in zip(kinds, lines)]
    rest = ""
    for at, (line, kind) in enumerate(zip(lines, kinds)):
        head, gap, text = COMMENT.fullmatch(line).groups()
        indent = head + gap
        words = [line] if kind == "row" else re.findall(r"\S+\s*", f"{rest} {text}" if rest else text)
        indent = "" if kind == "row" else indent
        goes_on = at + 1 < len(lines) and kinds[at + 1] == kind != "example" and not starts[at + 1]
        further = indent + " " * {"text": 0, "row": 0, "entry": 10 if starts[at] else 0, "example": 4}[kind]
        rest = ""
        while words:
            now = indent + words.pop(0)
            while words and len((now + words[0]).rstrip()) <= WIDTH:
                now += words.pop(0)
            out.append(now.rstrip())
            indent = further
            if words and goes_on:
                rest, words = "".join(words).rstrip(), []
        if not text:
            out.append(line)
    return out


def comments_of(lines):
    """The comments of a file: for each its first line's index and its lines."""
    at = 0
    while at < len(lines):
        end = at + 1
        if COMMENT.fullmatch(lines[at]):
            while end < len(lines) and COMMENT.fullmatch(lines[end]) and indent_of(lines[end]) == indent_of(lines[at]):
                end += 1
            yield at, lines[at:end]
        at = end


def cut_entries(comment):
    """The lines of a comment at which a list entry seems to be cut: the next line is indented further, and no colon
    announces it as an example."""
    kinds, gaps = kinds_of(comment), [len(COMMENT.fullmatch(line)[2]) for line in comment]
    cut, entry = [], 0
    for at in range(len(comment) - 1):
        if kinds[at] == "entry" and ENTRY.match(COMMENT.fullmatch(comment[at])[3]):
            entry = gaps[at]
        goes_on = kinds[at] == "entry" and kinds[at + 1] == "example" and gaps[at + 1] > entry
        cut += [at] if goes_on and not comment[at].endswith(":") else []
    return cut


def imports(line):
    """An import line, split into several imports of the same module if it is longer than the width."""
    head, names, tail = IMPORT.fullmatch(line).groups()
    lines = [[]]
    for name in names.split(", "):
        if lines[-1] and len(head + ", ".join([*lines[-1], name]) + tail) > WIDTH:
            lines.append([])
        lines[-1].append(name)
    return [head + ", ".join(it) + tail for it in lines]


def within_width(line):
    """A line of a definition, a proof or a clause, broken at the width. A comment at the end of the line is moved above
    the line."""
    if IMPORT.fullmatch(line):
        return imports(line)
    mark = "//" if " // " in line else "--"
    code, behind, said = line.partition(f" {mark} ")
    space = " " * indent_of(line)
    return [*([f"{space}{mark} {said}"] if behind else []), *broken(code.rstrip(), indent_of(line) + 4)]


def text_within_width(text, is_code_file):
    """The text with its long lines broken where possible: in an .antt file all lines, in an .rt file only those of
    clauses."""
    lines, out, opened, behind = text.split("\n"), [], 0, 0
    comments = dict(comments_of(lines))
    for at, line in enumerate(lines):
        # a clause continues as long as its braces are open
        is_ours = not is_code_file or opened > 0 or CLAUSE.match(line)
        opened = opened + line.count("{") - line.count("}") if is_ours else 0
        if at < behind:
            continue
        if is_ours and at in comments:
            out += comment_filled(comments[at])
            behind = at + len(comments[at])
        elif is_ours and len(line) > WIDTH and not ROW.fullmatch(line):
            out += within_width(line)
        else:
            out.append(line)
    return "\n".join(out)


def document_within_width(text):
    """The text of a document, where each paragraph that has a long line is filled anew. Tables, code, headings and
    quotations stay as they are."""
    lines, out, at, inside = text.split("\n"), [], 0, False
    while at < len(lines):
        end = at + 1
        inside ^= lines[at].startswith("```")
        is_prose = not inside and lines[at].strip() and not lines[at].startswith(NO_PROSE)
        while (
            is_prose
            and end < len(lines)
            and lines[end].strip()
            and not lines[end].startswith(NO_PROSE[:-1])
            and not BULLET.match(lines[end])
        ):
            end += 1
        paragraph, at = lines[at:end], end
        if is_prose and max(map(len, paragraph)) > WIDTH:
            bullet = BULLET.match(paragraph[0])
            indent = " " * (bullet.end() if bullet else indent_of(paragraph[0]))
            words = " ".join(line.strip() for line in paragraph)
            begin = " " * indent_of(paragraph[0])
            paragraph = textwrap.wrap(
                words, WIDTH, initial_indent=begin, subsequent_indent=indent, break_long_words=False,
                break_on_hyphens=False,
            )
        out += paragraph
    return "\n".join(out)


def read(path):
    """The text of a file."""
    with open(path, encoding="utf-8") as file:
        return file.read()
