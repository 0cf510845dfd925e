"""Makes docs/PROMISE.md: the contract that promises most, and below it each definition on which its clauses stand.

A root is a function of a source file, whose clauses are shown, or a definition of a file in `specs/`. Each definition
that a root cites is gathered, and what it cites in turn. The page stops at the names of std, which STD explains, at the
types of the code, of which it lists variants or fields, and at the definitions in ENDS, of which it says where they
are.
"""
import dataclasses
import functools
import itertools
import os
import re

from upkeep import antt
from upkeep.documents import read
from upkeep.sweeps import TOP

DOCUMENT = "docs/PROMISE.md"
MOST_LINES = 1500
FILES = 4  # a chapter of fewer files takes the next crate too
ROOTS = [
    ("crates/ps_specification/src/synthesis.rt", "synthesise_specification"),
    ("crates/psyn/src/synthesis.rt", "synthesise"),
]
ENDS = {
    "ps_specification/specs/Requirements.antt: order_stated": "the order of moves that a specification states, "
    "as ps_machine names it",
    "ps_synthesis/specs/SynthFaults.antt: IsSynthFault": "the reason for which a text gets this fault in "
    "place of a report",
    "ps_synthesis/specs/SynthFaults.antt: IsReportOrFault": "a right report, or too many variables for AIGER, "
    "or out of memory",
    "ps_automaton/specs/Autos.antt: IsAutoOf": "the automaton steps as the file's edges do, "
    "with the priorities of its chain",
    "ps_tlsf/specs/Reading.antt: answer_of": "the specification that a TLSF text means, or its first error: "
    "the grammar of the format",
    "ps_hoa/specs/Texts.antt: ReadsFile": "what an HOA text means, or its first error: the grammar of the format",
    "ps_pgsolver/specs/Reading.antt: Answer": "what a game text means, or its first error",
    "ps_pgsolver/specs/Reading.antt: text_limit": "the length of the longest game text that is read, 16,777,216 bytes",
    "ps_pgsolver/specs/Written.antt: game_text": "the text that is written for a game",
    "ps_certificate/specs/Texts.antt: ReadsCertificate": "what the text of a certificate means for a game",
    "ps_certificate/specs/Written.antt: text_in": "the text that is written for a certificate",
    "ps_circuit/specs/Texts.antt: ReadsCircuit": "what an AIGER text means, or its first error",
    "ps_circuit/specs/Written.antt: text_of": "the text that is written for a circuit",
    "ps_automaton/specs/Chains.antt: chain_of": "the chain that an acceptance condition is, if it is one: "
    "its links in order, and its base",
    "ps_automaton/specs/Chains.antt: has_complement": "whether an acceptance condition names a complemented set",
    "ps_synthesis/specs/Reports.antt: IsWinnersCircuit": "the circuit is that of the winner's machine, gate by gate",
    "ps_machine/specs/KeyNames.antt: AreNamed": "vertex v has the id v, and a name that tells its state and its "
    "letter or priority",
    "ps_solver/specs/Solving.antt: IsCertified": "the certificate fits the game and is valid "
    "([CERTIFICATES.md](CERTIFICATES.md))",
}
STD = [
    ("ℕ Bool List", "the natural numbers, the truth values, lists"),
    ("◌≡◌ ◌≢◌", "equal, not equal"),
    ("◌↔◌ ◌⊎◌ ⊤", "exactly if; or; always true (`⊥`, `¬` and `Unit`: never true; not; always true)"),
    ("zero suc", "0, and a number plus 1"),
    ("◌+◌ ◌-◌ ◌*◌ ◌^◌", "sum; difference, 0 if it would be negative; product; power"),
    ("◌/◌ ◌%◌", "quotient, rounded down; remainder"),
    ("◌<◌ ◌≤◌ max", "less; less or equal; the greater of two numbers"),
    ("true false not ◌&&◌ ◌||◌", "truth values and their operators"),
    ("◌==◌ nat_eq nat_lt", "whether two numbers are equal (twice); whether the first is less"),
    ("IsTrue", "`IsTrue b` says that `b` is `true`"),
    ("if◌then◌else◌ cond", "a choice by a truth value"),
    ("Option Some None", "a value, or none"),
    ("IsSomeAnd", "there is a value, and the property holds of it"),
    ("Result Ok Err IfOk IfErr", "a value or an error; if there is a value (an error), the property holds of it"),
    ("◌∷◌ ◌++◌", "an element before a list (`[]`: the empty list); two lists joined"),
    (
        "length map filter fold",
        "the length; each element changed; those that pass a test; a function over all, from the first on",
    ),
    ("take slice_range", "the first elements; those from one index up to, not including, another"),
    ("slice_get", "the element at an index, if there is one"),
    ("slice_index slice_index_or", "the same, or else 0; or else a given value"),
    ("flat_map range_with_len", "the lists of all elements, joined; n numbers that count up from a first"),
    ("All AllPairs AllZip", "a property of each element; of each and each later one; of two lists, place by place"),
    ("Contains", "`Contains xs x`: `x` is an element of `xs`"),
]
HEAD = """This page is made by `tools/promise-page` from the files in `specs/`, which the prover reads. It is for
readers who want to know what is promised without trusting a retelling. First comes the contract, then each definition
that it needs, file by file: a file cites only files before it, but for those of @TOPS@, which come first. The
[index](#index) tells by number in which file a name is defined. [definitions.md](definitions.md) says the same in
prose."""
READING = """\
- A clause `ensures name { .. }` holds of each call that returns. There `result` is what is returned, `x.now` the value
  of an argument, `x.old` and `x.new` that before and after the call, and `.items` the list in a `Vec`.
- A `record` holds if all its fields do; a field may also name a value that exists. A `data` holds by one of its cases.
- `(x : X) → P x` says that P holds of every x, and `P → Q` that P implies Q. `P × Q` says that both hold, and
  `(x : X) × P x` that there is an x with P. `λ x. t` is the function that gives t for x. `elim` chooses by cases.
- A letter is a number whose bit p is the truth of proposition p, and a text is a list of bytes. Player 0 is the
  controller. `pub`, `abbrev` and `unfoldable` say how the prover treats a name, not what it means."""
FIELD = re.compile(r"(?m)^ +(?:pub )?([^\s:(){}]+) :(?=\s|$)")
SIGNATURE = re.compile(
    r"(?:(?:abbrev|unfoldable|opaque) )?(?:pub )?(?:(record|data) )?([^\s:(){},\[\]=]+)(?=[\s:({]|$)"
)
WORD = re.compile(r"[^\s(){},:\[\]]+")
IMPORT = re.compile(r"(?:ghost )?use (\S+?)(?:\.\{(.*)\})?(?: as (\S+?))?;?")


@dataclasses.dataclass(eq=False)
class Item:
    """A definition: its file, the names that it defines (of a `data` also the cases), its comment and its lines."""

    module: object
    names: list
    is_record: bool
    comment: list
    lines: list

    def text(self):
        return "\n".join(self.lines)

    def key(self):
        return f"{self.module.path}: {self.names[0]}"


class Module:
    """A file of definitions: what it imports by name, what by a name for a whole module, and its definitions."""

    def __init__(self, path, lines):
        self.path = path
        self.imports = {}
        self.aliases = {}
        self.items = []
        self.told = told_by(lines)
        for comment, block in blocks_of(lines):
            if found := IMPORT.fullmatch(" ".join(line.strip() for line in block)):
                self.take(found)
            elif block[0].split()[0] not in ("infix", "infixl", "infixr"):
                self.put(comment, block)
        self.by_name = {name: item for item in self.items for name in item.names}

    def take(self, found):
        path, names, alias = found[1].removeprefix("Rattle."), found[2], found[3]
        if names is not None:
            self.imports |= {name.strip(): path for name in names.split(",")}
        elif alias:
            self.aliases[alias] = path

    def put(self, comment, block):
        word, last = block[0].split()[0], self.items[-1] if self.items else None
        if last and (word == "unfolding" or word in last.names and not re.match(r"\S+ :( |$)", block[0])):
            last.lines += block
        elif block[0].startswith(("mutual", "abbrev mutual")):
            inside = min(antt.indent_of(line) for line in block[1:] if line.strip())
            heads = [
                line[inside:]
                for line in block[1:] if antt.indent_of(line) == inside and not line.strip().startswith("--")
            ]
            cases = [found for line in block[1:] if (found := re.match(r" {4}(?:pub )?([^\s:(){}]+) :", line))]
            names = [found[2] for line in heads if (found := SIGNATURE.match(line))] + [found[1] for found in cases]
            self.items.append(Item(self, list(dict.fromkeys(names)), False, comment, list(block)))
        elif found := SIGNATURE.match(block[0]):
            cases = FIELD.findall("\n".join(block[1:])) if found[1] == "data" else []
            comment = comment or self.told.get(found[2], [])
            self.items.append(Item(self, [found[2], *cases], found[1] == "record", comment, list(block)))


def told_by(lines):
    """What the comment at the head of a file says of each name, as the lines of a comment."""
    head = [line[3:] for line in itertools.takewhile(lambda line: line.startswith("--"), lines)]
    told = {}
    for bullet in re.split(r"(?:^|\n)- ", "\n".join(head))[1:]:
        found = re.match(r"((?:`[^`]*`(?:, | and )?)+): (.*)", " ".join(bullet.split("\n  ")), re.DOTALL)
        names = [code.split()[0] for code in re.findall(r"`([^`]+)`", found[1])] if found else []
        if len(names) == 1:
            code = found[1].strip("`")
            told[names[0]] = [f"-- {line}" for line in wrapped((f"`{code}`: " * (" " in code) + found[2]).split(), 117)]
    return told


def blocks_of(lines):
    """The blocks of a file, each a line at the margin with the indented lines below it, and the comment above it."""
    comment, at = [], 0
    while at < len(lines):
        end = at + 1
        if not lines[at].strip():
            comment = []
        elif lines[at].startswith("--"):
            comment = [*comment, lines[at]]
        else:
            while end < len(lines) and (not lines[end].strip() or lines[end][0] in " )]}"):
                end += 1
            yield comment, antt.shortened(lines, at, end)
            comment = []
        at = end


@functools.cache
def module_at(path):
    """The module with a path such as `ps_game.specs.Plays`."""
    path = path.replace(".", "/") + ".antt"
    return Module(path, read(os.path.join("crates", path)))


def bound_in(item):
    """The names that a definition binds: parameters, fields, and the variables of its patterns. A constructor in a
    pattern is cited, not bound."""
    text = antt.without_comments(item.text())
    known = item.module.imports.keys() | item.module.by_name.keys()
    bound = {name for group in re.findall(r"[({]([^(){}:=,;]*?) :(?=\s)", text) for name in group.split()}
    bound |= {name for group in re.findall(r"λ ([^.]*?)\.(?=\s|$)", text) for name in WORD.findall(group)}
    bound |= set(re.findall(r"\blet ([^\s:=]+)", text)) | (set(FIELD.findall(text)) if item.is_record else set())
    patterns = re.findall(r"(?m)(?:^|[\[|])\s*([^\[\]|]*?)↦", text)
    patterns += [
        line[: line.index(" = ")] for line in text.split("\n") if " = " in line and line.split()[0] in item.names
    ]
    return bound | {name for pattern in patterns for name in WORD.findall(pattern) if name not in known}


def cited_by(item):
    """The names that a definition cites, each with the path of the module that defines it."""
    module, bound, cited = item.module, bound_in(item), {}
    tokens = [token for _, _, token in antt.tokens_of(item.text()) if token[0] not in '".']
    for token in tokens:
        name, *more = token.split(".")
        if more and name in module.aliases:
            cited[module.aliases[name], more[0]] = True
        elif name in module.imports and name not in bound:
            cited[module.imports[name], name] = True
        elif name in module.by_name and name not in bound and name not in item.names:
            cited[module.path[: -len(".antt")].replace("/", "."), name] = True
    for name, path in module.imports.items():
        if "◌" in name and {sign for sign in name.split("◌") if sign} <= set(tokens):
            cited[path, name] = True
    return list(cited)


class Gathered:
    """What a page has: the definitions, and the names of std, the types of the code and the ends that they cite."""

    def __init__(self, roots, ends):
        self.items = []
        self.std = {}
        self.types = {}
        self.ends = {}
        todo = list(roots)
        while todo:
            item = todo.pop(0)
            if item in self.items:
                continue
            self.items.append(item)
            for path, name in cited_by(item):
                if not path.startswith("ps_"):
                    self.std[name] = True
                elif ".declared." in path:
                    crate, _, rest = path.partition(".specs.declared.")
                    *file, last = [*rest.removesuffix(".TheVariants").split("."), name]
                    self.types[crate, file[0], file[1] if len(file) > 1 else last] = True
                elif (below := module_at(path).by_name[name]).key() in ends:
                    self.ends[below.key()] = below
                else:
                    todo.append(below)


def contract_of(path, function):
    """A function of a source file as an item: its comment, its signature and its clauses, without its body."""
    lines = read(path)
    first = next(at for at, line in enumerate(lines) if re.match(rf"pub fn {function}\b", line))
    last = next(at for at in range(first, len(lines)) if lines[at] == "{")
    module = Module(path, [line for line in lines if line.startswith("ghost use")])
    above = first
    while lines[above - 1].startswith("///"):
        above -= 1
    return Item(module, [function], False, lines[above:first], lines[first:last])


def root_of(path, name):
    return (
        contract_of(path, name)
        if path.endswith(".rt")
        else module_at(path.removesuffix(".antt").replace("/", ".")).by_name[name]
    )


def ordered(things, below):
    """The things in an order in which each follows those that `below` gives for it; a cycle is cut anywhere."""
    out, seen = [], set()

    def put(thing):
        if thing not in seen:
            seen.add(thing)
            for other in below(thing):
                put(other)
            out.append(thing)

    for thing in things:
        put(thing)
    return out


def files_of(items):
    """The definitions by file, in the order of each file; a file follows those that it cites."""
    by_path = {}
    for item in items:
        by_path.setdefault(item.module.path, []).append(item)
    cites = {path: [] for path in by_path}
    for path, those in by_path.items():
        for item in those:
            cites[path] += [
                other
                for it, _ in cited_by(item) if (other := it.replace(".", "/") + ".antt") in by_path and other != path
            ]
    place = {
        item: at
        for path in by_path for at, item in enumerate(module_at(path.removesuffix(".antt").replace("/", ".")).items)
    }
    return [
        (path, sorted(by_path[path], key=place.get))
        for path in ordered(sorted(by_path), lambda path: sorted(cites[path]))
    ]


def tops_of(files):
    """The crates whose definitions no definition of another crate on the page cites."""
    crates = dict.fromkeys(path.split("/")[0] for path, _ in files)
    cited = {
        (path.split("/")[0], other.split(".")[0])
        for path, items in files for item in items for other, _ in cited_by(item)
    }
    return [crate for crate in crates if not any(below == crate != above for above, below in cited)]


def chapters_of(files, first):
    """The files in chapters, each with the names of its crates. A crate follows those that it uses, but the crates
    `first` come first; small crates share a chapter."""
    uses, by_crate = {}, {}
    for line in read("crates.txt"):
        crate, _, listed = line.partition("#")[0].partition(":")
        uses[crate.strip()] = listed.split()
    for path, items in files:
        by_crate.setdefault(path.split("/")[0], []).append((path, items))
    order = [
        crate
        for crate in ordered(sorted(uses), lambda crate: uses.get(crate, []))
        if crate in by_crate and crate not in first
    ]
    chapters = [(list(first), [file for crate in first for file in by_crate[crate]])]
    for crate in order:
        if len(chapters) == 1 or len(chapters[-1][1]) >= FILES:
            chapters.append(([], []))
        chapters[-1][0].append(crate)
        chapters[-1][1].extend(by_crate[crate])
    return chapters


def shape_of(crate, file, name):
    """The variants or the fields of a type of the code, in one line."""
    lines = read(f"crates/{crate}/src/{file}.rt")
    first = next(at for at, line in enumerate(lines) if re.match(rf"pub (?:struct|enum) {name}\b", line))
    end = next(
        at for at in range(first, len(lines)) if lines[at].rstrip().endswith("}") and antt.indent_of(lines[at]) == 0
    )
    kept = [
        re.sub(r"^pub ", "", line.strip()) for line in lines[first + 1 : end] if not re.match(r"\s*(///|//|#\[)", line)
    ]
    return " ".join(kept).rstrip(",")


def wrapped(words, width=120):
    """Words in lines of at most so many columns."""
    lines = [""]
    for word in words:
        if len(lines[-1]) + 1 + len(word) > width:
            lines.append("")
        lines[-1] = f"{lines[-1]} {word}".strip()
    return lines


def page(roots=None, ends=None):
    """The lines of the page."""
    first = [root_of(path, name) for path, name in roots or ROOTS]
    found = Gathered(first, ENDS if ends is None else ends)
    contracts = [item for item in found.items if item.module.path.endswith(".rt")]
    files = files_of([item for item in found.items if item not in contracts])
    tops = tops_of(files)
    out = ["# The promise, with all that it says", "", *wrapped(HEAD.replace("@TOPS@", " and ".join(tops)).split()), ""]
    out += [*READING.split("\n"), "", "## The contract", ""]
    for item in contracts:
        out += ["```text", f"// {item.module.path}", *item.comment, *item.lines, "```", ""]
    index, number = {}, 0
    for crates, inside in chapters_of(files, tops):
        out += [f"## {', '.join(crates)}", "", "```text"]
        for path, items in inside:
            number += 1
            out.append(f"---- {number}. crates/{path}")
            for item in items:
                out += [*item.comment, *item.lines, ""]
                for name in item.names:
                    index.setdefault(name, []).append(str(number))
        out[-1:] = ["```", ""]
    out += ["## Types of the code", "", "| Type | Its variants or fields |", "|---|---|"]
    for crate, file, name in sorted(found.types, key=lambda it: it[2]):
        out.append(f"| [`{name}`](../crates/{crate}/src/{file}.rt) of {crate} | `{shape_of(crate, file, name)}` |")
    out += ["", "## Names of std", "", "| Name | What it means |", "|---|---|"]
    out += [
        f"| {', '.join(f'`{name}`' for name in names.split())} | {said} |".replace("◌||◌", r"◌\|\|◌")
        for names, said in STD
    ]
    out += ["", "## Where the page stops", "", "| Definition | What it states |", "|---|---|"]
    for key, item in sorted(found.ends.items()):
        out.append(f"| [`{item.names[0]}`](../crates/{item.module.path}) | {(ENDS if ends is None else ends)[key]} |")
    named = (f"{name}:{','.join(at)}" for name, at in sorted(index.items(), key=lambda it: it[0].lower()))
    return [*out, "", "## Index", "", "```text", *wrapped(named), "```", ""]
