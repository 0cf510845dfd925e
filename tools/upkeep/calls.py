"""Finds which functions of the Rattle code no program can call, by the names of functions.

A call `x.name(` may call each method of this name, a call `Type::name(` the function of this type, and a call `name(`
each function of this name that belongs to no type. So a function that shares its name with another may count as called
although it is not; a function that counts as not called is called by nobody.
"""
import dataclasses
import glob
import os
import re

LITERALS = re.compile(r"""//[^\n]*|"(?:\\.|[^"\\])*"|b?'(?:\\.[^']*|[^\\'\n])'""")
GHOST = re.compile(r"\b(?:requires|ensures)\*?(?=\s+\w+\s*\{|\s*\{)|\bghost\b")
IMPORTS = re.compile(r"\b(?:pub(?:\(\w+\))? )?use [^;]*;")
BLOCK = re.compile(r"\b(impl|trait)\b([^;{]*)\{")
FUNCTION = re.compile(r"\b(pub )?(?:final )?fn (\w+)")
NAMED = re.compile(r"(\.\s*)?((?:\w+\s*::\s*)*)([a-z_]\w*)\b(\s*(?:\(|::\s*<))?")
LAW = re.compile(r"(?:\s*(?:\w+::)*(\w+)\(\);)*\s*")


@dataclasses.dataclass(eq=False)
class Function:
    crate: str
    name: str
    type: str  # the type whose function it is; empty if it is of no type
    is_public: bool
    is_of_std: bool  # whether it is a method of a trait of std, which std's code calls
    has_self: bool
    body: str

    def path(self):
        return "::".join(part for part in (self.crate, self.type, self.name) if part)


def closing(text, at):
    """The index behind the bracket that closes the bracket at `at`."""
    depth = 0
    for index in range(at, len(text)):
        depth += (text[index] in "({[") - (text[index] in ")}]")
        if depth == 0:
            return index + 1
    return len(text)


def blank(text, start, end):
    return text[:start] + " " * (end - start) + text[end:]


def code_of(text):
    """The text without comments, literals, clauses, other ghost text and imports; no offset changes."""
    text = LITERALS.sub(lambda found: " " * len(found[0]), text)
    at = GHOST.search(text)
    while at:
        end = re.compile(r"[{;,]").search(text, at.end())
        stop = closing(text, end.start()) if end and end[0] == "{" else end.end() if end else len(text)
        text = blank(text, at.start(), stop)
        at = GHOST.search(text, stop)
    return IMPORTS.sub(lambda found: " " * len(found[0]), text)


def type_of(header):
    """The type of an `impl`, or the name of a trait, without parameters."""
    header = re.sub(r"<[^<>]*>", "", re.sub(r"<[^<>]*>", "", header))
    return (re.findall(r"\w+", header.split(" for ")[-1].split(":")[0]) or [""])[0]


def functions_of(crate, code, traits):
    """The functions in the code of a file, and the code outside functions."""
    blocks = [(found.end() - 1, closing(code, found.end() - 1), found[1], found[2]) for found in BLOCK.finditer(code)]
    functions, outside = [], code
    for found in FUNCTION.finditer(code):
        brackets = code.index("(", found.end())
        behind = closing(code, brackets)
        start = re.compile(r"[{;]").search(code, behind).start()
        end = closing(code, start) if code[start] == "{" else start
        around = [block for block in blocks if block[0] < found.start() < block[1]]
        kind, header = around[-1][2:] if around else ("", "")
        trait = type_of(header.split(" for ")[0]) if kind == "impl" and " for " in header else ""
        has_self = bool(re.match(r"\(\s*(?:&\s*)?(?:'\w+\s+)?(?:mut\s+)?self\b", code[brackets:]))
        type_name = type_of(header) if around else ""
        functions.append(
            Function(
                crate, found[2], type_name, bool(found[1]), bool(trait) and trait not in traits, has_self,
                code[start:end],
            )
        )
        outside = blank(outside, found.start(), end)
    return functions, outside


def read(top):
    """The functions of all crates but those of tests and of all benches, and the code outside functions."""
    paths = glob.glob(os.path.join(top, "crates", "*", "src", "**", "*.rt"), recursive=True)
    paths += glob.glob(os.path.join(top, "bench", "*", "src", "**", "*.rt"), recursive=True)
    codes = {}
    for path in sorted(paths):
        crate = os.path.relpath(path, top).split(os.sep)[1]
        if not crate.endswith("_tests"):
            with open(path, encoding="utf-8") as file:
                codes[path] = (crate, code_of(file.read()))
    traits = {name for _, code in codes.values() for name in re.findall(r"\btrait (\w+)", code)}
    read = [functions_of(crate, code, traits) for crate, code in codes.values()]
    return [function for functions, _ in read for function in functions], [outside for _, outside in read]


def laws_of(functions):
    """The functions whose bodies do nothing, or only call such functions."""
    laws, more = set(), True
    while more:
        names = {law.name for law in laws}
        more = {it for it in functions if it not in laws and is_law(it.body[1:-1], names)}
        laws |= more
    return laws


def is_law(body, names):
    return bool(LAW.fullmatch(body)) and set(re.findall(r"(\w+)\(\)", body)) <= names


def called_from(functions, outside, first):
    """The functions that are called, directly or through others, by those of std's traits, by `main`, by the code
    outside functions, or by the functions `first`."""
    by_name = {}
    for function in functions:
        by_name.setdefault(function.name, []).append(function)
    todo = [it for it in functions if it.is_of_std or it.name == "main" or it in first]
    called = set(todo)
    todo += [Function("", "", "", False, False, False, code) for code in outside]
    while todo:
        caller = todo.pop()
        new = {it for it in named_by(caller, by_name) if it not in called}
        called |= new
        todo += new
    return called


def named_by(caller, by_name):
    """The functions that a function's body may call."""
    for dot, path, name, is_call in NAMED.findall(caller.body):
        of = re.findall(r"\w+", path)[-1:] or [""]
        owner = caller.type if of[0] == "Self" else of[0]
        found = by_name.get(name, [])
        if dot:
            yield from (it for it in found if is_call and it.has_self)
        elif owner[:1].isupper():
            yield from ([it for it in found if it.type == owner] or [it for it in found if it.type])
        else:
            yield from (it for it in found if not it.type)
