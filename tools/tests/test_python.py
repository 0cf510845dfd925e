"""Tests that the tool needs no later Python than 3.9, and that no line of Python is too long."""
import ast
import glob
import os
import unittest

from upkeep.layout import WIDTH
from upkeep.sweeps import TOP

LEAST = (3, 9)
# Modules, attributes and arguments that Python 3.9 lacks.
LATER_MODULES = {"tomllib"}
LATER_NAMES = {"bit_count", "pairwise", "file_digest", "StrEnum", "aiter", "anext", "batched", "chdir", "walk_up"}
# Files with longer lines, which are to be broken.
NOT_YET = ("tools/tests/test_documents.py", "tools/tests/test_edits.py")
LATER_ARGUMENTS = {("dataclass", "slots"), ("dataclass", "kw_only"), ("zip", "strict")}


def sources(*patterns):
    """The Python files that fit the patterns, with their texts."""
    for pattern in patterns:
        for path in sorted(glob.glob(os.path.join(TOP, pattern), recursive=True)):
            if os.path.isfile(path):
                with open(path, encoding="utf-8", errors="replace") as file:
                    text = file.read()
                if path.endswith(".py") or "python3" in text.partition("\n\n")[0]:
                    yield os.path.relpath(path, TOP), text


def too_new(text):
    """What a text has that Python 3.9 does not read, with the lines."""
    try:
        tree = ast.parse(text, feature_version=LEAST)
    except SyntaxError as error:
        return [f"{error.lineno}: {error.msg}"]
    are_late = any(isinstance(it, ast.ImportFrom) and it.module == "__future__" for it in tree.body)
    noted = (
        {id(part) for it in ast.walk(tree) for note in annotations(it) for part in ast.walk(note)} if are_late else ()
    )
    return [f"{it.lineno}: {said}" for it in ast.walk(tree) for said in later(it) if id(it) not in noted]


def annotations(it):
    return [note for note in (getattr(it, "annotation", None), getattr(it, "returns", None)) if note is not None]


def later(it):
    """What is later than Python 3.9 in a node of a syntax tree."""
    if isinstance(it, (ast.Import, ast.ImportFrom)):
        names = {one.name for one in it.names} | {getattr(it, "module", None)}
        return sorted(names & (LATER_MODULES | LATER_NAMES))
    if isinstance(it, ast.Attribute) and it.attr in LATER_NAMES:
        return [it.attr]
    if isinstance(it, ast.Call):
        called = it.func.id if isinstance(it.func, ast.Name) else getattr(it.func, "attr", "")
        return [one.arg for one in it.keywords if (called, one.arg) in LATER_ARGUMENTS]
    is_union = isinstance(it, ast.BinOp) and isinstance(it.op, ast.BitOr)
    sides = (it.left, it.right) if is_union else ()
    return ["a union of types"] if any(isinstance(one, ast.Constant) and one.value is None for one in sides) else []


class Versions(unittest.TestCase):
    def test_python_3_9_suffices(self):
        those = list(sources("tools/psyntool/**/*.py", "tools/psyn", "tools/install", "tools/check_certificate.py"))
        self.assertGreater(len(those), 100)
        self.assertEqual([f"{path}:{line}" for path, text in those for line in too_new(text)], [])

    def test_what_is_later_is_seen(self):
        for text, count in (
            ("match x:\n    case 1:\n        pass\n", 1),
            ("import tomllib\n", 1),
            ("from itertools import pairwise\n", 1),
            ("@dataclass(frozen=True, slots=True)\nclass A:\n    x: int | None\n", 2),
            (
                "from __future__ import annotations\n@dataclass\nclass A:\n    x: int | None\ndef f(x: "
                "A | None): pass\n",
                0,
            ),
            ("list(zip(a, b, strict=True))\nx.bit_count()\n", 2),
            ("def f() -> int | None: pass\n", 1),
            ("with open(a) as b, open(c) as d:\n    pass\nx = a.removeprefix(b) or {} | c\n", 0),
        ):
            with self.subTest(text):
                self.assertEqual(len(too_new(text)), count, too_new(text))


class Layout(unittest.TestCase):
    def test_no_line_is_too_long(self):
        long = [
            f"{path}:{row}: {len(line)} columns"
            for path, text in sources("tools/**/*", "bench/**/*") for row, line in enumerate(text.split("\n"), 1)
            if len(line) > WIDTH and path not in NOT_YET
        ]
        self.assertEqual(long, [])


if __name__ == "__main__":
    unittest.main()
