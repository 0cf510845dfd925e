"""Makes the file tools/psyntool/program.json from the program's table of commands, for tools/command-files."""
import json
import os
import re

from psyntool import places

TABLE = os.path.join(places.TOP, "crates", "ps_program", "src", "commands.rt")
STORED = os.path.join(places.TOP, "tools", "psyntool", "program.json")
FLAG = r'const (\w+_FLAG): &str = "(\w+)";'
ROW = (
    r'Usage \{\s*name: "(\w+)",\s*flags: &\[(.*?)\],\s*texts: &\[(.*?)\],\s*added: &\[(.*?)\],\s*replaced: '
    r'&\[(.*?)\],\s'
)
BY_FLAG = r"\((\w+),\s*TextKind::(\w+)\)"


class Unreadable(Exception):
    """The table in the program's code is not in the form that this module reads; the message says what is missing."""


def row(name, flags, texts, added, replaced):
    """The entry of a command in program.json: its flags, and the kinds of its texts; `added` has the kind of a text
    that a flag adds, and `replaced` the kind of the first text if a flag is given."""
    kinds = [kind.lower() for kind in texts]
    by_flag = [{flag: kind.lower() for flag, kind in those} for those in (added, replaced)]
    told = {"flags": flags, "texts": kinds, "added": by_flag[0], "replaced": by_flag[1]}
    return f"  {json.dumps(name)}: {json.dumps(told)}"


def written(code=None):
    """The text of program.json, made from the table in the program's code."""
    if code is None:
        with open(TABLE, encoding="utf-8") as file:
            code = file.read()
    names, rows = dict(re.findall(FLAG, code)), re.findall(ROW, code, re.S)
    if not rows or len(rows) != len(re.findall(r"\bUsage \{\s*name:", code)):
        raise Unreadable(
            f"{os.path.relpath(TABLE, places.TOP)}: {len(rows)} rows of the table are written as name, flags, texts, "
            "added, replaced"
        )
    found = []
    for name, flags, texts, *by_flag in rows:
        given, kinds = re.findall(r"\w+", flags), [re.findall(BY_FLAG, these) for these in by_flag]
        unknown = [flag for flag in (*given, *(flag for these in kinds for flag, _ in these)) if flag not in names]
        if unknown:
            raise Unreadable(
                f"{os.path.relpath(TABLE, places.TOP)}: {name} has {unknown[0]}, which is no flag with a name"
            )
        named = [[(names[flag], kind) for flag, kind in these] for these in kinds]
        found.append(row(name, [names[flag] for flag in given], re.findall(r"TextKind::(\w+)", texts), *named))
    return "{\n" + ",\n".join(found) + "\n}\n"
