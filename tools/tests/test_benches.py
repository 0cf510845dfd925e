"""Checks that everything exists that the programs in bench/ import. The gate does not prove the programs in bench/, so
it would not notice an import of a module that has moved."""
import glob
import os
import re
import tempfile
import unittest

from upkeep.sweeps import TOP

RATTLE = re.compile(r"(?m)^\s*(?:pub )?(?:ghost )?use Rattle\.([\w.+]+?)(?:\.\{([^}]*)\})?(?: as \w+)?;?$")
RUST = re.compile(r"(?ms)^\s*(?:pub )?use (\w+)::(\{.*?\}|[\w:]+);")


def read(path):
    with open(path, encoding="utf-8") as file:
        return file.read()


def declared(crate, words, names):
    """An error message if the code of a crate lacks a type that a clause mentions, else None."""
    module = [word for word in words if word != "TheVariants"]
    path = os.path.join(crate, "src", *module[:-1]) + ".rt"
    if not os.path.exists(path):
        return f"there is no {os.path.relpath(path, TOP)}"
    text = read(path)
    body = re.search(rf"(?ms)^pub(?:\(crate\))? (?:enum|struct) {module[-1]}\b(.*?)^\}}", text)
    wanted = names if "TheVariants" in words else [name for name in names if name == module[-1]]
    missing = [name for name in wanted if not body or not re.search(rf"\b{name}\b", body[0])]
    return f"{os.path.relpath(path, TOP)} has no {', '.join(missing or module[-1:])}" if missing or not body else None


def named(path, names):
    """An error message if an .antt file does not define all given names, else None."""
    if not os.path.exists(path):
        return f"there is no {os.path.relpath(path, TOP)}"
    known = set(re.findall(r"(?m)^\s*(?:\w+ )*pub (?:(?:data|record|abbrev|unfoldable) )*([^\s:({]+)", read(path)))
    missing = [name for name in names if name not in known]
    return f"{os.path.relpath(path, TOP)} has no {', '.join(missing)}" if missing else None


def why_not(bench, text):
    """The imports of a bench program's file that name something missing."""
    wrong = []
    for path, braced in RATTLE.findall(text):
        words, names = path.split("."), [name.strip() for name in braced.split(",") if name.strip()]
        crate = os.path.join(TOP, "crates", words[0])
        if words[0] == os.path.basename(bench):
            # the prover generates the modules `Given` and `Goals` of a function, so no file defines them
            if words[-1] in ("Given", "Goals"):
                function = words[-2].lstrip("+")
                if not re.search(rf"\bfn {function}\b", read(os.path.join(bench, "src", "main.rt.in"))):
                    wrong.append(f"there is no function {function}")
            else:
                wrong.append(named(os.path.join(bench, *words[1:]) + ".antt.in", names))
        elif words[1:3] == ["specs", "declared"]:
            wrong.append(declared(crate, words[3:], names))
        elif words[0].startswith("ps_"):
            wrong.append(named(os.path.join(crate, *words[1:]) + ".antt", names))
    for crate, said in RUST.findall(text):
        if crate.startswith("ps_"):
            path = os.path.join(TOP, "crates", crate, "src", "lib.rt")
            handed_out = (
                " ".join(re.findall(r"(?s)\bpub (?:use|mod) (.*?);", read(path))) if os.path.exists(path) else ""
            )
            missing = [name for name in re.findall(r"\w+", said) if not re.search(rf"\b{name}\b", handed_out)]
            wrong += [f"{crate} hands out no {name}" for name in missing]
    return [why for why in wrong if why]


class Benches(unittest.TestCase):
    def test_each_import_is_there(self):
        wrong, found = [], 0
        for path in sorted(glob.glob(os.path.join(TOP, "bench", "*", "**", "*.in"), recursive=True)):
            found += 1
            bench = os.path.join(TOP, *os.path.relpath(path, TOP).split(os.sep)[:2])
            wrong += [f"{os.path.relpath(path, TOP)}: {why}" for why in why_not(bench, read(path))]
        self.assertFalse(wrong, "\n".join(["", *wrong]))
        self.assertGreater(found, 0)

    def test_what_is_gone_is_seen(self):
        with tempfile.TemporaryDirectory() as folder:
            bench = os.path.join(folder, "speed")
            os.makedirs(os.path.join(bench, "src"))
            with open(os.path.join(bench, "src", "main.rt.in"), "w", encoding="utf-8") as file:
                file.write("fn run() {}\n")

            def seen(text):
                return "; ".join(why_not(bench, text))

            self.assertIn(
                "Boards.antt has no board_of", seen("ghost use Rattle.ps_machine.specs.Boards.{IsGameOf, board_of};\n")
            )
            self.assertIn(
                "there is no crates/ps_game/specs/Nothing.antt", seen("use Rattle.ps_game.specs.Nothing.{length}\n")
            )
            self.assertIn(
                "has no Late", seen("ghost use Rattle.ps_machine.specs.declared.key.Order.TheVariants.{Late};\n")
            )
            self.assertIn("there is no function walk", seen("use Rattle.speed.proofs.walk.Given as goal\n"))
            self.assertIn("ps_game hands out no Board", seen("use ps_game::{\n    Board,\n    Game,\n};\n"))
            self.assertIn("ps_gone hands out no Game", seen("use ps_gone::Game;\n"))
            self.assertEqual(
                "",
                seen(
                    "use Rattle.std.specs.Prelude.{length}\nuse Rattle.speed.proofs.run.Goals as goal\nuse std::io;\n"
                ),
            )


if __name__ == "__main__":
    unittest.main()
