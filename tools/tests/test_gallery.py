"""Tests of the gallery: docs/GALLERY.md has a row with the answer for each specification, whose sentences mean what its
parts do; each part has a sentence, and each core is minimal. A specification of twelve parts is composed quickly."""
import glob
import os
import random
import re
import shutil
import subprocess
import time
import unittest
import unittest.mock

from psyntool import cores, program
from psyntool.command import Request
from psyntool.commands import core
from psyntool.parts import specification
from psyntool.parts.composing import Composer
from psyntool.table import COMMANDS
from tests.test_parts import PARTS
from tests.tool import OnFiles
from upkeep import documents, rows, sweeps

GALLERY = os.path.join(sweeps.TOP, "examples", "gallery")
SECONDS = 10
TWELVE = """\
--outs g0 g1 g2
--assume parts/again-and-again.hoa --as it=ready
--assume parts/stays-until.hoa --as it=r0 end=g0
--assume parts/stays-until.hoa --as it=r1 end=g1
--guarantee parts/never-together.hoa --as one=g0 other=g1
--guarantee parts/never-together.hoa --as one=g0 other=g2
--guarantee parts/never-together.hoa --as one=g1 other=g2
--guarantee parts/answered.hoa --as request=r0 answer=g0
--guarantee parts/answered.hoa --as request=r1 answer=g1
--guarantee parts/answered.hoa --as request=r2 answer=g2
--guarantee parts/at-most-one-step-after.hoa --as leader=ready follower=g0
--guarantee parts/answered-within-3.hoa --as request=r0 answer=g0
--guarantee parts/answered-within-3.hoa --as request=r1 answer=g1
"""


def read(path):
    """The specification that a list of parts defines."""
    return specification.asked(Request(COMMANDS["core"], {}, [path], COMMANDS))


class Lists(unittest.TestCase):
    @classmethod
    def setUpClass(cls):
        cls.lists = {
            os.path.basename(path).removesuffix(".parts"): read(path)
            for path in sorted(glob.glob(os.path.join(GALLERY, "*.parts")))
        }
        cls.asked = {name: cores.of_parts(Composer(whole)) for name, whole in cls.lists.items()}

    def test_each_part_has_a_sentence_and_each_file_is_used(self):
        used = set()
        for path in glob.glob(os.path.join(GALLERY, "*.parts")):
            with open(path, encoding="utf-8") as file:
                text = file.read()
            self.assertEqual(
                [it for it in re.split(r"\n\n+", text)[1:] if not re.match(r"# [A-Z].*[.]\n--(assume|guarantee) ", it)],
                [],
                path,
            )
            used |= set(re.findall(r"own/(\S+\.hoa)", text))
        self.assertEqual(sorted(used), sorted(os.listdir(os.path.join(GALLERY, "own"))))

    def test_each_core_is_one_and_has_nothing_to_leave_out(self):
        asked, wanted = [], []
        for name in self.lists:
            found = cores.core_of(self.asked[name])
            sets = [found.parts, *(cores.without(found.parts, place, 1) for place in range(len(found.parts)))]
            for place, parts in enumerate(sets):
                few = (
                    found.specification.having(parts, None)
                    if found.has_controller
                    else found.specification.having(None, parts)
                )
                asked.append(rows.Row(name, ("synth\n" + Composer(few).composed().text()).encode(), 0))
                wanted.append((name, 10 if found.has_controller == (place == 0) else 20))
        where = program.path()
        said = sweeps.at_once(lambda row: (row.name, rows.answered(where, row)[1]), asked)
        self.assertEqual(said, wanted)


# What the sentences say of outputs that the parts have not: how many slots are full, and where the lift is.
SLOTS = (
    "(empty)", "G onehot(empty, half, full)", "G ((offer & take <-> give & wanted) -> stable(empty, half, full))",
    "G (offer & take & !(give & wanted) -> (empty -> X half) & (half -> X full))",
    "G (give & wanted & !(offer & take) -> (full -> X half) & (half -> X empty))",
)  # fmt: skip
FLOORS = (
    "(at0)", "G onehot(at0, at1, at2, at3)", "G (!up & !down -> stable(at0, at1, at2, at3))",
    "G (up -> (at0 -> X at1) & (at1 -> X at2) & (at2 -> X at3))",
    "G (down -> (at3 -> X at2) & (at2 -> X at1) & (at1 -> X at0))",
)  # fmt: skip
# Those of whose rows the answer alone is compared, since the rest takes long.
LARGE = {"lift", "lift-deadline", "cache"}
BESIDE = {"buffer": ("empty half full", SLOTS), "lift": ("at0 at1 at2 at3", FLOORS)}


BENCH = """
module bench;
  reg clk = 0, %(inputs)s;
  wire %(outputs)s;
  %(name)s it(.clk(clk), .reset(1'b0), %(ports)s);
  task step(input [%(last)d:0] letter);
    begin {%(inputs)s} = letter; #1 $display("%%b", {%(outputs)s}); clk = 1; #1 clk = 0; end
  endtask
  initial begin %(letters)s $finish; end
endmodule
"""


def text_of(name):
    with open(os.path.join(GALLERY, name), encoding="utf-8") as file:
        return file.read()


class Sentences(OnFiles):
    """The sentences of each specification of the gallery, beside its parts."""

    def test_they_mean_what_the_parts_do(self):
        names = [
            name
            for name in sorted(it.removesuffix(".parts") for it in os.listdir(GALLERY) if it.endswith(".parts"))
            if name != "lift-deadline"
        ]
        self.assertEqual(len(names), 7)
        self.assertEqual(sweeps.at_once(self.agreed, names), [b"agrees\n"] * len(names))

    def agreed(self, name):
        outputs, more = BESIDE.get(name, ("", ()))
        text = text_of(f"{name}.parts").replace("../", f"{os.path.dirname(GALLERY)}/").replace(
            "own/", f"{GALLERY}/own/"
        )
        text = re.sub("(--outs .*)", rf"\1 {outputs}", text) + "".join(f"--guarantee '{it}'\n" for it in more)
        self.file(f"{name}.hoa", self.tool("--quiet", "compose", self.file(f"{name}.parts", text.encode())).stdout)
        return self.tool("agree", os.path.join(GALLERY, f"{name}.tlsf"), f"{name}.hoa").stdout

    def test_each_has_a_row_with_what_comes_of_it(self):
        told = {}
        for line in documents.read("docs/GALLERY.md"):
            name = re.match(r"\| \[(\S+)\]\(\.\./examples/gallery/\1\.tlsf\) \|", line)
            if name:
                told[name[1]] = tuple(cell.strip() for cell in line.split("|")[3:6])
        self.assertEqual(
            sorted(told), sorted(it.removesuffix(".tlsf") for it in os.listdir(GALLERY) if it.endswith(".tlsf"))
        )
        for name, *cells in sweeps.at_once(self.comes, sorted(told)):
            self.assertEqual(told[name][: len(cells)], tuple(cells), name)

    def comes(self, name):
        """The answer, the states, and the latches and gates, as the row of a specification has them; of a large one the
        answer alone."""
        path, is_large = os.path.join(GALLERY, f"{name}.tlsf"), name in LARGE
        made = self.tool("--quiet", "synth", *["--small"] * (not is_large), path).stdout.decode()
        answer = {"R": "yes", "U": "no"}[made[0]]
        if is_large:
            return name, answer
        head = re.search(r"aag \d+ \d+ (\d+) \d+ (\d+)\n", made)
        states = re.search(r"States: (\d+)\n", self.tool("translate", path).stdout.decode())
        return name, answer, states[1], f"{head[1]}, {head[2]}"

    @unittest.skipUnless(shutil.which("iverilog"), "iverilog is not installed")
    def test_their_modules_do_in_a_simulator_what_the_circuits_do(self):
        chance = random.Random("modules")
        for name in ("crossing", "vending", "bridge"):
            path = os.path.join(GALLERY, f"{name}.tlsf")
            self.assertEqual(self.tool("synth", "--quiet", "-o", name, path).returncode, 10)
            module = self.tool("verilog", f"{name}.aag", path).stdout.decode()
            inputs, outputs = (re.findall(rf"{side} wire (\w+)", module) for side in ("input", "output"))
            inputs = [it for it in inputs if it not in ("clk", "reset")]
            letters = ["".join(chance.choice("01") for _ in inputs) for _ in range(100)]
            said = self.tool(
                "sim", f"{name}.aag", "-", given="".join(f"{it}\n" for it in letters).encode()
            ).stdout.decode()
            ports = ", ".join(f".{it}({it})" for it in (*inputs, *outputs))
            steps = " ".join(f"step({len(inputs)}'b{it});" for it in letters)
            words = {
                "name": name, "inputs": ", ".join(inputs), "outputs": ", ".join(outputs), "ports": ports,
                "last": len(inputs) - 1, "letters": steps,
            }
            self.file("both.v", (module + BENCH % words).encode())
            subprocess.run(["iverilog", "-o", "both", "both.v"], cwd=self.room, check=True)
            done = subprocess.run(["vvp", "-n", "both"], cwd=self.room, capture_output=True, text=True, check=True)
            self.assertEqual(done.stdout.split(), [row.split("|")[2] for row in said.splitlines()], name)

    def test_the_lift_with_a_deadline_is_the_lift_but_for_two_sentences(self):
        lines = [set(text_of(f"{name}.tlsf").partition("MAIN")[2].splitlines()) for name in ("lift", "lift-deadline")]
        self.assertEqual({line.replace(" F ", " within 3 ") for line in lines[0] - lines[1]}, lines[1] - lines[0])
        self.assertEqual(len(lines[0] - lines[1]), 2)


class Twelve(OnFiles):
    """The time that the tool itself takes, and how often the tool runs the program."""

    def test_compose_and_core(self):
        os.symlink(PARTS, os.path.join(self.room, "parts"))
        asked, ask = [], program.ask

        def timed(given):
            began = time.monotonic()
            answer = ask(given)
            asked.append(time.monotonic() - began)
            return answer

        began = time.monotonic()
        with unittest.mock.patch("psyntool.program.ask", timed):
            whole = read(self.file("twelve.parts", TWELVE.encode()))
            self.assertGreater(len(Composer(whole).composed().names), 100)
            found = cores.core_of(cores.of_parts(Composer(whole)))
        self.assertEqual(core.rows(found.parts)[0].split()[0], "at-most-one-step-after(ready,g0)")
        self.assertEqual(len(found.parts), 2)
        self.assertLess(time.monotonic() - began - sum(asked), SECONDS)
        self.assertLess(len(asked), 40)


if __name__ == "__main__":
    unittest.main()
