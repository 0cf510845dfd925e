"""Tests `verilog --sva`: which sentences become assertions; yosys reads them, and abc proves those of the gallery's
controllers, and refutes one of a circuit that was changed."""
import os
import re
import shutil
import subprocess
import unittest

from psyntool.program import path as program
from tests.tool import AUTOMATON, OnFiles
from upkeep.sweeps import TOP

GALLERY = os.path.join(TOP, "examples", "gallery")
SECTIONS = """
  INPUTS { r; c; } OUTPUTS { g; h; } INITIALLY { !c; } REQUIRE { r -> X r || c; } ASSUME { G F c; } PRESET { !h; }
  ASSERT { h -> X !h; } GUARANTEE { G (r -> F g); G F (h && X g); G (c -> X (g || X g)); !h U g; G (X r -> F g); }
"""
TEXT = f"INFO {{ SEMANTICS: Mealy TARGET: Mealy }} MAIN {{ {SECTIONS} }}\n"
LINES = """\
  // The initial assumption of line 2: !c
  always @(posedge clk) if (!reset && step == 0) assume (!c);
  // The assumption of line 2: r -> X r || c
  always @(posedge clk) if (!reset && step >= 1) assume ((!$past(r, 1) || (r || $past(c, 1))));
  // The initial guarantee of line 2: !h
  always @(posedge clk) if (!reset && step == 0) assert (!h);
  // The guarantee of line 3: h -> X !h
  always @(posedge clk) if (!reset && step >= 1) assert ((!$past(h, 1) || !h));
  // The guarantee of line 3: G (c -> X (g || X g))
  always @(posedge clk) if (!reset && step >= 2) assert ((!$past(c, 2) || ($past(g, 1) || g)));
  `ifndef YOSYS
  // The assumption of line 2: G F c
  assume property (@(posedge clk) disable iff (reset) s_eventually c);
  // The guarantee of line 3: G (r -> F g)
  assert property (@(posedge clk) disable iff (reset) r |-> s_eventually g);
  // The guarantee of line 3: G F (h && X g)
  assert property (@(posedge clk) disable iff (reset) s_eventually (step >= 1 && ($past(h, 1) && g)));
  `endif
  // No assertion, since `U` stands where no assertion has it: the guarantee of line 3, !h U g
  // No assertion, since its two sides of `-> F` look ahead: the guarantee of line 3, G (X r -> F g)
  `endif
"""
YOSYS = (
    "read_verilog -formal -sv {0}; prep -top it; async2sync; delete -output o:*; techmap; simplemap; dffunmap; "
    "setundef -undriven -zero; setundef -zero -init; aigmap; write_aiger -zinit it.aig"
)
HAS_TOOLS = shutil.which("yosys") and shutil.which("berkeley-abc")


class Assertions(OnFiles):
    @classmethod
    def setUpClass(cls):
        program()

    def module(self, path):
        self.assertEqual(self.tool("synth", "--quiet", "--force", "-o", "it", path).returncode, 10)
        return self.tool("verilog", "--sva", "it.aag", path).stdout.decode()

    def test_each_sentence_has_its_line(self):
        self.assertIn(LINES, self.module(self.file("it.tlsf", TEXT.encode())))

    def test_a_circuit_without_a_latch_has_a_clock(self):
        sections = "INPUTS { r; } OUTPUTS { g; step; } GUARANTEE { G (g <-> r); G step; }"
        text = f"INFO {{ SEMANTICS: Mealy TARGET: Mealy }} MAIN {{ {sections} }}\n"
        module = self.module(self.file("it.tlsf", text.encode()))
        self.assertIn("// There is no register, and so no clock.\n", module)
        self.assertIn("  input wire clk,\n  input wire reset,\n", module)
        self.assertIn("  always @(posedge clk) if (!reset) assert ((g == r));\n", module)
        self.assertIn("  reg [0:0] step_2 = 1'd0;\n", module)

    def prove(self, module):
        """What abc says of a module's assertions."""
        script = YOSYS.format(self.file("it.sv", module.encode()))
        subprocess.run(["yosys", "-q", "-p", script], cwd=self.room, check=True)
        words = ["berkeley-abc", "-c", "read_aiger it.aig; fold; pdr"]
        return subprocess.run(words, cwd=self.room, capture_output=True, text=True, check=True).stdout

    @unittest.skipUnless(HAS_TOOLS, "yosys or abc is not installed")
    def test_abc_proves_those_of_controllers(self):
        for path in ("crossing", "bridge", None):
            given = os.path.join(GALLERY, f"{path}.tlsf") if path else self.file("s.tlsf", TEXT.encode())
            self.assertIn("Property proved.", self.prove(self.module(given)), path)

    @unittest.skipUnless(HAS_TOOLS, "yosys or abc is not installed")
    def test_abc_refutes_one_of_a_changed_circuit(self):
        module = self.module(self.file("s.tlsf", TEXT.encode()))
        for name, value in (("h", "1'b1"), ("g", "1'b0")):
            changed, count = re.subn(rf"assign {name} = .*;", f"assign {name} = {value};", module)
            self.assertEqual(count, 1)
            self.assertIn("was asserted in frame", self.prove(changed))

    def test_what_can_not_be_asked(self):
        self.file("s.tlsf", TEXT.encode())
        self.file("it.hoa", AUTOMATON)
        self.file("it.aag", b"aag 0 0 0 0 0\n")
        for words, why in (
            (("it.aag",), "verilog --sva is for a controller, and wants its specification"),
            (("--env", "it.aag", "s.tlsf"), "verilog --sva is for a controller, and wants its specification"),
            (("it.aag", "it.hoa"), "verilog --sva wants a specification in temporal logic"),
        ):
            done = self.tool("verilog", "--sva", *words)
            self.assertEqual((done.stdout, done.stderr.decode(), done.returncode), (b"", f"psyn: {why}\n", 2))


if __name__ == "__main__":
    unittest.main()
