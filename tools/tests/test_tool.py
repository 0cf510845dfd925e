"""Tests tools/psyn on valid, damaged and unusual files."""
import os
import shutil
import subprocess
import sys
import unittest

from psyntool import families
from psyntool.command import EVERYWHERE
from psyntool.program import path as program
from psyntool.table import COMMANDS
from tests.tool import AUTOMATON, CERTIFICATE, CIRCUIT, GAME, TOOL, OnFiles


class Commands(OnFiles):
    @classmethod
    def setUpClass(cls):
        program()

    def test_the_answer_and_the_status_are_the_programs(self):
        game, certificate = self.file("game", GAME), self.file("certificate", CERTIFICATE)
        done = self.tool("closed", game, certificate)
        self.assertEqual((done.stdout, done.returncode, done.stderr), (b"closed\n", 0, b""))

    def test_standard_input_is_a_file(self):
        circuit = self.file("circuit", CIRCUIT)
        done = self.tool("sim", circuit, "-", given=b"1\n1\n0\n")
        self.assertEqual(done.stdout, b"1|1|101\n0|1|011\n1|0|111\n")

    def test_a_lasso_reads_three_files_and_its_flag(self):
        automaton, stimulus = self.file("automaton", AUTOMATON), self.file("stimulus", b"1\n-\n0\n1\n")
        circuit = self.file("grant", b"aag 1 1 0 1 0\n2\n2\ni0 r\no0 g\n")
        self.assertEqual(self.tool("lasso", automaton, circuit, stimulus).stdout, b"accepted stem 1 lap 2\n")
        turned = self.tool("lasso", "--env", automaton, circuit, stimulus)
        self.assertEqual((turned.stdout, turned.returncode), (b"fault 72 Symbols\n", 1))
        self.assertIn(b"the symbols are those of a controller: ask without --env\n", turned.stderr)
        self.assertIn(b"cause: the symbols of the circuit", turned.stderr)

    def test_where_a_circuit_loses_the_run_is_shown_and_the_stimulus_stored(self):
        judge = (
            "#!/bin/sh\nread line\ncase $line in verify*) cat > /dev/null; printf '%s' \"$SAID\" ;; *) (echo $line; "
            f"cat) | '{program()}' ;; esac\n"
        )
        fake, automaton = self.file("fake", judge.encode()), self.file("automaton", AUTOMATON)
        os.chmod(fake, 0o755)
        circuit, path = self.file("silent", b"aag 1 1 0 1 0\n2\n0\ni0 r\no0 g\n"), os.path.join(self.room, "lost.stim")
        loses = {"PSYN": fake, "SAID": "loses\n0\n1\n-\n1\n"}
        done = self.tool("verify", "--stimulus", path, automaton, circuit, environment=loses)
        self.assertEqual((done.stdout, done.returncode), (b"loses\n0\n1\n-\n1\n", 0))
        shown = [
            "step  state  letter  sets",
            "0     0 off  !r !g   0",
            "1     0 off  r !g",
            "the lap begins; it comes again after step 2",
            "2     1      r !g",
        ]
        self.assertEqual([line.rstrip() for line in done.stderr.decode().splitlines()], shown)
        with open(path, "rb") as file:
            self.assertEqual(file.read(), b"0\n1\n-\n1\n")
        self.assertEqual(self.tool("lasso", automaton, circuit, path).stdout, b"rejected stem 2 lap 1\n")
        won = self.tool("verify", automaton, circuit, environment={"PSYN": fake, "SAID": "wins\n"})
        self.assertEqual((won.stdout, won.stderr), (b"wins\n", b""))
        self.assertEqual(self.tool("--quiet", "verify", automaton, circuit, environment=loses).stderr, b"")
        self.assertEqual(
            self.tool(
                "verify", "--stimulus", os.path.join(self.room, "no", "x"), automaton, circuit, environment=loses
            ).returncode,
            2,
        )

    def test_synth_reads_an_automaton_and_with_its_flag_a_certificate(self):
        automaton = self.file(
            "automaton", b"HOA: v1 Start: 0 controllable-AP: Acceptance: 0 t --BODY-- State: 0 0 --END--"
        )
        done = self.tool("synth", automaton)
        self.assertEqual((done.stdout, done.returncode), (b"REALIZABLE\naag 0 0 0 0 0\n", 10))
        right = self.file("certificate", b"psyncert 1\nvertices 2\nodd\neven 0\n0 0 -\n1 0 0\n")
        self.assertEqual(self.tool("synth", "--cert", automaton, right).stdout, done.stdout)
        wrong = self.file("wrong", b"psyncert 1\nvertices 2\nodd\neven 0\n0 1 - 0\n1 1 - 0\n")
        refused = self.tool("synth", "--cert", automaton, wrong)
        self.assertEqual((refused.stdout, refused.returncode), (b"fault 41 NotCertified\n", 1))

    def test_a_report_goes_to_three_files(self):
        automaton, prefix = self.file("automaton", AUTOMATON), os.path.join(self.room, "out")
        done = self.tool("-o", prefix, "synth", automaton)
        self.assertEqual((done.stdout, done.returncode), (b"REALIZABLE\n", 10))
        whole = self.tool("synth", "--full", automaton).stdout
        parts = []
        for ending in (".aag", ".pg", ".cert"):
            with open(prefix + ending, "rb") as file:
                parts.append(file.read())
        self.assertTrue(parts[0].endswith(b"\nc\nwritten by psyn\n"))
        self.assertEqual(
            done.stdout + b"%%\n".join([parts[0].removesuffix(b"c\nwritten by psyn\n"), *parts[1:]]), whole
        )
        self.assertEqual(self.tool("check", prefix + ".pg", prefix + ".cert").stdout, b"valid\n")
        self.assertEqual(self.tool("-o", prefix, "game", automaton).returncode, 2)

    def test_a_place_in_an_automaton_is_one_of_the_file(self):
        automaton = self.file("automaton", AUTOMATON.replace(b"[!0|1] 0 {0}", b"[!0|1] 0 {1}"))
        done = self.tool("lasso", automaton, self.file("circuit", b""), self.file("stimulus", b""))
        self.assertIn(f"{automaton}:9:11: Range\n  [!0|1] 0 {{1}}".encode(), done.stderr)

    def test_a_last_newline_that_is_missing_is_added(self):
        game, certificate = self.file("game", GAME[:-1]), self.file("certificate", CERTIFICATE[:-1])
        done = self.tool("check", game, certificate)
        self.assertEqual(done.stdout, b"valid\n")
        self.assertEqual(done.stderr.count(b"is ended by a newline"), 2)

    def test_carriage_returns_are_left_out(self):
        circuit = self.file("circuit", CIRCUIT.replace(b"\n", b"\r\n"))
        done = self.tool("sim", circuit, "-", given=b"1\r\n")
        self.assertEqual((done.stdout, done.returncode), (b"1|1|101\n", 0))
        kept = self.tool("--keep-returns", "sim", circuit, "-", given=b"1\n")
        self.assertEqual(kept.stdout, b"fault 61 Syntax at 13\n")

    def test_a_place_is_one_of_the_file(self):
        game = self.file("game", b"0 0 0 0;\r\n1 0 0 2;\r\n")
        done = self.tool("closed", game, self.file("certificate", b""))
        self.assertEqual(done.stdout, b"fault 32 UnknownSuccessor at 15\n")
        self.assertIn(f"{game}:2:7: UnknownSuccessor\n  1 0 0 2;".encode(), done.stderr)

    def test_unset_latches_begin_with_0_by_a_flag_alone(self):
        circuit = self.file("circuit", b"aag 1 0 1 1 0\n2 3 2\n2\n")
        self.assertEqual(self.tool("sim", circuit, "-", given=b"\n\n").stdout, b"fault 66 UnsetLatch at 18\n")
        self.assertEqual(self.tool("--zero-resets", "sim", circuit, "-", given=b"\n\n").stdout, b"0||0\n1||1\n")

    def test_a_binary_circuit_is_converted(self):
        done = self.tool("sim", self.file("circuit", b"aig 2 1 1 1 0\n2\n4\n"), "-", given=b"1\n0\n")
        self.assertEqual(done.stdout, b"0|1|0\n1|0|1\n")
        self.assertIn(b"converted from the binary form", done.stderr)

    def test_a_circuit_is_converted_to_the_other_form_and_back(self):
        clocked = self.file("clocked", b"aag 3 2 1 1 0\n2\n4\n6 4\n6\ni0 clk\ni1 push\no0 lamp\n")
        made = self.tool("convert", "--drop", "clk", clocked)
        self.assertEqual(
            (made.stdout, made.stderr, made.returncode), (b"aig 2 1 1 1 0\n2\n4\ni0 push\no0 lamp\n", b"", 0)
        )
        back = self.tool("convert", "--quiet", self.file("made", made.stdout))
        self.assertEqual((back.stdout, back.returncode), (b"aag 2 1 1 1 0\n2\n4 2\n4\ni0 push\no0 lamp\n", 0))
        read = self.tool("convert", clocked, "--drop=push")
        self.assertEqual(
            (read.stdout, read.stderr, read.returncode),
            (b"", b"psyn: the input 'push' can't be dropped: the circuit reads it\n", 2),
        )

    def test_quiet_explains_nothing(self):
        game = self.file("game", b"0 1 0 ;")
        self.assertEqual(self.tool("--quiet", "closed", game, self.file("certificate", b"")).stderr, b"")

    def test_a_wave_has_the_names_and_the_values(self):
        circuit = self.file("circuit", CIRCUIT)
        done = self.tool("wave", circuit, "-", given=b"1\n1\n0\n")
        self.assertEqual(done.returncode, 0)
        for line in (
            b"$var wire 1 ! lamp $end", b'$var wire 1 " push $end', b"$var wire 1 # dark $end", b"#0\n1!\n1\"\n",
            b"#3\n",
        ):
            self.assertIn(line, done.stdout)

    def test_names_in_latin_1_are_written_in_utf_8(self):
        circuit = CIRCUIT.replace(b"push", b"dr\xfcck\x7fen").replace(b"dark", "dunkel\u00e9".encode())
        names = self.tool("wave", self.file("odd.aag", circuit), self.file("s", b"1\n")).stdout.decode("utf-8")
        self.assertIn("$var wire 1 \" dr\u00fcck_en $end\n", names)
        self.assertIn("dunkel\u00e9 $end\n", names)
        self.assertIn("dr\u00fcck", self.tool("show", "odd.aag").stdout.decode("utf-8"))

    @unittest.skipUnless(shutil.which("vcd2fst") and shutil.which("fst2vcd"), "no reader of VCD files is installed")
    def test_a_wave_is_read_by_a_wave_viewers_reader(self):
        done = self.tool("wave", self.file("circuit", CIRCUIT), "-", given=b"1\n1\n0\n")
        wave, packed = self.file("wave.vcd", done.stdout), os.path.join(self.room, "wave.fst")
        subprocess.run(["vcd2fst", wave, packed], capture_output=True, check=True)
        again = subprocess.run(["fst2vcd", packed], capture_output=True, check=True).stdout
        for line in (b"$var wire 1 ! lamp $end", b"$scope module outputs $end", b"#2\n"):
            self.assertIn(line, again)

    def test_sim_with_names(self):
        circuit = self.file("circuit", CIRCUIT)
        done = self.tool("sim", circuit, "-", "--names", given=b"1\n0\n")
        self.assertEqual((done.stdout, done.returncode), (b"lamp|push|dark o1 o2\n1|1|101\n0|0|001\n", 0))
        wrong = self.tool("sim", circuit, "-", "--names", given=b"11\n")
        self.assertEqual((wrong.stdout, wrong.returncode), (b"fault 70 Width at 0\n", 1))

    def test_a_trace_has_states_letters_and_sets(self):
        automaton = self.file("automaton", AUTOMATON)
        late = self.file("late", b"aag 2 1 1 1 0\n2\n4 2\n4\ni0 r\no0 g\n")
        done = self.tool("lasso", "--trace", automaton, late, "-", given=b"1\n-\n0\n1\n")
        rows = [
            "accepted stem 1 lap 2",
            "step  state  letter  sets",
            "0     0 off  r !g",
            "the lap begins; it comes again after step 2",
            "1     1      !r g    0",
            "2     0 off  r !g",
        ]
        self.assertEqual((done.stdout.decode().splitlines(), done.returncode), (rows, 0))

    def test_a_trace_of_a_run_that_ends(self):
        automaton = self.file("automaton", AUTOMATON.replace(b"[!1] 1", b"[!1&0] 1"))
        never = self.file("never", b"aag 1 1 0 1 0\n2\n0\ni0 r\no0 g\n")
        done = self.tool("lasso", "--trace", automaton, never, "-", given=b"1\n-\n0\n")
        self.assertEqual(
            done.stdout.decode().splitlines()[2:],
            ["0     0 off  r !g", "1     1      !r !g   no edge", "there is no edge: the run ends"],
        )
        self.assertEqual((done.stdout[:8], done.returncode), (b"rejected", 0))

    def test_a_trace_of_a_circuit_that_is_the_environment(self):
        automaton = self.file("automaton", AUTOMATON)
        asks = self.file("asks", b"aag 1 1 0 1 0\n2\n1\ni0 g\no0 r\n")
        done = self.tool("lasso", "--env", "--trace", automaton, asks, "-", given=b"-\n0\n1\n")
        self.assertEqual(done.stdout.decode().splitlines()[-2:], ["0     0 off  r !g", "1     1      r g     0"])

    def test_a_trace_of_a_fault_is_the_fault(self):
        done = self.tool(
            "lasso", "--trace", self.file("automaton", AUTOMATON), self.file("circuit", CIRCUIT), "-", given=b"-\n1\n"
        )
        self.assertEqual((done.stdout, done.returncode), (b"fault 72 Symbols\n", 1))

    def test_a_wave_of_a_lasso_goes_on_until_the_latches_come_again(self):
        counter = self.file("counter", b"aag 2 0 2 1 0\n2 3\n4 2\n4\nl0 low\nl1 high\no0 out\n")
        done = self.tool("wave", counter, "-", given=b"\n-\n\n")
        self.assertIn(b"$scope module lasso $end\n$var wire 1 $ lap $end\n", done.stdout)
        self.assertIn(b"#0\n0!\n0\"\n0#\n0$\n#1\n1!\n1$\n", done.stdout)
        self.assertTrue(done.stdout.endswith(b"#3\n"), done.stdout)

    def test_pictures_of_a_binary_circuit_and_of_an_answer(self):
        self.assertIn(b"digraph circuit", self.tool("show", self.file("circuit", b"aig 2 1 1 1 0\n2\n4\n")).stdout)
        automaton = self.file("automaton", AUTOMATON)
        short, whole = (
            self.file(name, self.tool("synth", *flags, automaton).stdout)
            for name, flags in (("short", []), ("whole", ["--full"]))
        )
        self.assertIn(b"digraph circuit", self.tool("show", short).stdout)
        self.assertIn(b"fillcolor", self.tool("show", whole).stdout)
        named = self.tool("show", whole, automaton).stdout
        self.assertIn(b'label=" !r "', named)
        self.assertEqual(named, self.tool("show", automaton, whole).stdout)

    def test_a_certificate_as_a_solution_comes_back(self):
        for text in (GAME, b"0 0 1 0,1; 1 1 1 1;\n7 4 0 0,7;\n"):
            game = self.file("game", text)
            solved = self.tool("solve", game).stdout
            made = self.tool("solution", game, "-", given=solved)
            self.assertEqual((made.stderr, made.returncode), (b"", 0))
            self.assertEqual(self.tool("judge", game, "-", given=made.stdout).stdout, solved)
            self.assertIn(b"digraph game", self.tool("show", game, self.file("made", made.stdout)).stdout)


class Refusals(OnFiles):
    def test_a_missing_file(self):
        done = self.tool("closed", os.path.join(self.room, "nothing"), "-")
        self.assertEqual(done.returncode, 2)
        self.assertIn(b"No such file", done.stderr)

    def test_a_binary_file(self):
        done = self.tool("closed", self.file("game", b"\x7fELF\0\0"), "-")
        self.assertIn(b"this is no text", done.stderr)

    def test_a_binary_circuit_that_is_cut(self):
        done = self.tool("sim", self.file("circuit", b"aig 3 1 1 1 1\n6\n2\n\x02"), "-")
        self.assertEqual(done.returncode, 2)
        self.assertIn(b"can't be converted: it ends inside the gates", done.stderr)

    def test_a_wrong_number_of_files_and_an_unknown_command(self):
        self.assertIn(b"check reads GAME CERTIFICATE, and got 1 file", self.tool("check", "-").stderr)
        self.assertIn(b"there is no command chek (did you mean check?)", self.tool("chek", "-").stderr)

    def test_a_mark_inside_a_text(self):
        game = self.file("game", b"0 0 0 0;\n%%\n")
        self.assertIn(b"game:2: a line %%", self.tool("closed", game, self.file("certificate", CERTIFICATE)).stderr)

    def test_standard_input_that_is_a_folder(self):
        done = subprocess.run(["bash", "-c", '"$0" synth - < /', TOOL], capture_output=True, check=False)
        self.assertEqual((done.stderr, done.returncode), (b"psyn: standard input: Is a directory\n", 2))

    def test_a_device_is_no_beginning_of_names(self):
        self.file("automaton", AUTOMATON)
        done = self.tool("synth", "-o", "/dev/full", "automaton")
        self.assertEqual((done.stderr, done.returncode), (b"psyn: -o PREFIX: /dev/full is no plain file\n", 2))
        self.assertFalse(os.path.exists("/dev/full.aag"))

    def test_a_program_that_is_not_there(self):
        done = self.tool(
            "sim", self.file("circuit", CIRCUIT), "-", environment={"PSYN": os.path.join(self.room, "none")}
        )
        self.assertIn(b"there is no such file, and no program", done.stderr)


class Start(OnFiles):
    def modules(self, *words):
        """The modules of the tool that a command line imports."""
        code = (
            "import sys; sys.path.insert(0, sys.argv[1]); from psyntool.main import main; main(sys.argv[2:]); "
            "print(*sys.modules)"
        )
        command = [sys.executable, "-B", "-c", code, os.path.dirname(TOOL), *words]
        said = subprocess.run(command, capture_output=True, text=True, check=True, cwd=self.room).stdout
        return {name.removeprefix("psyntool.") for name in said.split() if name.startswith("psyntool.")}

    def test_only_what_a_command_needs_is_imported(self):
        parsing = set("main running words command table kinds usages places console signals ends texts".split())
        asking = parsing | set("asking files program progress unmentioned texts.binary".split())
        self.assertEqual(self.modules("chek"), parsing)
        self.assertEqual(self.modules("help"), parsing | {"commands", "commands.help"})
        self.assertEqual(self.modules("check", self.file("game", GAME), self.file("certificate", CERTIFICATE)), asking)
        self.file("automaton", AUTOMATON)
        self.assertEqual(
            self.modules("synth", "automaton"),
            asking | set("commands commands.synth outputs remarks texts.report texts.circuit".split()),
        )
        self.file("grant", b"aag 1 1 0 1 0\n2\n2\ni0 r\no0 g\n")
        self.assertEqual(
            self.modules("verify", "automaton", "grant"), asking | set("commands commands.verify outputs".split())
        )

    def test_the_families_of_games_are_told(self):
        self.assertTrue(COMMANDS["games"].says.endswith(f": {', '.join(families.FAMILIES)}"))


class Help(OnFiles):
    def asked(self, *words):
        done = self.tool(*words, environment={"PSYN": os.path.join(self.room, "nowhere")})
        self.assertEqual((done.returncode, done.stderr), (0, b""), words)
        return done.stdout.decode()

    def test_each_command_and_each_flag_is_told_without_the_program(self):
        pages = {words: self.asked(*words) for words in ((), ("help",), ("--help",), ("-h",))}
        self.assertEqual(len(set(pages.values())), 1)
        whole = self.asked("help", "all")
        for name, command in COMMANDS.items():
            self.assertRegex(pages[()], rf"\n  ([a-z]+ )*{name} ")
            self.assertRegex(whole, rf"\n  {name}\b")
            told = {self.asked(name, "--help"), self.asked("help", name), self.asked("--help", name)}
            self.assertEqual(len(told), 1)
            (page,) = told
            self.assertTrue(page.startswith(name))
            self.assertEqual([flag.name for flag in command.all_flags if f"\n  {flag.shown} " not in page], [])
        flags = {flag for command in COMMANDS.values() for flag in (*command.all_flags, *EVERYWHERE)}
        self.assertEqual([flag.name for flag in flags if f"\n  {flag.shown}" not in whole], [])

    def test_it_is_one_screen_and_fits_the_terminal(self):
        lines = self.asked("help").splitlines()
        self.assertLessEqual((len(lines), max(map(len, lines))), (24, 80))
        for words in (("help",), ("synth", "-h"), ("help", "all")):
            for width in (70, 100):
                done = self.tool(*words, environment={"COLUMNS": str(width)})
                long = [line for line in done.stdout.decode().splitlines() if len(line) > width]
                self.assertEqual([line for line in long if not line.startswith("  tools/psyn ")], [], words)

    def test_of_synth_a_specification_comes_first(self):
        wanted = ["SPECIFICATION", "AUTOMATON [CERTIFICATE]", "--parts LIST"]
        lines = self.asked("synth", "-h").splitlines()
        self.assertEqual(lines[:3], [f"synth [FLAGS] {those}" for those in wanted])

    def test_the_version(self):
        self.assertEqual({self.asked("--version"), self.asked("-V"), self.asked("version")}, {self.asked("version")})


if __name__ == "__main__":
    unittest.main()
