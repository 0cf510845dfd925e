"""Tests of many runs: folders and lists, several runs at a time, logs, resumption, tables of logs, and circuits below a
folder; and the limits of time and memory with their statuses."""
import fcntl
import importlib.util
import json
import os
import signal
import subprocess
import sys
import time
import types
import unittest
import unittest.mock

from psyntool.runs import logs
from psyntool.texts import binary
from tests.test_running import GRANT, Running
from tests.tool import AUTOMATON, TOOL

SPECIFICATION = (
    "INFO {{ SEMANTICS: Mealy TARGET: Mealy }} {more}MAIN {{ INPUTS {{ r; }} OUTPUTS {{ g; }} "
    "GUARANTEE {{ {said}; }} }}\n"
)
WITH_PARAMETER = "GLOBAL { PARAMETERS { n = 2; } } "
DELAYED = "G (r -> X[n] g)"
# A program that answers after a while, whatever it is asked, and notes that it was.
SLOW = b"#!/bin/sh\ncat > /dev/null\necho asked >> asked\nsleep 0.5\nprintf 'REALIZABLE\\naag 0 0 0 0 0\\n'\nexit 10\n"
BUSY = b"#!/bin/sh\nwhile :; do :; done\n"


class Many(Running):
    def setUp(self):
        super().setUp()
        os.makedirs(os.path.join(self.room, "specs", "deep"))
        for name, said in (("a1", "g"), ("a2", "r"), (os.path.join("deep", "b"), "G (r -> F g)")):
            self.file(os.path.join("specs", f"{name}.tlsf"), SPECIFICATION.format(more="", said=said).encode())
        self.file(os.path.join("specs", "notes.txt"), b"no specification\n")

    def program(self, name, text):
        os.chmod(self.file(name, text), 0o755)
        return {"PSYN": f"./{name}"}

    def lines(self, name="log"):
        with open(os.path.join(self.room, name), encoding="utf-8") as file:
            return [json.loads(line) for line in file]

    def asked(self):
        path = os.path.join(self.room, "asked")
        if not os.path.exists(path):
            return 0
        with open(path, encoding="utf-8") as file:
            return len(file.readlines())


class Instances(Many):
    def test_a_folder_has_a_run_for_each_file_of_the_kind(self):
        self.assertEqual(
            self.said("each", "--quiet", "synth", "specs"),
            (
                ["specs/a1.tlsf: REALIZABLE", "specs/a2.tlsf: UNREALIZABLE", "specs/deep/b.tlsf: REALIZABLE"], [], 0
            ),
        )

    def test_a_list_has_files_and_parameters(self):
        self.file("specs/delay.tlsf", SPECIFICATION.format(more=WITH_PARAMETER, said=DELAYED).encode())
        self.file("specs/it.runs", b"# two\ndelay.tlsf --set n=1\n\ndelay.tlsf --set n=3  # and one more\na2.tlsf\n")
        self.assertEqual(
            self.said("each", "--quiet", "synth", "specs/it.runs")[0],
            [
                "specs/delay.tlsf --set n=1: REALIZABLE", "specs/delay.tlsf --set n=3: REALIZABLE",
                "specs/a2.tlsf: UNREALIZABLE",
            ],
        )
        self.file("pairs.runs", b"spec grant\nspec never\n")
        self.assertEqual(
            self.said("each", "--quiet", "verify", "pairs.runs", "spec", "grant")[0],
            ["spec grant: wins", "spec never: loses", "spec grant: wins"],
        )

    def test_a_specification_can_have_its_own_list(self):
        text = "// psyn: --set n=1\n//# psyn: --set n=4\n" + SPECIFICATION.format(more=WITH_PARAMETER, said=DELAYED)
        self.file("delay.tlsf", text.encode())
        self.assertEqual(
            self.said("each", "--quiet", "synth", "delay.tlsf")[0],
            ["delay.tlsf --set n=1: REALIZABLE", "delay.tlsf --set n=4: REALIZABLE"],
        )
        self.assertEqual(
            self.said("each", "--quiet", "--set", "n=2", "synth", "delay.tlsf")[0], ["delay.tlsf: REALIZABLE"]
        )

    def test_what_can_not_be_run_so(self):
        self.file("two.runs", b"\nspec\n")
        self.file("none.runs", b"# nothing\n")
        self.file("flag.runs", b"spec --moore\n")
        self.file("open.runs", b"spec 'never\n")
        self.file("it.tlsf", b"// psyn: n=1\n" + SPECIFICATION.format(more="", said="g").encode())
        os.mkdir(os.path.join(self.room, "empty"))
        for words, why in (
            (("verify", "two.runs"), "two.runs:2: verify reads 2 files, and here stands 1"),
            (("synth", "none.runs"), "none.runs: this list names no file"),
            (("synth", "no.runs"), "no.runs: No such file or directory"),
            (
                ("synth", "flag.runs"),
                "flag.runs:1: there is no flag --moore; `tools/psyn help` lists them",
            ),
            (("synth", "open.runs"), "open.runs:1: this can't be taken apart: no closing quotation"),
            (("synth", "it.tlsf"), "it.tlsf:1: `psyn:` wants --set NAME=VALUE behind it"),
            (("synth", "empty"), "empty: no file there ends in .hoa or .tlsf"),
            (
                ("verify", "specs"),
                "specs is a folder, and verify reads 2 files at a time: list them, in a file that ends in .runs",
            ),
            (("synth", "--jobs", "0", "spec"), "--jobs N: at least 1 is wanted"),
            (("verify", "-o", ".", "spec", "grant"), "each verify can't have -o, which is for synth"),
            (("synth", "--force", "spec"), "each --force wants -o PREFIX"),
        ):
            with self.subTest(words):
                self.assertEqual(self.said("each", *words), ([], [f"psyn: {why}"], 2))


class Workers(Many):
    def test_several_at_a_time_take_less(self):
        slow, seconds = self.program("slow", SLOW), []
        for name in range(9):
            self.file(f"specs/c{name}.tlsf", SPECIFICATION.format(more="", said="g").encode())
        for jobs in ("1", "4"):
            began = time.monotonic()
            lines, _, status = self.said("each", "--quiet", "--jobs", jobs, "synth", "specs", environment=slow)
            seconds.append(time.monotonic() - began)
            self.assertEqual((len(lines), status), (12, 0))
        self.assertLess(seconds[1], 0.6 * seconds[0])

    def test_explanations_stay_together(self):
        self.file("broken", b"HOA: v2\n")
        alone = self.said("synth", "broken")[1]
        self.assertEqual(self.said("each", "--jobs", "3", "synth", *["broken"] * 4)[1:], (alone * 4, 1))

    def test_standard_input_is_one_of_the_files(self):
        self.assertEqual(
            sorted(self.said("each", "--jobs", "2", "synth", "spec", "-", given=AUTOMATON)[0]),
            ["-: REALIZABLE", "spec: REALIZABLE"],
        )

    def test_a_run_that_is_killed_is_told(self):
        killer = self.program("killer", b"#!/bin/sh\nkill -9 $(ps -o ppid= -p $$)\n")
        self.assertEqual(
            self.said("each", "synth", "spec", environment=killer),
            (["spec: the run was ended by SIGKILL before its answer was whole"], [], 1),
        )

    def test_a_signal_ends_all_runs(self):
        command = [sys.executable, TOOL, "each", "--jobs", "2", "--log", "log", "solve", "game", "game", "game"]
        environment = {**os.environ, "PSYN": os.path.join(self.room, "hanging")}
        streams = {"stdout": subprocess.PIPE, "stderr": subprocess.PIPE}
        with subprocess.Popen(command, cwd=self.room, env=environment, **streams) as child:
            time.sleep(1)
            child.send_signal(signal.SIGINT)
            out, _ = child.communicate(timeout=30)
        self.assertEqual((out, child.returncode, self.lines()), (b"", -signal.SIGINT, []))


class Logs(Many):
    def test_each_run_is_a_line(self):
        text = "//#!SYNTCOMP\n//STATUS : unrealizable\n//#.\n" + SPECIFICATION.format(more="", said="G r")
        self.file("specs/a3.tlsf", text.encode())
        self.said("each", "--quiet", "--log", "log", "--time", "50", "--memory", "900", "synth", "specs", "game")
        lines = self.lines()
        self.assertTrue(all(list(line) == list(logs.FIELDS) for line in lines))
        self.assertEqual(
            [[line[name] for name in ("files", "verdict", "expected", "ended", "status", "fault")] for line in lines],
            [
                [["specs/a1.tlsf"], "REALIZABLE", None, "answer", 10, None],
                [["specs/a2.tlsf"], "UNREALIZABLE", None, "answer", 20, None],
                [["specs/a3.tlsf"], "UNREALIZABLE", "UNREALIZABLE", "answer", 20, None],
                [["specs/deep/b.tlsf"], "REALIZABLE", None, "answer", 10, None],
                [["game"], None, None, "fault", 1, 1],
            ],
        )
        self.assertEqual({(line["within"], line["most"]) for line in lines}, {(50, 900)})
        self.assertEqual([(line["latches"], line["gates"]) for line in lines][-1], (None, None))
        self.assertTrue(all(line["memory"] > 1 and line["processor"] >= 0 for line in lines))

    def test_what_the_log_has_is_not_run_again(self):
        slow = self.program("slow", SLOW)
        words = ("each", "--quiet", "--log", "log", "synth", "specs")
        self.assertEqual(len(self.said(*words, environment=slow)[0]), 3)
        whole = [line["files"] for line in self.lines()]
        self.assertEqual((self.said(*words, environment=slow), self.asked()), (([], [], 0), 3))
        path = os.path.join(self.room, "log")
        os.truncate(path, os.path.getsize(path) - 5)
        self.assertEqual(len(self.said(*words, environment=slow)[0]), 1)
        self.assertEqual(([line["files"] for line in self.lines()], self.asked()), (whole, 4))

    def test_a_search_that_is_killed_goes_on(self):
        slow, whole = {**os.environ, **self.program("slow", SLOW)}, []
        for name in range(8):
            self.file(f"specs/c{name}.tlsf", SPECIFICATION.format(more="", said="g").encode())
        words = [sys.executable, TOOL, "each", "--quiet", "--jobs", "2", "--log", "log", "synth", "specs"]
        with subprocess.Popen(words, cwd=self.room, env=slow, stdout=subprocess.PIPE) as child:
            child.stdout.readline()
            child.kill()
        begun = len(self.lines())
        self.assertTrue(1 <= begun < 11, begun)
        subprocess.run(words, cwd=self.room, env=slow, stdout=subprocess.DEVNULL, check=True)
        whole = [line["files"][0] for line in self.lines()]
        self.assertEqual(sorted(whole), sorted(set(whole)))
        self.assertEqual(len(whole), 11)

    def test_another_command_on_the_log_is_refused(self):
        with open(os.path.join(self.room, "log"), "ab") as file:
            fcntl.flock(file, fcntl.LOCK_EX)
            self.assertEqual(
                self.said("each", "--log", "log", "synth", "spec")[1:],
                (["psyn: log: another command writes this log"], 2),
            )

    def test_a_log_that_is_none(self):
        self.file("log", b'{"command": "synth", "files": ["x"], "set": []}\nREALIZABLE\n')
        for words in (("each", "--log", "log", "synth", "spec"), ("each", "--join", "log")):
            self.assertEqual(self.said(*words), ([], ["psyn: log:2: this is no line of a log of `each`"], 2))
        self.assertEqual(
            self.said("each", "--log", "no/log", "synth", "spec")[1], ["psyn: no/log: No such file or directory"]
        )


def line(file, verdict="REALIZABLE", ended="answer", seconds=1.0, **more):
    found = {"command": "synth", "files": [file], "set": [], "verdict": verdict, "ended": ended, "processor": seconds}
    return json.dumps({**found, **more}) + "\n"


class Joining(Many):
    def test_families_and_their_scores(self):
        self.file("one", (line("x/lift_1.tlsf") + line("x/lift-2.tlsf", seconds=3.0) + line("x/bus.tlsf")).encode())
        self.file("two", line("y/lift-3.tlsf", None, "time", 9.9, within=10).encode())
        self.assertEqual(
            self.said("each", "--join", "one", "two"),
            (
                [
                    "command  family  runs  solved  par-2",
                    "synth    bus     1     1       1.00",
                    "synth    lift    3     2       8.00",
                    "all              4     3       6.25",
                ],
                [],
                0,
            ),
        )

    def test_a_run_in_several_logs_counts_once(self):
        self.file("one", line("a.tlsf", None, "time", 5.0, within=5).encode())
        self.file("two", line("a.tlsf", seconds=4.0).encode())
        self.assertEqual(self.said("each", "--join", "one", "two")[0][1:], ["synth    a       1     1       4.00"] + [
            "all              1     1       4.00"
        ])

    def test_without_a_limit_there_is_no_score(self):
        self.file("one", line("a.tlsf", None, "limit").encode())
        self.assertEqual(self.said("each", "--join", "one")[0][-1], "all              1     0       -")

    def test_disagreements_come_first(self):
        self.file("one", (line("a.tlsf") + line("b.tlsf", expected="UNREALIZABLE")).encode())
        self.file("two", line("a.tlsf", "UNREALIZABLE").encode())
        lines, _, status = self.said("each", "--join", "one", "two")
        self.assertEqual(
            lines[:2],
            [
                "synth a.tlsf: REALIZABLE in one, UNREALIZABLE in two",
                "synth b.tlsf: REALIZABLE in one, and UNREALIZABLE is expected",
            ],
        )
        self.assertEqual(status, 1)

    def test_what_it_can_not_have(self):
        for words, why in (
            (("--join",), "each --join reads LOG.., and got 0 words"),
            (("--join", "--jobs", "2", "x"), "each --join can't have --jobs"),
            (("--join", "none"), "none: No such file or directory"),
        ):
            self.assertEqual(self.said("each", *words), ([], [f"psyn: {why}"], 2))


class Circuits(Many):
    def test_each_circuit_has_a_file_below_the_folder(self):
        os.mkdir(os.path.join(self.room, "out"))
        words = ("each", "--quiet", "--jobs", "2", "-o", "out", "synth", "specs")
        self.assertEqual(len(self.said(*words)[0]), 3)
        for name in ("a1", "a2", "deep/b"):
            path = os.path.join(self.room, "out", f"{name}.aag")
            flags = ["--env"] if name == "a2" else []
            self.assertEqual(self.said("verify", *flags, f"specs/{name}.tlsf", path)[0], ["wins"])
        self.assertEqual(len(self.said(*words)[0]), 3)
        self.file("out/a1.aag", GRANT)
        self.assertEqual(
            self.said(*words)[1],
            ["psyn: -o PREFIX: out/a1.aag is there, and psyn has not written it: --force writes over it"],
        )
        self.assertEqual(len(self.said(*words, "--force", "--aig")[0]), 3)
        with open(os.path.join(self.room, "out", "a1.aig"), "rb") as file:
            self.assertTrue(binary.ascii_form(file.read()).startswith(b"aag "))

    def test_a_list_writes_nothing_outside_the_folder(self):
        os.mkdir(os.path.join(self.room, "out"))
        path = os.path.join(self.room, "specs", "a1.tlsf")
        self.file("specs/deep/it.runs", f"../a2.tlsf\n{path}\nb.tlsf\n".encode())
        before = set(os.listdir(self.room)) | set(os.listdir(os.path.join(self.room, "specs")))
        self.assertEqual(len(self.said("each", "--quiet", "-o", "out", "synth", "specs/deep/it.runs")[0]), 3)
        after = set(os.listdir(self.room)) | set(os.listdir(os.path.join(self.room, "specs")))
        self.assertEqual(after, before)
        self.assertEqual(sorted(os.listdir(os.path.join(self.room, "out"))), ["a1.aag", "a2.aag", "b.aag"])

    def test_names_that_meet_are_refused(self):
        self.assertEqual(self.said("each", "-o", "no", "synth", "spec")[1], ["psyn: -o PREFIX: there is no folder no"])
        self.assertEqual(
            self.said("each", "-o", ".", "synth", "specs/a1.tlsf", "specs/a1.tlsf")[1],
            ["psyn: -o PREFIX: the circuits of specs/a1.tlsf and of specs/a1.tlsf would both be a1.aag"],
        )

    def test_synth_writes_binary(self):
        plain, made = (self.tool("synth", *flags, "spec").stdout for flags in ((), ("--aig",)))
        self.assertTrue(made.startswith(b"REALIZABLE\naig "))
        self.assertEqual(
            self.tool("verify", "spec", self.file("it.aig", made.partition(b"\n")[2])).stdout, b"wins\n", plain
        )
        self.assertEqual(self.said("synth", "--aig", "-o", "it", "spec", "--force"), (["REALIZABLE"], [], 10))
        self.assertEqual(self.said("verify", "spec", "it.aig", "--quiet"), (["wins"], [], 0))
        self.assertEqual(self.said("synth", "--aig", "-o", "it", "spec"), (["REALIZABLE"], [], 10))
        self.assertEqual(self.said("synth", "--aig", "--full", "spec")[1], ["psyn: synth --aig can't have --full"])


class Limits(Many):
    def test_processor_time_is_of_all_programs_together(self):
        busy = self.program("busy", BUSY)
        why = "no answer within 1 s of processor time (--cpu)"
        began = time.monotonic()
        self.assertEqual(self.said("solve", "--cpu", "1", "game", environment=busy), ([], [f"psyn: {why}"], 124))
        self.assertLess(time.monotonic() - began, 30)
        self.assertEqual(
            self.said("each", "--json", "--cpu", "1", "solve", "game", environment=busy)[0][0].split('"ended": ')[1],
            '"time"}',
        )
        self.assertEqual(self.said("solve", "--cpu", "1", "--by", "./busy {game}", "game")[1:], ([f"psyn: {why}"], 124))

    def test_sleep_costs_no_processor_time(self):
        slow = self.program("slow", SLOW.replace(b"0.5", b"1.3"))
        self.assertEqual(self.said("synth", "--cpu", "1", "--quiet", "spec", environment=slow)[1:], ([], 10))


class Stub:
    """An object of BenchExec, as the tool-info sees it."""

    def __init__(self, **known):
        self.__dict__.update(known)


class BenchExec(unittest.TestCase):
    """The tool-info module for BenchExec, against a stub of its interface."""

    def setUp(self):
        base = type("BaseTool2", (), {"_version_from_tool": lambda self, *_, **more: more["line_prefix"]})
        result = types.ModuleType("benchexec.result")
        result.RESULT_TRUE_PROP, result.RESULT_FALSE_PROP, result.RESULT_ERROR = "true", "false", "ERROR"
        template = types.ModuleType("benchexec.tools.template")
        template.BaseTool2 = base
        modules = {
            "benchexec": types.ModuleType("benchexec"), "benchexec.tools": types.ModuleType("benchexec.tools"),
            "benchexec.result": result, "benchexec.tools.template": template,
        }
        modules["benchexec"].result, modules["benchexec"].tools = result, modules["benchexec.tools"]
        modules["benchexec.tools"].template = template
        with unittest.mock.patch.dict(sys.modules, modules):
            path = os.path.join(os.path.dirname(TOOL), "benchexec", "psyn.py")
            spec = importlib.util.spec_from_file_location("info", path)
            module = importlib.util.module_from_spec(spec)
            spec.loader.exec_module(module)
        self.info = module.Tool()

    def test_the_command_line(self):
        locator = Stub(find_executable=lambda name, subdir: f"{subdir}/{name}")
        self.assertEqual(
            self.info.cmdline(
                self.info.executable(locator), ["--small"], Stub(single_input_file="a.tlsf"), Stub(cputime=9)
            ),
            ["bin/psyn", "synth", "--quiet", "--cpu", "9", "--small", "a.tlsf"],
        )
        self.assertEqual((self.info.name(), self.info.version("psyn")), ("psyn", "psyn"))

    def test_results(self):
        for status, output, wanted in (
            (10, ["REALIZABLE\n", "aag 0 0 0 0 0\n"], "true"),
            (20, ["UNREALIZABLE\n"], "false"),
            (124, [], "TIMEOUT"),
            (125, ["fault 24 OutOfMemory\n"], "OUT OF MEMORY"),
            (1, ["fault 75 NotTranslated\n"], "ERROR (fault 75 NotTranslated)"),
            (2, [], "ERROR"),
        ):
            run = Stub(exit_code=Stub(value=status), output=output)
            self.assertEqual(self.info.determine_result(run), wanted)


class Entrant(Many):
    def test_its_answers(self):
        entrant = os.path.join(os.path.dirname(TOOL), "entrant")

        def said(*words):
            done = subprocess.run([entrant, *words], cwd=self.room, capture_output=True, text=True, check=False)
            return done.stdout.splitlines(), done.returncode

        lines, status = said("specs/a1.tlsf")
        self.assertEqual((lines[0], lines[1][:4], status), ("REALIZABLE", "aag ", 10))
        self.assertEqual(said("specs/a2.tlsf"), (["UNREALIZABLE"], 20))
        self.assertEqual(said("none.tlsf"), ([], 2))
        self.assertEqual((said()[0][0][:4], said()[1]), ("psyn", 2))


del Running
