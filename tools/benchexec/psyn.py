"""psyn as a tool of BenchExec: how it is run, and what its answers mean.

Copy this file to a folder that Python finds, and name it in a benchmark definition: `tool="psyn"`. A task has one input
file, a specification or an automaton. REALIZABLE counts as the property's truth.
"""
import benchexec.result as result
import benchexec.tools.template


class Tool(benchexec.tools.template.BaseTool2):
    """The tool-info of psyn: the command `synth`."""

    def executable(self, tool_locator):
        return tool_locator.find_executable("psyn", subdir="bin")

    def name(self):
        return "psyn"

    def project_url(self):
        return None

    def version(self, executable):
        return self._version_from_tool(executable, arg="version", line_prefix="psyn")

    def cmdline(self, executable, options, task, rlimits):
        limits = []
        if rlimits.cputime:
            limits += ["--cpu", str(rlimits.cputime)]
        return [executable, "synth", "--quiet", *limits, *options, task.single_input_file]

    def determine_result(self, run):
        if run.exit_code.value == 124:
            return "TIMEOUT"
        if run.exit_code.value == 125:
            return "OUT OF MEMORY"
        first = run.output[0].strip() if len(run.output) else ""
        if first == "REALIZABLE":
            return result.RESULT_TRUE_PROP
        if first == "UNREALIZABLE":
            return result.RESULT_FALSE_PROP
        return f"ERROR ({first})" if first.startswith("fault ") else result.RESULT_ERROR
