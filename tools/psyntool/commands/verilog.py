"""`verilog`: a circuit as a module of Verilog. With a specification, the module is printed only if the circuit wins,
and each output has the sentences that mention it."""
from psyntool import exporting
from psyntool.texts import verilog


def run(request):
    return exporting.run(request, "module", verilog.module)
