"""`c`: a circuit as a function of C. With a specification, it is printed only if the circuit wins, and each output has
the sentences that mention it."""
from psyntool import exporting
from psyntool.texts import c


def run(request):
    return exporting.run(request, "function", c.source)
