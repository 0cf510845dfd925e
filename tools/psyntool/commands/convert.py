"""`convert`: converts a circuit from the ASCII form of AIGER to the binary form, or back."""
from psyntool import console
from psyntool.command import DROP
from psyntool.texts import binary, circuit


def run(request):
    [text] = request.texts()
    made = circuit.read(text.string)
    if request.has(DROP):
        made = made.without_input(request.value(DROP))
    if text.was_binary:
        console.write_text(made.text())
    else:
        console.write(binary.binary_form(made))
    return 0
