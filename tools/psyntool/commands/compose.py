"""`compose`: makes one automaton of a specification in parts; it accepts the words in which all assumptions together
imply all guarantees."""
from psyntool import console
from psyntool.parts import specification
from psyntool.parts.composing import Composer


def run(request):
    console.write_text(Composer(specification.asked(request)).composed().text())
    return 0
