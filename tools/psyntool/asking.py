"""Runs the program on files, prints its answer unchanged, and explains the answer if it is a fault."""
from psyntool import console, files, program
from psyntool.command import CHECK, MEMORY
from psyntool.ends import NO_MEMORY, OTHER, WRONG_SOLUTIONS, Unwritten

# The first line of an answer of `verify` or `shrink` about a circuit that loses; a stimulus follows.
LOSES = b"loses\n"
OUT_OF_MEMORY = b"fault 24 "


def run(request):
    """Runs a command of the program."""
    texts = request.texts()
    return hand_on(request, texts, program.ask(files.joined(request.command.name, request.passed, texts)))


def hand_on(request, texts, answer):
    """Writes the program's answer to standard output, explains a fault on standard error, and returns the exit
    status."""
    if not answer.died:
        console.write(answer.bytes)
    return told(request, texts, answer)


def told(request, texts, answer):
    """Explains on standard error what is wrong with an answer, and returns the exit status."""
    if answer.died:
        raise Unwritten(answer.died)
    if answer.is_fault and not request.quiet:
        from psyntool import explaining

        console.tell(*explaining.lines(request, texts, answer))
    if answer.bytes.startswith(OUT_OF_MEMORY) and request.has(MEMORY):
        return NO_MEMORY
    return checked(request, answer) if request.has(CHECK) else answer.status


def checked(request, answer):
    """The exit status with --check, which tells a verdict from the other one."""
    is_wrong = (
        request.command.name == "judge" and answer.text[len("fault ") :][:2] in WRONG_SOLUTIONS and answer.is_fault
    )
    return (
        OTHER
        if is_wrong or answer.bytes.startswith((LOSES, b"rejected ", b"violated ", b"accepts\n", b"rejects\n"))
        else answer.status
    )


def is_had(answer):
    """Whether the program ended normally and its answer is not a fault."""
    return not answer.died and not answer.is_fault
