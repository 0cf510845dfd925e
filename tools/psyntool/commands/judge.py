"""`judge`: whether another solver's solution of a game is right; with --picture, draws a lost cycle: the solution says
that a player wins its vertices, but the player loses the cycle."""
from psyntool import asking, files, program
from psyntool.command import PICTURE


def run(request):
    if not request.has(PICTURE):
        return asking.run(request)
    from psyntool import judging

    texts, path = judging.texts_and_path(request)
    answer = program.ask(files.joined("judge", request.passed, texts))
    status = asking.hand_on(request, texts, answer)
    judging.draw(request, path, answer, texts)
    return status
