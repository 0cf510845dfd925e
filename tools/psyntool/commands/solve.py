"""`solve`: a certificate of a game; with --by, made from the solution of another solver."""
from psyntool import asking
from psyntool.command import BY, KEEP, PICTURE


def run(request):
    request.refuse_without(PICTURE, BY)
    request.refuse_without(KEEP, BY)
    if not request.has(BY):
        return asking.run(request)
    from psyntool import judging, solvers

    solver = solvers.Solver(request)
    [game], path = judging.texts_and_path(request)
    return solver.hand_on(*solver.judged(game), path)
