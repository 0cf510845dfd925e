"""`solution`: a certificate's winners and moves, in the format that other solvers write."""
from psyntool import console
from psyntool.pictures.games import OTHER_GAME
from psyntool.texts import Unreadable, certificate, game, solution


def run(request):
    texts = request.texts()
    read, judged = game.read(texts[0].string), certificate.read(texts[1].string)
    if list(judged.entries) != list(read.by_identity):
        raise Unreadable(OTHER_GAME)
    entries = {identity: solution.Entry(entry.winner, entry.move, 0) for identity, entry in judged.entries.items()}
    console.write_text(solution.Solution(entries).text())
    return 0
