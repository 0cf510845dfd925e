"""Other solvers: a command solves a game, and `judge` checks the solution that the command writes."""
import dataclasses
import os
import shlex
import tempfile

from psyntool import asking, children, console, files, judging, outputs, program
from psyntool.command import BY, KEEP
from psyntool.ends import Refused, Unwritten
from psyntool.files import Reader
from psyntool.kinds import Kind

GAME, SOLUTION = "{game}", "{solution}"


def words_of(request):
    """The words of the solver's command. A command that can't work is refused before anything runs."""
    said = request.value(BY)
    try:
        words = shlex.split(said)
    except ValueError as error:
        raise Refused(f"{BY.shown}: {said!r} can't be taken apart: {str(error)[:1].lower()}{str(error)[1:]}") from None
    if not words or {GAME, SOLUTION} & {words[0]}:
        raise Refused(f"{BY.shown}: {said!r} names no program")
    return words


class Solver:
    """Another solver, given by its command line."""

    def __init__(self, request):
        # an error in the solution is explained as the command `judge` explains it
        self.request = dataclasses.replace(request, command=request.table["judge"])
        self.words = words_of(request)
        self.name = os.path.basename(self.words[0])
        self.kept = request.value(KEEP)
        if self.kept is not None:
            outputs.checked([self.kept], KEEP.shown, self.kept)

    def solution(self, game):
        """The solution that the solver writes for a game."""
        with tempfile.TemporaryDirectory() as room:
            paths = {GAME: os.path.join(room, "game.pg"), SOLUTION: os.path.join(room, "solution")}
            with open(paths[GAME], "wb") as file:
                file.write(game.bytes)
            self.run(paths)
            original = read(paths[SOLUTION])
        if not original.strip():
            raise Unwritten(f"{self.name} wrote no solution")
        return Reader(self.request).mended(Kind.SOLUTION, f"the solution of {self.name}", original)

    def judged(self, game):
        """A game's text and the solver's solution, and the answer of `judge` to both. A solution that `judge` does not
        accept is kept if that is asked for."""
        outputs.refuse_read(self.request, [] if self.kept is None else [self.kept])
        texts = [game, self.solution(game)]
        answer = program.ask(files.joined("judge", self.request.passed, texts))
        if answer.is_fault and self.kept is not None:
            outputs.write_all({self.kept: texts[1].original})
            if not self.request.quiet:
                console.tell(f"{self.kept} has the solution of {self.name}")
        return texts, answer

    def hand_on(self, texts, answer, path, automaton=None):
        """Writes and explains the answer of `judge`, draws a lost cycle to `path`, and returns the exit status."""
        status = asking.hand_on(self.request, texts, answer)
        judging.draw(self.request, path, answer, texts, automaton)
        return status

    def run(self, paths):
        """Runs the solver's command until it ends; its messages go to standard error or, with --quiet, nowhere."""
        words = self.words
        for sign, path in paths.items():
            words = [word.replace(sign, path) for word in words]
        is_named = {sign: any(sign in word for word in self.words) for sign in paths}
        with (
            open(os.devnull if is_named[GAME] else paths[GAME], "rb") as given,
            open(os.devnull, "wb") as nowhere,
            open(paths[SOLUTION] if not is_named[SOLUTION] else os.devnull, "wb") as written,
        ):
            said = nowhere if self.request.quiet else console.ERROR
            status = self.status_of(words, stdin=given, stdout=said if is_named[SOLUTION] else written, stderr=said)
        if status:
            raise Unwritten(f"{self.name} {children.ended(status)}, so there is no solution to judge")

    def status_of(self, words, **streams):
        try:
            return children.run(words, **streams)
        except (OSError, ValueError) as error:
            why = error.strerror if isinstance(error, OSError) else error
            raise Refused(f"{BY.shown}: {self.words[0]} can't be run: {why}") from None


def read(path):
    """What a solver wrote, cut off one byte after the program's limit."""
    try:
        with open(path, "rb") as file:
            return file.read(program.MOST_BYTES + 1)
    except OSError:
        return b""
