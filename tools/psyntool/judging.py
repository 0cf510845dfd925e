"""Explains what is wrong with a solution of a game (faults 40, 50, 51 and 54 of `judge`), with the names of the
vertices."""
import re
from dataclasses import dataclass

from psyntool import console, outputs
from psyntool.command import PICTURE
from psyntool.ends import Refused
from psyntool.marking import placed
from psyntool.pictures import games
from psyntool.pictures.dot import MOST as MOST_DRAWN
from psyntool.texts import Unreadable, game, solution

# Only this many vertices of a cycle are listed.
MOST = 24
# What docs/FAULTS.md says of certificates and solutions together, said of solutions alone.
ENTRIES = {
    53: {
        "Cause": "a solution is `paritysol N;`, which may be left out, "
        "and then for each vertex `id winner;` or `id winner move;`. This text has another form.",
        "Place": "the first token that this form does not allow, or the end of the text.",
        "Mend": "let the solver print its solution alone, without names, comments and messages (PGSolver: "
        "`--printsolonly`).",
    },
    54: {
        "Cause": "the solution does not fit this game: an id is not one of the game or has had an entry, "
        "a move is not an id, or a vertex has no entry.",
        "Place": "the number that does not fit; the end of the text if a vertex has no entry.",
        "Mend": "use a solution of this game, with one entry for each vertex.",
    },
}
# Numbers of 64 bits are less.
TOO_LARGE = 1 << 64


@dataclass(frozen=True)
class Case:
    """A game and a text with its solution: the entries up to the first that can't be parsed, and the text itself."""

    game: game.Game
    entries: dict
    text: object

    def named(self, identity):
        """The id of a vertex, and its name if it has one."""
        vertex = self.game.by_identity[identity]
        return f"vertex {identity}" + ("" if vertex.name is None else f' "{vertex.name}"')

    def entry(self, identity):
        if identity not in self.entries:
            raise Unreadable("this is no solution")
        return self.entries[identity]

    def entry_line(self, identity, what):
        offset = self.entry(identity).offset
        return placed(self.text, len(self.text.string[:offset].encode("utf-8", "surrogateescape")), what)


def case_of(texts):
    return Case(game.read(texts[0].string), solution.begin(texts[1].string)[0], texts[1])


def parity(priority):
    return "odd" if priority % 2 else "even"


def lost_cycle(behind, texts):
    """The vertices of a cycle, with names and priorities, and the player who loses the cycle."""
    case, cycle = case_of(texts), [int(word) for word in behind.split()]
    vertices = [case.game.by_identity[identity] for identity in cycle]
    loser, greatest = case.entry(cycle[0]).winner, max(vertex.priority for vertex in vertices)
    told = [
        f"by {case.text.name} player {loser} wins these vertices; it loses the cycle, "
        f"whose greatest priority {greatest} is {parity(greatest)}:"
    ]
    for vertex, target in list(zip(vertices, [*cycle[1:], cycle[0]]))[:MOST]:
        way = "moves" if vertex.owner == loser else "can move"
        told.append(
            f"  {case.named(vertex.identity)}, priority {vertex.priority}: player {vertex.owner} {way} to {target}"
        )
    return told + ([f"  .. and {len(cycle) - MOST} more"] if len(cycle) > MOST else [])


def wrong_move(behind, texts):
    """Explains a wrong move: by the solution, the vertex's owner wins the vertex, but the solution has no move there,
    or a move that is no edge."""
    case, (word, move) = case_of(texts), behind.split()
    vertex = case.game.by_identity[int(word)]
    to = ", ".join(map(str, vertex.successors[:MOST])) + (" .." if len(vertex.successors) > MOST else "")
    wrong = "without a move" if move == "-" else f"by a move to {move}"
    return [
        *case.entry_line(vertex.identity, "Move"),
        f"player {vertex.owner}, who owns {case.named(vertex.identity)}, is to win it {wrong}; its edges lead to {to}",
    ]


def escape(behind, texts):
    """Explains an escape: by the solution, a player wins a vertex, but an edge that may be taken leads to a vertex that
    the other player wins."""
    case, (source, target) = case_of(texts), map(int, behind.split())
    vertex, winner = case.game.by_identity[source], case.entry(source).winner
    way = "moves" if vertex.owner == winner else "can move"
    return [
        *case.entry_line(source, "Escape"),
        f"player {winner} is to win {case.named(source)}, "
        f"but player {vertex.owner} {way} from there to {case.named(target)}, which player {1 - winner} is to win",
    ]


def wrong_form(offset, texts):
    """Explains what in a solution is not of the form of solutions: the token at the offset, or that the text ends."""
    text = texts[1].bytes
    entry = text[text.rfind(b";", 0, offset) + 1 : offset].split()
    number, word = re.compile(rb"\d+").match(text, offset), re.compile(rb"[^\s;\d]+").match(text, offset)
    if number and int(number[0][:21]) >= TOO_LARGE:
        return [f"the number {number[0][:21].decode()}{' ..' if len(number[0]) > 21 else ''} does not fit in 64 bits"]
    if number and entry[:1] == [b"paritysol"]:
        return ["there is no `;` behind the number of `paritysol`"]
    if number and len(entry) == 1:
        return [f"the winner is {number[0].decode()}, and should be 0 or 1"]
    if number:
        return ["an entry has an id, a winner and at most one move, and this one has another number"]
    if word and word[0].startswith(b'"'):
        return ["an entry of a solution has no name"]
    if word:
        return [f"{word[0][:MOST].decode('utf-8', 'replace')!r} is no part of a solution"]
    if offset >= len(text.rstrip()):
        return ["the text ends inside an entry" if entry else "there is no entry"]
    return ["an entry ends before its winner"] if len(entry) < 2 else []


def other_game(offset, texts):
    """Explains that a solution does not belong to this game: the wrong vertex id at the offset or, if there is no id,
    the vertices without an entry."""
    case = case_of(texts)
    found = re.compile(rb"0*(\d{1,20})").match(texts[1].bytes, offset)
    if not found:
        missing = [identity for identity in case.game.by_identity if identity not in case.entries]
        more = f"; {len(missing)} vertices have none" if missing[1:] else ""
        return [f"{case.named(missing[0])} has no entry{more}"] if missing else []
    identity = int(found[1])
    return [
        f"vertex {identity} has an entry before"
        if identity in case.game.by_identity
        else f"{identity} is no vertex of the game"
    ]


# ---- the picture


def path_of(request):
    """The path for the picture if one is asked for and the file can be written, else None."""
    path = request.value(PICTURE)
    return outputs.checked([path], PICTURE.shown, path)[0] if request.has(PICTURE) else None


def texts_and_path(request):
    """The files that the command reads, and the path for the picture, which is none of them."""
    path, texts = path_of(request), request.texts()
    outputs.refuse_read(request, filter(None, [path]))
    return texts, path


def draw(request, path, answer, texts, automaton=None):
    """If the answer is a lost cycle and a path is given, writes the picture there; unless --quiet is given, a line on
    standard error names the file."""
    found = re.fullmatch(r"fault 40 BadCycle((?: \d+)+)\n", answer.text)
    if not path or not found:
        return
    cycle = [int(word) for word in found[1].split()]
    outputs.write_all({path: drawn(game.read(texts[0].string), solution.read(texts[1].string), automaton, cycle)})
    if not request.quiet:
        console.tell(f"{path} draws it")


def drawn(read, said, automaton, cycle):
    """A picture of the whole game if the game is small; otherwise the cycle and the vertices one step from it, or only
    the cycle."""
    for reach in (None, 1, 0):
        try:
            return games.picture(read, said, automaton, reach, cycle)
        except Refused:
            pass
    raise Refused(f"the cycle has {len(cycle)} vertices, and a picture of more than {MOST_DRAWN} can't be read")
