"""Texts that are made to be hard for psyn: each function makes the runs of psyn on one kind of texts.

A run has a command line, its texts, and a flag that tells whether "out of memory" is the right answer. "out of memory"
is right if any other answer, or the counts in it, would be larger than any machine's memory. Most texts have 10 to 16
MiB."""
import collections
import os
import subprocess
import tempfile

Run = collections.namedtuple("Run", "command texts is_larger", defaults=(False,))
SIZE = 1 << 24
AUTOMATON_COMMANDS = (
    "lasso", "game", "game --moore", "cert", "cert --compact", "synth", "synth --moore", "synth --full --compact",
    "synth --cert",
)
BESIDE = {"lasso": ("", ""), "synth --cert": ("",)}
CERTIFICATE_START = "psyncert 1\nvertices 1\n"


def filled(head, pieces, tail):
    """A text of at most `SIZE` bytes: the head, as many of the pieces as fit, and the tail."""
    parts, room = [head], SIZE - len(head) - len(tail)
    for piece in pieces:
        room -= len(piece)
        if room < 0:
            break
        parts.append(piece)
    return "".join(parts) + tail


def repeated(piece, number):
    return [piece] * number


def head(names, controllable, condition, start="Start: 0"):
    listed = " ".join(f'"{name}"' for name in names)
    owned = " ".join(map(str, controllable))
    return f"HOA: v1 {start} AP: {len(names)} {listed} controllable-AP: {owned} Acceptance: {condition} --BODY--\n"


def propositions(count):
    return [f"p{k}" for k in range(count)]


def on_automata(text, larger=()):
    return [Run(command, (text, *BESIDE.get(command, ())), command in larger) for command in AUTOMATON_COMMANDS]


# Automata

def label():
    """A long label over two propositions."""
    pieces = repeated("|!1&0", SIZE // 5)
    return on_automata(filled(head(propositions(2), [1], "1 Inf(0)") + "State: 0 [0", pieces, "] 0 {0} --END--\n"))


def wide_label():
    """A long label over 64 propositions: a disjunction of cubes of six literals."""
    cubes = ("|" + "&".join(f"{'!' * ((k >> b) % 2)}{(k * 7 + b * 11) % 64}" for b in range(6)) for k in range(SIZE))
    return on_automata(
        filled(head(propositions(64), range(32), "1 Inf(0)") + "State: 0 [f", cubes, "] 0 {0} --END--\n")
    )


def twined_label():
    """A label of 181 bytes whose diagram, in the order of the propositions, has 2^33 nodes."""
    twined = "|".join(f"{k}&{k + 32}" for k in range(32))
    return on_automata(head(propositions(64), range(32), "0 t") + f"State: 0 [{twined}] 0 --END--\n")


def condition():
    """An acceptance condition that is a chain of two million links, and one that is not a chain."""
    state = " --BODY-- State: 0 0 {0} --END--\n"
    runs = []
    for first, links in (("Fin(0)", "|Inf(0)"), ("Inf(0)", "&Inf(1)|Inf(0)")):
        start = f"HOA: v1 Start: 0 controllable-AP: Acceptance: 2 {first}"
        runs += on_automata(filled(start, repeated(links, SIZE // len(links)), state))
    return runs


def states():
    """65,535 states with 16 unlabelled edges each: one edge for each letter over four propositions."""
    rows = (
        f"State: {q}\n" + "".join(f"{(q * 31 + e * 977) % 65535} {{{e % 3}}}\n" for e in range(16))
        for q in range(65535)
    )
    return on_automata(filled(head(propositions(4), [2, 3], "3 Fin(2) & (Inf(1) | Fin(0))"), rows, "--END--\n"))


def edges():
    """A state with an edge for each of a million letters; the edges lead to 65,534 different states."""
    row = (f"{1 + k % 65534} \n" for k in range(1 << 20))
    return on_automata(filled(head(propositions(20), range(10, 20), "0 t") + "State: 0\n", row, "--END--\n"))


def equal_edges():
    """A state with a million equal edges."""
    row = repeated("[0&!1] 1 {0}\n", 1 << 20)
    return on_automata(filled(head(propositions(2), [1], "1 Inf(0)") + "State: 0\n", row, "--END--\n"))


def marks():
    """A state with an edge for each of 131,072 letters; all edges lead to one state, and their sets of acceptance marks
    would collide in a hash table with a fixed seed."""
    masks = map(int, colliding(1 << 17, 17, 1 << 60, 0))
    row = (
        "[" + "&".join(
            f"{'!' * (1 - (k >> b) % 2)}{b}" for b in range(17)
        ) + f"] 0 {{{' '.join(str(s) for s in range(64) if mask >> s & 1)}}}\n"
        for k, mask in enumerate(masks)
    )
    return on_automata(filled(head(propositions(17), [16], "64 t") + "State: 0\n", row, "--END--\n"))


def letters():
    """65,534 states, each with an edge for one letter of 20 propositions; the pairs of a state and its letter would
    collide in a hash table with a fixed seed. With --moore, such a pair stands for a vertex."""
    count = 65534
    chosen = map(int, colliding(count, 14, 1 << 20, "each"))
    rows = (
        "State: "
        f"{q} [{'&'.join(('' if letter >> b & 1 else '!') + str(b) for b in range(20))}] {(q + 1) % count} {{0}}\n"
        for q, letter in enumerate(chosen)
    )
    return on_automata(filled(head(propositions(21), range(20), "1 Inf(0)"), rows, "--END--\n"))


def inputs():
    """64 inputs and 65,535 states, each of which reads one of the inputs."""
    rows = (f"State: {q} [{q % 64}] {(q + 1) % 65535} {{0}} [!{q % 64}] {(q * 5 + 2) % 65535}\n" for q in range(65535))
    return on_automata(filled(head(propositions(64), [], "1 Inf(0)"), rows, "--END--\n"))


def cascades():
    """States that test 16 inputs one after another; the first true input chooses the next state."""
    def row(q):
        edges = (
            f"[{'&'.join([f'!{(q + j) % 48}' for j in range(e)] + [str((q + e) % 48)])}] {(q * 17 + e) % 20000}"
            for e in range(16)
        )
        return f"State: {q} {' '.join(edges)}\n"
    return on_automata(
        filled(head(propositions(64), range(48, 64), "0 t"), (row(q) for q in range(20000)), "--END--\n")
    )


def nesting():
    """Labels and a condition that nest as deep as psyn allows, and a label that nests one level deeper."""
    deep = "!(" * 128 + "0" + ")" * 128
    rows = (f"State: {q} [{deep}] 0 {{0}}\n" for q in range(65535))
    condition_text = "(" * 256 + "Inf(0)" + ")" * 256
    deeper = filled(head(["a"], [], "0 t") + f"State: 0 [!{deep}", repeated("&0", SIZE // 2), "] 0 --END--\n")
    return on_automata(filled(head(["a"], [], f"1 {condition_text}"), rows, "--END--\n")) + [Run("game", (deeper,))]


def comments():
    """Nested comments, closed and unclosed; a string of 16 MiB; and parentheses that open and never close."""
    half = SIZE // 4 - 100
    tail = ' Start: 0 controllable-AP: Acceptance: 0 t --BODY-- State: 0 [t] 0 --END--'
    named = filled('HOA: v1 name: "', repeated("\\\"", SIZE // 2), '"' + tail)
    closed = "HOA: v1 " + "/*" * half + "*/" * half + tail
    texts = [closed, named, "HOA: v1 " + "/*" * (2 * half), head(["a"], [], "0 t") + "State: 0 [" + "(" * (SIZE - 200)]
    return on_automata(closed) + [Run("game", (text,)) for text in texts[1:]]


def names():
    """64 propositions, or 4,096 aliases, with long names that differ only in their last bytes."""
    long = ["n" * (SIZE // 65) + f"{k:04}" for k in range(64)]
    start = head(propositions(8), [7], "1 Inf(0)").removesuffix("--BODY--\n")
    aliases = [f"@{'n' * 2000}{k:04}" for k in range(4096)]
    uses = (f"State: {q} [{aliases[(q * 61) % 4096]}&{aliases[(q * 997) % 4096]}] 0 {{0}}\n" for q in range(65535))
    text = filled(
        start + "".join(f"Alias: {name} {k % 8}\n" for k, name in enumerate(aliases)) + "--BODY--\n", uses, "--END--\n"
    )
    return on_automata(head(long, [63], "0 t") + "State: 0 [0] 0 [!0&63] 0 --END--\n") + on_automata(text)


# Games

def on_games(text, larger=()):
    runs = [Run(command, (text,), command in larger) for command in ("solve", "solve --compact")]
    return runs + [Run(command, (text, CERTIFICATE_START)) for command in ("closed", "check")]


def vertices():
    """Many vertices with three edges each and seven priorities."""
    return on_games(filled("", (f"{v} {v % 7} {v % 2} {v},{max(v - 1, 0)},{v // 2};\n" for v in range(SIZE)), ""))


def colliding(count, bits, most, *first):
    """Numbers that collide as keys of a hash table with the toolchain's hash function and a fixed seed. If `first` is
    given, the keys that collide are pairs of `first` and each number returned; if `first` is `each`, they are variants
    with the tag 1, the index of a number, and the number."""
    with tempfile.TemporaryDirectory() as room:
        program = os.path.join(room, "colliding")
        subprocess.run(
            ["cc", "-O2", "-o", program, os.path.join(os.path.dirname(os.path.abspath(__file__)), "colliding.c")],
            check=True,
        )
        found = subprocess.run([program, *map(str, (count, bits, most, *first))], capture_output=True, check=True)
    return found.stdout.decode().split()


def ids():
    """131,072 ids that would collide in a hash table with a fixed seed."""
    found = colliding(1 << 17, 14, 1 << 40)
    pad = "n" * (SIZE // len(found) - 2 * len(found[-1]) - 12)
    return on_games("".join(f'{vertex} 0 0 {vertex} "{pad}";\n' for vertex in found))


def priorities():
    """Games of 690,000 vertices and more, all with different priorities: self-loops only, a cycle of rising priorities,
    and a path of falling priorities to a self-loop."""
    loops = filled("", (f"{v} {v} 0 {v};\n" for v in range(SIZE)), "")
    rising = filled("", (f"{v} {v} {v % 2} {v + 1};\n" for v in range(690000)), "690000 690000 0 0;\n")
    falling = filled("", (f"{v} {v} {v % 2} {max(v - 1, 0)};\n" for v in range(SIZE)), "")
    larger = ("solve", "solve --compact")
    return [run for text in (loops, rising, falling) for run in on_games(text, larger)]


def fan():
    """A vertex with some 600,000 edges to vertices that lead back to it; and a vertex with millions of edges, all to
    itself."""
    count = 600000
    fanned = f"0 1 0 {','.join(map(str, range(1, count)))};\n" + "".join(f"{v} 2 1 0;\n" for v in range(1, count))
    return on_games(fanned) + on_games(f"0 0 0 0{',0' * (SIZE // 2 - 10)};\n")


# Games by rungs. A game of a family is a row of rungs, which are groups of equally many vertices. A family describes
# each vertex (a, b, c and so on) of a rung by its player, its priority and its edges. An edge leads to a vertex of the
# same rung, with `+` to one of the next rung, and with `-` to one of the rung before. Edges beyond the first or the
# last rung are left out; a vertex that has no edge then gets a self-loop. A priority of kind `rises` or `falls` changes
# from rung to rung by the family's step; a priority of kind `low` does not. In a family with `turns`, however, every
# second rung differs: each vertex belongs to the other player, and its priority, if of kind `low`, is 1 in place of 0
# or 0 in place of 1.
Family = collections.namedtuple("Family", "step turns vertices")


def priority_at(family, kind, number, rung, rungs):
    if kind == "low":
        return number ^ (rung % 2) if family.turns else number
    return number + 2 + family.step * (rung if kind == "rises" else rungs - 1 - rung)


def targets_at(family, leads, rung, rungs):
    """The distinct vertices to which the edges lead."""
    places = []
    for lead in leads.split():
        to = rung + lead.count("+") - lead.count("-")
        if 0 <= to < rungs:
            places.append(to * len(family.vertices) + ord(lead[0]) - ord("a"))
    return list(dict.fromkeys(places))


def game_by_rungs(family, rungs):
    lines = []
    for rung in range(rungs):
        for player, kind, number, leads in family.vertices:
            here = len(lines)
            targets = targets_at(family, leads, rung, rungs) or [here]
            owner = player ^ (rung % 2) if family.turns else player
            lines.append(
                f"{here} {priority_at(family, kind, number, rung, rungs)} {owner} {','.join(map(str, targets))};\n"
            )
    return "".join(lines)


LADDER = Family(3, True, (
    (1, "low", 1, "b"), (0, "low", 1, "a c+"), (1, "rises", 2, "b d"), (0, "rises", 1, "e d-"), (0, "rises", 3, "b+ d"),
))
SECOND_LADDER = Family(3, True, (
    (1, "low", 1, "b"), (0, "low", 1, "a c+"), (0, "rises", 2, "b d"), (0, "rises", 3, "e d-"), (0, "rises", 1, "b+ d"),
))
TWISTED = Family(3, True, (
    (0, "low", 1, "a d+"), (0, "low", 1, "f- c-"), (0, "low", 0, "e a h"), (0, "falls", 0, "a b+"),
    (0, "low", 0, "b+"), (0, "low", 1, "g- a"), (0, "falls", 0, "a-"), (1, "falls", 2, "d b"),
))
BRAIDED = Family(1, True, (
    (0, "low", 1, "d- d f a+"), (1, "rises", 1, "d c"), (0, "low", 0, "b- a a+"),
    (1, "low", 0, "b+ e+ a"), (1, "low", 1, "b- c+ d+ c b+ f-"), (1, "rises", 0, "d f b e+ b+ e- e"),
))
STEEP = Family(3, True, (
    (0, "rises", 3, "e a d- a-"), (1, "rises", 4, "d e+ c b"), (1, "low", 0, "c b e+"),
    (1, "rises", 2, "b- e d e- d- a- e+"), (1, "rises", 0, "b- c+ a- e+"),
))
SLOW_TO_IMPROVE = Family(4, False, (
    (0, "rises", 1, "e+ f+"), (1, "rises", 2, "d- f+ b f"), (1, "rises", 3, "a+ c-"),
    (0, "low", 1, "d c+"), (0, "rises", 4, "b d- b+"), (0, "rises", 3, "e+"),
))


def ladder(rungs=40):
    """A ladder game, hard for recursive solvers: each further rung of five vertices multiplies the calls of psyn's
    recursion by about 2.1."""
    return on_games(game_by_rungs(LADDER, rungs))


def second_ladder(rungs=40):
    """The game `ladder` with two priorities exchanged, and with one vertex of each rung given to the other player: each
    further rung doubles the calls of psyn's recursion."""
    return on_games(game_by_rungs(SECOND_LADDER, rungs))


def twisted(rungs=40):
    """Rungs of eight vertices that stay hard for solvers that split the game into components, and for priority
    promotion."""
    return on_games(game_by_rungs(TWISTED, rungs))


def braided(rungs=40):
    """Rungs of six vertices that also stay hard for solvers that split the game into components."""
    return on_games(game_by_rungs(BRAIDED, rungs))


def steep(rungs=40):
    """Each further rung of five vertices multiplies the calls of psyn's recursion by 2.55, the greatest factor that was
    found."""
    return on_games(game_by_rungs(STEEP, rungs))


def slow_to_improve(rungs=40):
    """Each further rung of six vertices doubles the calls of psyn's recursion, and strategy improvement needs more
    rounds the more rungs there are."""
    return on_games(game_by_rungs(SLOW_TO_IMPROVE, rungs))


BY_RUNGS = (ladder, second_ladder, twisted, braided, steep, slow_to_improve)


def names_of_games():
    """Three texts: a vertex with a name of 16 MiB; a vertex with an id of 16 MiB of zeros; and a number of 16 MiB of
    nines."""
    return (
        on_games(f'0 0 0 0 "{"n" * (SIZE - 20)}";\n') + on_games(f'{"0" * (SIZE - 20)} 0 0 0;\n') + on_games("9" * SIZE)
    )


def certificates():
    """Certificates of 20 to 24 million bytes: right, wrong in the last line, cut short, and compact. One more
    certificate has a count of a million digits."""
    count = 790000
    game = "".join(f"{v} {v % 5} {v % 2} {max(v - 1, 0)};\n" for v in range(count))
    begun = [f"{v} 0 {'-' if v % 2 else max(v - 1, 0)}" for v in range(count)]
    counts = [((v + 4) // 5, (v + 2) // 5) for v in range(count)]
    start = f"vertices {count}\nodd 1 3\neven 0 2 4\n"
    lines = [f"{line} {one} {three}\n" for line, (one, three) in zip(begun, counts)]
    pairs = [
        f"{line}{f' 1:{one}' * (one > 0)}{f' 3:{three}' * (three > 0)}\n" for line, (one, three) in zip(begun, counts)
    ]
    right = f"psyncert 1\n{start}{''.join(lines)}"
    last = right.removesuffix(lines[-1]) + lines[-1].replace(" 0 - ", " 0 7 ")
    texts = [
        right, last, right[:-1], f"psyncert 1\n{start}0 0 0 {'1' * 1000000}\n", f"psyncert 2\n{start}{''.join(pairs)}"
    ]
    return [Run(command, (game, text)) for command in ("closed", "check") for text in texts]


# Circuits and stimuli

ONE_STATE = 'HOA: v1 Start: 0 controllable-AP: Acceptance: 0 t --BODY-- State: 0 [t] 0 --END--\n'


def on_circuits(text, stimulus):
    return [Run("sim", (text, stimulus)), Run("lasso", (ONE_STATE, text, "-\n" + stimulus))]


def circuit(inputs, latches, outputs, gates, variables):
    counts = f"aag {variables} {len(inputs)} {len(latches)} {len(outputs)} {len(gates)}\n"
    return counts + "".join(f"{line}\n" for line in (*inputs, *latches, *outputs, *gates))


def gates():
    """Chains of gates in rising order and in falling order, and a chain that is closed to a cycle."""
    count = 620000
    rising = [f"{2 * v} {2 * v - 1} {2 * v - 2}" for v in range(2, count)]
    closed = [f"2 {2 * count - 2} 3", *rising]
    runs = []
    for listed, inputs_of in ((rising, ["2"]), (rising[::-1], ["2"]), (closed, [])):
        runs += on_circuits(
            circuit(inputs_of, [], [str(2 * count - 2)], listed, count), "0\n1\n" if inputs_of else "\n\n"
        )
    return runs


def latches():
    """900,000 latches in a ring, each of which takes the next one's value."""
    count = 900000
    listed = [f"{2 * v} {2 * (v % count) + 2}" for v in range(1, count + 1)]
    return on_circuits(circuit([], listed, [], [], count), "\n\n")


def wires():
    """Circuits with two million inputs, with eight million outputs, with 700,000 symbols, and with a symbol of 16 MiB;
    each with a stimulus of one letter."""
    count = 2000000
    listed = [str(2 * v) for v in range(1, count + 1)]
    few = 700000
    symbols = circuit(listed[:few], [], [], [], few) + "".join(f"i{k} x{k}\n" for k in range(few))
    named = circuit(["2"], [], [], [], 1) + f"i0 {'n' * (SIZE - 40)}\n"
    runs = on_circuits(circuit(listed, [], [], [], count), "1" * count + "\n")
    runs += on_circuits(circuit([], [], repeated("1", 8000000), [], 0), "\n") + on_circuits(symbols, "1" * few + "\n")
    return runs + on_circuits(named, "1\n")


def variables():
    """130,000 variables that would collide in a hash table with a fixed seed, as latches and as gates."""
    found = [2 * int(number) for number in colliding(130000, 14, (1 << 31) - 1)]
    most = (1 << 31) - 1
    as_latches = circuit([], [f"{v} {w}" for v, w in zip(found, found[1:] + found[:1])], [], [], most)
    as_gates = circuit([str(found[0])], [], [], [f"{v} {w} {w}" for v, w in zip(found[1:], found)], most)
    return on_circuits(as_latches, "\n") + on_circuits(as_gates, "0\n")


def stimuli():
    """Stimuli of 16 MiB: empty letters, letters of one digit, and one long letter; and a stimulus of empty letters up
    to the limit on the length of the input."""
    none, one = circuit([], [], [], [], 0), circuit(["2"], [], ["2"], [], 1)
    runs = on_circuits(none, "\n" * SIZE) + on_circuits(one, "1\n" * (SIZE // 2)) + on_circuits(one, "1" * SIZE + "\n")
    return runs + [Run("sim", (none, "\n" * ((1 << 26) - 50)))]


def letters_and_gates():
    """A circuit of 20,000 gates and a stimulus of 20,000 letters, so that 400 million gates are evaluated."""
    count = 20000
    rising = [f"{2 * v} {2 * v - 1} {2 * v - 2}" for v in range(2, count)]
    return on_circuits(circuit(["2"], [], [str(2 * count - 2)], rising, count), "1\n0\n" * 10000)


def counting():
    """A 40-bit counter: on a lasso, its latches repeat only after 2^40 laps (repetitions of the lasso's repeated
    part)."""
    count, lines, gates_of, carry, top = 40, [], [], 1, 40
    for v in range(1, count + 1):
        if carry == 1:
            lines.append(f"{2 * v} {2 * v + 1}")
            carry = 2 * v
            continue
        both, neither, turned = 2 * top + 2, 2 * top + 4, 2 * top + 6
        gates_of += [
            f"{both} {2 * v} {carry}", f"{neither} {2 * v + 1} {carry ^ 1}", f"{turned} {both + 1} {neither + 1}"
        ]
        lines.append(f"{2 * v} {turned}")
        carry, top = both, top + 3
    return [Run("lasso", (ONE_STATE, circuit([], lines, [], gates_of, top), "-\n\n"), True)]


def inputs_at_the_limit():
    """Inputs just below and just above the limit of 64 MiB."""
    return [Run("solve", ("0 0 0 0;" + " " * ((1 << 26) - 100),)), Run("solve", (" " * (1 << 26),))]


def first_lines():
    """First lines of 16 MiB: one word, words of one letter, flags, and blanks."""
    lines = [
        "x" * SIZE,
        "x " * (SIZE // 2),
        "solve" + " --compact" * (SIZE // 10),
        "solve" + " " * SIZE,
        "synth --" + "c" * SIZE,
    ]
    return [Run(line, ("0 0 0 0;",)) for line in lines]


KINDS = (
    label, wide_label, twined_label, condition, states, edges, equal_edges, marks, letters, inputs, cascades, nesting,
    comments, names, vertices, ids, priorities, fan, *BY_RUNGS, names_of_games, certificates, gates, latches, wires,
    variables, stimuli, letters_and_gates, counting, inputs_at_the_limit, first_lines,
)
