"""Families of specifications, each made from a number, and 55 patterns of properties.

A family is a function from a number to the inputs, the outputs and the sections, which map a section's word to its
formulas.

The patterns are those of Dwyer, Avrunin and Corbett ("Patterns in Property Specifications for Finite-State
Verification", 1999): absence, existence, existence at most twice, universality, precedence, response, precedence of a
chain, precedence before a chain, response by one to a chain, response by a chain, and response by a chain without a
proposition; each globally, before r, after q, between q and r, and after q until r.
"""


def numbered(letter, n):
    return [f"{letter}{i}" for i in range(n)]


def exclusive(names):
    return [f"!({a} && {b})" for i, a in enumerate(names) for b in names[i + 1:]]


def every(formulas):
    return " && ".join(f"({formula})" for formula in formulas)


def some(formulas):
    return " || ".join(f"({formula})" for formula in formulas)


def nested(start, step, count):
    """A formula in which a step, with the number of each operand, is put around a start again and again."""
    made = start
    for i in reversed(range(count)):
        made = step(i, made)
    return made


def told(formula, inputs):
    """A family's parts if the output g is true again and again just where a formula over the inputs holds."""
    return inputs, ["g"], {"GUARANTEE": [f"({formula}) <-> (G F g)"]}


def simple(n):
    """Arbiters, whose grants exclude each other."""
    asked, given = numbered("r", n), numbered("g", n)
    return asked, given, {"ASSERT": exclusive(given), "GUARANTEE": [f"G ({r} -> F {g})" for r, g in zip(asked, given)]}


def full(n):
    """The same, whose grants are given only on request."""
    asked, given, sections = simple(n)
    for r, g in zip(asked, given):
        sections["GUARANTEE"] += [
            f"G (({g} && G !{r}) -> F !{g})",
            f"G (({g} && X (!{r} && !{g})) -> X ({r} R !{g}))",
            f"{r} R !{g}",
        ]
    return asked, given, sections


def master(n):
    """Simple arbiters, with a master whose requests are granted at once."""
    asked, given, sections = simple(n)
    sections["ASSERT"] = exclusive(given + ["h"]) + ["m -> X h"]
    return asked + ["m"], given + ["h"], sections | {"ASSUME": ["G F !m"]}


def circle(n):
    """Simple arbiters that serve the clients in turn, each of which keeps its request."""
    asked, given, sections = simple(n)
    kept = [f"G (({r} && !{g}) -> X {r})" for r, g in zip(asked, given)]
    turns = [
        f"G (({given[i]} && {asked[(i + 1) % n]}) -> ({given[(i + 1) % n]} || X (!{given[i]} W {given[(i + 1) % n]})))"
        for i in range(n)
    ]
    return asked, given, {**sections, "GUARANTEE": sections["GUARANTEE"] + turns, "ASSUME": kept}


def balancer(n):
    """Servers that get work while one of them is idle."""
    asked, given = numbered("r", n), numbered("g", n)
    stays = f"G ((idle && X ({' && '.join('!' + g for g in given)})) -> X idle)"
    return ["idle"] + asked, given, {
        "ASSUME": ["G F idle", stays],
        "ASSERT": exclusive(given) + [f"{g} -> idle" for g in given],
        "GUARANTEE": [f"(F G {r}) -> (G F {g})" for r, g in zip(asked, given)],
    }


def detector(n):
    """Tells whether each input is true again and again."""
    asked = numbered("r", n)
    return told(every(f"G F {r}" for r in asked), asked)


def blind(n):
    """The same, by an output that stays true in the end: there is no controller."""
    asked = numbered("r", n)
    return asked, ["g"], {"GUARANTEE": [f"({every(f'G F {r}' for r in asked)}) <-> (F G g)"]}


def gr1(n):
    """If each input is true again and again, so is each output."""
    asked, given = numbered("r", n), numbered("g", n)
    return asked, given, {"ASSUME": [f"G F {r}" for r in asked], "GUARANTEE": [f"G F {g}" for g in given]}


def streett(n):
    """Each input that is true again and again has an output that is."""
    asked, given = numbered("r", n), numbered("g", n)
    return asked, given, {"GUARANTEE": [f"(G F {r}) -> (G F {g})" for r, g in zip(asked, given)]}


def lasting(n):
    """If each input stays true in the end, so does each output."""
    asked, given = numbered("r", n), numbered("g", n)
    return asked, given, {"ASSUME": [f"F G {r}" for r in asked], "GUARANTEE": [f"F G {g}" for g in given]}


def mixed(n):
    """Pairs of an input that is true again and again and one that stays true in the end."""
    asked = numbered("r", n + 1)
    return asked, [], {"GUARANTEE": [f"(G F {a}) || (F G {b})" for a, b in zip(asked, asked[1:])]}


def lift(n):
    """A lift that moves by one floor."""
    asked, floors = numbered("b", n), numbered("f", n)
    moves = [f"{floors[i]} -> X ({' || '.join(floors[max(0, i - 1):i + 2])})" for i in range(n)]
    served = [f"G ({b} -> F {f})" for b, f in zip(asked, floors)]
    return (
        asked,
        floors,
        {"PRESET": [floors[0]], "ASSERT": exclusive(floors) + [" || ".join(floors)] + moves, "GUARANTEE": served},
    )


def door(n):
    """A lift with a door, which is closed while it moves."""
    asked, floors = numbered("b", n), numbered("f", n)
    moves = [f"{floors[i]} -> X ({' || '.join(floors[max(0, i - 1):i + 2])})" for i in range(n)]
    stays = [f"({f} && open) -> X {f}" for f in floors]
    served = [f"G ({b} -> F ({f} && open))" for b, f in zip(asked, floors)]
    return (
        asked,
        [*floors, "open"],
        {"PRESET": [floors[0]], "ASSERT": exclusive(floors) + moves + stays, "GUARANTEE": served + ["G F !open"]},
    )


def collector(n):
    """An output that is true once each input was, again and again."""
    asked = numbered("r", n)
    waits = [f"G (g -> X (!g W {r}))" for r in asked]
    return asked, ["g"], {"GUARANTEE": [f"(G F g) <-> ({every(f'G F {r}' for r in asked)})", *waits]}


def delay(n):
    """An output that is an input some steps before."""
    return ["r"], ["g"], {"GUARANTEE": [f"G (g <-> {'X ' * n}r)"]}


def within(n):
    """An answer within so many steps."""
    return ["r"], ["g"], {"GUARANTEE": [f"G (r -> ({nested('g', lambda _, made: f'g || X ({made})', n)}))"]}


def chained(n):
    """A request, and behind it so many answers, each of which stays true up to the next."""
    names = numbered("r", n + 1)
    return (
        names,
        [],
        {"GUARANTEE": [
            f"G ({names[0]} -> ({nested('true', lambda i, made: f'{names[i]} U ({names[i + 1]} && ({made}))', n)}))"
        ]},
    )


def orders(n):
    """Tells whether two lists of inputs are true in their order."""
    first, second = numbered("r", n), numbered("s", n)
    steps = [
        nested(f"F {names[-1]}", lambda i, made, names=names: f"F ({names[i]} && {made})", n - 1)
        for names in (first, second)
    ]
    return told(every(steps), first + second)


def rows(n):
    """Tells whether two inputs are true in so many steps behind one another."""
    return told(
        every(f"F ({nested(name, lambda _, made, name=name: f'{name} && X ({made})', n - 1)})" for name in "rs"),
        ["r", "s"],
    )


def once(n):
    """Tells whether each input is true at some time."""
    asked = numbered("r", n)
    return told(every(f"F {r}" for r in asked), asked)


def pairs(n):
    """Tells whether of two neighbours one is true at some time, or the other always."""
    asked = numbered("r", n + 1)
    return told(every(f"(F {a}) || (G {b})" for a, b in zip(asked, asked[1:])), asked)


def left(n):
    """Tells whether nested untils hold, which begin on the left."""
    asked = numbered("r", n)
    made = asked[0]
    for r in asked[1:]:
        made = f"({made}) U {r}"
    return told(made, asked)


def right(n):
    """Tells whether nested untils hold, which begin on the right."""
    asked = numbered("r", n)
    return told(nested(asked[-1], lambda i, made: f"{asked[i]} U ({made})", n - 1), asked)


def fair(n):
    """Tells whether a request is not answered although each input is true again and again."""
    asked = numbered("p", n)
    return told(f"!(({every(f'G F {p}' for p in asked)}) -> (G (q -> F r)))", [*asked, "q", "r"])


FAMILIES = (
    simple, full, master, circle, balancer, detector, blind, gr1, streett, lasting, mixed, lift, door, collector, delay,
    within, chained, orders, rows, once, pairs, left, right, fair,
)

PATTERNS = (
    "G !p",
    "F r -> (!p U r)",
    "G (q -> G !p)",
    "G ((q && !r && F r) -> (!p U r))",
    "G ((q && !r) -> (!p W r))",
    "F p",
    "!r W (p && !r)",
    "G !q || F (q && F p)",
    "G ((q && !r) -> (!r W (p && !r)))",
    "G ((q && !r) -> (!r U (p && !r)))",
    "!p W (p W (!p W (p W G !p)))",
    "F r -> ((!p && !r) U (r || ((p && !r) U (r || ((!p && !r) U (r || ((p && !r) U (r || (!p U r)))))))))",
    "F q -> (!q U (q && (!p W (p W (!p W (p W G !p))))))",
    "G ((q && F r) -> ((!p && !r) U (r || ((p && !r) U (r || ((!p && !r) U (r || ((p && !r) U (r || (!p U r))))))))))",
    "G (q -> ((!p && !r) U (r || ((p && !r) U (r || ((!p && !r) U (r || ((p && !r) U (r || (!p W r) || G p)))))))))",
    "G p",
    "F r -> (p U r)",
    "G (q -> G p)",
    "G ((q && !r && F r) -> (p U r))",
    "G ((q && !r) -> (p W r))",
    "!p W s",
    "F r -> (!p U (s || r))",
    "G !q || F (q && (!p W s))",
    "G ((q && !r && F r) -> (!p U (s || r)))",
    "G ((q && !r) -> (!p W (s || r)))",
    "G (p -> F s)",
    "F r -> ((p -> (!r U (s && !r))) U r)",
    "G (q -> G (p -> F s))",
    "G ((q && !r && F r) -> ((p -> (!r U (s && !r))) U r))",
    "G ((q && !r) -> ((p -> (!r U (s && !r))) W r))",
    "F p -> (!p U (s && !p && X (!p U t)))",
    "F r -> (!p U (r || (s && !p && X (!p U t))))",
    "G !q || (!q U ((q && F p) -> (!p U (s && !p && X (!p U t)))))",
    "G ((q && F r) -> (!p U (r || (s && !p && X (!p U t)))))",
    "G (q -> (F p -> (!p U (r || (s && !p && X (!p U t))))))",
    "F (s && X F t) -> (!s U p)",
    "F r -> (!(s && !r && X (!r U (t && !r))) U (r || p))",
    "G !q || (!q U (q && (F (s && X F t) -> (!s U p))))",
    "G ((q && F r) -> (!(s && !r && X (!r U (t && !r))) U (r || p)))",
    "G (q -> ((!(s && !r && X (!r U (t && !r))) U (r || p)) || G !(s && X F t)))",
    "G ((s && X F t) -> X F (t && F p))",
    "F r -> (((s && X (!r U t)) -> X (!r U (t && F p))) U r)",
    "G (q -> G ((s && X F t) -> X (!t U (t && F p))))",
    "G ((q && F r) -> (((s && X (!r U t)) -> X (!r U (t && F p))) U r))",
    "G (q -> (((s && X (!r U t)) -> X (!r U (t && F p))) U (r || G ((s && X (!r U t)) -> X (!r U (t && F p))))))",
    "G (p -> F (s && X F t))",
    "F r -> ((p -> (!r U (s && !r && X (!r U t)))) U r)",
    "G (q -> G (p -> (s && X F t)))",
    "G ((q && F r) -> ((p -> (!r U (s && !r && X (!r U t)))) U r))",
    "G (q -> ((p -> (!r U (s && !r && X (!r U t)))) U (r || G (p -> (s && X F t)))))",
    "G (p -> F (s && !z && X (!z U t)))",
    "F r -> ((p -> (!r U (s && !r && !z && X ((!r && !z) U t)))) U r)",
    "G (q -> G (p -> (s && !z && X (!z U t))))",
    "G ((q && F r) -> ((p -> (!r U (s && !r && !z && X ((!r && !z) U t)))) U r))",
    "G (q -> ((p -> (!r U (s && !r && !z && X ((!r && !z) U t)))) U (r || G (p -> (s && !z && X (!z U t))))))",
)


def pattern(formula):
    """The parts of a specification that is a pattern."""
    return ["q", "r", "t"], ["p", "s", "z"], {"GUARANTEE": [formula]}


def text(inputs, outputs, sections):
    """The text of a specification."""
    lists = [
        f"INPUTS {{ {' '.join(f'{name};' for name in inputs)} }} OUTPUTS {{ "
        f"{' '.join(f'{name};' for name in outputs)} }}"
    ]
    lists += [f"{word} {{ {' '.join(f'{formula};' for formula in formulas)} }}" for word, formulas in sections.items()]
    return f"INFO {{ SEMANTICS: Mealy TARGET: Mealy }} MAIN {{ {' '.join(lists)} }}"
