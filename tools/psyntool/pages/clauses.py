"""Three sentences on what is proved of a circuit that psyn prints, and the proved clauses that they cite. For each
clause: the record of a crate's formal specification that has the clause as a field, the record's file, and a
paraphrase."""
from dataclasses import dataclass

ANSWERS, PROMISES = "crates/ps_traces/specs/Answers.antt", "crates/ps_synthesis/specs/Promises.antt"


@dataclass(frozen=True)
class Clause:
    record: str
    file: str
    words: str


CLAUSES = {
    "accepted": Clause(
        "IsWitness",
        ANSWERS,
        "The automaton accepts the word of each lasso trace of a controller's circuit. "
        "Such a trace is a stem and a lap of steps; after the lap the latches are as before it.",
    ),
    "rejected": Clause(
        "IsWitness", ANSWERS, "The automaton accepts the word of no lasso trace of an environment's circuit."
    ),
    "goes_on": Clause(
        "IsWitness",
        ANSWERS,
        "For each stem and lap of inputs, "
        "some lasso trace of the circuit reads the stem and then the lap again and again.",
    ),
    "meetings": Clause(
        "IsWitness",
        ANSWERS,
        "Each meeting of an environment with a finite-state controller is one lasso trace, which is rejected.",
    ),
    "is_game": Clause(
        "IsSynthesis",
        PROMISES,
        "The game that is printed is the game of the automaton's file in this order of moves; there is exactly one.",
    ),
    "both_hold": Clause(
        "IsSynthesis",
        PROMISES,
        "From each vertex that the certificate gives to a player, "
        "the plays that follow this player's moves stay among such vertices, and the player wins each of their loops.",
    ),
    "none_wins_outside": Clause(
        "IsSynthesis",
        PROMISES,
        "At any other vertex the player has no winning strategy of finite memory, and each table over histories, "
        "of any length, is beaten.",
    ),
}
GAME = (
    "The game is the one that this automaton defines ({is_game}), and each player wins every loop of every play from "
    "its own vertices by the moves of the certificate ({both_hold}).",
    "No strategy of finite memory wins from the other vertices ({none_wins_outside}).",
)
# A sentence on a circuit that was not printed with the game, in the place of the first of the following ones, by the
# command that judged it and by the player.
OF_ANOTHER = {
    "verify": (
        "psyn did not print this circuit; but it is proved of `verify`, "
        "which says that the automaton accepts each lasso trace of this circuit.",
        "psyn did not print this circuit; but it is proved of `verify`, "
        "which says that the automaton accepts no lasso trace of this circuit.",
    ),
    "shrink": (
        "`shrink` made this circuit of a larger one; "
        "it is proved of `shrink` that the automaton accepts each lasso trace of this circuit.",
        "`shrink` made this circuit of a larger one; "
        "it is proved of `shrink` that the automaton accepts no lasso trace of this circuit.",
    ),
}
# Two lists of sentences: the first is about a controller's circuit, and the second about an environment's circuit.
SENTENCES = (
    (
        "The automaton accepts each lasso trace of this circuit ({accepted}), "
        "and each input that repeats goes on in such a trace ({goes_on}).",
        *GAME,
    ),
    (
        "The automaton accepts no lasso trace of this circuit ({rejected}), "
        "and each finite-state controller meets it in such a trace ({meetings}).",
        *GAME,
    ),
)
