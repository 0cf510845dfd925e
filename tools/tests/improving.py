#!/usr/bin/env python3
"""A parity game solver that shares no code with psyn: improving.py GAME SOLUTION. The solver uses strategy improvement,
once for each player.

A priority outweighs all lower ones on a play; it counts for the player of its parity, and against the other player. The
player's strategy may stop the play at each of the player's vertices, and stops everywhere at first. A play that stops
is worth the sum of the weights of its priorities. As long as a vertex of the player has an edge to a vertex of greater
value than the target of its move, this edge becomes the move. When no edge improves the strategy, the player wins from
the vertices from which the opponent can neither make a play stop nor win it.
"""
import re
import sys

STOP = -1


def read(text):
    """The game by vertex id: the priority, the owner and the successors."""
    found = re.findall(r"(\d+) +(\d+) +([01]) +(\d+(?: *, *\d+)*)[^;]*;", text)
    return {int(v): (int(p), int(owner), [int(w) for w in to.split(",")]) for v, p, owner, to in found}


def values(weights, edges, most):
    """The value of each vertex for a player with fixed moves, if the opponent minimises it; `most` is the value of a
    vertex from which no play stops."""
    worth = {**dict.fromkeys(edges, most), STOP: 0}
    for _ in range(len(edges) + 1):
        least = {v: weights[v] + min(map(worth.get, to)) for v, to in edges.items()}
        changed = [v for v in edges if least[v] < worth[v]]
        worth.update((v, least[v]) for v in changed)
        if not changed:
            break
    # a value that still fell in the last round belongs to a vertex from which the opponent can reach a cycle that the
    # player loses
    while changed:
        worth.update(dict.fromkeys(changed, -most))
        changed = [v for v, to in edges.items() if worth[v] > -most and min(map(worth.get, to)) == -most]
    return {v: most if worth[v] > most // 2 else worth[v] for v in worth}


def won_by(game, player):
    """The vertices that a player wins, each with the player's move, or None at the opponent's vertices."""
    ranks = {p: rank for rank, p in enumerate(sorted({p for p, _, _ in game.values()}))}
    base, most = len(game) + 1, (len(game) + 1) ** (len(ranks) + 2)
    weights = {v: base ** ranks[p] * (1 if p % 2 == player else -1) for v, (p, _, _) in game.items()}
    moves = {v: STOP for v, (_, owner, _) in game.items() if owner == player}
    while True:
        worth = values(weights, {v: [moves[v]] if v in moves else to for v, (_, _, to) in game.items()}, most)
        better = {v: max(game[v][2], key=worth.get) for v in moves}
        better = {v: w for v, w in better.items() if worth[w] > worth[moves[v]]}
        if not better:
            return {v: moves.get(v) for v in game if worth[v] == most}
        moves.update(better)


def solve(game):
    """The solution by vertex id: the winner, and the winner's move or None."""
    solved = {v: (player, move) for player in (0, 1) for v, move in won_by(game, player).items()}
    return {v: solved[v] for v in game}


def main(answer, game_path, solution_path):
    with open(game_path, encoding="utf-8") as file:
        game = read(file.read())
    lines = [f"{v} {winner}{'' if move is None else f' {move}'};\n" for v, (winner, move) in answer(game).items()]
    with open(solution_path, "w", encoding="utf-8") as file:
        file.write(f"paritysol {max(game)};\n" + "".join(lines))


if __name__ == "__main__":
    main(solve, *sys.argv[1:])
