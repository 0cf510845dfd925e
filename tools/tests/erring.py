#!/usr/bin/env python3
"""A solver that makes mistakes: erring.py GAME SOLUTION winner|move|half. The last argument chooses the mistake: the
solver gives the first vertex to the wrong player (winner), makes other moves inside each player's region (move), or
leaves out the second half of the vertices (half)."""
import sys

import improving


def erring(word):
    def answer(game):
        solved = improving.solve(game)
        winners = {v: winner for v, (winner, _) in solved.items()}
        if word == "half":
            return dict(list(solved.items())[: len(solved) // 2])
        if word == "winner":
            first = next(iter(solved))
            return {**solved, first: (1 - winners[first], None)}
        for v, (winner, move) in solved.items():
            others = [w for w in game[v][2] if move not in (None, w) and winners[w] == winner]
            solved[v] = (winner, others[0] if others else move)
        return solved

    return answer


if __name__ == "__main__":
    improving.main(erring(sys.argv[3]), *sys.argv[1:3])
