#!/usr/bin/env python3
"""Checks a certificate of a parity game, as docs/CERTIFICATES.md defines it and without psyn:
tools/check_certificate.py GAME CERTIFICATE

The script prints `valid` (exit status 0) or the certificate's first flaw, worded as by `psyn check` (status 1). If a
text is malformed, the script prints the reason on standard error (status 2).
"""
import re
import sys

NODE = re.compile(r'\s*(\d+)\s+(\d+)\s+0*([01])\s+(\d+(?:\s*,\s*\d+)*)\s*(?:"[^"]*"\s*)?;')
NUMBER = "(?:0|[1-9][0-9]*)"
FORMS = {"psyncert 1": NUMBER, "psyncert 2": f"{NUMBER}:{NUMBER}"}


def insist(holds, why):
    if not holds:
        raise ValueError(why)


def game_of(text):
    """The game as a dictionary from each vertex's id to its priority, its owner and the list of its distinct
    successors."""
    text = re.sub(r"\A\s*(?:parity\s+\d+\s*;)?\s*(?:start\s+\d+\s*;)?", "", text)
    nodes = [
        (int(n[1]), int(n[2]), int(n[3]), list(dict.fromkeys(map(int, n[4].split(","))))) for n in NODE.finditer(text)
    ]
    game = {node[0]: node[1:] for node in nodes}
    insist(nodes and len(game) == len(nodes) and not NODE.sub("", text).strip(), "this is no game")
    insist(all(w in game for node in nodes for w in node[3]), "the game has an unknown successor")
    return game


def counts_of(said, losing, is_compact):
    """A vertex's count for each priority of the parity by which its winner loses. The certificate lists all these
    counts or, in the compact form, only those other than 0, as `priority:count`."""
    if not is_compact:
        insist(len(said) == len(losing), f"wrong counts: {said}")
        return dict(zip(losing, map(int, said)))
    pairs = [tuple(map(int, word.split(":"))) for word in said]
    insist(
        sorted(dict(pairs).items()) == pairs and all(p in losing and count for p, count in pairs),
        f"wrong counts: {said}",
    )
    return {**dict.fromkeys(losing, 0), **dict(pairs)}


def entries_of(text, game):
    """For each vertex of the certificate: its winner, the winner's move or None, and its counts."""
    lines = text.split("\n")
    odd, even = (sorted({p for p, _, _ in game.values() if p % 2 == parity}) for parity in (1, 0))
    head = [f"vertices {len(game)}", " ".join(map(str, ["odd", *odd])), " ".join(map(str, ["even", *even]))]
    insist(lines[0] in FORMS and lines[1:4] == head and lines[4 + len(game) :] == [""], "no certificate of this game")
    entries = {}
    for v, line in zip(game, lines[4:]):
        insist(re.fullmatch(f"{v} [01] (-|{NUMBER})( {FORMS[lines[0]]})*", line), f"no entry of vertex {v}: {line!r}")
        insist(all(int(word) < 2**64 for word in re.findall("[0-9]+", line)), f"a number of vertex {v} is too large")
        _, winner, move, *said = line.split(" ")
        insist(move == "-" or int(move) in game, f"vertex {v} moves to no vertex")
        counts = counts_of(said, even if winner == "1" else odd, lines[0] == "psyncert 2")
        entries[v] = (int(winner), None if move == "-" else int(move), counts)
    return entries


def flaws_of(game, entries):
    """Yields the certificate's flaws in order. First come wrong moves and escapes (edges to a vertex that the other
    player wins), vertex by vertex, and then wrong counts."""
    remaining = {}
    for v, (_, owner, successors) in game.items():
        winner, move, _ = entries[v]
        if move not in successors if owner == winner else move is not None:
            yield f"fault 50 Move {v} {'-' if move is None else move}"
        remaining[v] = [move] if owner == winner else successors
        yield from (f"fault 51 Escape {v} {w}" for w in remaining[v] if w is None or entries[w][0] != winner)
    for v, w, p in ((v, w, p) for v in game for w in remaining[v] for p in entries[v][2]):
        own, before, after = game[v][0], entries[v][2][p], entries[w][2][p]
        if max(own, game[w][0]) <= p and (after > before or own == p and after == before):
            yield f"fault 52 Rank {v} {w} {p}"


def main(paths):
    try:
        insist(len(paths) == 2, "two files are wanted: GAME CERTIFICATE")
        texts = [open(path, encoding="latin-1", newline="").read() for path in paths]
        game = game_of(texts[0])
        flaw = next(flaws_of(game, entries_of(texts[1], game)), "valid")
    except (OSError, ValueError) as error:
        print(f"check_certificate.py: {error}", file=sys.stderr)
        return 2
    print(flaw)
    return 0 if flaw == "valid" else 1


if __name__ == "__main__":
    sys.exit(main(sys.argv[1:]))
