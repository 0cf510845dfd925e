"""Compares tools/check_certificate.py with psyn's `check`, on each certificate of the examples and of the rows, and on
damaged ones."""
import os
import re
import subprocess
import sys
import tempfile
import unittest

from upkeep import counts, rows, sweeps
from psyntool.program import path as program

CHECKER = os.path.join(sweeps.TOP, "tools", "check_certificate.py")
FOLDER = os.path.join(sweeps.TOP, "examples")
LONGEST = 100_000


def pair_of(given):
    """The game and the certificate in an input of `check` or `closed`; None for other inputs."""
    found = re.fullmatch(rb"(?:check|closed)\n(.*?^|)%%(?:\n(.*))?", given, re.S | re.M)
    return (found[1], found[2] or b"") if found and len(given) < LONGEST else None


def inputs():
    for name in sweeps.inputs_of(FOLDER):
        with open(os.path.join(FOLDER, name), "rb") as file:
            yield file.read()
    for name in rows.files_of(os.path.join(FOLDER, "rows")):
        if name != "cuts.toml":
            yield from (row.given for row in rows.read(os.path.join(FOLDER, "rows", name)))


class BesideCheck(unittest.TestCase):
    def answer(self, given):
        return subprocess.run([program()], input=given, stdout=subprocess.PIPE, check=False).stdout

    def made(self, given):
        """The game and psyn's certificate for it, made from an input of `solve` or `cert`; None for other inputs."""
        command, _, text = given.partition(b"\n")
        if (
            len(given) > LONGEST
            or command not in (b"solve", b"solve --compact", b"cert", b"cert --moore", b"cert --compact")
        ):
            return None
        game = (
            text
            if command.startswith(b"solve")
            else self.answer(command.replace(b"cert", b"game").replace(b" --compact", b"") + b"\n" + text)
        )
        certificate = self.answer(given)
        return None if certificate.startswith(b"fault") else (game.removesuffix(b"\n") + b"\n", certificate)

    def said_by_checker(self, game, certificate):
        with tempfile.TemporaryDirectory() as room:
            paths = [os.path.join(room, name) for name in ("game", "certificate")]
            for path, text in zip(paths, (game, certificate)):
                with open(path, "wb") as file:
                    file.write(text)
            done = subprocess.run([sys.executable, CHECKER, *paths], capture_output=True, check=False)
        return done.stdout, done.returncode

    def compared(self, pair):
        game, certificate = pair
        wanted = self.answer(b"check\n" + game + b"%%\n" + certificate)
        is_read = re.match(rb"valid|fault 5[012] ", wanted)
        right = (wanted, 0 if wanted == b"valid\n" else 1) if is_read else (b"", 2)
        found = self.said_by_checker(game, certificate)
        return None if found == right else f"{found}, wanted {right}: {game[:200]!r} {certificate[:200]!r}"

    def test_on_all_certificates(self):
        texts = list(inputs())
        pairs = [pair for text in texts for pair in (pair_of(text), self.made(text)) if pair]
        # damaged certificates: the last number of each line is decreased or increased, or the first vertex that player
        # 0 wins is given to player 1
        pairs += [
            (game, re.sub(rb"(?m)(\d+)$", change, text)) for game, text in pairs[:40] for change in (lower, higher)
        ]
        pairs += [(game, re.sub(rb"(?m)^(\d+) 0 ", rb"\1 1 ", text, count=1)) for game, text in pairs[:40]]
        counts.ran("examples", "certificates checked by another program", len(pairs))
        self.assertEqual([wrong for wrong in sweeps.at_once(self.compared, pairs) if wrong], [])


def lower(found):
    return b"%d" % max(0, int(found[1]) - 1)


def higher(found):
    return b"%d" % (int(found[1]) + 1)


if __name__ == "__main__":
    unittest.main()


class CommandLine(unittest.TestCase):
    def test_without_two_files_the_reason_is_one_line(self):
        ran = subprocess.run([sys.executable, CHECKER], stderr=subprocess.PIPE, text=True, check=False)
        self.assertEqual(ran.returncode, 2)
        self.assertEqual(ran.stderr, "check_certificate.py: two files are wanted: GAME CERTIFICATE\n")
