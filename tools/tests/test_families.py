"""Tests of the named families of games: each member is a valid game of the stated size, and is the same each time."""
import subprocess
import unittest
import unittest.mock

from psyntool import families
from psyntool.program import path as program
from psyntool.texts import game


class Families(unittest.TestCase):
    def test_each_is_a_game_that_psyn_solves(self):
        # The recursion alone would take 2 to the power of 40 calls on ladders of 40 rungs.
        for name, family in families.FAMILIES.items():
            for number in (1, 2, 3, 7, 40):
                made = families.game_of(family.make(number))
                text = made.text()
                with self.subTest(name=name, number=number):
                    self.assertEqual(game.read(text), made)
                    self.assertEqual(text, families.game_of(family.make(number)).text())
                    self.assertEqual(len(made.vertices), family.vertices(number))
                    self.assertLessEqual(len(text), family.most_bytes(number, {}))
                    certificate = self.answer(f"solve\n{text}")
                    self.assertEqual(self.answer(f"check\n{text}%%\n{certificate}"), "valid\n")

    def answer(self, given):
        return subprocess.run([program()], input=given.encode(), stdout=subprocess.PIPE, check=False).stdout.decode()

    def test_a_random_game_has_so_many_edges_and_priorities(self):
        plain = families.random(50)
        self.assertEqual(families.random(50, seed=0), plain)
        self.assertNotEqual(families.random(50, seed=1), plain)
        self.assertNotEqual(families.buchi(50, seed=1), families.buchi(50, seed=2))
        for edges in (1, 4, 49, 50):
            rows = families.random(50, 7, edges, 3)
            self.assertEqual({len(set(to)) for _, _, to in rows}, {edges})
            self.assertEqual({priority for priority, _, _ in rows}, {0, 1, 2})
            self.assertEqual({len(set(to)) for _, _, to in families.buchi(50, 7, edges)}, {edges})
        drawn = {tuple(sorted(families.Draw(1, seed).distinct(2, 4))) for seed in range(200)}
        self.assertEqual(len(drawn), 6)

    def test_the_greatest_number_makes_a_text_that_psyn_reads(self):
        """The texts of the greatest games themselves would take long, so shorter limits stand in for psyn's."""
        for name, family in families.FAMILIES.items():
            with self.subTest(name), unittest.mock.patch.object(families, "MOST_BYTES", 20_000):
                greatest = family.greatest({})
                self.assertGreater(greatest, 10)
                self.assertLessEqual(len(families.game_of(family.make(greatest)).text()), 20_000)
                self.assertGreater(len(families.game_of(family.make(2 * greatest)).text()), 20_000)
        many = families.FAMILIES["random"].greatest({"edges": 1, "priorities": 999_999_999})
        self.assertLess(many, families.FAMILIES["random"].greatest({"edges": 1}))

    def test_a_ladder_has_five_vertices_a_rung_and_all_priorities(self):
        made = families.game_of(families.ladder(24))
        self.assertEqual((len(made.vertices), max(made.priorities)), (120, 3 * 23 + 5))
        self.assertEqual(
            made.vertices[:3],
            game.read("0 1 1 1; 1 1 0 0,7; 2 4 1 1,3; 3 3 0 4; 4 5 0 3,9; 7 0 0 7; 9 0 0 9;").vertices[:3],
        )

    def test_a_path_counts_all_its_odd_priorities(self):
        made = families.game_of(families.path(6))
        self.assertEqual(made.text(), "parity 5;\n0 0 0 1;\n1 1 1 2;\n2 2 0 3;\n3 3 1 4;\n4 4 0 4;\n5 5 1 4;\n")


if __name__ == "__main__":
    unittest.main()
