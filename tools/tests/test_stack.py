"""The graph of crates in docs/architecture.md is that of crates.txt."""
import unittest

from upkeep import stack

LIST = """# names
low:
left: low indexmap
right: low
top: left right low   # low stands under both
"""


def read(path):
    with open(path, encoding="utf-8") as file:
        return file.read()


class Stack(unittest.TestCase):
    def test_the_page_shows_it(self):
        page = read(stack.DRAWN)
        self.assertEqual(stack.redrawn(page, read(stack.LISTED)), page, "tools/draw-crates draws it anew")

    def test_highest_first_each_with_what_it_stands_on(self):
        lines = [line.split() for line in stack.drawing(LIST).splitlines()]
        self.assertEqual(lines, [["top", "left", "right"], ["left", "low"], ["right", "low"], ["low"]])

    def test_the_drawing_alone_is_put_in_place(self):
        self.assertEqual(
            stack.redrawn("a\n```text crates\nold\n```\nb\n", "low:\n"), "a\n```text crates\nlow\n```\nb\n"
        )

    def test_what_is_no_list_is_refused(self):
        for text in ("top low\n", "low:\nlow:\n", "one: two\ntwo: one\n"):
            with self.subTest(text=text), self.assertRaises(stack.Unread):
                stack.drawing(text)

    def test_a_page_without_a_place_is_refused(self):
        with self.assertRaises(stack.Unread):
            stack.redrawn("```text\n```\n", LIST)


if __name__ == "__main__":
    unittest.main()
