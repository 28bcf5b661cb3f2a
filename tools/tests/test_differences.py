"""Two views node by node."""

import os
import random
import tempfile
import unittest

from readable import differences
from readable.nodes import MARKS, Node

from .command import meadcinder

FRESH = b"0001000002026869\n0001000004026C6F\n0001000002026869\n0001000004026C6F\n000100FFFF0161\n"


class Differences(unittest.TestCase):
    def diff(self, first, second):
        with tempfile.TemporaryDirectory() as folder:
            names = [os.path.join(folder, name) for name in ("first", "second")]
            for name, content in zip(names, (first, second)):
                with open(name, "wb") as file:
                    file.write(content)
            out, said, status = meadcinder("diff", *names)
        self.assertEqual((said, status), ("", 0))
        return out.decode()

    def test_no_difference(self):
        self.assertEqual(self.diff(FRESH, FRESH), "no difference\n")
        self.assertEqual(self.diff(b"", b""), "no difference\n")

    def test_an_edited_copy(self):
        edited = FRESH.replace(b"0001000004026C6F", b"0001010004026869", 1)
        self.assertEqual(self.diff(FRESH, edited), 'node 4: line 1: mark untouched -> changed, text "lo" -> "hi"\n')

    def test_a_line_that_was_only_marked_is_saved(self):
        edited = b'view\ntext 2 "hi"\ntext 4 "lo" changed\ntext 2 "hi"\ntext 4 "hi" changed\ntext program "a"\n'
        said = ("node 4: line 1: saved, its text is the same\n"
                'node 4: line 3: mark untouched -> changed, text "lo" -> "hi"\n')
        self.assertEqual(self.diff(FRESH, edited), said)

    def test_saved_is_any_text_of_the_master_at_any_depth(self):
        said = "node 0: line 0: saved, its text is the same\nnode 258: line 1: saved, its text is the same\n"
        self.assertEqual(self.diff(b"000100000000\n02010001020161\n", b"000101000000\n02010101020161\n"), said)

    def test_what_is_more_or_less_than_marked_is_not_called_saved(self):
        text = b"0001000004026C6F\n"
        for first, second, said in (
            (text, b"0001020004026C6F\n", "node 4: line 0: mark untouched -> deleted\n"),
            (b"0001020004026C6F\n", b"0001010004026C6F\n", "node 4: line 0: mark deleted -> changed\n"),
            (b"0001010004026C6F\n", text, "node 4: line 0: mark changed -> untouched\n"),
            (b"0001010004026C6F\n", b"0001010004026C6F\n", "no difference\n"),
            (text, b"0001010004026C6E\n", 'node 4: line 0: mark untouched -> changed, text "lo" -> "ln"\n'),
            (text, b"0001010004016C\n", 'node 4: line 0: mark untouched -> changed, text "lo" -> "l"\n'),
            (text, b"0001010004036C6F20\n", 'node 4: line 0: mark untouched -> changed, text "lo" -> "lo "\n'),
            (text, b"0101010004026C6F\n", "node 4: line 0: depth 0 -> 1, mark untouched -> changed\n"),
            (b"000100FFFF0161\n", b"000101FFFF0161\n", "from the program: line 0: mark untouched -> changed\n"),
            (b"00020000010177\n", b"00020100010177\n", "node 1: line 0: mark untouched -> changed\n"),
        ):
            with self.subTest(first=first, second=second):
                self.assertEqual(self.diff(first, second), said)

    def test_orders(self):
        order = b"00030000060568692D6C6F\n"
        for second, said in (
            (b"0003010006056C6F2D6869\n", 'node 6: line 0: mark untouched -> changed, text "hi-lo" -> "lo-hi"\n'),
            (b"00030100060468696C6F\n", 'node 6: line 0: mark untouched -> changed, text "hi-lo" -> "hilo"\n'),
            (b"00030100060568692D6C6F\n", "node 6: line 0: saved, its text is the same\n"),
            (b"00030200060568692D6C6F\n", "node 6: line 0: mark untouched -> deleted\n"),
            (b"00010000060568692D6C6F\n", "node 6: line 0: kind order -> text\n"),
            (b"00010100060568692D6C6F\n", "node 6: line 0: kind order -> text, mark untouched -> changed\n"),
        ):
            with self.subTest(second=second):
                self.assertEqual(self.diff(order, second), said)
        text = b"00010000060568692D6C6F\n"
        self.assertEqual(self.diff(text, order), "node 6: line 0: kind text -> order\n")
        self.assertEqual(self.diff(text, b"00030100060568692D6C6F\n"),
                         "node 6: line 0: kind text -> order, mark untouched -> changed\n")

    def test_a_line_that_moved_is_not_called_saved(self):
        moved = b"0001010004026C6F\n0001000002026869\n"
        said = ("node 4: line 1 -> 0: mark untouched -> changed\n"
                "the lines stand in another order from line 0 of the first on\n")
        self.assertEqual(self.diff(b"0001000002026869\n0001000004026C6F\n", moved), said)

    def test_the_readable_form_beside_hex_lines(self):
        readable = b'view\ntext 2 "hi"\ntext 4 "lo"\ntext 2 "hi" deleted\ntext 4 "lo"\ntext program "b"\n'
        said = 'node 2: line 2: mark untouched -> deleted\nfrom the program: line 4: text "a" -> "b"\n'
        self.assertEqual(self.diff(FRESH, readable), said)

    def test_a_line_more_and_a_line_less(self):
        less = FRESH.replace(b"0001000002026869\n", b"", 1)
        said = "node 2: line 2 is only in the first\nthe lines stand in another order from line 0 of the first on\n"
        self.assertEqual(self.diff(FRESH, less), said)
        more = FRESH + b"01020000050177\n"
        self.assertEqual(self.diff(FRESH, more), "node 5: line 5 is only in the second\n")

    def test_a_line_that_moved_and_changed(self):
        edited = b"0001020004026C6F\n"
        said = "node 2: line 0 is only in the first\nnode 4: line 1 -> 0: mark untouched -> deleted\n"
        self.assertEqual(self.diff(b"0001000002026869\n0001000004026C6F\n", edited), said)

    def test_depth_and_kind(self):
        self.assertEqual(self.diff(b"0001000002026869\n", b"0102000002026869\n"),
                         "node 2: line 0: depth 0 -> 1, kind text -> element\n")

    def test_silent_exactly_where_the_views_are_the_same(self):
        chance = random.Random(20_071)
        alike = 0
        for _ in range(3_000):
            first, second = ([Node(0, "text", chance.choice(tuple(MARKS.values())), chance.randrange(3), b"")
                              for _ in range(chance.randrange(4))] for _ in range(2))
            self.assertEqual(differences.differences(first, second) == [], first == second, (first, second))
            alike += first == second
        self.assertGreater(alike, 100)


if __name__ == "__main__":
    unittest.main()
