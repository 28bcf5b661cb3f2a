"""The bench example, with every expectation written by hand."""

import unittest

from .command import REPOSITORY, meadcinder

BENCH = REPOSITORY / "examples" / "bench"

MASTER = b"""master
element 0 "d"
  element 1 "w"
    text 2 "hi"
  element 3 "w"
    text 4 "lo"
"""

VIEW = b"""view
text 2 "hi"
text 4 "hi" changed
"""

PROGRAM = b"""program
and-then
  contents
  each
    contents
"""

WITH_OPERANDS = b"""program
bind A3
  choose
    equals
      text "hi"
    tag "a"
    slot A3
"""

OPERANDS_BESIDE_HEX = b"""program
bind A3          # entry 0: 0CA3 bind the slot to the source, run the next on nothing
  choose         # entry 1: 0B   if the test says yes the first, else the second
    equals       # entry 2: 11   test: the source text equals the next run on nothing, end spaces aside
      text "hi"  # entry 3: 03026869 a text from the program
    tag "a"      # entry 4: 040161 an empty element from the program
    slot A3      # entry 5: 05A3 the value of the slot
"""

PROGRAM_BESIDE_HEX = b"""program
and-then      # entry 0: 08   the first, then the second on its result
  contents    # entry 1: 06   the contents of an element
  each        # entry 2: 0A   the next on each top node, joined
    contents  # entry 3: 06   the contents of an element
"""

VIEW_BESIDE_HEX = b"""view
text 2 "hi"          # line 0, depth 0: 0001000002026869
text 4 "hi" changed  # line 1, depth 0: 0001010004026869
"""


class Bench(unittest.TestCase):
    def test_each_file_reads_as_written_here_and_goes_back(self):
        for title, readable in (("master", MASTER), ("view", VIEW), ("program", PROGRAM)):
            with self.subTest(title):
                file = BENCH / f"{title}.hex"
                self.assertEqual(meadcinder("print", title, file), (readable, "", 0))
                self.assertEqual(meadcinder("hex", "-", given=readable), (file.read_bytes(), "", 0))

    def test_blank_lines_comments_and_line_ends_of_any_kind_change_nothing(self):
        spaced = b"# mine\n\n" + VIEW.replace(b"\n", b" # here\r\n\r\n")
        self.assertEqual(meadcinder("hex", "-", given=spaced), ((BENCH / "view.hex").read_bytes(), "", 0))

    def test_the_hex_stands_beside_and_is_ignored_when_read(self):
        for title, readable in (("view", VIEW_BESIDE_HEX), ("program", PROGRAM_BESIDE_HEX)):
            with self.subTest(title):
                file = BENCH / f"{title}.hex"
                self.assertEqual(meadcinder("print", "--hex", title, file), (readable, "", 0))
                self.assertEqual(meadcinder("hex", "-", given=readable), (file.read_bytes(), "", 0))

    def test_a_program_with_operands(self):
        lines = b"0CA3\n0B\n11\n03026869\n040161\n05A3\n"
        self.assertEqual(meadcinder("hex", "-", given=WITH_OPERANDS), (lines, "", 0))
        self.assertEqual(meadcinder("print", "program", "-", given=lines), (WITH_OPERANDS, "", 0))
        self.assertEqual(meadcinder("print", "--hex", "program", "-", given=lines), (OPERANDS_BESIDE_HEX, "", 0))

    def test_what_is_left_over_behind_the_tree_stands_at_the_margin(self):
        lines = b"0A\n01\n13\n120177\n"
        readable = b'program\neach\n  source\nis-element\ntagged "w"\n'
        self.assertEqual(meadcinder("print", "program", "-", given=lines), (readable, "", 0))

    def test_an_answer_is_explained_and_read(self):
        shown = b"0000000022\n0001000002026869\n0001000004026C6F\n"
        view = b'view\ntext 2 "hi"\ntext 4 "lo"\n'
        self.assertEqual(meadcinder("answer", "view", "-", given=shown), (view, "0 at 0: done, 34 bytes\n", 0))

    def test_a_refusal_is_explained(self):
        said = "11 at 4: the edits of node 4 contradict each other, or its text was compared while the view was made\n"
        self.assertEqual(meadcinder("answer", "master", "-", given=b"0B00040000\n"), (b"", said, 1))


if __name__ == "__main__":
    unittest.main()
