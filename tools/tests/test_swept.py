"""What a sweep printed, with every expectation written by hand."""

import unittest

from .command import REPOSITORY, meadcinder

SWEPT = b"00020000000164\n01020000010177\n0201000002026869\n"
PRINTED = b"000000002F\n" + SWEPT + b"0000\nFFFF\nFFFF\n0001\n0002\n"

READABLE = b"""master
element 0 "d"
  element 1 "w"
    text 2 "hi"
# node 0 keeps its number
# nodes 1 to 2 are gone
# nodes 3 to 4 are now nodes 1 to 2
"""

BESIDE_HEX = b"""master
element 0 "d"    # line 0, depth 0: 00020000000164
  element 1 "w"  # line 1, depth 1: 01020000010177
    text 2 "hi"  # line 2, depth 2: 0201000002026869
# node 0 keeps its number
# nodes 1 to 2 are gone
# nodes 3 to 4 are now nodes 1 to 2
"""


class Swept(unittest.TestCase):
    def test_the_master_and_where_its_nodes_went(self):
        said = "0 at 0: done, 47 bytes\n"
        self.assertEqual(meadcinder("answer", "swept", "-", given=PRINTED), (READABLE, said, 0))
        self.assertEqual(meadcinder("answer", "--hex", "swept", "-", given=PRINTED), (BESIDE_HEX, said, 0))

    def test_it_goes_back_to_the_swept_lines(self):
        for readable in (READABLE, BESIDE_HEX):
            self.assertEqual(meadcinder("hex", "-", given=readable), (SWEPT, "", 0))

    def assert_moves(self, new_numbers, *said):
        printed = b"0000000000\n" + b"".join(b"%04X\n" % number for number in new_numbers)
        out, _, status = meadcinder("answer", "swept", "-", given=printed)
        self.assertEqual((out.decode().splitlines(), status), (["master", *said], 0))

    def test_runs_of_one_and_of_several(self):
        gone = 0xFFFF
        self.assert_moves([])
        self.assert_moves([gone], "# node 0 is gone")
        self.assert_moves([gone] * 3, "# nodes 0 to 2 are gone")
        self.assert_moves([0, 1, 2], "# nodes 0 to 2 keep their numbers")
        self.assert_moves([gone, 0], "# node 0 is gone", "# node 1 is now node 0")
        self.assert_moves([0, gone, 1, gone, 2], "# node 0 keeps its number", "# node 1 is gone",
                          "# node 2 is now node 1", "# node 3 is gone", "# node 4 is now node 2")
        self.assert_moves([gone, *range(127)], "# node 0 is gone", "# nodes 1 to 127 are now nodes 0 to 126")

    def test_the_high_byte_comes_first(self):
        self.assert_moves([0x0102], "# node 0 is now node 258")

    def test_refusals(self):
        for line, words in (
            (b"0100000000", ("1 at 0: ", "640 bytes")),
            (b"0400070000", ("4 at 7: ", "line 7 of the master", "form")),
            (b"0500070000", ("5 at 7: ", "line 7 of the master", "bound")),
            (b"FF00000000", ("FF: ", "cannot be opened or read")),
        ):
            with self.subTest(line):
                out, said, status = meadcinder("answer", "swept", "-", given=line + b"\n")
                self.assertEqual((out, status, said.count("\n")), (b"", 1, 1))
                for word in words:
                    self.assertIn(word, said)

    def test_the_program_prints_what_is_read_here(self):
        self.assertEqual((REPOSITORY / "crates" / "sweep" / "stdout").read_bytes(), PRINTED)


if __name__ == "__main__":
    unittest.main()
