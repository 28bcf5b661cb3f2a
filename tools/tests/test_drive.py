"""The drive example, whose word orders are a kind of their own, with every expectation written by hand."""

import unittest

from .command import REPOSITORY, meadcinder

DRIVE = REPOSITORY / "examples" / "drive"

MASTER = b"""master
element 0 "drive"
  element 1 "speed"
    text 2 "40101"
    order 3 "hi-lo"
  element 4 "torque"
    text 5 "40103"
    order 6 "hi-lo"
"""

VIEW = b"""view
text 2 "40101"
order 3 "hi-lo"
text 5 "40103"
order 6 "lo-hi" changed
"""

VIEW_BESIDE_HEX = b"""view
text 2 "40101"           # line 0, depth 0: 0001000002053430313031
order 3 "hi-lo"          # line 1, depth 0: 00030000030568692D6C6F
text 5 "40103"           # line 2, depth 0: 0001000005053430313033
order 6 "lo-hi" changed  # line 3, depth 0: 0003010006056C6F2D6869
"""


class Drive(unittest.TestCase):
    def test_each_file_reads_as_written_here_and_goes_back(self):
        for title, readable in (("master", MASTER), ("view", VIEW)):
            with self.subTest(title):
                file = DRIVE / f"{title}.hex"
                self.assertEqual(meadcinder("print", title, file), (readable, "", 0))
                self.assertEqual(meadcinder("hex", "-", given=readable), (file.read_bytes(), "", 0))

    def test_the_hex_stands_beside(self):
        self.assertEqual(meadcinder("print", "--hex", "view", DRIVE / "view.hex"), (VIEW_BESIDE_HEX, "", 0))

    def test_the_program_is_that_of_the_bench(self):
        bench = REPOSITORY / "examples" / "bench"
        self.assertEqual((DRIVE / "program.hex").read_bytes(), (bench / "program.hex").read_bytes())

    def test_a_misspelt_order_is_turned_into_hex_and_back(self):
        """It is the engine's to judge."""
        for written, line in (
            (b'order 6 "hilo" changed', b"00030100060468696C6F"),
            (b'order 6 "HI-LO" changed', b"00030100060548492D4C4F"),
            (b'order 6 "hi-lo "', b"00030000060668692D6C6F20"),
            (b'order 6 "" deleted', b"000302000600"),
            (b'order program "hi-lo"', b"000300FFFF0568692D6C6F"),
        ):
            with self.subTest(written):
                view = b"view\n" + written + b"\n"
                self.assertEqual(meadcinder("hex", "-", given=view), (line + b"\n", "", 0))
                self.assertEqual(meadcinder("print", "view", "-", given=line + b"\n"), (view, "", 0))

    def test_its_refusal_is_explained(self):
        said = ("8 at 3: line 3 of your view has not the form of a node line (an order is exactly hi-lo or lo-hi), "
                "or is one line too many\n")
        self.assertEqual(meadcinder("answer", "master", "-", given=b"0800030000\n"), (b"", said, 1))


if __name__ == "__main__":
    unittest.main()
