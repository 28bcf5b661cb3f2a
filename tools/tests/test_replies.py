"""Each reply in plain words; what must be named is written here by hand."""

import unittest

from .command import meadcinder

NAMED = {
    0: ("done",),
    1: ("output buffer", "9,856", "work slice", "16,384", "second output", "640"),
    2: ("line 7 of the program", "form"),
    3: ("entry 7 of the program", "tree", "bound", "missing", "left over"),
    4: ("line 7 of the master", "form", "an order is exactly hi-lo or lo-hi", "too many"),
    5: ("line 7 of the master", "bound", "number", "mark"),
    6: ("entry 7 of the program", "stopped", "given"),
    7: ("entry 7 of the program", "stopped", "too large", "too deep"),
    8: ("line 7 of your view", "form", "an order is exactly hi-lo or lo-hi", "too many"),
    9: ("line 7 of your view is not the line that was shown",),
    10: ("line 7 of your view", "came from the program", "marked as changed or deleted"),
    11: ("node 7", "contradict", "compared"),
}


class Replies(unittest.TestCase):
    def test_each_of_the_twelve_in_both_spellings(self):
        for number, named in NAMED.items():
            with self.subTest(number):
                out, said, status = meadcinder("explain", str(number), "7")
                self.assertEqual((said, status), ("", 0))
                self.assertEqual(out.count(b"\n"), 1)
                self.assertTrue(out.startswith(b"%d at 7: " % number), out)
                for words in named:
                    self.assertIn(words, out.decode())
                self.assertEqual(meadcinder("explain", f"{number:02X}00070000"), (out, "", 0))

    def test_no_two_read_alike(self):
        said = {meadcinder("explain", str(number), "0")[0].split(b": ", 1)[1] for number in NAMED}
        self.assertEqual(len(said), 12)

    def test_the_place_is_read_high_byte_first(self):
        self.assertTrue(meadcinder("explain", "0901020000")[0].startswith(b"9 at 258: line 258 "))

    def test_a_file_that_cannot_be_read(self):
        self.assertEqual(meadcinder("explain", "FF00000000"), (b"FF: a file cannot be opened or read\n", "", 0))

    def test_what_is_no_reply(self):
        for words in (["12", "0"], ["0C00000000"], ["nine", "3"], ["9", "-3"], ["090003"], ["0g00030000"], ["ä"]):
            with self.subTest(words=words):
                out, said, status = meadcinder("explain", *words)
                self.assertEqual((out, status, said.count("\n")), (b"", 1, 1))


if __name__ == "__main__":
    unittest.main()
