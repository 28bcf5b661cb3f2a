"""Input that cannot be read gets one line with file and line number, and exit status 1."""

import os
import tempfile
import unittest

from .command import meadcinder

HEX = (
    ("view", b"0001000002026869\n00010000020\n", 2, "odd number of characters"),
    ("view", b"0001000002026869\n\n", 2, "the line is empty"),
    ("view", b"000100000202686a\n", 1, "upper-case hexadecimal pairs"),
    ("view", b"0001000002026869\r\n", 1, "odd number of characters"),
    ("view", b"0001000002026869", 1, "lacks its end"),
    ("view", b"0001000002026869\n0001000002", 2, "lacks its end"),
    ("master", b"0001000002\n", 1, "at least 6 bytes, this one has 5"),
    ("master", b"0000000002026869\n", 1, "kind 00 is none of 01 (text), 02 (element), 03 (order)"),
    ("master", b"0004000002026869\n", 1, "kind 04 is none of 01 (text), 02 (element), 03 (order)"),
    ("master", b"0001030002026869\n", 1, "mark 03 is none of 00 (untouched), 01 (changed), 02 (deleted)"),
    ("master", b"0001000002036869\n", 1, "the length says 3 bytes, and 2 follow"),
    ("program", b"08\n06\n0D\n", 3, "0D is no operation"),
    ("program", b"0100\n", 1, "01 takes nothing behind it, and has 1 bytes there"),
    ("program", b"05\n", 1, "05 takes a slot behind it, and has 0 bytes there"),
    ("program", b"03036869\n", 1, "the length behind 03"),
    ("program", b"12\n", 1, "the length behind 12"),
)

READABLE = (
    (b"", 1, "the first line is the title"),
    (b"viev\n", 1, "the first line is the title"),
    (b"# a comment\n\nviev\n", 3, "the first line is the title"),
    (b'view\n text 2 "hi"\n', 2, "indented by 1"),
    (b'view\n\ttext 2 "hi"\n', 2, "something else than spaces"),
    (b'view\ntext 2 "hi"\ntxt 2 "hi"\n', 3, "'txt' is none of text, element, order"),
    (b'view\n"hi"\n', 2, "the kind (text, element, order) is missing"),
    (b'view\ntext two "hi"\n', 2, "'two' is no whole number"),
    (b'view\ntext 65536 "hi"\n', 2, "does not fit two bytes"),
    (b'view\ntext ' + b"9" * 5000 + b' "hi"\n', 2, "does not fit two bytes"),
    (b"view\ntext 2 hi\n", 2, "a text in quotes is missing"),
    (b'view\ntext 2 "hi\n', 2, "no closing quote"),
    (b'view\ntext 2 "hi\\"\n', 2, "no closing quote"),
    (b'view\ntext 2 "h\\i"\n', 2, "a backslash stands only in"),
    (b'view\ntext 2 "h\\x6"\n', 2, "a backslash stands only in"),
    (b'view\ntext 2 "h\xe4"\n', 2, "not UTF-8"),
    (b'view\ntext 2 "' + b"x" * 256 + b'"\n', 2, "does not fit one byte"),
    (b"view\n" + b" " * 512 + b'text 2 "hi"\n', 2, "depth 256 does not fit one byte"),
    (b'view\ntext 2 "hi" chnged\n', 2, "'chnged' is none of untouched, changed, deleted"),
    (b'view\ntext 2 "hi" changed changed\n', 2, "nothing is expected from 'changed' on"),
    (b"view\ntext\n", 2, "the node's number is missing"),
    (b"program\neach\n  contnts\n", 3, "'contnts' is no operation"),
    (b"program\nslot 7\n", 2, "'7' is no slot"),
    (b"program\nslot\n", 2, "the slot is missing"),
    (b"program\nsource 01\n", 2, "nothing is expected from '01' on"),
    (b"program\ntext hi\n", 2, "a text in quotes is missing"),
)


class BadInput(unittest.TestCase):
    def setUp(self):
        folder = tempfile.TemporaryDirectory()
        self.addCleanup(folder.cleanup)
        self.file = os.path.join(folder.name, "given")

    def assert_refused(self, words, content, line, reason):
        with open(self.file, "wb") as file:
            file.write(content)
        out, said, status = meadcinder(*words, self.file)
        self.assertEqual((out, status), (b"", 1))
        self.assertTrue(said.startswith(f"{self.file}:{line}: "), said)
        self.assertIn(reason, said)
        self.assertEqual(said.count("\n"), 1, said)

    def test_hex_lines(self):
        for title, content, line, reason in HEX:
            with self.subTest(content=content):
                self.assert_refused(["print", title], content, line, reason)

    def test_the_readable_form(self):
        for content, line, reason in READABLE:
            with self.subTest(content=content[:60]):
                self.assert_refused(["hex"], content, line, reason)

    def test_answers(self):
        for content, line, reason in (
            (b"", 1, "the line is empty"),
            (b"00000022\n", 1, "a reply line has 5 bytes, this one has 4"),
            (b"0C00000000\n", 1, "12 is none of the replies"),
            (b"0000000022\n0001000002026869\n", 1, "34 bytes follow, and 17 do"),
            (b"0000000011\n0009000002026869\n", 2, "kind 09"),
        ):
            with self.subTest(content=content):
                self.assert_refused(["answer", "view"], content, line, reason)

    def test_answers_to_a_sweep(self):
        for content, line, reason in (
            (b"0000000011\n0001000000026869", 1, "17 bytes follow, and 16 do"),
            (b"0000000000\n0000\nFFF\n", 3, "odd number of characters"),
            (b"0000000011\n0001000000026869\n0000\n00\n", 4, "a number line has 2 bytes, this one has 1"),
            (b"0000000011\n0001000000026869\n0000", 3, "lacks its end"),
        ):
            with self.subTest(content=content):
                self.assert_refused(["answer", "swept"], content, line, reason)

    def test_only_a_sweep_has_number_lines(self):
        self.assert_refused(["answer", "master"], b"0000000000\n0000\n", 1, "0 bytes follow, and 5 do")

    def test_a_program_has_no_nodes_to_compare(self):
        self.assert_refused(["diff", self.file], b"program\nsource\n", 1, "a master or a view is wanted")

    def test_a_missing_file(self):
        out, said, status = meadcinder("print", "view", self.file)
        self.assertEqual((out, said, status), (b"", f"{self.file}: No such file or directory\n", 1))

    def test_other_words_get_the_usage(self):
        for words in ("", "print --hex", "print views -", "answer program -", "diff -", "hex --hex -", "explain"):
            with self.subTest(words=words):
                out, said, status = meadcinder(*words.split())
                self.assertEqual((out, status), (b"", 2))
                self.assertIn("meadcinder explain REPLY", said)


if __name__ == "__main__":
    unittest.main()
