"""Hex lines to the readable form and back: the same bytes, whatever they are."""

import random
import subprocess
import unittest

from readable import files, hex_lines
from readable.faults import BadInput

from .command import REPOSITORY

SEED, CASES = 20_071, 600


def node_line(depth=0, kind=1, mark=0, number=0, text=b""):
    return bytes([depth, kind, mark, number >> 8, number & 0xFF, len(text)]) + text


class RoundTrips(unittest.TestCase):
    def assert_same(self, title, content):
        for with_remarks in (False, True):
            readable = files.to_readable(title, files.from_hex(title, "hex", content), with_remarks)
            back = files.from_readable("readable", readable.encode("utf-8"))
            self.assertEqual((title, content), (back[0], files.to_hex(*back)))

    def test_every_byte_alone_and_beside_those_that_quoting_turns_on(self):
        pairs = [(byte, special) for byte in range(256) for special in b'"\\x#\n \x80\xc3\xe2']
        texts = [b""] + [bytes([byte]) for byte in range(256)]
        texts += [bytes(text) for pair in pairs for text in (pair, reversed(pair))]
        self.assert_same("view", hex_lines.write_file(node_line(text=text) for text in texts))
        self.assert_same("program", hex_lines.write_file(bytes([3, len(text)]) + text for text in texts))

    def test_every_depth_kind_mark_and_number(self):
        lines = [node_line(depth=depth, text=b"x") for depth in range(256)]
        lines += [node_line(number=number) for number in (*range(300), *range(0xFE00, 0x10000))]
        kinds_and_texts = [(kind, b"x") for kind in (1, 2, 3)] + [(3, b"hi-lo"), (3, b"lo-hi")]
        lines += [node_line(kind=kind, mark=mark, text=text) for kind, text in kinds_and_texts for mark in (0, 1, 2)]
        self.assert_same("master", hex_lines.write_file(lines))

    def test_every_slot_and_operation_in_any_order(self):
        chance = random.Random(SEED)
        plain = [bytes([operation]) for operation in (0x01, 0x02, 0x06, 0x07, 0x08, 0x09, 0x0A, 0x0B, 0x11, 0x13)]
        slots = [bytes([operation, slot]) for operation in (0x05, 0x0C) for slot in range(256)]
        lines = plain * 20 + slots + [b"\x03\x00", b"\x04\x01w", b"\x12\x01w"]
        chance.shuffle(lines)
        self.assert_same("program", hex_lines.write_file(lines))

    def test_random_texts(self):
        chance = random.Random(SEED)
        lines = [random_line(chance) for _ in range(2_000)]
        self.assert_same("view", hex_lines.write_file(lines))

    def test_empty_files(self):
        for title in files.FORMS:
            self.assert_same(title, b"")

    def test_the_files_of_the_second_programs_cases(self):
        """What the second program accepts can be read here, and goes back byte for byte."""
        stream = second("cases", str(SEED), str(CASES))
        replies = reply_numbers(second("replay", given=stream))
        accepted = refused = 0
        for number, named_files in zip(replies, cases_of(stream)):
            for title, content in named_files:
                try:
                    self.assert_same(title, content)
                except BadInput:
                    self.assertNotEqual(number, 0, (title, content))
                    refused += 1
            accepted += number == 0
        self.assertEqual(len(replies), CASES)
        self.assertGreater(accepted, 200)
        self.assertGreater(refused, 20)


def random_line(chance):
    kind, mark, number = chance.randint(1, 3), chance.randrange(3), chance.randrange(0x10000)
    return node_line(chance.randrange(10), kind, mark, number, random_text(chance))


def random_text(chance):
    alphabets = (bytes(range(256)), '"\\# x\t\r\n'.encode(), "aä€\U0001F527\u202e\u2028\u0085".encode())
    return bytes(chance.choice(chance.choice(alphabets)) for _ in range(chance.randrange(33)))


def second(*words, given=b""):
    manifest = REPOSITORY / "second" / "Cargo.toml"
    command = ["cargo", "run", "--quiet", "--locked", "--manifest-path", manifest, "--", *words]
    return subprocess.run(command, input=given, stdout=subprocess.PIPE, check=True).stdout


def cases_of(stream):
    """The files of each case, with their titles; the layout is that of second/src/stream.rs."""
    place = 0
    while place < len(stream):
        lengths = [int.from_bytes(stream[place + at : place + at + 2], "big") for at in (9, 11, 13)]
        place += 15
        named_files = []
        for title, length in zip(("master", "program", "view"), lengths):
            named_files.append((title, stream[place : place + length]))
            place += length
        yield named_files


def reply_numbers(printed):
    """Each case prints its reply line, its output lines, and a line for the buffers."""
    numbers, place = [], 0
    while place < len(printed):
        numbers.append(int(printed[place : place + 2], 16))
        place += 11 + int(printed[place + 6 : place + 10], 16) + 3
    return numbers


if __name__ == "__main__":
    unittest.main()
