"""One line of the readable form: words, a quoted text, and a comment behind them."""

import re

from .faults import Unreadable

WORD = re.compile(r"[^\s\"#]+")
COMMENT = "#"
ESCAPES = {'"': b'"', "\\": b"\\"}
DIGITS = re.compile(r"[0-9]+")
HEX_PAIR = re.compile(r"[0-9A-Fa-f]{2}")


def quote(text):
    """Printable characters as they are (others are read as UTF-8), every other byte as \\xHH."""
    return '"' + "".join(map(quote_character, text.decode("utf-8", "surrogateescape"))) + '"'


def quote_character(character):
    if character in ESCAPES:
        return "\\" + character
    if character.isprintable():
        return character
    return "".join(f"\\x{byte:02X}" for byte in character.encode("utf-8", "surrogateescape"))


class Cursor:
    """Takes a line apart from the left."""

    def __init__(self, line):
        self.line = line
        self.place = 0

    def skip_spaces(self):
        while self.line[self.place : self.place + 1].isspace():
            self.place += 1

    def at_end(self):
        self.skip_spaces()
        return self.place == len(self.line) or self.line[self.place] == COMMENT

    def word(self, wanted):
        """The next word; `wanted` says what it should be, for the complaint."""
        self.skip_spaces()
        found = WORD.match(self.line, self.place)
        if not found:
            raise Unreadable(f"{wanted} is missing")
        self.place = found.end()
        return found.group()

    def quoted(self):
        self.skip_spaces()
        if self.line[self.place : self.place + 1] != '"':
            raise Unreadable('a text in quotes is missing, as "hi"')
        self.place += 1
        pieces = []
        while self.line[self.place : self.place + 1] != '"':
            pieces.append(self.character())
        self.place += 1
        return b"".join(pieces)

    def character(self):
        if self.place == len(self.line):
            raise Unreadable("the text has no closing quote")
        character = self.line[self.place]
        self.place += 1
        return self.escaped() if character == "\\" else character.encode("utf-8")

    def escaped(self):
        letter = self.line[self.place : self.place + 1]
        self.place += 1
        if letter in ESCAPES:
            return ESCAPES[letter]
        pair = HEX_PAIR.match(self.line, self.place)
        if letter != "x" or not pair:
            raise Unreadable(r'a backslash stands only in \\, \" and \xHH, HH being two hexadecimal digits')
        self.place = pair.end()
        return bytes.fromhex(pair.group())

    def finish(self):
        if not self.at_end():
            raise Unreadable(f"nothing is expected from {self.line[self.place:]!r} on")


def in_one_byte(what, number):
    if number > 0xFF:
        raise Unreadable(f"{what} {number} does not fit one byte")
    return number


def in_two_bytes(what, word):
    """The whole number that `word` writes in decimal digits."""
    if not DIGITS.fullmatch(word):
        raise Unreadable(f"{what} {word!r} is no whole number")
    if len(word) > 5 or int(word) > 0xFFFF:
        raise Unreadable(f"{what} {word} does not fit two bytes")
    return int(word)
