"""Node lines, as masters and views have them."""

from collections import namedtuple

from .faults import Unreadable
from .words import Cursor, in_one_byte, in_two_bytes, quote

KINDS = {1: "text", 2: "element", 3: "order"}
MARKS = {0: "untouched", 1: "changed", 2: "deleted"}
FROM_PROGRAM = 0xFFFF
FROM_PROGRAM_WORD = "program"
INDENT = "  "

Node = namedtuple("Node", "depth kind mark number text")


def from_bytes(line):
    if len(line) < 6:
        raise Unreadable(f"a node line has at least 6 bytes, this one has {len(line)}")
    depth, kind, mark, number_high, number_low, length = line[:6]
    kind, mark = name_of(KINDS, "kind", kind), name_of(MARKS, "mark", mark)
    if length != len(line) - 6:
        raise Unreadable(f"the length says {length} bytes, and {len(line) - 6} follow")
    return Node(depth, kind, mark, number_high * 256 + number_low, line[6:])


def name_of(names, what, byte):
    """The name of a byte; `what` says what it should be, for the complaint."""
    if byte not in names:
        all_names = ", ".join(f"{known:02X} ({name})" for known, name in names.items())
        raise Unreadable(f"{what} {byte:02X} is none of {all_names}")
    return names[byte]


def to_bytes(node):
    head = [node.depth, byte_of(KINDS, node.kind), byte_of(MARKS, node.mark)]
    return bytes([*head, node.number >> 8, node.number & 0xFF, len(node.text)]) + node.text


def byte_of(names, name):
    return next(byte for byte, known in names.items() if known == name)


def to_readable(nodes):
    return [INDENT * node.depth + readable(node) for node in nodes]


def readable(node):
    mark = "" if node.mark == MARKS[0] else " " + node.mark
    return f"{node.kind} {number_word(node.number)} {quote(node.text)}{mark}"


def number_word(number):
    return FROM_PROGRAM_WORD if number == FROM_PROGRAM else str(number)


def from_readable(line):
    depth = depth_of(line)
    cursor = Cursor(line)
    kind = one_of(KINDS, cursor.word(f"the kind ({listed(KINDS)})"))
    number = number_of(cursor.word("the node's number"))
    text = cursor.quoted()
    in_one_byte("a text's length", len(text))
    mark = MARKS[0] if cursor.at_end() else one_of(MARKS, cursor.word("the mark"))
    cursor.finish()
    return Node(depth, kind, mark, number, text)


def depth_of(line):
    indentation = line[: len(line) - len(line.lstrip())]
    if indentation.strip(" "):
        raise Unreadable("the line is indented by something else than spaces")
    if len(indentation) % len(INDENT):
        raise Unreadable(f"each depth is two spaces, and the line is indented by {len(indentation)}")
    return in_one_byte("depth", len(indentation) // len(INDENT))


def one_of(names, word):
    if word not in names.values():
        raise Unreadable(f"{word!r} is none of {listed(names)}")
    return word


def listed(names):
    return ", ".join(names.values())


def number_of(word):
    return FROM_PROGRAM if word == FROM_PROGRAM_WORD else in_two_bytes("a node's number", word)


def remark(place, node):
    """What stands beside a line for the eye."""
    return f"line {place}, depth {node.depth}: {to_bytes(node).hex().upper()}"
