"""Program lines: an operation and its operand."""

from collections import namedtuple

from .faults import Unreadable
from .words import Cursor, HEX_PAIR, in_one_byte, quote

Operation = namedtuple("Operation", "word operand sub_entries meaning")

NO_OPERAND, TEXT, SLOT = "nothing", "a text", "a slot"

OPERATIONS = {
    0x01: Operation("source", NO_OPERAND, 0, "the source itself"),
    0x02: Operation("nothing", NO_OPERAND, 0, "the empty sequence"),
    0x03: Operation("text", TEXT, 0, "a text from the program"),
    0x04: Operation("tag", TEXT, 0, "an empty element from the program"),
    0x05: Operation("slot", SLOT, 0, "the value of the slot"),
    0x06: Operation("contents", NO_OPERAND, 0, "the contents of an element"),
    0x07: Operation("within", NO_OPERAND, 1, "an element with contents run through the next"),
    0x08: Operation("and-then", NO_OPERAND, 2, "the first, then the second on its result"),
    0x09: Operation("beside", NO_OPERAND, 2, "both on the same source, joined"),
    0x0A: Operation("each", NO_OPERAND, 1, "the next on each top node, joined"),
    0x0B: Operation("choose", NO_OPERAND, 3, "if the test says yes the first, else the second"),
    0x0C: Operation("bind", SLOT, 1, "bind the slot to the source, run the next on nothing"),
    0x11: Operation("equals", NO_OPERAND, 1, "test: the source text equals the next run on nothing, end spaces aside"),
    0x12: Operation("tagged", TEXT, 0, "test: an element with this tag"),
    0x13: Operation("is-element", NO_OPERAND, 0, "test: is an element"),
}
BYTES = {operation.word: byte for byte, operation in OPERATIONS.items()}
INDENT = "  "

Entry = namedtuple("Entry", "operation operand")


def from_bytes(line):
    """The operand of an entry is its text, or its slot byte, or empty."""
    if line[0] not in OPERATIONS:
        raise Unreadable(f"{line[0]:02X} is no operation")
    operation, operand = OPERATIONS[line[0]], line[1:]
    if operation.operand == TEXT:
        if not operand or operand[0] != len(operand) - 1:
            raise Unreadable(f"the length behind {line[0]:02X} is missing or not that of the text behind it")
        return Entry(line[0], operand[1:])
    wanted = 1 if operation.operand == SLOT else 0
    if len(operand) != wanted:
        raise Unreadable(f"{line[0]:02X} takes {operation.operand} behind it, and has {len(operand)} bytes there")
    return Entry(line[0], operand)


def to_bytes(entry):
    has_text = OPERATIONS[entry.operation].operand == TEXT
    length = bytes([len(entry.operand)]) if has_text else b""
    return bytes([entry.operation]) + length + entry.operand


def to_readable(entries):
    """Indented as a tree for the eye; what is left over behind the tree stands at its margin."""
    lines, owed = [], []
    for entry in entries:
        while owed and owed[-1] == 0:
            owed.pop()
        lines.append(INDENT * len(owed) + readable(entry))
        if owed:
            owed[-1] -= 1
        owed.append(OPERATIONS[entry.operation].sub_entries)
    return lines


def readable(entry):
    operation = OPERATIONS[entry.operation]
    if operation.operand == TEXT:
        return f"{operation.word} {quote(entry.operand)}"
    return " ".join([operation.word, *(f"{byte:02X}" for byte in entry.operand)])


def from_readable(line):
    cursor = Cursor(line)
    word = cursor.word("an operation")
    if word not in BYTES:
        raise Unreadable(f"{word!r} is no operation; there are {', '.join(BYTES)}")
    operation = OPERATIONS[BYTES[word]]
    operand = b""
    if operation.operand == TEXT:
        operand = cursor.quoted()
        in_one_byte("a text's length", len(operand))
    elif operation.operand == SLOT:
        operand = slot_of(cursor.word("the slot"))
    cursor.finish()
    return Entry(BYTES[word], operand)


def slot_of(word):
    if not HEX_PAIR.fullmatch(word):
        raise Unreadable(f"{word!r} is no slot: a slot is two hexadecimal digits")
    return bytes.fromhex(word)


def remark(place, entry):
    """What stands beside an entry for the eye."""
    return f"entry {place}: {to_bytes(entry).hex().upper():<4} {OPERATIONS[entry.operation].meaning}"
