"""Files as lines of upper-case hexadecimal pairs, each ended by byte 0A."""

import re

from .faults import Unreadable, at_line

PAIRS = re.compile(rb"(?:[0-9A-F]{2})+")


def decode(line):
    if not line:
        raise Unreadable("the line is empty")
    if len(line) % 2:
        raise Unreadable("the line has an odd number of characters, so it is not made of pairs")
    if not PAIRS.fullmatch(line):
        raise Unreadable("the line is not made of upper-case hexadecimal pairs")
    return bytes.fromhex(line.decode("ascii"))


def read_file(file_name, content, read_line, lines_before=0):
    """What `read_line` makes of the bytes of each line; in the file there are `lines_before` in front of them."""
    *lines, behind_the_last = content.split(b"\n")
    if behind_the_last:
        raise at_line(file_name, lines_before + len(lines), "the last line lacks its end, byte 0A")
    records = []
    for place, line in enumerate(lines, lines_before):
        try:
            records.append(read_line(decode(line)))
        except Unreadable as reason:
            raise at_line(file_name, place, reason) from None
    return records


def write_file(byte_lines):
    return b"".join(line.hex().upper().encode("ascii") + b"\n" for line in byte_lines)
