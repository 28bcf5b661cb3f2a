"""Replies in plain words."""

from .faults import Unreadable

UNREADABLE_FILE = 0xFF

NO_NODE_LINE = "has not the form of a node line (an order is exactly hi-lo or lo-hi), or is one line too many"

MEANINGS = {
    0: "done",
    1: "the output buffer has less than 9,856 bytes, the work slice less than 16,384 numbers, "
    "or a sweep's second output less than 640 bytes",
    2: "line {place} of the program has not the form of a program line, or is one line too many",
    3: "entry {place} of the program breaks its tree or a bound, is missing, or is left over",
    4: "line {place} of the master " + NO_NODE_LINE,
    5: "line {place} of the master breaks a bound or has another number than its place, or carries a mark, "
    "which it must not when a view is put back",
    6: "the run stopped at entry {place} of the program: it cannot work on what it was given",
    7: "the run stopped at entry {place} of the program: its value is too large or too deep",
    8: "line {place} of your view " + NO_NODE_LINE,
    9: "line {place} of your view is not the line that was shown, or only one of the two has such a line",
    10: "line {place} of your view came from the program, so it must not be marked as changed or deleted",
    11: "the edits of node {place} contradict each other, or its text was compared while the view was made",
}


def explain(number, place):
    if number == UNREADABLE_FILE:
        return "FF: a file cannot be opened or read"
    if number not in MEANINGS:
        raise Unreadable(f"{number} is none of the replies 0 to 11 and FF")
    return f"{number} at {place}: {MEANINGS[number].format(place=place)}"


def split_reply(line):
    """Number, place and length of the first line that the programs print."""
    if len(line) != 5:
        raise Unreadable(f"a reply line has 5 bytes, this one has {len(line)}")
    return line[0], int.from_bytes(line[1:3], "big"), int.from_bytes(line[3:5], "big")
