"""What a sweep says of each node of the old master: its new number, or that it is gone."""

from itertools import groupby

from .faults import Unreadable

GONE = 0xFFFF


def from_bytes(line):
    if len(line) != 2:
        raise Unreadable(f"a number line has 2 bytes, this one has {len(line)}")
    return int.from_bytes(line, "big")


def in_words(new_numbers):
    """A line for each run of old nodes that are gone, or moved by the same number of places."""
    moves = groupby(enumerate(new_numbers), key=lambda move: GONE if move[1] == GONE else move[0] - move[1])
    runs = [list(run) for _, run in moves]
    return [said(run[0], run[-1]) for run in runs]


def said(first, last):
    """Each is an old number and the new one."""
    (old, new), alone = first, first == last
    nodes = span(old, last[0])
    if new == GONE:
        return f"{nodes} {'is' if alone else 'are'} gone"
    if new == old:
        return f"{nodes} {'keeps its number' if alone else 'keep their numbers'}"
    return f"{nodes} {'is' if alone else 'are'} now {span(new, last[1])}"


def span(first, last):
    return f"node {first}" if first == last else f"nodes {first} to {last}"
