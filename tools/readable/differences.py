"""What tells two views apart, node by node."""

from collections import defaultdict

from .nodes import FROM_PROGRAM, KINDS, MARKS
from .words import quote


def differences(first, second):
    """One line for each line of a node that the two views do not have alike."""
    said = []
    first_copies, second_copies = copies_of(first), copies_of(second)
    for copy in sorted({*first_copies, *second_copies}):
        said += compare(copy, first_copies.get(copy), second_copies.get(copy))
    return said + line_order(first_copies, second_copies)


def copies_of(view):
    """Each line with its place, by its node's number and how many lines of that node stand before it."""
    seen = defaultdict(int)
    copies = {}
    for place, node in enumerate(view):
        copies[node.number, seen[node.number]] = (place, node)
        seen[node.number] += 1
    return copies


def compare(copy, before, after):
    name = "from the program" if copy[0] == FROM_PROGRAM else f"node {copy[0]}"
    if before is None:
        return [f"{name}: line {after[0]} is only in the second"]
    if after is None:
        return [f"{name}: line {before[0]} is only in the first"]
    if is_saved(before, after):
        return [f"{name}: line {before[0]}: saved, its text is the same"]
    changes = [
        f"{field} {written(old)} -> {written(new)}"
        for field, old, new in zip(before[1]._fields, before[1], after[1])
        if old != new
    ]
    where = f"line {before[0]}" if before[0] == after[0] else f"line {before[0]} -> {after[0]}"
    return [f"{name}: {where}: {', '.join(changes)}"] if changes else []


def is_saved(before, after):
    """Whether all that happened to a text or an order of the master is the mark, so that it still counts as untouched.
    With that mark an element or a line from the program is refused, as is every line in another place."""
    place, node = before
    marked = node._replace(mark=MARKS[1])
    return node.kind != KINDS[2] and node.number != FROM_PROGRAM and node.mark == MARKS[0] and after == (place, marked)


def written(value):
    return quote(value) if isinstance(value, bytes) else str(value)


def line_order(first_copies, second_copies):
    """Whether the lines that both have stand in the same order."""
    first = [copy for copy in first_copies if copy in second_copies]
    second = [copy for copy in second_copies if copy in first_copies]
    for old, new in zip(first, second):
        if old != new:
            return [f"the lines stand in another order from line {first_copies[old][0]} of the first on"]
    return []
