"""What is said of input that cannot be read."""


class Unreadable(Exception):
    """Why one line cannot be read; the reader of the file adds where it stands."""


class BadInput(Exception):
    """A whole complaint, ready to be printed."""


def at_line(file_name, line_from_0, reason):
    """Editors count lines from 1."""
    return BadInput(f"{file_name}:{line_from_0 + 1}: {reason}")
