"""Whole files, in hex lines or in the readable form, whose first line is a title."""

from . import entries, hex_lines, nodes
from .faults import BadInput, Unreadable, at_line
from .words import COMMENT

FORMS = {"master": nodes, "view": nodes, "program": entries}


def from_hex(title, file_name, content, lines_before=0):
    return hex_lines.read_file(file_name, content, FORMS[title].from_bytes, lines_before)


def to_hex(title, records):
    return hex_lines.write_file(map(FORMS[title].to_bytes, records))


def to_readable(title, records, with_remarks=False):
    form = FORMS[title]
    lines = form.to_readable(records)
    if with_remarks:
        width = max(map(len, lines), default=0)
        remarks = (form.remark(place, record) for place, record in enumerate(records))
        lines = [f"{line:<{width}}  {COMMENT} {remark}" for line, remark in zip(lines, remarks)]
    return "".join(line + "\n" for line in [title, *lines])


def from_readable(file_name, content):
    """The title and the records."""
    lines = said_lines(file_name, content)
    place, title = next(lines, (0, ""))
    title = title.split(COMMENT)[0].strip()
    if title not in FORMS:
        raise at_line(file_name, place, f"the first line is the title, one of {', '.join(FORMS)}")
    records = []
    for place, line in lines:
        try:
            records.append(FORMS[title].from_readable(line))
        except Unreadable as reason:
            raise at_line(file_name, place, reason) from None
    return title, records


def said_lines(file_name, content):
    """Each line that is neither blank nor a comment, with its place in the file."""
    for place, line in enumerate(content.split(b"\n")):
        try:
            text = line.decode("utf-8")
        except UnicodeDecodeError:
            raise at_line(file_name, place, r"the line is not UTF-8; write such bytes as \xHH") from None
        if text.strip() and not text.lstrip().startswith(COMMENT):
            yield place, text


def nodes_of(file_name, content):
    """The nodes of a master or view in either form; hex lines never begin with a small letter."""
    if not is_readable(content):
        return from_hex("view", file_name, content)
    title, records = from_readable(file_name, content)
    if FORMS[title] is not nodes:
        raise BadInput(f"{file_name}:1: a master or a view is wanted, and this is a {title}")
    return records


def is_readable(content):
    return content.lstrip()[:1] in (b"m", b"v", b"p", COMMENT.encode())
