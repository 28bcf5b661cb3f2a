#!/usr/bin/env python3
"""Respells the definitions and lemmas of crates/ after port.py: words in snake case, joined by _; types and modules keep their names.

usage: python3 tools/respell.py        once, at the top of a checkout on which port.py has run
       python3 tools/respell.py --table    prints each old name and its new one

A name is turned where it is a whole word of a file of specs/ or proofs/, of a clause or a `ghost use` of src/, or of the text of an edit.
Names that other libraries have, and that a file imports from them, stay there. Functions of src/ keep their names.
"""
import collections
import os
import re
import sys

WORD = re.compile(r'[^\s(){}.;,@"«»`]+')
MODIFIERS = r"(?:(?:abbrev|unfoldable|mutual|pub|infix[lr]? \d+) )*"
DECLARED = re.compile(rf'^\s*(?:\| )?{MODIFIERS}((?:{WORD.pattern} )+): ?', re.M)
MADE = re.compile(r"\b(?:tie|goal)\.(?:Need-)?(%s)" % WORD.pattern)
USE = re.compile(r"^(?:ghost )?(?:pub )?use ([^\s{;]+?)\.?\{([^}]*)\}", re.M)
CLAUSE = re.compile(r"\b(?:requires|ensures)\s*\*?\s*(?:\w+\s*)?\{|\bghost\s+use\b")

# Lemmas whose new spelling is that of the definition they speak of.
APART = {
    "text-of": "text_is",
    "slot-of": "slot_is",
    "line-of": "line_is",
    "same_line": "same_line_refl",
    "row-of": "row_is",
    "deleted-mark": "deleted_mark_is",
    "no_line": "no_line_fields",
    "line-at": "line_at_map",
    "line-length": "line_length_is",
    "text_at": "text_at_place",
    "lines-of": "the_lines",
    "numbers-room": "numbers_room_holds",
    "standing-at": "standing_is",
    "word-line": "word_line_bytes",
    "value-at": "value_is",
    "judged-standings": "judged_standings_are",
    "edit-at": "edit_is",
    "merged-word": "merged_word_standing",
    "merged-words": "merged_words_standings",
    "the-element": "the_element_is",
    "puts-back": "row_puts_back",
    "put-at": "put_place",
}


def snake(name):
    if name in APART:
        return APART[name]
    if not re.match(r"[a-z]", name):
        return name
    name = re.sub(r"([a-z0-9'])([A-Z])", lambda m: m[1] + "_" + m[2].lower(), name)
    return re.sub(r"[A-Z]", lambda m: m[0].lower(), name).replace("-", "_")


def files(ends):
    for folder, folders, names in os.walk("crates"):
        folders[:] = sorted(f for f in folders if f not in ("out", "target"))
        for name in sorted(names):
            if name.endswith(ends):
                yield os.path.join(folder, name)


def read(path):
    with open(path, encoding="utf-8") as f:
        return f.read()


def declared():
    """Names that a line of specs/ or proofs/ gives a type, with the files; no binders, and none that Rattle makes."""
    found, made = collections.defaultdict(set), set()
    for path in files(".antt"):
        text = read(path)
        made |= set(MADE.findall(text))
        for m in DECLARED.finditer(text):
            for name in m[1].split() if not m[1].startswith("--") else ():
                found[name].add(path)
    return {n: p for n, p in found.items() if n not in made}


def table():
    return {n: snake(n) for n in declared() if snake(n) != n}


def split_code(text):
    """Pieces of antt: (is it code, piece). Comments and strings are no code."""
    at = 0
    for m in re.finditer(r'"(?:[^"\\\n]|\\.)*"|(?<![^\s(){}.;,@"«»])--[^\n]*', text):
        yield True, text[at : m.start()]
        yield False, m[0]
        at = m.end()
    yield True, text[at:]


def turned(text, names):
    return WORD.sub(lambda m: names.get(m[0], m[0]), text)


def turned_comment(text, names):
    if not text.startswith("--") and not text.startswith("//"):
        return text
    return re.sub(r"`[^`]*`", lambda m: turned(m[0], names), text)


def antt(text, names):
    return "".join(turned(p, names) if code else turned_comment(p, names) for code, p in split_code(text))


def closing(text, at):
    """Behind the bracket that closes the one before `at`."""
    depth = 1
    while depth:
        depth += {"{": 1, "}": -1}.get(text[at], 0)
        at += 1
    return at


def rattle(text, names):
    out, at = [], 0
    for m in CLAUSE.finditer(text):
        if m.start() < at or text.rfind("//", text.rfind("\n", 0, m.start()) + 1, m.start()) >= 0:
            continue
        end = text.index(";", m.end()) if m[0].endswith("use") else closing(text, m.end())
        out += [text[at : m.end()], turned(text[m.end() : end], names)]
        at = end
    text = "".join(out) + text[at:]
    return re.sub(r"//[^\n]*", lambda m: turned_comment(m[0], names), text)


class Either(dict):
    """The table, and a name that port.py has turned in specs/ already, so that only an edit still has the old one."""

    def __init__(self, names, new):
        super().__init__(names)
        self.new = new

    def get(self, name, default=None):
        if name in self:
            return self[name]
        return snake(name) if snake(name) in self.new else default


def edit(text, names):
    """An edit: the texts of one of specs/ or proofs/ whole, of one of src/ its clauses."""
    lines, kind = [], ""
    for line in text.split("\n"):
        head, colon, rest = line.partition(": ")
        if head == "file":
            kind = rest
        if head in ("old", "new") and colon:
            rest = antt(rest, names) if kind.endswith(".antt") else rattle_line(rest, names)
            line = head + colon + rest
        lines.append(line)
    return "\n".join(lines)


def rattle_line(line, names):
    return turned(line, names) if re.match(r"\s*(?:requires|ensures|ghost use)\b", line) else line


def foreign(text, crates):
    """Names that the file imports from libraries that are not this repository's."""
    ours = re.compile(r"Rattle\.(?:%s)\." % "|".join(crates))
    return {w.strip() for m in USE.finditer(text) if not ours.match(m[1] + ".") for w in m[2].split(",")}


def main(words):
    names = table()
    everywhere = {n: names.get(n, n) for n in declared()}
    if words == ["--table"]:
        for old in sorted(names):
            print(f"{old}\t{names[old]}")
        return 0
    crates = sorted(c for c in os.listdir("crates") if os.path.isdir(os.path.join("crates", c)))
    here = declared()
    for path in files((".antt", ".rt", ".edit")):
        old = read(path)
        stays = {n for n in foreign(old, crates) if path not in here.get(n, ())}
        those = {n: s for n, s in names.items() if n not in stays}
        new = antt(old, those) if path.endswith(".antt") else rattle(old, those) if path.endswith(".rt") else edit(old, Either(those, set(everywhere.values())))
        if new != old:
            with open(path, "w", encoding="utf-8") as f:
                f.write(new)
    return 0


if __name__ == "__main__":
    raise SystemExit(main(sys.argv[1:]))
