#!/usr/bin/env python3
"""Brings the names of definitions that README.md, docs/*.md and rust/book/lists/*.txt cite to those of tools/respelled.tsv, once, after tools/respell.py.

usage: python3 tools/respell_docs.py [--look]      at the top of the repository; --look changes nothing and prints what would change

A name is turned where it stands as crate/File.name, or as File.name of a file that has the new one; in backquotes as `name`, `File.name` or `Record.field`; and in a table's cell as File.name or behind
a comma, a semicolon or a bracket after one. A name that /opt/rattle/port/port.py turned already is not in the list: it is turned if nothing has it any more and its
snake form is declared. docs/LANDINGS.md tells the past, docs/PORT.md the port itself: both stay as they are.
"""

import glob
import re
import sys

CHANGE = {}
for line in open("tools/respelled.tsv", encoding="utf-8"):
    old, new = line.rstrip("\n").split("\t")
    CHANGE[old] = new
DECLARED, OF_FILE = set(), {}
for path in glob.glob("crates/*/specs/*.antt") + glob.glob("crates/*/specs/*/*.antt"):
    for line in open(path, encoding="utf-8"):
        m = re.match(r"\s*(?:(?:abbrev|unfoldable|pub|data|record) )*([^\s:(){}]+) [:({]", line)
        if m:
            DECLARED.add(m.group(1))
            OF_FILE.setdefault(path.rsplit("/")[-1][: -len(".antt")], set()).add(m.group(1))
NAME = r"[^\s,;|()`:.]+"
WHOLE = re.compile(r"(?<![\w/])([a-z_0-9]+/[A-Z][A-Za-z0-9]*)((?:\." + NAME + ")+)")
SHORT = re.compile(r"(?<![\w/.])([A-Z][A-Za-z0-9]*)((?:\." + NAME + ")+)")
LISTED = re.compile(r"(?:(?<=[,;] )|(?<=\())(" + NAME + r")(?= ?[,;()|]| *$)")
FILES = (".md", ".toml", ".rt", ".rs", ".antt", ".txt", ".plan", ".roster")


def turned(name, file=None):
    plain = name.replace("′", "'")
    if plain in CHANGE:
        return CHANGE[plain]
    snake = re.sub(r"(?<=[a-z0-9])([A-Z])", lambda m: "_" + m.group(1).lower(), plain.replace("-", "_"))
    there = OF_FILE.get(file, DECLARED)
    news = [n for n in (snake, snake + "_law") if n in there]
    return news[0] if re.match("[a-z]", plain) and plain not in there and news else plain


def dotted(m):
    if m.group(0).endswith(FILES):
        return m.group(0)
    file = m.group(1).rsplit("/")[-1]
    return m.group(1) + "".join("." + turned(n, file) for n in m.group(2)[1:].split("."))


def loose(m):
    """File.name in a sentence, without backquotes: turned if the file has the new name and not the old one."""
    file = m.group(1)
    names = m.group(2)[1:].split(".")
    news = [turned(n, file) for n in names]
    known = OF_FILE.get(file, set())
    return dotted(m) if names[0] not in known and news[0] in known else m.group(0)


def quoted(text):
    """What stands in backquotes: one name, or names with a file or a record before them."""
    if re.fullmatch(NAME, text):
        return turned(text)
    return SHORT.sub(dotted, WHOLE.sub(dotted, text))


def cell(text):
    """A table's cell outside of backquotes."""
    text = WHOLE.sub(dotted, text)
    new = SHORT.sub(dotted, text)
    if SHORT.search(text) or WHOLE.search(text):
        new = LISTED.sub(lambda m: turned(m.group(1)), new)
        new = re.sub(r"(?<= \.\. )(" + NAME + ")", lambda m: turned(m.group(1)), new)
    return new


def document(text):
    out = []
    for line in text.split("\n"):
        in_table = line.startswith("|")
        parts = line.split("`")
        for n, part in enumerate(parts):
            if n % 2 and n < len(parts) - 1:
                parts[n] = quoted(part)
            elif in_table:
                parts[n] = "|".join(cell(c) for c in part.split("|"))
            else:
                parts[n] = SHORT.sub(loose, WHOLE.sub(dotted, part))
        out.append("`".join(parts))
    return "\n".join(out)


def listed(text):
    """A list of the book: the values of the keys that name definitions."""
    return "\n".join(cell(l) if re.match(r"(by|of|laws|definitions):", l) else l for l in text.split("\n"))


def main():
    look = "--look" in sys.argv
    documents = ["README.md"] + [f for f in sorted(glob.glob("docs/*.md")) if f not in ("docs/LANDINGS.md", "docs/PORT.md")]
    for path in documents + sorted(glob.glob("rust/book/lists/*.txt")):
        with open(path, encoding="utf-8") as f:
            text = f.read()
        new = listed(text) if path.endswith(".txt") else document(text)
        if look:
            for a, b in zip(text.split("\n"), new.split("\n")):
                if a != b:
                    print(f"{path}\n- {a}\n+ {b}")
        elif new != text:
            with open(path, "w", encoding="utf-8") as f:
                f.write(new)
            print(f"{path}: {sum(a != b for a, b in zip(text.split(chr(10)), new.split(chr(10))))} lines")


main()
