#!/usr/bin/env python3
"""Brings the names of this repository's own definitions and lemmas to snake case, once, after /opt/rattle/port/port.py has run.

usage: python3 tools/respell.py [--look]      at the top of the repository; --look changes nothing and says what would fall together

A definition or lemma is what a file of specs/, or one right in proofs/, declares: `strongPlans` becomes `strong_plans`, `sum-append` becomes `sum_append`.
What begins with a capital letter (types, and laws that are named after a type, as `All-++`) stays. Where a lemma and the definition that it is about
would have one name, the lemma gets `_law` behind it. Functions of src/, exported names, strings and numbers stay as they are. Names of record fields are
turned behind a point too; the names that were changed are listed in tools/respelled.tsv; what Rattle makes itself (`loop-test`, `if1`) is not declared here, and stays.
"""

import collections
import os
import re
import sys

ROOT = "crates"
TOKEN = re.compile(r"[^\s(){}\[\],;.:⟨⟩\"«»]+")
DECLARED = re.compile(r"(\s*)(?:abbrev |unfoldable |pub |private |instance |data )*([^\s:(){}]+) :(?:\s|$)")
USE = re.compile(r"(?:pub )?(?:ghost )?use (\S+?)\.\{(.*?)\};?$")
STRING = re.compile(r'"(?:[^"\\]|\\.)*"')


def snake(t):
    t = t.replace("-", "_")
    t = re.sub(r"(?<=[a-z0-9])([A-Z])", lambda m: "_" + m.group(1).lower(), t)
    return re.sub(r"(?<=_)[A-Z](?![a-z])", lambda m: m.group(0).lower(), t)


def files():
    for folder, dirs, names in os.walk(ROOT):
        dirs[:] = sorted(d for d in dirs if d not in ("out", "must-fail"))
        for name in sorted(names):
            if name.endswith((".antt", ".rt")):
                yield os.path.join(folder, name)


def is_lemma_file(path):
    return path.endswith(".antt") and not re.search(r"/proofs/.+/", path)


def survey():
    """What is declared, what is a record's field, which words each file has, and what each file brings in from the kit."""
    declared, fields, words, brought = set(), set(), {}, collections.defaultdict(set)
    for path in files():
        words[path] = collections.Counter()
        in_record = False
        for line in open(path, encoding="utf-8"):
            line = line.rstrip("\n")
            m = USE.match(line)
            if m:
                part = m.group(1).split(".")
                names = [n.split(" as ")[-1].strip() for n in m.group(2).split(",")]
                if not (part[0] == "Rattle" and len(part) > 1 and os.path.isdir(os.path.join(ROOT, part[1]))):
                    brought[path] |= set(names)
                words[path].update(names)
                continue
            code = line.split("//")[0] if path.endswith(".rt") else ("" if line.lstrip().startswith("--") else line)
            code = STRING.sub('""', code)
            words[path].update(TOKEN.findall(code))
            if not is_lemma_file(path):
                continue
            if code and not code.startswith(" "):
                in_record = bool(re.match(r"(?:pub )?record ", code))
            m = DECLARED.match(code)
            if m and not m.group(2).startswith("◌"):
                declared.add(m.group(2))
                if in_record and m.group(1):
                    fields.add(m.group(2))
    return declared, fields, words, brought


def choose(declared, words):
    """The new name of each name that has to change."""
    change = {}
    by_new = collections.defaultdict(list)
    for name in sorted(declared):
        if not re.match(r"[A-Z]", name) and snake(name) != name:
            by_new[snake(name)].append(name)
    for new, olds in sorted(by_new.items()):
        definitions = [o for o in olds if "-" not in o]
        lemmas = [o for o in olds if "-" in o]
        for o in definitions:
            change[o] = new
        if definitions and new in declared:
            change[new] = new + "_law"
        for o in lemmas:
            change[o] = new + ("_law" if definitions or new in declared else "")
        if len(set(change[o] for o in olds)) < len(olds):
            for o in lemmas:
                if re.search(r"[A-Z]", o):
                    change[o] = o.replace("-", "_")
    return change


def turn_words(text, change, fields, kept):
    out, at = [], 0
    for m in TOKEN.finditer(text):
        t = m.group(0)
        out.append(text[at : m.start()])
        at = m.end()
        if t in change and t not in kept:
            before = text[: m.start()]
            if before.endswith(".") and not before.endswith(". "):
                owner = re.search(r"([^\s(){}\[\],;:]+)\.$", before)
                of_module = bool(owner and re.match(r"[A-ZΑ-Ω]", owner.group(1).split(".")[-1])) and not re.search(r"λ[^.]*\.$", before)
                t = change[t] if t in fields or of_module or re.search(r"λ[^.]*\.$", before) else t
            else:
                t = change[t]
        out.append(t)
    out.append(text[at:])
    return "".join(out)


def turn_line(line, path, change, fields, kept):
    m = USE.match(line)
    if m and not m.group(2) == "":
        part = m.group(1).split(".")
        if part[0] == "Rattle" and len(part) > 1 and os.path.isdir(os.path.join(ROOT, part[1])):
            at = line.index("{")
            return line[:at] + turn_words(line[at:], change, set(), set())
        return line
    mark = "//" if path.endswith(".rt") else "--"
    if line.lstrip().startswith(mark):
        # a comment: names with a capital inside, and such with a dash where a path or a quote shows that one is meant
        camel = {a: b for a, b in change.items() if "-" not in a and re.search(r"[A-Z]", a)}
        line = re.sub(r"(?<![\w'-])[a-z][\w'-]*", lambda w: camel.get(w.group(0), w.group(0)), line)
        return re.sub(r"(?<=[./`])[a-z][\w'∈≤-]*-[\w'∈≤-]+", lambda w: change.get(w.group(0), w.group(0)), line)
    code, note = line, ""
    if path.endswith(".rt") and "//" in line:
        code, note = line[: line.index("//")], line[line.index("//") :]
    parts, at = [], 0
    for s in STRING.finditer(code):
        parts.append(turn_words(code[at : s.start()], change, fields, kept))
        parts.append(s.group(0))
        at = s.end()
    parts.append(turn_words(code[at:], change, fields, kept))
    return "".join(parts) + note


def main():
    look = "--look" in sys.argv
    declared, fields, words, brought = survey()
    change = choose(declared, words)
    print(f"respell: {len(change)} names")
    for path, have in sorted(words.items()):
        kept = brought[path] & set(change)
        here = {w: change[w] for w in have if w in change and w not in kept}
        for old, new in sorted(here.items()):
            if have[new] and new not in here and new not in fields:
                print(f"look: {path}: {old} becomes {new}, which the file has")
        for k in sorted(kept):
            print(f"look: {path}: {k} is the kit's here")
    if look:
        return
    with open(os.path.join("tools", "respelled.tsv"), "w", encoding="utf-8") as f:
        f.writelines(f"{a}\t{b}\n" for a, b in sorted(change.items()))
    for path in files():
        with open(path, encoding="utf-8") as f:
            text = f.read()
        kept = brought[path] & set(change)
        new = "\n".join(turn_line(l, path, change, fields, kept) for l in text.split("\n"))
        if new != text:
            with open(path, "w", encoding="utf-8") as f:
                f.write(new)


main()
