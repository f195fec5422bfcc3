#!/usr/bin/env python3
"""Brings the repository's own definitions and lemmas to the spelling of Rattle's guides, once, after the kit's port.py.

usage: python3 tools/port_names.py        at the top of the repository, on the tree that port.py left

A definition, lemma, field or constructor of specs/ or proofs/ that begins with a small letter and has a capital inside
(`digitsRead`) is spelled in snake case (`digits_read`), also as a part of a lemma's name (`digitsRead-over`). Names that would
fall together, and types in small letters, are listed below. Tokens are turned in .antt and .rt files, in the edits of
must-fail/ and, between backquotes, in the pages. Functions, exported names, strings and outputs have no such names.
"""
import os
import re
import sys

TOKEN = re.compile(r"(?<![A-Za-z0-9_'₀-₉\u0370-\u03ff\u2100-\u214f-])[A-Za-z][A-Za-z0-9_']*(?:-[A-Za-z0-9_']+)*")
PART = re.compile(r"[A-Za-z0-9_']+")
DEFINES = re.compile(
    r"^\s*(?:(?:abbrev|unfoldable|pub|mutual)\s+)*(?:(record|data|ruleset)\s+(?:pub\s+)?)?([^\s(){}:,.;]+)\s*(.*)$"
)
WORDS = {"use", "pub", "mod", "where", "unfolding", "let", "in", "λ", "|", "elim"}

# Names that would fall together with another's new name. Of port.py's own turns the lemma gets its dash back.
OTHERWISE = {
    "takeAt": "take_at_place",
    "found_of": "found-of",
    "in_lines": "in-lines",
    "in_params": "in-params",
    "line_kept": "line-kept",
    "line_on": "line-on",
    "moved_at": "moved-at",
    "no_number": "no-number",
    "no_place": "no-place",
    "no_record": "no-record",
    "one_entry": "one-entry",
    "same_number": "same-number",
    "settle_read": "settle-read",
    "two_digits": "two-digits",
}
# A type is in upper camel case; the same word is a value's elsewhere.
TYPES = {os.path.join("crates", "channel", "proofs", "steps", "LinesSims.antt"): {"went": "Went"}}
# Where a name above is also a function's or a variable's: only .antt files outside the paths of generated modules are turned.
LEMMAS = {old for old, new in OTHERWISE.items() if "-" in new}


def files(*ends):
    for base, dirs, names in os.walk("crates"):
        dirs[:] = sorted(d for d in dirs if d != "out" or base.count(os.sep) > 1)
        for name in sorted(names):
            if name.endswith(ends):
                yield os.path.join(base, name)


def read(path):
    with open(path, encoding="utf-8", newline="") as f:
        return f.read()


def snake(name):
    return re.sub(r"(?<=[a-z0-9])[A-Z]", lambda m: "_" + m.group(0).lower(), name)


def defined():
    names = set()
    for path in files(".antt"):
        for line in read(path).split("\n"):
            if line.startswith("use ") or line.lstrip().startswith("--"):
                continue
            m = DEFINES.match(line)
            if m and m.group(2) not in WORDS and (m.group(1) or m.group(3).startswith(":")):
                names.add(m.group(2))
    return names


def table():
    turns = {}
    for name in defined():
        for part in PART.findall(name):
            if part[0].islower() and re.search(r"[a-z0-9][A-Z]", part):
                turns[part] = snake(part)
    turns.update((old, new) for old, new in OTHERWISE.items() if old not in LEMMAS)
    return turns


def turn(text, turns, lemmas):
    def token(m):
        word = m.group(0)
        if lemmas and word in LEMMAS and not text[: m.start()].endswith(("." , "fn ")):
            return OTHERWISE[word]
        return PART.sub(lambda p: turns.get(p.group(0), p.group(0)), word)

    return TOKEN.sub(token, text)


def main():
    turns = table()
    changed = 0
    pages = [os.path.join(b, n) for b, _, ns in os.walk("docs") for n in sorted(ns) if n.endswith(".md")]
    for path in list(files(".antt", ".rt", ".edit")) + ["README.md", "rust/README.md"] + sorted(pages):
        old = read(path)
        if path.endswith(".md"):
            new = re.sub(r"`[^`\n]*`", lambda m: turn(m.group(0), turns, False), old)
        elif path.endswith(".edit"):
            new = "\n".join(turn(l, turns, False) if l.startswith(("old:", "new:")) else l for l in old.split("\n"))
        else:
            new = turn(old, turns | TYPES.get(path, {}), path.endswith(".antt"))
        if new != old:
            changed += 1
            with open(path, "w", encoding="utf-8", newline="") as f:
                f.write(new)
    print(f"{len(turns)} names, {changed} files")
    return 0


if __name__ == "__main__":
    sys.exit(main())
