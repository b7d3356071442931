#!/usr/bin/env python3
"""Brings the repository's own definitions and lemmas to today's spelling: words in snake case, `leafOf` as `leaf_of`.

usage: python3 tools/spelling.py        at the top of the repository, once, right after the kit's port.py

Types, which begin with a capital, keep their names; so do the Rust names of src/, strings, inputs and outputs. It goes over specs/, proofs/,
the contracts in src/, the must-fail edits and the pages. It prints what it renamed, and the new names that were there before.
"""
import collections
import os
import re
import sys

WORD = re.compile(r"(?<![A-Za-z0-9_'])[A-Za-z_][A-Za-z0-9_']*")
CAMEL = re.compile(r"^[a-z][a-z0-9_']*[A-Z][A-Za-z0-9_']*$")
HEX = re.compile(r"^x[0-9A-F]+$")
# Words of the kit, and what only looks like one of ours.
KEEP = {"getD", "shr_slice_Lawful", "shr_slice_Tells", "uint_Lawful", "uint_Makes", "uint_Tells", "walk_Meets"}
# What port.py took apart at a word of the library's.
GARBLED = {"left_After": "left-after", "set_Free": "set_free", "last_Line": "last_line", "numbers_after": "numbers-after"}


def snake(word):
    return GARBLED.get(word) or re.sub(r"(?<=[a-z0-9'])[A-Z]", lambda m: "_" + m[0].lower(), word)


def files(root):
    for folder, dirs, names in os.walk(root):
        dirs[:] = sorted(d for d in dirs if d not in ("out", ".git", "target", "src.orig"))
        for name in sorted(names):
            yield os.path.join(folder, name)


def read(path):
    with open(path, encoding="utf-8") as f:
        return f.read()


def turn(text, names):
    return WORD.sub(lambda m: names.get(m[0], m[0]), text)


def main():
    crates = [p for p in files("crates") if p.endswith((".antt", ".rt", ".edit"))]
    antt = [p for p in crates if p.endswith(".antt")]
    names, before = {}, set()
    for p in antt:
        for line in read(p).split("\n"):
            for w in WORD.findall(line.split("--")[0]):
                if w in GARBLED or (CAMEL.match(w) and not HEX.match(w) and w not in KEEP):
                    names[w] = snake(w)
    for p in crates:
        before |= set(WORD.findall(read(p)))
    pages = [p for p in files("docs") if p.endswith(".md")] + ["README.md"]
    changed = 0
    for p in crates + pages:
        text = read(p)
        # A journal of what it was stays as it was.
        new = turn(text, names)
        if new != text:
            changed += 1
            with open(p, "w", encoding="utf-8") as f:
                f.write(new)
    back = collections.defaultdict(list)
    for old, new in names.items():
        back[new].append(old)
    for old in sorted(names):
        print(old, names[old], *(["(was there)"] if names[old] in before else []))
    for new, olds in back.items():
        if len(olds) > 1:
            print("falls together:", new, *olds)
    print(f"{len(names)} names, {changed} files", file=sys.stderr)


if __name__ == "__main__":
    main()
