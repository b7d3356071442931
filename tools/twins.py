#!/usr/bin/env python3
"""twins.py   lists the functions of crates/*/src whose bodies are alike but for names, types and numbers: one line for each such group, the longest first. Its last line is
how many groups there are, and how many functions stand in them. A body of less than 45 characters is passed over. Run it at the top of the repository."""
import collections
import glob
import re

FUNCTION = re.compile(r"^( *)(?:pub(?:\(crate\))? )?fn (\w+).*?\n\1\{\n(.*?)\n\1\}", re.S | re.M)

groups = collections.defaultdict(list)
for path in sorted(glob.glob("crates/*/src/*.rt")):
    crate = path.split("/")[1]
    with open(path, encoding="utf-8") as file:
        text = file.read()
    for found in FUNCTION.finditer(text):
        body = re.sub(r"\s+", " ", found.group(3))
        if len(body) < 45:
            continue
        form = re.sub(r"\b[a-z_]\w*\b", "x", body)
        form = re.sub(r"\b[A-Z]\w*\b", "T", form)
        form = re.sub(r"\b\d\w*\b", "0", form)
        groups[form].append(f"{crate}::{found.group(2)}")

twins = sorted((names for names in groups.values() if 1 < len(names)), key=len, reverse=True)
for names in twins:
    print(" ".join(names))
print(len(twins), "groups,", sum(len(names) for names in twins), "functions")
