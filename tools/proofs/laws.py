#!/usr/bin/env python3
"""Statements that stand more than once. Run in the repository's folder.

  laws.py         groups of laws of crates/*/proofs/Laws whose statements are the same but for the names of variables

A group is a hint: a private law of one crate cannot be cited from another.
"""
import pathlib
import re
from collections import defaultdict

WORD = re.compile(r"[^\s(){};,.λ→]+")
BOUND = re.compile(r"[({]((?:[^\s(){}:]+ )+): |λ((?: [^\s(){}.]+)+)\.")


def statements(path):
    """The declarations of a file: name, whole text, first line's number."""
    lines = path.read_text().split("\n")
    i = 0
    while i < len(lines):
        found = re.match(r"(?:  )?(?:unfoldable |abbrev )?(?:pub )?([^\s:]+) :(?: |$)", lines[i])
        if not found or lines[i].lstrip().startswith(("--", "use ")):
            i += 1
            continue
        indent = len(lines[i]) - len(lines[i].lstrip())
        k = i + 1
        while k < len(lines) and lines[k].strip() and len(lines[k]) - len(lines[k].lstrip()) > indent:
            k += 1
        yield found.group(1), " ".join(line.strip() for line in lines[i:k]), i + 1
        i = k


def shape(name, text):
    """The statement with its variables numbered in the order in which they are bound."""
    text = text.split(" : ", 1)[1] if " : " in text else ""
    names = []
    for found in BOUND.finditer(text):
        names += (found.group(1) or found.group(2)).split()
    order = {n: f"v{i}" for i, n in enumerate(dict.fromkeys(names))}
    return WORD.sub(lambda w: order.get(w.group(0), w.group(0)), text)


def main():
    groups = defaultdict(list)
    for path in sorted(pathlib.Path("crates").glob("*/proofs/Laws/**/*.antt")):
        for name, text, line in statements(path):
            key = shape(name, text)
            if len(key) > 25:
                groups[key].append(f"{path}:{line} {name}")
    for key, places in sorted(groups.items(), key=lambda g: -len(g[1])):
        if len(places) > 1:
            print(f"{len(places)} times: {key[:150]}")
            print("".join(f"    {place}\n" for place in places), end="")


if __name__ == "__main__":
    main()
