#!/usr/bin/env python3
"""Lists the public functions, structs and enums whose text before the body differs from that at a commit, old and new.

    python3 tools/design/signatures.py COMMIT [CRATE..]"""
import re
import subprocess
import sys
from pathlib import Path

ROOT = Path(__file__).resolve().parents[2]
PUBLIC = re.compile(r"^([ \t]*)pub (?:const )?(?:extern \"C\" )?(fn|struct|enum|trait) (\w+)", re.M)


def at(commit, path):
    return subprocess.run(["git", "show", f"{commit}:{path}"], cwd=ROOT, capture_output=True, text=True).stdout


def paths(commit):
    listed = subprocess.run(["git", "ls-tree", "-r", "--name-only", commit, "crates"], cwd=ROOT, capture_output=True, text=True)
    return [p for p in listed.stdout.split() if re.match(r"crates/\w+/src/.*\.rt$", p)]


def items(path, text):
    """What stands before the body of a function, and the whole of a type, by crate, owner and name."""
    crate, found = path.split("/")[1], {}
    for m in PUBLIC.finditer(text):
        indent, kind, name = m.groups()
        rest = text[m.start():]
        if kind == "fn":
            body = re.search(rf"^{indent}\{{$|\{{$", rest, re.M)
            head = rest[:body.start()]
        else:
            end = re.search(rf"^{indent}\}}$|;$", rest, re.M)
            head = rest[:end.end()]
        owner = ""
        if indent:
            above = re.findall(r"^impl(?:<[^>]*>)? (.*?) \{$", text[:m.start()], re.M)
            owner = re.sub(r"<.*?>", "", above[-1].split(" for ")[-1]) + "::" if above else ""
        found[(crate, owner + name)] = (path.split("src/")[1], " ".join(re.sub(r"//.*", "", head).split()))
    return found


def main(commit, *crates):
    old, new = {}, {}
    for path in paths(commit):
        old.update(items(path, at(commit, path)))
    for path in sorted(ROOT.glob("crates/*/src/**/*.rt")):
        new.update(items(str(path.relative_to(ROOT)), path.read_text()))
    for key in sorted(set(old) | set(new)):
        if crates and key[0] not in crates or old.get(key, ("", ""))[1] == new.get(key, ("", ""))[1]:
            continue
        print(f"{key[0]} `{key[1]}`")
        for sign, side in (("-", old), ("+", new)):
            if key in side:
                print(f"    {sign} {side[key][0]}: {side[key][1]}")


main(*sys.argv[1:])
