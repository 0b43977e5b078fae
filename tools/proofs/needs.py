#!/usr/bin/env python3
"""Proof files of the form of an older kit, rattle-kit-5b-plain: one Proof.antt for a function, facts reached by `.before`. It runs `rt dev` of that
kit, and does nothing with today's: there `rt check --start FUNCTION`, in the crate's folder, writes Invariants.antt and Answers.antt to start from,
and `rt check --allow-holes` prints each goal that is open with its facts. Kept for patches that were written in that form.

  needs.py new CRATE              writes each missing Proof.antt that `rt dev CRATE` offers, `search needs` at every need
  needs.py list CRATE FUNCTION    for each need of the function, the facts that it can reach and how many `.before` away each stands
  needs.py paths CRATE FUNCTION   in the function's Proof.antt replaces @FACT by its path, as `c .before .before .FACT`

FUNCTION is a path below proofs/, as improve/round/round.
"""
import glob
import os
import pathlib
import re
import subprocess
import sys
import tempfile


def run(crate, *words):
    done = subprocess.run(["rt", "dev", crate, *words], capture_output=True, text=True)
    return (done.stdout + done.stderr).split("\n")


def offered(lines):
    """Each file that the check offers, with its lines."""
    for i, line in enumerate(lines):
        found = re.match(r"help: write (\S+) with these lines", line)
        if found:
            body = []
            for text in lines[i + 1:]:
                if text.strip() and not text.startswith("    "):
                    break
                body.append(text[4:])
            yield pathlib.Path(found.group(1)), "\n".join(body).rstrip() + "\n"


def write_new(crate):
    lines = run(crate)
    for path, text in offered(lines):
        if path.exists():
            print("there already:", path)
            continue
        text = re.sub(r"^(\S+)( (?:t )?c(?: κs)?) = \?$", r"\1\2 = search needs", text, flags=re.M)
        if "use borrow.Author.Needs" not in text:
            text = "use borrow.Author.Needs.{needs}\n" + text
        path.parent.mkdir(parents=True, exist_ok=True)
        path.write_text(text)
        print("written:", path)
    print("\n".join(line[:200] for line in lines if line.startswith("fn ")))


def records(path):
    """The records of a generated file with their fields, and the record that each need is given."""
    fields, needs, record, need = {}, {}, None, None
    for line in open(path):
        if found := re.match(r"\s+pub record (\S+) ", line):
            record = found.group(1)
            fields[record] = []
            continue
        if record and (found := re.match(r"\s+pub (\S+) : (\S+)", line)):
            fields[record].append(found.groups())
            continue
        if found := re.match(r"\s+Need-(\S+) =(.*)", line):
            need, line = found.groups()
        if need and (found := re.search(r"\(c : (\S+)\)", line)):
            needs[need] = found.group(1)
            need = None
    return fields, needs


def reached(fields, record):
    """Each fact that a record reaches, with how many `.before` lead to it."""
    facts, steps = {}, 0
    while True:
        own = dict(fields[record])
        for name in own:
            if name != "before":
                facts.setdefault(name, steps)
        if "before" not in own:
            return facts
        record, steps = own["before"], steps + 1


def facts_of(crate, function):
    with tempfile.TemporaryDirectory() as folder:
        run(crate, "--generated", folder)
        facts = {}
        for path in glob.glob(f"{folder}/Rattle·{crate}·proofs/proofs/{function}/Lts*.antt"):
            fields, needs = records(path)
            facts.update({need: reached(fields, record) for need, record in needs.items()})
    return facts


def put_paths(crate, function):
    path = pathlib.Path("crates", crate, "proofs", function, "Proof.antt")
    facts, now, lines = facts_of(crate, function), None, []
    for line in path.read_text().split("\n"):
        if found := re.match(r"(?:\S+ :.*?|    )\S*\.Need-(\S+)", line):
            now = facts.get(found.group(1))

        def put(found):
            name = found.group(1)
            if now is None or name not in now:
                print("not reached:", name, "in", line)
                return found.group(0)
            text = "c" + " .before" * now[name] + " ." + name
            return text if line[found.end():found.end() + 2] == " ." else "(" + text + ")"

        lines.append(re.sub(r"@([a-z][\w-]*)", put, line))
    path.write_text("\n".join(lines))


def main(words):
    match words:
        case ["new", crate]:
            write_new(crate)
        case ["list", crate, function]:
            for need, facts in facts_of(crate, function).items():
                print(need, " ".join(f"{name}^{steps}" for name, steps in facts.items()))
        case ["paths", crate, function]:
            put_paths(crate, function)
        case _:
            sys.exit(__doc__)


if __name__ == "__main__":
    main(sys.argv[1:])
