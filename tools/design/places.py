#!/usr/bin/env python3
"""Counts the places of docs/DESIGN-PASS.md in crates/*/src, point by point.

    python3 tools/design/places.py [--list] [POINT..]

With --list it names each place. It goes by text: what it finds is looked at by eye."""
import re
import sys
from collections import Counter, defaultdict
from pathlib import Path

ROOT = Path(__file__).resolve().parents[2]
CRATES = [line.split(":")[0].split()[0] for line in (ROOT / "crates.txt").read_text().splitlines()
          if line.strip() and not line.startswith("#")]


def sources():
    for crate in CRATES:
        for path in sorted((ROOT / "crates" / crate / "src").rglob("*.rt")):
            yield crate, path, path.read_text()


def where(path, text, at):
    return f"{path.relative_to(ROOT / 'crates')}:{text.count(chr(10), 0, at) + 1}"


HEAD = re.compile(r"^([ \t]*)(?:pub(?:\(crate\))? )?(?:const )?(?:extern \"C\" )?fn (\w+)", re.M)


def functions():
    """crate, path, name, line, signature, clauses, body of each function."""
    for crate, path, text in sources():
        for m in HEAD.finditer(text):
            indent = m.group(1)
            if text[:m.start()].rstrip().endswith("//"):
                continue
            rest = text[m.start():]
            if m.end() < len(text) and (end := re.search(rf"^{indent}\}}$", rest, re.M)):
                whole = rest[:end.end()]
            else:
                continue
            open_ = re.search(rf"(?:^{indent}\{{$|\{{$)", whole, re.M)
            brace = re.search(rf"^{indent}\{{$", whole, re.M)
            first_end = whole.find("{\n") if not brace else brace.start()
            head = whole[:first_end]
            body = whole[first_end:]
            clause = re.search(r"^\s+(?:requires|ensures|where)\b", head, re.M)
            signature = head[:clause.start()] if clause else head
            clauses = head[clause.start():] if clause else ""
            yield crate, path, m.group(2), where(path, text, m.start()), signature, clauses, body


FUNCTIONS = list(functions())


def parameters(signature):
    inner = re.search(r"\((.*)\)", signature, re.S)
    found = re.findall(r"(?:mut )?(\w+): ([^,()]+(?:\([^)]*\))?[^,()]*)", inner.group(1)) if inner else []
    return [(n, " ".join(t.split())) for n, t in found]


def point_1():
    """Own enums of the shape of Option or Result; flags beside a value; numbers for kinds or refusals."""
    out = []
    for crate, path, text in sources():
        for m in re.finditer(r"^\s*(?:pub(?:\(crate\))? )?enum (\w+) \{(.*?)^\}", text, re.M | re.S):
            variants = re.findall(r"^    (\w+)", m.group(2), re.M)
            if len(variants) == 2:
                out.append((crate, where(path, text, m.start()), f"enum {m.group(1)}: {', '.join(variants)}"))
        for m in re.finditer(r"struct (\w+)(?:<[^>]*>)? \{(.*?)^\}", text, re.M | re.S):
            if re.search(r": bool,", m.group(2)) and m.group(2).count(":") > 1:
                out.append((crate, where(path, text, m.start()), f"flag in struct {m.group(1)}"))
    for crate, path, name, line, signature, clauses, body in FUNCTIONS:
        result = signature.rsplit("->", 1)[1].strip() if "->" in signature else ""
        numbers = re.findall(r"return (\d+);", body) + re.findall(r"^\s+(\d+)$", body, re.M)
        if result in ("u8", "u32", "u64", "usize") and len(set(numbers)) > 1 and not re.search(r"[-+*/%]", re.sub(r"//.*", "", body)):
            out.append((crate, line, f"fn {name} gives a number out of {sorted(set(map(int, numbers)))}"))
        elif result == "u32" and re.search(r"number|intake|kind", name):
            out.append((crate, line, f"fn {name} gives a number"))
        for n, t in parameters(signature):
            if (n in ("kind", "axis", "which", "listed") and t in ("u32", "bool", "usize")):
                out.append((crate, line, f"fn {name} takes {n}: {t}"))
    return out


def shape(signature, body):
    """The function with names, numbers and element types replaced, in order of appearance."""
    code = re.sub(r"//.*", "", signature[signature.find("("):] + body)
    code = re.sub(r"\b(?:u8|u32|u64|usize|f64|Tet|Triple|Pair|Point)\b", "T", code)
    names, out = {}, []
    keep = {"T", "let", "mut", "while", "for", "in", "if", "else", "return", "true", "false", "match", "loop", "as", "fn", "break", "continue"}
    for token in re.findall(r"[A-Za-z_]\w*|\d[\w.]*|[^\s\w]", code):
        if re.match(r"\d", token):
            out.append("N")
        elif re.match(r"[A-Za-z_]", token) and token not in keep:
            out.append(names.setdefault(token, f"n{len(names)}"))
        else:
            out.append(token)
    return " ".join(out)


def point_2():
    """Functions of one shape: the same but for names, numbers and element types."""
    groups = defaultdict(list)
    for crate, path, name, line, signature, clauses, body in FUNCTIONS:
        if body.count("\n") >= 4:
            groups[shape(signature, body)].append((crate, line, name))
    out = []
    for members in groups.values():
        if len(members) > 1:
            names = ", ".join(m[2] for m in members)
            out += [(c, l, f"fn {n}, one of {names}") for c, l, n in members]
    return out


def point_3():
    """Loops that are no `for`."""
    out = []
    for crate, path, text in sources():
        for m in re.finditer(r"^([ \t]*)(?:'\w+: )?(while [^\n]*|loop) \{\n(.*?)^\1\}$", text, re.M | re.S):
            counted = "by hand" if re.search(r"[-+]= 1;", m.group(3)) else "no step of 1"
            out.append((crate, where(path, text, m.start(2)), f"{m.group(2)} ({counted})"))
    return out


def point_4():
    """Equality, order, copying, conversion and printing by hand."""
    out = []
    word = r"^(?:eq|le|same|copy|clear|least|larger|smaller|wide|high_half|low_half|absolute|minus|from_|to_|as_|put_decimal|put_text|put_signed|decimal|parse|print|show|bounds_of|field_of|fields_of|options_of|sizes_of|settings_of)"
    for crate, path, name, line, signature, clauses, body in FUNCTIONS:
        if re.match(word, name):
            out.append((crate, line, f"fn {name}"))
        elif len(re.findall(r"if [^{]*\{\s*return (?:true|false);\s*\}", body)) >= 2:
            out.append((crate, line, f"fn {name}: a chain of tests that return true or false"))
    return out


def point_5():
    """Parameters that never come without another, in three functions or more, and facts in three contracts or more."""
    takes, facts = defaultdict(dict), defaultdict(list)
    for crate, path, name, line, signature, clauses, body in FUNCTIONS:
        for n, t in parameters(signature):
            takes[(crate, n, t.replace("&mut ", "&"))][line] = name
        for m in re.finditer(r"requires(?: \w+)? \{(.*?)\}\s*(?:$|\n)", clauses, re.S):
            for fact in re.split(r" × ", " ".join(m.group(1).split())):
                facts[(crate, fact.strip("() "))].append((line, name))
    out = []
    for (crate, b, u), who in takes.items():
        if len(who) < 3:
            continue
        beside = [f"{a}: {t}" for (c, a, t), others in takes.items()
                  if c == crate and (a, t) != (b, u) and set(who) <= set(others)]
        if beside:
            out.append((crate, min(who), f"{b}: {u} never without {', '.join(beside)}; {len(who)} functions"))
    for (crate, fact), who in facts.items():
        if len(who) >= 3:
            out.append((crate, who[0][0], f"requires {fact}; {len(who)} functions"))
    return out


def point_6():
    """Buffers with a length beside them, parallel arrays, lists searched by hand, arenas of indices."""
    out = []
    for crate, path, name, line, signature, clauses, body in FUNCTIONS:
        ps = parameters(signature)
        names = [n for n, _ in ps]
        for (n, t), (m, u) in zip(ps, ps[1:]):
            if re.match(r"&?(?:mut )?\[", t.replace("&mut ", "")) or re.match(r"&(?:mut )?\[", t):
                if u in ("usize", "u32") and m in ("n", "nv", "count", "m", "k"):
                    out.append((crate, line, f"fn {name}: {n}: {t} with {m}"))
        if {"parameters", "points"} <= set(names) or {"points", "masks"} <= set(names):
            out.append((crate, line, f"fn {name}: parallel arrays"))
        if name in ("first_at_least",) or re.search(r"half|mid", body) and "while" in body:
            out.append((crate, line, f"fn {name}: a search by halves"))
    for crate, path, text in sources():
        for m in re.finditer(r"struct (\w+) \{(.*?)^\}", text, re.M | re.S):
            if re.search(r"heads|nexts", m.group(2)) or re.search(r"\[\w+; \d+\].*\n.*(?:count|len|n): ", m.group(2)) or re.search(r"count: usize,\n\s+(?:pub )?a: ", m.group(2)):
                out.append((crate, where(path, text, m.start()), f"struct {m.group(1)}"))
    return out


def point_7():
    """Switches on which step to run."""
    out = []
    for crate, path, name, line, signature, clauses, body in FUNCTIONS:
        arms = re.findall(r"if (\w+(?:\(\w+\))?) == (?:b?\"[^\"]*\"|\w+) \{", body)
        most = Counter(arms).most_common(1)
        if most and most[0][1] >= 3:
            out.append((crate, line, f"fn {name}: {most[0][1]} tests of {most[0][0]}"))
        if re.search(r"match \w+ \{(?:[^{}]*\d+ =>){3}", body):
            out.append((crate, line, f"fn {name}: a match on numbers"))
    return out


def point_8():
    """Proof files: answers and lines."""
    out = []
    for crate in CRATES:
        for path in sorted((ROOT / "crates" / crate / "proofs").rglob("*.antt")):
            text = path.read_text()
            for m in re.finditer(r"^pub ([\w-]+) :\s*goal\.", text, re.M):
                out.append((crate, where(path, text, m.start()), f"answer {m.group(1)}"))
    return out


def main(arguments):
    listed = "--list" in arguments
    wanted = [int(a) for a in arguments if a.isdigit()] or list(range(1, 9))
    width = max(map(len, CRATES))
    for k in wanted:
        found = globals()[f"point_{k}"]()
        print(f"{k}. {globals()[f'point_{k}'].__doc__} {len(found)}")
        by = Counter(c for c, _, _ in found)
        print("   " + ", ".join(f"{c} {by[c]}" for c in CRATES if by[c]))
        if listed:
            for c, line, what in found:
                print(f"     {line}  {what}")


main(sys.argv[1:])
