#!/usr/bin/env python3
"""Brings the repository's own definitions and lemmas to today's spelling: snake case, with dashes that join two names in a lemma's name.

usage: python3 tools/port/names.py           in the repository's top: rewrites the files of crates/
       python3 tools/port/names.py --docs    rewrites README.md, docs/ and the comments of tools/ (with the table of crates/ before it
                                             was rewritten, which `TABLE` holds, so that it can run later)
       python3 tools/port/names.py --check   writes nothing: collisions, and the imports of our modules that name nothing
       python3 tools/port/names.py --table   writes nothing: the table, a line for each name

Rust keeps its names. A second run changes nothing.
"""

import os
import re
import subprocess
import sys
from collections import defaultdict

TABLE = os.path.join(os.path.dirname(os.path.realpath(__file__)), "names.txt")

# New names that do not follow from the old one: where the plain spelling is taken, or is no name.
CHOSEN = {
    "every-getD": "every-get_or",
    "e-10-bits": "e_10-bits",
    "e-9-bits": "e_9-bits",
    "e-12-bits": "e_12-bits",
}

# Definitions with dashes whose plain spelling is taken: `mesh_of` is what a state's mesh is.
DASHED = {"mesh-of": "mesh_with"}

# Names that are bound and never declared.
LOCALS = "apexA apexB hasA leA leB loseX loseY loseZ noLoops onlyA onlyB".split()

# Lemmas that a new name would hide: (file, the old name of what hides it, the lemma, its new name). port.py had turned their dashes.
LEMMAS = [
    ("crates/repair/proofs/Laws/Flip/Five.antt", "atA", "at_a", "at_a_lem"),
    ("crates/report/proofs/Laws/Write/Held.antt", "elementPlace", "element_place", "element_place_lem"),
    ("crates/mesh/proofs/Laws/Euler/Simplices.antt", "endsOf", "ends_of", "ends_of_lem"),
    ("crates/repair/proofs/Laws/Flip/Find.antt", "slotHas", "slot_has", "slot_has_lem"),
]

WORDS = set("abbrev record ruleset data open in as where use module let elim unfolding search grind simp omega rw cc hlevel assumption"
            " first_of forall result ground pub mod pattern axiom infixl infixr infix ghost by have show unfoldable".split())

TOKEN = re.compile(r"[^\W\d][\w'\u2032\-]*|\d[\w'\u2032\-]*")
CAMEL = re.compile(r"[a-z0-9'][A-Z]")
SIGNATURE = re.compile(r"^( *)((?:(?:unfoldable|abbrev|pub|pattern|axiom) )*)([^\s:(){}]+(?: [^\s:(){}]+)*)(?: \{[^}]*\})? :(?=\s|$)")
USE = re.compile(r"\buse\s+(Rattle\.(\w+)\.(specs|proofs)((?:\.[\w'\-]+)*))\.\{([^}]*)\}")
GENERATED = {"Statement", "Tie", "Met", "Goals", "Given", "Reads", "Lts", "TheLink", "Code"}


def files(*ends):
    said = subprocess.run(["git", "ls-files", "-z", "crates"], stdout=subprocess.PIPE, check=True).stdout.decode()
    return sorted(p for p in said.split("\0") if p.endswith(ends) and "/out/" not in p and os.path.exists(p))


def read(p):
    with open(p, encoding="utf-8") as f:
        return f.read()


def camel(part):
    """Whether a part of a name is camel case: it begins with a small letter and has a capital within."""
    return part[:1].islower() and bool(CAMEL.search(part))


def snake(part):
    if not camel(part):
        return part
    part = re.sub(r"([A-Z]+)([A-Z][a-z])", r"\1_\2", part)
    return re.sub(r"([a-z0-9'])([A-Z])", r"\1_\2", part).lower()


def turned(name):
    if name in CHOSEN:
        return CHOSEN[name]
    return "-".join(CHOSEN.get(w) or snake(w) for w in name.split("-"))


def without_comments(text):
    return re.sub(r"(?m)(^|(?<=\s))--(?=[\s-]|$).*$", "", text)


def declared(text):
    """The names that the text of an .antt file declares, with the marks of each."""
    found = {}
    for line in without_comments(text).split("\n"):
        m = SIGNATURE.match(line)
        if m:
            for n in m.group(3).split():
                found.setdefault(n, (len(m.group(1)), m.group(2)))
        m = re.match(r" *(?:pub )?(?:record|data|ruleset) ([^\s:(){}]+)", line)
        if m:
            found.setdefault(m.group(1), (0, "pub"))
    return found


def table():
    """camel: old name to new, for all files. dashed: (module, old name) to new, for definitions with dashes."""
    names, dashed = {}, {}
    for p in files(".antt"):
        for n, (deep, marks) in declared(read(p)).items():
            if any(camel(w) for w in n.split("-")) or n in CHOSEN:
                names[n] = turned(n)
            elif "/specs/" in p and re.search("unfoldable|abbrev", marks) and not deep and re.match(r"[a-z]\w*-[\w-]+$", n):
                dashed[(module(p), n)] = DASHED.get(n) or n.replace("-", "_")
    for w in LOCALS:
        names[w] = turned(w)
    return names, dashed


def module(p):
    """crates/c/specs/A/B.antt is Rattle.c.specs.A.B."""
    parts = p[:-len(".antt")].split("/")[1:]
    return "Rattle." + ".".join(parts)


def imports(text):
    for m in USE.finditer(text):
        names = []
        for it in m.group(5).split(","):
            it = it.strip()
            if it:
                names.append(it.split(" as ")[0].strip())
        yield m.group(1), m.group(4), names


def local(p, text, dashed):
    """The definitions with dashes that this file declares or imports."""
    own = {n: new for (m, n), new in dashed.items() if p.endswith(".antt") and module(p) == m}
    for q, old, lemma, new in LEMMAS:
        if p == q and re.search(r"(?<![\w'-])" + old + r"(?![\w'-])", text):
            own[lemma] = new
    for m, _, names in imports(text):
        for n in names:
            if (m, n) in dashed:
                own[n] = dashed[(m, n)]
    return own


def renamed(token, names, own):
    new = names.get(token) or own.get(token)
    if new:
        return new
    parts = token.split("-")
    if len(parts) > 1 and any(camel(w) for w in parts):
        return "-".join(names.get(w, w) if camel(w) else w for w in parts)
    return token


def rewrite(text, names, own, keep=()):
    def one(m):
        t = m.group(0)
        trail = ""
        while t and t[-1] in "'-" and renamed(t, names, own) == t and t not in names:
            trail = t[-1] + trail
            t = t[:-1]
        if not t:
            return trail
        if t in own and t not in names and m.start() and text[m.start() - 1] == ".":
            return t + trail
        return renamed(t, names, own) + trail

    return TOKEN.sub(one, text)


# ---- Rust

CLAUSE = re.compile(r"\b(?:requires|ensures|invariant|decreases|modifies)\b\*?(?: \w+)?\s*\{|\bghost\s*(?:use\b[^;]*;|(?:\w+ )?\{|let\b[^;]*;)")


def pieces(text):
    """The text of an .rt file as pieces (what, piece): 'ghost' for clauses and ghost lines, 'comment', 'string', 'code'."""
    i, last, out = 0, 0, []

    def put(what, a, b):
        nonlocal last
        if a > last:
            out.append(("code", text[last:a]))
        out.append((what, text[a:b]))
        last = b

    step = re.compile(r"//[^\n]*|/\*.*?\*/|b?\"(?:[^\"\\]|\\.)*\"|" + CLAUSE.pattern, re.S)
    while True:
        m = step.search(text, i)
        if not m:
            break
        a, b = m.span()
        if text.startswith(("//", "/*"), a):
            put("comment", a, b)
        elif text[b - 1] == '"':
            put("string", a, b)
        elif text[b - 1] == "{":
            deep, j = 1, b
            while deep:
                deep += {"{": 1, "}": -1}.get(text[j], 0)
                j += 1
            b = j
            put("ghost", a, b)
        else:
            put("ghost", a, b)
        i = b
    if last < len(text):
        out.append(("code", text[last:]))
    return out


def rewrite_rt(text, names, own):
    return "".join(rewrite(t, names, own) if w in ("ghost", "comment") else t for w, t in pieces(text))


def functions(text):
    """(name, parameters, the clauses) of each function of an .rt file."""
    bare = "".join(t if w != "comment" else "" for w, t in pieces(text))
    for m in re.finditer(r"\bfn (\w+)", bare):
        i = bare.find("(", m.end())
        deep, j = 1, i + 1
        while deep:
            deep += {"(": 1, ")": -1}.get(bare[j], 0)
            j += 1
        params = re.findall(r"(?:^|[(,])\s*(?:mut )?(\w+)\s*:", bare[i:j])
        k = j
        head = ""
        for w, t in pieces(bare[j:]):
            if w == "code" and ("{" in t or ";" in t):
                break
            head += t if w == "ghost" else ""
        yield m.group(1), params, head


# ---- what is said

def collisions(names, dashed):
    said = []
    back = defaultdict(set)
    for a, b in list(names.items()) + [(a, b) for (_, a), b in dashed.items()]:
        back[b].add(a)
        if b in WORDS:
            said.append(f"word: {a} -> {b}")
    for b, olds in sorted(back.items()):
        if len(olds) > 1:
            said.append(f"two to one: {' '.join(sorted(olds))} -> {b}")
    for p in files(".antt"):
        text = without_comments(read(p))
        own = local(p, read(p), dashed)
        here, stay = set(), defaultdict(list)
        for m in TOKEN.finditer(text):
            t = m.group(0)
            new = renamed(t, names, own)
            if new != t:
                here.add(new)
            else:
                dot = text[m.start() - 1:m.start()] == "."
                line = text[text.rfind("\n", 0, m.start()) + 1:]
                stay[t].append((dot, line.split("\n")[0].strip()))
        for n in sorted(here & set(stay)):
            plain = [l for d, l in stay[n] if not d]
            if plain:
                said.append(f"taken: {n} in {p}: {plain[0][:160]}")
            else:
                said.append(f"dotted: {n} in {p}: {stay[n][0][1][:160]}")
        case = defaultdict(set)
        for n in declared(text):
            new = renamed(n, names, own)
            case[new.lower()].add(new)
        for ns in case.values():
            if len(ns) > 1 and any(turned(n) in here or n in here for n in ns):
                said.append(f"case: {' '.join(sorted(ns))} in {p}")
    for p in files(".rt"):
        text = read(p)
        own = local(p, text, dashed)
        for f, params, head in functions(text):
            for m in TOKEN.finditer(head):
                new = renamed(m.group(0), names, own)
                if new != m.group(0) and new in params:
                    said.append(f"parameter: {new} hides {m.group(0)} in {p}: {f}")
        ghost = " ".join(t for w, t in pieces(text) if w == "ghost")
        stay = {m.group(0) for m in TOKEN.finditer(ghost) if renamed(m.group(0), names, own) == m.group(0)}
        for n in sorted({renamed(m.group(0), names, own) for m in TOKEN.finditer(ghost)} - stay):
            pass
        here = {renamed(m.group(0), names, own) for m in TOKEN.finditer(ghost) if renamed(m.group(0), names, own) != m.group(0)}
        for n in sorted(here & stay):
            said.append(f"taken: {n} in {p} (clauses)")
        for w, t in pieces(text):
            if w == "code":
                for m in TOKEN.finditer(t):
                    if m.group(0) in names:
                        said.append(f"rust: {m.group(0)} in {p} is code, and stays")
                    if m.group(0) in here and re.search(r"\b(let|for|mut) (mut )?" + re.escape(m.group(0)) + r"\b", t):
                        said.append(f"local: {m.group(0)} is bound in {p}")
    return sorted(set(said))


def missing():
    """The imports of our modules that name nothing."""
    have = {module(p): p for p in files(".antt")}
    ours = set(os.listdir("crates"))
    cache, said = {}, []

    def names_of(m, seen=()):
        if m not in cache:
            text = read(have[m])
            d = {n for n, (deep, marks) in declared(text).items() if "pub" in marks or deep}
            # constructors and fields are declared on indented lines; infix names keep their holes
            for u in re.finditer(r"(?m)^pub use (\S+)\.\{([^}]*)\}", text):
                d |= {x.strip().split(" as ")[-1].strip() for x in u.group(2).split(",")}
            cache[m] = d
        return cache[m]

    for p in files(".antt", ".rt", ".edit"):
        text = read(p)
        for m, path, names in imports(text):
            if m.split(".")[1] not in ours or re.match(r"\.(declared|contracts)\b", path) or path.split(".")[-1] in GENERATED or ".TheVariants" in path:
                continue
            if m not in have:
                # a record or a data type is a module of its own, with its fields or constructors
                up, last = m.rsplit(".", 1)
                if up in have and last in names_of(up):
                    m = up
                elif path.split(".")[-1][:1].isupper() or not path:
                    said.append(f"no module {m}: {p}")
                    continue
                else:
                    continue
            for n in names:
                if n not in names_of(m):
                    said.append(f"{m}.{{{n}}}: {p}")
    return sorted(set(said))


def left(names, dashed):
    """Names in camel case that no table turns."""
    said = defaultdict(set)
    for p in files(".antt"):
        for m in TOKEN.finditer(without_comments(read(p))):
            t = m.group(0)
            if any(camel(w) for w in renamed(t, names, {}).split("-")):
                said[t].add(p)
    for p in files(".rt"):
        for w, x in pieces(read(p)):
            if w == "ghost":
                for m in TOKEN.finditer(x):
                    if any(camel(w) for w in renamed(m.group(0), names, {}).split("-")):
                        said[m.group(0)].add(p)
    return [f"{n}: {sorted(ps)[0]}{'' if len(ps) == 1 else f' and {len(ps) - 1} more'}" for n, ps in sorted(said.items())]


def write_table(names, dashed):
    lines = [f"{a} {b}" for a, b in sorted(names.items())] + [f"{a} {b} {m}" for (m, a), b in sorted(dashed.items())]
    with open(TABLE, "w", encoding="utf-8") as f:
        f.write("\n".join(lines) + "\n")


def read_table():
    names = {}
    for line in read(TABLE).splitlines():
        w = line.split()
        names[w[0]] = w[1]
    return names


def docs():
    names = read_table()
    plain = {a: b for a, b in names.items() if any(camel(w) for w in a.split("-"))}
    dashes = {a: b for a, b in names.items() if a not in plain}
    now = {n for p in files(".antt") if not p.endswith("/Proof.antt") for n in declared(read(p))}

    def known(m):
        """In backticks: also what port.py had turned, where the name in today's spelling is declared and the old one is not."""
        t = m.group(0)
        for new in (turned(t), turned(t).replace("-", "_")):
            if t not in now and new in now:
                return new
        return t

    def text(t):
        t = rewrite(t, plain, {})
        return re.sub(r"`[^`\n]+`", lambda m: TOKEN.sub(known, rewrite(m.group(0), plain, dashes)), t)

    said = subprocess.run(["git", "ls-files", "-z", "README.md", "docs", "tools"], stdout=subprocess.PIPE, check=True).stdout.decode()
    n = 0
    for p in said.split("\0"):
        if p.startswith("tools/port/") or not os.path.isfile(p):
            continue
        if p.endswith(".md") and not p.startswith("tools/"):
            old = read(p)
            new = text(old)
        elif p.startswith("tools/") and p.endswith((".py", ".rs", ".sh", ".c")) or p == "tools/check":
            old = read(p)
            mark = r"(?m)(?:^|(?<=\s))//.*$" if p.endswith((".rs", ".c")) else r"(?m)(?:^|(?<=\s))#.*$"
            new = re.sub(mark, lambda m: text(m.group(0)), old)
        else:
            continue
        if new != old:
            n += 1
            with open(p, "w", encoding="utf-8") as f:
                f.write(new)
    print(f"names: {n} files of docs and tools rewritten")


def main(argv):
    if argv == ["--docs"]:
        return docs()
    names, dashed = table()
    if argv == ["--table"]:
        for a, b in sorted(names.items()):
            print(a, b)
        for (m, a), b in sorted(dashed.items()):
            print(a, b, m)
        return
    for l in collisions(names, dashed):
        print(l)
    for l in left(names, dashed):
        print("left: " + l)
    before = missing()
    print(f"names: {len(before)} imports name nothing" + (" before" if not argv else ""))
    if argv == ["--check"]:
        for l in before:
            print("nothing: " + l)
        return
    if argv:
        print(__doc__)
        return 2
    n = 0
    todo = {}
    for p in files(".antt", ".rt", ".edit"):
        old = read(p)
        own = local(p, old, dashed)
        new = rewrite_rt(old, names, own) if p.endswith(".rt") else rewrite(old, names, own)
        if new != old:
            todo[p] = new
    for p, new in todo.items():
        n += 1
        with open(p, "w", encoding="utf-8") as f:
            f.write(new)
    if todo:
        write_table(names, dashed)
    print(f"names: {len(names)} names and {len(dashed)} definitions with dashes; {n} files rewritten")
    for l in missing():
        print("nothing: " + l)


if __name__ == "__main__":
    raise SystemExit(main(sys.argv[1:]) or 0)
