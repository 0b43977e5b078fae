#!/usr/bin/env python3
"""Evaluates the definitions on stored answers of the Rust, by the checker's own computation.

    evaluate.py FILE.. [--most ELEMENTS] [--only REGEX] [--pass PASS].. [--each N] [--result OUT]
                       [--wrong | --edit EDIT.. | --variants]

Each stored call becomes an equation `step call before ≡ (answer, after)`, closed by `refl`: the
checker computes the left side and compares all of it, every place of every buffer included. The
equations are checked in a temporary repository that has the types and definitions of geometry, mesh
and repair and none of their code. One thing differs there: `sqrt` of geometry takes 1586 levels,
and in an older kit 200 of them were more than the steps that one declaration may take. It is replaced by
one of 96 levels, meant to give the same value for arguments below 2 ^ 192 (intake keeps all of them
far under that) and wrong above. So this says nothing about `sqrt`.

A call of `improve` or `smooth` that is too much for the steps of one declaration is cut into parts:
intake, the mesh in the buffers, `improve`'s listed edges and each of its trials, `smooth`'s groups
(where that is too much, a group that stays by its candidates), the end. Each part is again computed
by the checker; the laws in parts.txt (a module of antt, named so since no crate has it) put them
together, and the last line is the same equation about `step`. What stands between the parts is
proposed by between.py.

A call is EQUAL, equal in PARTS, DIFFERS, or ran out of steps (LIMIT), which says nothing about it. The
exit status is 1 where one differs. At the end stands a table: the calls of each pass by answer, with the
verdicts, and how many of the equal ones change a buffer.

Whether the equations can tell: `--wrong` claims a count, or a number of a refusal, one higher than the
stored one, and every call must differ. `--edit` makes a change in the copy of the definitions, a file in
the form of a must-fail edit (`file:` from the crates folder on): what then differs tells the wrong
definition from the right one. `--variants` makes each edit of tools/evaluate/wrong by itself and
evaluates the call that its line `call:` names, which must differ.
"""
import argparse
import json
import re
import shutil
import subprocess
import sys
import tempfile
import time
from collections import Counter
from pathlib import Path

import between

HOME = Path(__file__).resolve().parents[2]
CRATES = {"geometry": [], "mesh": ["geometry"], "repair": ["geometry", "mesh"]}
BUFFERS = ["parameters", "points", "masks", "elements", "surface"]
PASSES = ["improve", "smooth", "flip"]
VERDICTS = ["EQUAL", "PARTS", "DIFFERS", "LIMIT"]
IEEE = "add sub mul div neg lt eq le of_int is_nan".split()

# ---- reading: the form is told in the first lines of the file


class Words:
    def __init__(self, text):
        lines = (line for line in text.splitlines() if not line.startswith("#"))
        self.rest = iter(" ".join(lines).split())

    def word(self):
        return next(self.rest)

    def number(self):
        return int(self.word())

    def numbers(self, n):
        return [self.number() for _ in range(n)]

    def bits(self, n):
        return [int(self.word(), 16) for _ in range(n)]

    def named(self, name):
        word = self.word()
        if word != name:
            raise ValueError(f"{name} expected, not {word}")
        return self

    def places(self, buffer):
        n = self.named(buffer).number()
        return self.bits(n) if buffer in ("parameters", "points", "masks") else self.numbers(n)


def read_call(w):
    call = {"pass": w.named("call").number(), "box": w.named("box").bits(6)}
    call["cells"] = w.named("cells").numbers(3)
    call["periodic"] = w.named("periodic").number()
    call["passes"] = w.named("passes").number()
    call["count"] = w.named("fields").number()
    call["fields"] = [(w.number(), w.bits(4)) for _ in range(min(call["count"], 8))]
    call["regions"] = w.bits(w.number()) if w.named("regions").number() else None
    call["work"] = w.named("work").numbers(2)
    return call


def read_answer(w, state):
    """The answer, a number or count and sizes, and the buffers after it."""
    number = w.named("answer").number()
    if number:
        return number, state
    answer = w.numbers(4)
    after = {"sizes": answer[1:]}
    for buffer in BUFFERS:
        front = w.places(buffer)
        after[buffer] = front + state[buffer][len(front):]
    return answer, after


def stored(text):
    w = Words(text)
    for _ in range(len(re.findall(r"^case ", text, re.M))):
        name = w.named("case").word()
        state = {"sizes": w.named("sizes").numbers(3)}
        state |= {buffer: w.places(buffer) for buffer in BUFFERS}
        for k in range(w.named("calls").number()):
            call = read_call(w)
            answer, after = read_answer(w, state)
            yield f"{name}/{k}", call, state, answer, after
            state = after


# ---- writing


def fl(bits):
    """An f64 as `Rattle.std.specs.Float` writes it, with an odd significand."""
    sign = "true" if bits >> 63 else "false"
    field, digits = bits >> 52 & 0x7FF, bits & (1 << 52) - 1
    if field == 0x7FF:
        return "nan" if digits else f"(inf {sign})"
    m, e = (digits | 1 << 52, field - 1075) if field else (digits, -1074)
    if m == 0:
        return f"(fin {sign} 0 (pos 0))"
    while m % 2 == 0:
        m, e = m // 2, e + 1
    return f"(fin {sign} {m} ({f'pos {e}' if e >= 0 else f'negsuc {-e - 1}'}))"


def items(xs):
    return "(" + "".join(f"{x} ∷ " for x in xs) + "[])"


def record(**fields):
    return "(record { " + "; ".join(f"{k} = {v}" for k, v in fields.items()) + " })"


def point(bits):
    return record(**dict(zip("xyz", map(fl, bits))))


def sizes(s):
    return record(vertices=s[0], elements=s[1], triples=s[2])


def field(kind, f):
    return [f"(Level {fl(f[0])})", f"(Plane {point(f[:3])} {fl(f[3])})", f"(Ball {point(f[:3])} {fl(f[3])})"][kind]


def call_text(c):
    options = record(
        bounds=record(lo=point(c["box"][0::2]), hi=point(c["box"][1::2])),
        cells=record(**dict(zip("xyz", c["cells"]))),
        periodic=c["periodic"],
        passes=c["passes"],
    )
    regions = "none" if c["regions"] is None else f"(some {items(c['regions'])})"
    return record(**{"pass": f"Pass.{PASSES[c['pass']]}"}, options=options, fields=items(field(*f) for f in c["fields"]),
                  count=c["count"], regions=regions, words=c["work"][0], floats=c["work"][1])


def state_text(s):
    show = {b: items(map(fl if b in ("parameters", "points") else str, s[b])) for b in BUFFERS}
    return record(**show, sizes=sizes(s["sizes"]))


def answer_text(a):
    return f"Refused {a}" if isinstance(a, int) else f"Done {a[0]} {sizes(a[1:])}"


HEAD = """-- Stored answers of the Rust as equations about the definitions.
use Rattle.std.specs.Prelude.{◌≡◌, true, false, List, [], ◌∷◌, pos, negsuc}
use Rattle.std.proofs.Math.Option.{none, some}
use Rattle.std.specs.Float.{nan, inf, fin}
use mathlib.Core.Path.{refl}
use Rattle.geometry.specs.declared.field.Field.TheVariants.{Level, Plane, Ball}
use Rattle.repair.specs.Step.{Done, Refused}
use Rattle.repair.specs.Step.{State, Call, Pass, step}

"""


def equation(k, opened, call, state, answer, after):
    return f"""call{k} : Call
call{k} = {call_text(call)}

before{k} : State
before{k} = {state_text(state)}

after{k} : State
after{k} = {state_text(after)}

case{k} : step call{k} before{k} ≡ ({answer_text(answer)}, after{k})
unfolding call{k} before{k} after{k} {opened}
case{k} = refl

"""


# ---- in parts: the same equation, put together by the laws of parts.txt from equations of parts

PARTS_HEAD = """use Rattle.std.specs.Prelude.{ℕ, cond, eqb, take}
use Rattle.geometry.specs.Bounds.{spacing}
use Rattle.mesh.specs.declared.element.Pair.{Pair}
use Rattle.mesh.specs.Group.{groups}
use Rattle.mesh.specs.Intake.{intake}
use Rattle.mesh.specs.Measure.{measure}
use Rattle.repair.specs.Mesh.{Mesh, Result, made, refused}
use Rattle.repair.specs.Improve
use Rattle.repair.specs.Smooth
use Rattle.repair.specs.Step.{mesh_of, given, lengths_of, result_of, finish}
use Rattle.cases.proofs.Parts.{step-by, edges-none, edges-on, round-by, rounds-none, rounds-on, rounds-end, improve-by}
use Rattle.cases.proofs.Parts.{candidates_of, unmoved, tried_one, passed-none, passed-on, stays, groups-none, groups-on, smooth-by}

"""


def row(xs):
    return record(**dict(zip("abcd", xs)))


def points_text(buffer, n):
    return items(point(buffer[3 * v : 3 * v + 3]) for v in range(n))


def mesh_text(s):
    nv, ne, nt = s["sizes"]
    return record(
        parameters=points_text(s["parameters"], nv),
        points=points_text(s["points"], nv),
        masks=items(s["masks"][:nv]),
        elements=items(map(row, between.rows(s["elements"], ne, 4))),
        surface=items(map(row, between.rows(s["surface"], nt, 3))),
    )


class Parts:
    """The text of one call in parts. Every part is computed (`refl`); the rest is put together."""

    def __init__(self, opened):
        self.opened, self.values, self.text = opened, [], ""

    def value(self, name, type, value):
        self.values.append(name)
        self.text += f"{name} : {type}\n{name} = {value}\n\n"

    def fact(self, name, statement, proof="refl"):
        opened = f" {self.opened}" if proof == "refl" else ""
        self.text += f"{name} : {statement}\nunfolding {' '.join(self.values)}{opened}\n{name} = {proof}\n\n"

    def improve(self, call, state):
        """Round by round: the edges that it lists, and each of them tried."""
        scores = "(measure mesh0.points)"
        all_of = f"call0.options mesh0 {scores}"
        trace = between.Improve(call, state)
        names = {}

        def at(s):
            key = str(s)
            if key not in names:
                names[key] = f"state{len(names)}"
                self.value(names[key], "Improve.State", record(elements=items(map(row, s[0])), replaced=items(s[1])))
            return names[key]

        first, rounds = at(trace.start), trace.rounds()
        for r, (edges, states) in enumerate(rounds):
            now, then = at(states[0]), at(states[-1])
            self.value(f"edges{r}", "List Pair", items(map(row, edges)))
            self.fact(f"listed{r}", f"Improve.listed_edges {scores} (spacing call0.options) {now}.elements ≡ edges{r}")
            chain = f"edges-none {all_of} {then}"
            for j, e in enumerate(edges):
                self.fact(f"tried{r}-{j}", f"Improve.try_edge {all_of} {at(states[j])} {row(e)} ≡ {at(states[j + 1])}")
            for j in reversed(range(len(edges))):
                others = items(map(row, edges[j + 1 :]))
                chain = f"edges-on {all_of} {at(states[j])} {row(edges[j])} {others} tried{r}-{j} ({chain})"
            self.fact(f"tries{r}", f"Improve.try_edges {all_of} {now} edges{r} ≡ {then}", chain)
            self.fact(f"round{r}", f"Improve.round {all_of} {now} ≡ {then}", f"round-by {all_of} {now} listed{r} tries{r}")
        last = at(rounds[-1][1][-1]) if rounds else first
        chain = f"rounds-none {all_of} {last}"
        for r, (_, states) in reversed(list(enumerate(rounds))):
            if len(states[0][1]) == len(states[-1][1]):
                chain = f"rounds-end {all_of} {call['passes'] - r - 1} {at(states[0])} round{r} refl"
            else:
                chain = f"rounds-on {all_of} {call['passes'] - r - 1} {at(states[0])} round{r} refl ({chain})"
        self.fact("rounds-are", f"Improve.rounds {all_of} {call['passes']} {first} ≡ {last}", chain)
        self.fact("mesh-made", f"Improve.renumbered mesh0 {last}.elements ≡ mesh1")
        self.fact("number-made", "Improve.end_number mesh1 ≡ 0")
        return "Improve.improve call0.options mesh0", "improve-by call0.options mesh0 rounds-are mesh-made number-made refl"

    def smooth(self, call, state, after, by_candidates):
        """Group by group; if asked, one that stays though its score is low candidate by candidate."""
        all_of = "call0.options (take call0.count call0.fields) call0.regions mesh0"
        groups, states = between.smooth_groups(call, state, after)
        n = state["sizes"][0]
        self.value("groups0", "List (List ℕ)", items(map(items, groups)))
        self.fact("groups-are", "groups call0.options mesh0.parameters ≡ groups0")
        for i, (parameters, points, moved) in enumerate(states):
            text = record(parameters=points_text(parameters, n), points=points_text(points, n), moved=moved)
            self.value(f"state{i}", "Smooth.State", text)
        chain = f"groups-none {all_of} state{len(groups)}"
        for i, g in enumerate(groups):
            statement = f"Smooth.smooth_group {all_of} state{i} {items(g)} ≡ state{i + 1}"
            tries = by_candidates and states[i] == states[i + 1] and between.is_low(state, states[i][1], g)
            self.fact(f"moved{i}", statement, self.stays(all_of, i, g, call, state, states[i][0]) if tries else "refl")
        for i in reversed(range(len(groups))):
            chain = f"groups-on {all_of} state{i} {items(groups[i])} {items(map(items, groups[i + 1 :]))} moved{i} ({chain})"
        self.fact("groups-end", f"Smooth.smooth_groups {all_of} state0 groups0 ≡ state{len(groups)}", chain)
        return f"Smooth.smooth {all_of}", f"smooth-by {all_of} groups-are groups-end refl"

    def stays(self, all_of, i, g, call, state, parameters):
        cs = [point(map(between.bits, c)) for c in between.candidates(call, state, parameters, g[0])]
        at = f"state{i} {g[0]} {items(g)} (unmoved {all_of} state{i} {items(g)})"
        self.fact(f"candidates{i}", f"candidates_of {all_of} state{i} {g[0]} ≡ {items(cs)}")
        chain = f"passed-none {all_of} {at}"
        for j, c in enumerate(cs):
            self.fact(f"passed{i}-{j}", f"tried_one {all_of} {at} {c} ≡ unmoved {all_of} state{i} {items(g)}")
        for j in reversed(range(len(cs))):
            chain = f"passed-on {all_of} {at} {cs[j]} {items(cs[j + 1 :])} passed{i}-{j} ({chain})"
        return f"stays {all_of} state{i} {g[0]} {items(g[1:])} candidates{i} ({chain})"


def in_parts(opened, by_candidates, call, state, answer, after):
    """The equation of a call of `improve` or `smooth` that gives a count, in parts."""
    p = Parts(opened)
    p.value("call0", "Call", call_text(call))
    p.value("before0", "State", state_text(state))
    p.value("after0", "State", state_text(after))
    p.value("mesh0", "Mesh", mesh_text(state))
    p.value("mesh1", "Mesh", mesh_text(after))
    p.fact("intake-is", "intake (given (lengths_of call0 before0) call0 before0) ≡ 0")
    p.fact("mesh-is", "mesh_of before0 ≡ mesh0")
    left, proof = p.improve(call, state) if PASSES[call["pass"]] == "improve" else p.smooth(call, state, after, by_candidates)
    p.fact("pass-is", f"{left} ≡ made {answer[0]} mesh1", proof)
    p.text += f"""result-is : cond (eqb 0 0) (result_of call0.pass call0 mesh0) (refused 0) ≡ made {answer[0]} mesh1
unfolding call0 Rattle.repair.specs.Step.result_of
result-is = pass-is

"""
    p.fact("finish-is", f"finish before0 (made {answer[0]} mesh1) ≡ ({answer_text(answer)}, after0)")
    p.text += f"""case0 : step call0 before0 ≡ ({answer_text(answer)}, after0)
case0 = step-by call0 before0 intake-is mesh-is result-is finish-is
"""
    return HEAD.rstrip("\n") + "\n" + PARTS_HEAD + p.text


# ---- the temporary repository

QUICK = """-- the whole root of a / d * 4 ^ l, and 1 / 2 more where it isn't exact
unfoldable pub quick : ℕ → ℕ → ℕ → Float
unfolding isqrt round
quick a d l = let r = isqrt 96 (a * 4 ^ l / d) in round binary64 false (2 * r + cond (r * r * d == a * 4 ^ l) 0 1) (2 ^ (l + 1))

unfoldable pub sqrt : Float → Float
unfolding quick size
sqrt nan = nan
sqrt (inf false) = inf false
sqrt (inf true) = nan
sqrt (fin s zero e) = fin s zero e
sqrt (fin true (suc m) e) = nan
sqrt (fin false (suc m) e) = quick (suc m * up e) (down e) ((size (down e) + 122 - size (suc m * up e)) / 2)
"""


TYPE = re.compile(r"^(?:pub(?:\(crate\))? )?(?:struct|enum) (?:[^\n{]*;\n|.*?^}\n)", re.M | re.S)


def types_only(text):
    """The struct and enum declarations of a source file, and the types that they use; nothing where there are none."""
    types = TYPE.findall(text)
    uses = []
    for path, name, names in re.findall(r"^use ((?:\w+::)+)(?:(\w+)|\{([^}]*)\});", text, re.M):
        uses += [f"use {path}{n};\n" for n in re.findall(r"\w+", name or names) if n[0].isupper() and re.search(rf"\b{n}\b", "".join(types))]
    if any(re.search(r"^    (?:pub )?ghost ", t, re.M) for t in types):
        uses = re.findall(r"^ghost use .*;\n", text, re.M) + uses
    return "".join(uses + types) if types else ""


def copy_crate(name, to):
    shutil.copytree(HOME / "crates" / name / "specs", to / "specs")
    home = HOME / "crates" / name / "src"
    modules = {home / "lib.rt": ""}
    for file in sorted(home.rglob("*.rt")):
        text = types_only(file.read_text())
        if file != home / "lib.rt" and text:
            modules[file] = text
            if file.parent != home:
                modules.setdefault(file.parent.with_suffix(".rt"), "")
    for file, text in modules.items():
        folder = home if file == home / "lib.rt" else file.with_suffix("")
        inner = "#![tactic(auto)]\n" * (folder == home) + "".join(f"pub mod {f.stem};\n" for f in sorted(modules) if f.parent == folder and f.name != "lib.rt")
        there = to / "src" / file.relative_to(home)
        there.parent.mkdir(parents=True, exist_ok=True)
        there.write_text(inner + text)


def edit_words(edit):
    return dict(line.split(": ", 1) for line in edit.read_text().splitlines() if ": " in line)


def change(crates, edit):
    """Makes an edit: `old`, which stands once in the file, replaced by `new`."""
    words = edit_words(edit)
    file = crates / words["file"]
    text = file.read_text()
    if text.count(words["old"]) != 1:
        sys.exit(f"{edit}: `old` stands {text.count(words['old'])} times in {words['file']}")
    file.write_text(text.replace(words["old"], words["new"]))


def quicken(root):
    text = root.read_text()
    text = text[: text.index("-- squareRoot")] + QUICK
    text = text.replace("up, down, round}", "up, down, size, round}")
    root.write_text(text)


def opened():
    """Every definition that opens on demand."""
    names = [f"Rattle.std.specs.Float.Ieee.{n}" for n in IEEE]
    for crate in CRATES:
        for file in sorted((HOME / "crates" / crate / "specs").glob("*.antt")):
            for name in re.findall(r"^ *unfoldable pub (\S+)", file.read_text(), re.M):
                names.append(f"Rattle.{crate}.specs.{file.stem}.{name}")
    return " ".join(names)


def make(folder, edits):
    for crate in CRATES:
        copy_crate(crate, folder / "crates" / crate)
    quicken(folder / "crates/geometry/specs/Root.antt")
    for edit in edits:
        change(folder / "crates", edit)
    cases = folder / "crates/cases"
    (cases / "src").mkdir(parents=True)
    (cases / "proofs").mkdir()
    (cases / "src/lib.rt").write_text("// Equations only.\n#![tactic(auto)]\n")
    (cases / "proofs/Lib.antt").write_text("pub mod Cases\n")
    lines = [f"{crate}: {' '.join(deps)}" for crate, deps in CRATES.items()] + [f"cases: {' '.join(CRATES)}"]
    (folder / "crates.txt").write_text("\n".join(lines) + "\n")
    return cases / "proofs/Cases.antt"


def check(folder):
    """What `rt check` says of the equations: its status, the name and the text of each error, and all of it."""
    run = subprocess.run(["rt", "check"], cwd=folder / "crates/cases", capture_output=True, text=True)
    text = run.stdout + run.stderr
    return run.returncode, re.findall(r"error: (?:`([^`]*)`: )?(.*)", text), text


def verdicts(folder, file, names, group):
    file.write_text(HEAD + "".join(equation(k, names, *one[1:]) for k, one in enumerate(group)))
    status, errors, text = check(folder)
    said = dict(errors)
    # nothing is taken for equal where something else went wrong than an equation
    if bool(status) != bool(said) or not set(said) <= {f"case{k}" for k in range(len(group))}:
        sys.exit(text)
    for k, one in enumerate(group):
        error = said.get(f"case{k}")
        if error is None:
            yield "EQUAL"
        elif "step limit" not in error:
            yield "DIFFERS"
        else:
            yield verdict_in_parts(folder, file, names, one)


def verdict_in_parts(folder, file, names, one):
    """PARTS where the equation is put together from its parts. A part that is refused may have been proposed wrongly: that says nothing
    about the call."""
    _, call, _, answer, _ = one
    ways = {"improve": [False], "smooth": [False, True], "flip": []}[PASSES[call["pass"]]]
    laws, lib = file.with_name("Parts.antt"), file.with_name("Lib.antt")
    shutil.copy(HOME / "tools/evaluate/parts.txt", laws)
    lib.write_text("pub mod Parts\npub mod Cases\n")
    verdict = "LIMIT"
    for by_candidates in [] if isinstance(answer, int) else ways:
        file.write_text(in_parts(names, by_candidates, *one[1:]))
        if check(folder)[0] == 0:
            verdict = "PARTS"
            break
    laws.unlink()
    lib.write_text("pub mod Cases\n")
    return verdict


# ---- what was evaluated


def kind(answer):
    return "refused" if isinstance(answer, int) else "count above 0" if answer[0] else "count 0"


def one_more(answer):
    return answer + 1 if isinstance(answer, int) else [answer[0] + 1] + answer[1:]


def table(done):
    """The calls of each pass by answer: verdicts, and how many that were found equal change a buffer."""
    for p, name in enumerate(PASSES):
        for k in ["count above 0", "count 0", "refused"]:
            rows = [(c, v) for c, v in done if c[1]["pass"] == p and kind(c[3]) == k]
            if rows:
                said = Counter(v for _, v in rows)
                changed = sum(c[2] != c[4] for c, v in rows if v in ("EQUAL", "PARTS"))
                counts = ", ".join(f"{said[v]} {v}" for v in VERDICTS)
                yield f"{name}, {k}: {len(rows)}; {counts}; equal and changed {changed}"


def evaluate(calls, each, edits=()):
    """The calls with their verdicts, and the seconds that a call took."""
    with tempfile.TemporaryDirectory() as name:
        folder = Path(name)
        file, names = make(folder, edits), opened()
        for i in range(0, len(calls), each):
            group = calls[i : i + each]
            start = time.monotonic()
            said = list(verdicts(folder, file, names, group))
            seconds = (time.monotonic() - start) / len(group)
            yield from ((one, verdict, seconds) for one, verdict in zip(group, said))


def variants(calls, each, only):
    """Each wrong variant of the definitions on the call that its edit names; is there one that does not differ."""
    missed = 0
    for edit in sorted(e for e in (HOME / "tools/evaluate/wrong").glob("*.edit") if re.search(only, e.stem)):
        named = [c for c in calls if c[0] == edit_words(edit)["call"]]
        said = [verdict for _, verdict, _ in evaluate(named, each, [edit])]
        missed += said != ["DIFFERS"]
        print(*said, edit.stem, edit_words(edit)["call"], flush=True)
    return missed > 0


def main():
    parser = argparse.ArgumentParser(description=__doc__, formatter_class=argparse.RawDescriptionHelpFormatter)
    parser.add_argument("file", type=Path, nargs="+")
    parser.add_argument("--most", type=int, default=2, help="calls on at most this many elements (2)")
    parser.add_argument("--only", default="", help="calls whose name CASE/NUMBER has this, or variants")
    parser.add_argument("--pass", dest="passes", choices=PASSES, action="append", help="calls of this pass (all three)")
    parser.add_argument("--each", type=int, default=8, help="equations a check (8)")
    parser.add_argument("--result", type=Path, help="append a line of JSON for each call to this file")
    parser.add_argument("--edit", type=Path, action="append", default=[], help="a change of the definitions")
    parser.add_argument("--wrong", action="store_true", help="claim a count or a number one higher than the stored one")
    parser.add_argument("--variants", action="store_true", help="evaluate each edit of tools/evaluate/wrong on its call")
    args = parser.parse_args()
    calls = [c for file in args.file for c in stored(file.read_text())]
    # a kind that no `Field` has is refused where the field is made, before a pass is called
    calls = [c for c in calls if all(kind < 3 for kind, _ in c[1]["fields"])]
    if args.variants:
        sys.exit(variants(calls, args.each, args.only))
    calls = [c for c in calls if c[2]["sizes"][1] <= args.most and re.search(args.only, c[0])]
    calls = [c for c in calls if PASSES[c[1]["pass"]] in (args.passes or PASSES)]
    if args.wrong:
        calls = [(name, call, state, one_more(answer), after) for name, call, state, answer, after in calls]
    done = []
    for one, verdict, seconds in evaluate(calls, args.each, args.edit):
        name, call, state, answer, after = one
        done.append((one, verdict))
        print(verdict, name, PASSES[call["pass"]], "elements", state["sizes"][1], "answer", answer, flush=True)
        if args.result:
            line = {"verdict": verdict, "name": name, "answer": answer, "elements": state["sizes"][1]}
            line |= {"changed": state != after, "seconds": round(seconds, 1)}
            line |= {k: call[k] for k in ("pass", "periodic", "count", "regions")}
            with args.result.open("a") as out:
                out.write(json.dumps(line) + "\n")
    print(*table(done), sep="\n")
    count = Counter(verdict for _, verdict in done)
    print(", ".join(f"{count[verdict]} {verdict}" for verdict in VERDICTS))
    sys.exit(1 if count["DIFFERS"] else 0)


if __name__ == "__main__":
    main()
