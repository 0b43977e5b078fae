#!/usr/bin/env python3
"""Stored calls of the passes worked out once more, from document 01 with Python's floats and fractions: neither the Rust nor the port is asked.

Run in the repository's folder:  python3 tools/replay/expected.py [FILE..]
Without FILE it reads crates/replay/data/passes.txt, whose head states the form. Left out are calls that intake refuses with 10 to 15; of `improve`
and `smooth` also those with a vertex that is on the box, shares its rank with another, or has parameters other than its point; of `improve` those
with a mask other than 0, of `smooth` those with a vertex on two fields. The answer and every place of every buffer are compared. A line for each
pass says how many calls agree, differ and are left out. The names of those that differ come before, and then the status is 1.

Where document 01 leaves an answer free, docs/DECISIONS.md says what is taken.
"""
import itertools
import math
import sys

sys.dont_write_bytecode = True
sys.path[:0] = ["tools", "tools/evaluate"]
from document import boundary_keys, boundary_number, determinant, faces_of, field, flat, manifold, rank, root, rows, score, spacing  # noqa: E402
from evaluate import BUFFERS, PASSES, stored  # noqa: E402
from vectors import dot, of, sub  # noqa: E402


def distance(p, q):
    d = sub(q, p)
    return root(dot(d, d))


class Given:
    """What a call is given, in floats."""

    def __init__(self, call, state):
        nv, ne, nt = self.sizes = state["sizes"]
        box = [of(b) for b in call["box"]]
        self.lo, self.hi, self.rounds = box[::2], box[1::2], call["passes"]
        self.h = spacing(self.lo, self.hi, call["cells"])
        self.fields = [(kind, [of(b) for b in numbers]) for kind, numbers in call["fields"]]
        self.regions = call["regions"]
        self.parameters, self.points = ([[of(b) for b in p] for p in rows(state[name][: 3 * nv], 3)] for name in BUFFERS[:2])
        self.masks = state["masks"][:nv]
        self.tets, self.surface = ([tuple(r) for r in rows(state[name][: n * w], w)] for name, n, w in (("elements", ne, 4), ("surface", nt, 3)))

    def ranks(self):
        return [[rank(p[a], self.lo[a], self.hi[a], False) for a in range(3)] for p in self.points]

    def is_plain(self):
        """Whether each vertex is alone in its group, off the box, and its point is its parameters."""
        apart = len({tuple(r) for r in self.ranks()}) == len(self.points)
        inside = all(self.lo[a] < p[a] < self.hi[a] for p in self.points for a in range(3))
        return apart and inside and self.parameters == self.points

    def active(self, v):
        return [f for j, f in enumerate(self.fields) if self.masks[v] >> j & 1]


def surface_of(tets):
    return sorted(same[0] for same in faces_of(tets).values() if len(same) == 1)


# `improve`


def link(simplices, s):
    """The simplices that are apart from s and span one of the complex with it."""
    found = set()
    for t in simplices:
        if set(s) <= set(t):
            rest = set(t) - set(s)
            found |= {c for n in range(1, len(rest) + 1) for c in itertools.combinations(sorted(rest), n)}
    return found


def links_meet(simplices, a, b):
    return link(simplices, [a]) & link(simplices, [b]) == link(simplices, [a, b])


def collapsed(points, tets, a, b):
    """The elements after a goes into b, or None. All strata are empty."""
    about = [t for t in tets if a in t or b in t]
    if not any(a in t and b in t for t in about) or not links_meet(tets, a, b) or not links_meet(boundary_keys(tets), a, b):
        return None
    kept = [tuple(b if v == a else v for v in t) for t in about if not (a in t and b in t)]
    old, new = ([score([points[v] for v in t]) for t in part] for part in (about, kept))
    if any(not determinant([points[v] for v in t]) > 0 for t in kept):
        return None
    if any(s + 1e-12 < min(old + [0.1]) for s in new):
        return None
    fewer = sum(s < 0.1 for s in new) < sum(s < 0.1 for s in old)
    if not fewer and not min(new + [1.0]) > 1.001 * min(old):
        return None
    return [tuple(b if v == a else v for v in t) for t in tets if not (a in t and b in t)]


def one_round(g, tets):
    """The elements after a round, and how many vertices it replaced."""
    bad = [t for t in tets if score([g.points[v] for v in t]) < 0.1]
    edges = {tuple(sorted(e)) for t in bad for e in itertools.combinations(t, 2)}
    listed = sorted((distance(g.points[a], g.points[b]), a, b) for a, b in edges)
    replaced = set()
    for length, a, b in listed:
        for u, v in ((a, b), (b, a)):
            made = None if length >= 0.75 * g.h or replaced & {a, b} else collapsed(g.points, tets, u, v)
            if made is not None:
                tets = made
                replaced.add(u)
    return tets, len(replaced)


def improved(g):
    tets, count = g.tets, 0
    for _ in range(g.rounds):
        tets, more = one_round(g, tets)
        count += more
        if not more:
            break
    if boundary_number(tets) or not manifold(tets):
        return boundary_number(tets) or 22, {}
    order = list(dict.fromkeys(flat(tets)))
    tets = [tuple(order.index(v) for v in t) for t in tets]
    points, surface = flat(g.points[v] for v in order), flat(surface_of(tets))
    made = {"parameters": points, "points": points, "masks": [0] * len(order), "elements": flat(tets), "surface": surface}
    return [count, len(order), len(tets), len(surface) // 3], made


# `smooth`


def projected(g, p, active):
    """The candidate p brought onto the active field, of which there is at most one, or None."""
    extent = max(g.hi[a] - g.lo[a] for a in range(3))
    for _ in range(12 if active else 0):
        value, gradient = field(*active[0], p)
        if value == 0:
            return p
        size = root(dot(gradient, gradient))
        if size == 0 or not math.isfinite(size) or not math.isfinite(value):
            return None
        gradient, value = [x / size for x in gradient], value / size
        if abs(value) < 1e-12 * extent:
            return p
        square = dot(gradient, gradient)
        if abs(square) < 2**-46:
            return None
        p = [p[a] - gradient[a] * (value / square) for a in range(3)]
    return None if active else p


def outside(g, p):
    """Whether p is in no region; without a list of regions, whether some field is positive there."""
    masks = [2**32 - 1] if g.regions is None else g.regions
    return all(any(m >> j & 1 and field(*f, p)[0] > 1e-9 for j, f in enumerate(g.fields)) for m in masks)


def candidates(g, points, v):
    near = sorted({u for t in g.tets if v in t for u in t} - {v})
    sums = points[near[0]]
    for u in near[1:]:
        sums = [sums[a] + points[u][a] for a in range(3)]
    way = sub([x / float(len(near)) for x in sums], points[v])
    found = [[points[v][a] + alpha * way[a] for a in range(3)] for alpha in (1.0, 0.5, 0.25)]
    for axis in range(3):
        for step in (-0.15, 0.15):
            found.append([points[v][a] + step * g.h if a == axis else points[v][a] for a in range(3)])
    return found


def chosen(g, points, v):
    """Where the vertex v goes, or None."""
    about = [t for t in g.tets if v in t]
    best, taken = min([1.0] + [score([points[u] for u in t]) for t in about]), None
    for c in candidates(g, points, v) if best < 0.15 else []:
        p = projected(g, c, g.active(v))
        if p is None or any(not g.lo[a] <= p[a] <= g.hi[a] for a in range(3)) or distance(points[v], p) > 0.5 * g.h:
            continue
        if g.active(v) and outside(g, p):
            continue
        new = [[p if u == v else points[u] for u in t] for t in about]
        lowest = min([1.0] + [score(t) for t in new])
        if all(determinant(t) > 0 for t in new) and lowest > best + 1e-10:
            best, taken = lowest, p
    return taken


def smoothed(g):
    points, moved, ranks = list(g.points), 0, g.ranks()
    for v in sorted(range(len(points)), key=lambda v: ranks[v]):
        taken = chosen(g, points, v)
        if taken is not None:
            points[v] = taken
            moved += 1
    return [moved, *g.sizes], {"parameters": flat(points), "points": flat(points)}


# `flip`


def replacement(points, old, new):
    """The new elements, each turned so that its determinant is above 0, or None where they may not replace the old ones."""
    made, volume, old_volume = [], 0.0, 0.0
    for t in old:
        old_volume += determinant([points[v] for v in t])
    for a, b, c, d in new:
        det = determinant([points[v] for v in (a, b, c, d)])
        if det == 0:
            return None
        made.append((a, b, d, c) if det < 0 else (a, b, c, d))
        volume += abs(det)
    before, after = ([score([points[v] for v in t]) for t in part] for part in (old, made))
    if not min([1.0] + after) > min([1.0] + before) + 1e-10:
        return None
    if sum(s < 0.1 for s in after) > sum(s < 0.1 for s in before):
        return None
    return made if abs(volume - old_volume) <= old_volume * 1e-10 else None


def flipped(g):
    live = dict(enumerate(g.tets))  # by number, in the order of making
    bad = [t for t in g.tets if score([g.points[v] for v in t]) < 0.1]
    flips = 0

    def having(vertices):
        return [i for i in live if set(vertices) <= set(live[i])]

    def change(numbers, new):
        made = replacement(g.points, [live[i] for i in numbers], new)
        if made is None:
            return 0
        first = max(live) + 1
        for i in numbers:
            del live[i]
        live.update(enumerate(made, first))
        return 1

    for u, v, w in sorted({tuple(sorted(f)) for t in bad for f in itertools.combinations(t, 3)}):
        pair = [i for i, t in enumerate(g.tets) if {u, v, w} <= set(t)]
        if len(pair) == 2 and all(i in live for i in pair):
            a, b = (next(x for x in g.tets[i] if x not in (u, v, w)) for i in pair)
            if not having([a, b]):
                flips += change(pair, [(a, b, u, v), (a, b, v, w), (a, b, w, u)])
    for a, b in sorted({tuple(sorted(e)) for t in bad for e in itertools.combinations(t, 2)}):
        about = having([a, b])
        others = sorted({x for i in about for x in live[i]} - {a, b})
        if len(about) == 3 and len(others) == 3 and not having(others):
            flips += change(about, [(*others, a), (*others, b)])
    left = list(live.values())
    if boundary_number(left):
        return boundary_number(left), {}
    if sorted(boundary_keys(left)) != sorted(tuple(sorted(f)) for f in g.surface):
        return 23, {}
    surface = surface_of(left)
    return [flips, len(g.points), len(left), len(surface)], {"elements": flat(left), "surface": flat(surface)}


# The stored calls


def worked_out(call, state):
    """The answer and the places written, or None where the call is left out."""
    g, name = Given(call, state), PASSES[call["pass"]]
    if name != "flip" and not g.is_plain():
        return None
    if name == "improve" and any(g.masks) or name == "smooth" and any(len(g.active(v)) > 1 for v in range(g.sizes[0])):
        return None
    if boundary_number(g.tets):
        return boundary_number(g.tets), {}
    return {"improve": improved, "smooth": smoothed, "flip": flipped}[name](g)


def values(name, buffer):
    return [of(b) for b in buffer] if name in BUFFERS[:2] else list(buffer)


def agrees(made, state, answer, after):
    given, written = made
    for name in BUFFERS:
        front = written.get(name, [])
        # past the places written stands what stood there, patterns of NaN included
        if front != values(name, after[name][: len(front)]) or state[name][len(front) :] != after[name][len(front) :]:
            return False
    return given == answer


def main():
    tally = {name: [0, 0, 0] for name in PASSES}
    for file in sys.argv[1:] or ["crates/replay/data/passes.txt"]:
        for name, call, state, answer, after in stored(open(file).read()):
            made = None if answer in range(10, 16) else worked_out(call, state)
            k = 2 if made is None else 0 if agrees(made, state, answer, after) else 1
            tally[PASSES[call["pass"]]][k] += 1
            if k == 1:
                print("differs", name)
    for name, (agree, differ, left) in tally.items():
        print(f"{name}: agree {agree}, differ {differ}, left out {left}")
    sys.exit(any(differ for _, differ, _ in tally.values()))


if __name__ == "__main__":
    main()
