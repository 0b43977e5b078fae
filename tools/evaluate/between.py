"""What stands between the start and the end of a pass, worked out with Python's floats.

evaluate.py needs it only where a call is too much for one equation and has to be cut into several. These
are proposals: each becomes an equation that the checker computes, and a wrong one is refused.
"""
import math
import struct
import sys
from fractions import Fraction
from functools import reduce
from itertools import combinations
from operator import add
from pathlib import Path

sys.dont_write_bytecode = True
sys.path.insert(0, str(Path(__file__).resolve().parents[1]))
from vectors import cross, dot, of, sub  # noqa: E402

ROOT_432 = math.sqrt(432.0)


def bits(x):
    return int.from_bytes(struct.pack(">d", x), "big")


def points(buffer, n):
    return [[of(b) for b in buffer[3 * v : 3 * v + 3]] for v in range(n)]


def rows(buffer, n, width):
    return [tuple(buffer[width * i : width * i + width]) for i in range(n)]


# ---- measures


def determinant(ps, t):
    a, b, c, d = (ps[v] for v in t)
    return dot(sub(b, a), cross(sub(c, a), sub(d, a)))


def score(ps, t):
    total = None
    for i, j in combinations(t, 2):
        edge = sub(ps[j], ps[i])
        total = dot(edge, edge) if total is None else total + dot(edge, edge)
    divisor = total * math.sqrt(total)
    return 0.0 if divisor == 0 else ROOT_432 * abs(determinant(ps, t)) / divisor


def length(ps, e):
    edge = sub(ps[e[0]], ps[e[1]])
    return math.sqrt(dot(edge, edge))


def lowest(ps, ts):
    return min([1.0] + [score(ps, t) for t in ts])


def is_bad(ps, t):
    return score(ps, t) < 0.1


def bad_count(ps, ts):
    return sum(is_bad(ps, t) for t in ts)


# ---- the box


class Box:
    def __init__(self, call):
        box = [of(b) for b in call["box"]]
        self.lo, self.hi, self.periodic = box[0::2], box[1::2], call["periodic"]
        self.spacing = min((self.hi[i] - self.lo[i]) / call["cells"][i] for i in range(3))

    def canonical(self, p):
        return [self.lo[i] if self.periodic >> i & 1 and p[i] == self.hi[i] else p[i] for i in range(3)]

    def rank(self, p):
        return tuple(self.rank_value(x, self.lo[i], self.hi[i]) for i, x in enumerate(self.canonical(p)))

    def rank_value(self, x, lo, hi):
        return math.floor(Fraction((x - lo) / (hi - lo) * 1e11) + Fraction(1, 2))

    def cap(self, p):
        sides = [1 if p[i] == self.lo[i] else 2 if p[i] == self.hi[i] else 0 for i in range(3)]
        return sides[0] << 32 | sides[1] << 34 | sides[2] << 36


# ---- links


def faces(t):
    a, b, c, d = t
    return [(a, b, d), (a, c, b), (a, d, c), (b, c, d)]


def links_meet(a, b, simplices):
    def link(*ends):
        sets = [sorted(set(s) - set(ends)) for s in simplices if set(ends) <= set(s)]
        return {c for s in sets for n in (1, 2, 3) for c in combinations(s, n)}

    return link(a) & link(b) == link(a, b)


def labels(stratum, u, v):
    shared = [k for k in range(38) if stratum(u) & stratum(v) & 1 << k]
    return [(x, y, min(u, v), max(u, v)) for x, y in combinations(shared, 2)]


def features(stratum, fs):
    return {l for f in fs for u, v in ((f[0], f[1]), (f[1], f[2]), (f[2], f[0])) for l in labels(stratum, u, v)}


def link_ok(stratum, a, b, ts):
    keys = [k for t in ts for f in faces(t) for k in [tuple(sorted(f))] if a in k or b in k]
    boundary = [k for k in keys if keys.count(k) == 1]
    if not (links_meet(a, b, ts) and links_meet(a, b, boundary)):
        return False
    onto = lambda v: b if v == a else v
    old = features(stratum, boundary)
    mapped = [f for f in (tuple(map(onto, f)) for f in boundary) if len(set(f)) == 3]
    expected = {(x, y, *sorted((onto(u), onto(v)))) for x, y, u, v in old if onto(u) != onto(v)}
    if features(stratum, mapped) != expected:
        return False

    def near(x, y, w):
        return {v if u == w else u for p, q, u, v in old if (p, q) == (x, y) and w in (u, v)}

    return all(not near(x, y, a) & near(x, y, b) for x, y, u, v in old if (u, v) == (min(a, b), max(a, b)))


# ---- improve


class Improve:
    def __init__(self, call, state):
        nv, ne, _ = state["sizes"]
        self.box = Box(call)
        self.parameters, self.points = points(state["parameters"], nv), points(state["points"], nv)
        self.masks, self.passes = state["masks"], call["passes"]
        self.ranks = [self.box.rank(p) for p in self.parameters]
        self.start = (rows(state["elements"], ne, 4), [])

    def cap(self, v):
        return self.box.cap(self.parameters[v])

    def stratum(self, v):
        return self.masks[v] | self.cap(v)

    def rule(self, a, b):
        return not self.stratum(a) & ~self.stratum(b) and self.stratum(a).bit_count() < 3

    def listed(self, ts):
        edges = {tuple(sorted(e)) for t in ts if is_bad(self.points, t) for e in combinations(t, 2)}
        short = [e for e in edges if length(self.points, e) < 0.75 * self.box.spacing]
        return sorted(short, key=lambda e: (length(self.points, e), e))

    def pairs(self, replaced, a, b):
        """The pairs by which a's group goes into b's; none where the groups do not pair off."""
        vs, ws = ([w for w, r in enumerate(self.ranks) if r == self.ranks[v] and w not in replaced] for v in (a, b))
        es = [(v, w) for v in vs for w in [next((w for w in ws if self.cap(w) == self.cap(v)), None)] if w is not None]
        return es if len(vs) == len(ws) == len(es) == len({w for _, w in es}) else None

    def went(self, state, a, b):
        """The state once a went into b; nothing where it may not go."""
        ts, replaced = state
        es = self.rule(a, b) and self.pairs(replaced, a, b)
        if not es:
            return None
        ok = lambda v, w: self.rule(v, w) and any(v in t and w in t for t in ts) and link_ok(self.stratum, v, w, ts)
        if not all(ok(v, w) for v, w in es):
            return None
        image = lambda us: [t for t in (tuple(dict(es).get(v, v) for v in t) for t in us) if len(set(t)) == 4]
        old = [t for t in ts if any(v in t or w in t for v, w in es)]
        kept, low, ps = image(old), lowest(self.points, old), self.points
        if not all(determinant(ps, t) > 0 and not score(ps, t) + 1e-12 < min(low, 0.1) for t in kept):
            return None
        if not (bad_count(ps, kept) < bad_count(ps, old) or low * 1.001 < lowest(ps, kept)):
            return None
        return image(ts), [v for v, _ in es] + replaced

    def tried(self, state, e):
        if e[0] in state[1] or e[1] in state[1]:
            return state
        return self.went(state, *e) or self.went(state, e[1], e[0]) or state

    def rounds(self):
        """For each round its edges, and the state before the first and after each of them."""
        state, out = self.start, []
        for _ in range(self.passes):
            edges, states = self.listed(state[0]), [state]
            for e in edges:
                states.append(self.tried(states[-1], e))
            out.append((edges, states))
            if len(states[-1][1]) == len(state[1]):
                break
            state = states[-1]
        return out


# ---- smooth


def smooth_groups(call, before, after):
    """The groups in rank order, and the buffers and the count before the first and after each of them: a group's vertices are
    where they were until its turn, and from then on where they are at the end."""
    box, n = Box(call), before["sizes"][0]
    ranks = [box.rank(p) for p in points(before["parameters"], n)]
    groups = [[v for v in range(n) if ranks[v] == r] for r in sorted(set(ranks))]
    states = [(list(before["parameters"]), list(before["points"]), 0)]
    for g in groups:
        parameters, ps, moved = (list(x) if isinstance(x, list) else x for x in states[-1])
        for v in g:
            parameters[3 * v : 3 * v + 3] = after["parameters"][3 * v : 3 * v + 3]
            ps[3 * v : 3 * v + 3] = after["points"][3 * v : 3 * v + 3]
        changed = (parameters, ps) != states[-1][:2]
        states.append((parameters, ps, moved + (len(g) if changed else 0)))
    return groups, states


def is_low(state, moved, g):
    """Is the lowest score about the group g below 0.15, with the points `moved`."""
    nv, ne, _ = state["sizes"]
    about = [t for t in rows(state["elements"], ne, 4) if set(t) & set(g)]
    return lowest(points(moved, nv), about) < 0.15


def candidates(call, state, moved, v):
    """The nine places that a group whose first vertex is v tries, or six where v has no element; `moved` are the parameters."""
    nv, ne, _ = state["sizes"]
    box, ts, parameters, out = Box(call), rows(state["elements"], ne, 4), points(moved, nv), []
    origin = box.canonical(parameters[v])
    near = [w for w in range(nv) if w != v and any(v in t and w in t for t in ts)]
    if near:
        mean = [reduce(add, (parameters[w][i] for w in near), -0.0) / len(near) for i in range(3)]
        way = sub(mean, parameters[v])
        out += [[origin[i] + alpha * way[i] for i in range(3)] for alpha in (1.0, 0.5, 0.25)]
    step = 0.15 * box.spacing
    return out + [origin[:i] + [origin[i] + d] + origin[i + 1 :] for i in range(3) for d in (-step, step)]
