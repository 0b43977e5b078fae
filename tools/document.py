"""What document 01 says of elements, boxes, fields and faces, with Python's floats and fractions, for the programs that work out answers from it."""
import math
from fractions import Fraction

from vectors import cross, dot, of, sub


def rows(items, width):
    return [items[i : i + width] for i in range(0, len(items), width)]


def flat(tuples):
    return [x for t in tuples for x in t]


def root(x):
    return math.nan if x != x or x < 0 else math.sqrt(x)


def divided(x, y):
    """IEEE 754 division."""
    if x != x or y != y or (y == 0 and x == 0) or (math.isinf(x) and math.isinf(y)):
        return math.nan
    if y == 0:
        return math.copysign(math.inf, x) * math.copysign(1.0, y)
    return x / y


def determinant(p):
    return dot(sub(p[1], p[0]), cross(sub(p[2], p[0]), sub(p[3], p[0])))


def squared_edges(p):
    total = None
    for i in range(4):
        for j in range(i + 1, 4):
            e = sub(p[j], p[i])
            total = dot(e, e) if total is None else total + dot(e, e)
    return total


def score(p):
    length = squared_edges(p)
    divisor = length * root(length)
    if divisor == 0:
        return 0.0
    v = determinant(p)
    return divided(of(0x4034C8DC2E423980) * (-v if v < 0 else v), divisor)


def nearest_away(q):
    if q != q or q <= 0:
        return 0
    if math.isinf(q):
        return 2**64 - 1
    return min(math.floor(Fraction(q) + Fraction(1, 2)), 2**64 - 1)


def rank(value, lo, hi, periodic):
    x = lo if periodic and value == hi else value
    return nearest_away(divided(x - lo, hi - lo) * 1e11)


def spacing(lo, hi, cells):
    h = math.inf
    for a in range(3):
        size = divided(hi[a] - lo[a], float(cells[a]))
        h = size if size < h else h
    return h


def field(kind, f, p):
    """A field's value and gradient."""
    if kind == 0:
        return p[2] - f[0], [0.0, 0.0, 1.0]
    if kind == 1:
        return dot(f[:3], p) + f[3], f[:3]
    d = sub(p, f[:3])
    return dot(d, d) - f[3] * f[3], [2.0 * x for x in d]


def faces_of(tets):
    """The faces with each key."""
    faces = {}
    for a, b, c, d in tets:
        for f in [(a, b, d), (a, c, b), (a, d, c), (b, c, d)]:
            faces.setdefault(tuple(sorted(f)), []).append(f)
    return faces


def parity(f):
    return ((f[0] > f[1]) + (f[0] > f[2]) + (f[1] > f[2])) % 2


def boundary_number(tets):
    faces = faces_of(tets)
    for key in sorted(faces):
        if len(faces[key]) > 2:
            return 16
        if len(faces[key]) == 2 and parity(faces[key][0]) == parity(faces[key][1]):
            return 17
    return 0


def boundary_keys(tets):
    return [key for key, faces in faces_of(tets).items() if len(faces) == 1]


def manifold(tets):
    """Whether the triangles about each surface vertex are one ring: each corner twice, all connected."""
    faces = boundary_keys(tets)
    for v in {v for f in faces for v in f}:
        edges = [set(f) - {v} for f in faces if v in f]
        corners = [u for e in edges for u in e]
        if any(corners.count(u) != 2 for u in corners):
            return False
        reached = set(edges[0])
        for _ in edges:
            reached |= {u for e in edges if e & reached for u in e}
        if reached != set(corners):
            return False
    return True
