#!/usr/bin/env python3
"""What crates/trial must print, worked out from document 01 and requests (i) and (ii) of document 02 with Python's floats and fractions.

Run in the repository's folder:  python3 tools/trial/expected.py > crates/trial/stdout
The cases are the constants of crates/trial/src; nothing else of the crates is read.
"""
import itertools
import math
import re
import struct
import sys

sys.dont_write_bytecode = True
sys.path[:0] = ["tools", "tools/blocks"]
import blocks  # noqa: E402
from document import boundary_number, determinant, field, flat, manifold, rank, root, rows, score, spacing, squared_edges  # noqa: E402
from vectors import dot, of  # noqa: E402

NAN = 0x7FF8000000000000


NAMES = {"Level": 0, "Plane": 1, "Ball": 2, "Word": 1, "Float": 2, "false": 0, "true": 1}


def cases(module, name):
    """The numbers of a constant of the trial program, in their order: also those that names stand for."""
    text = open(f"crates/trial/src/{module}.rt").read()
    body = re.search(rf"const {name}: .*? = \[(.*?)\];\n", text, re.S).group(1)
    body = re.sub(r"//.*", "", body)
    words = re.findall(rf"\b(?:0x[0-9a-f_]+|\d+|{'|'.join(NAMES)})\b", body)
    return [NAMES[word] if word in NAMES else int(word.replace("_", ""), 0) for word in words]


def float_rows(module, name):
    """The rows of a constant of the trial program that has floats in decimals."""
    text = open(f"crates/trial/src/{module}.rt").read()
    body = re.search(rf"const {name}: \[\[f64; \d+\]; \d+\] = \[(.*?)\n\];", text, re.S).group(1)
    body = re.sub(r"//.*", "", body)
    return [[float(x) for x in row.split(",")] for row in re.findall(r"\[(.*?)\]", body)]


def pattern(x):
    return NAN if x != x else struct.unpack("<Q", struct.pack("<d", x))[0]


def hexed(*floats):
    return " ".join(f"{pattern(x):016x}" for x in floats)


def cap(p, lo, hi):
    bits = 0
    for a in range(3):
        if p[a] == lo[a]:
            bits |= 1 << (32 + 2 * a)
        elif p[a] == hi[a]:
            bits |= 1 << (33 + 2 * a)
    return bits


def order_bits(x):
    return 2**64 - 1 if x != x else pattern(x) if x > 0 else 0


for n in cases("roots", "ROOTS"):
    print(f"root {n:016x} {hexed(root(of(n)))}")
for i, row in enumerate(rows(cases("scores", "ELEMENTS"), 12)):
    p = [[of(n) for n in point] for point in rows(row, 3)]
    s = score(p)
    print(f"score {i} {hexed(determinant(p), squared_edges(p), s)} {int(s < 0.1)}")
for value, lo, hi, periodic in rows(cases("ranks", "RANKS"), 4):
    print(f"rank {value:016x} {lo:016x} {hi:016x} {periodic} {rank(of(value), of(lo), of(hi), periodic)}")
for i, row in enumerate(rows(cases("boxes", "BOXES"), 12)):
    lo, hi, p = ([of(n) for n in part] for part in rows(row[:9], 3))
    bits = cap(p, lo, hi)
    print(f"box {i} {hexed(spacing(lo, hi, row[9:]))} {bits:016x} {bits + 5:016x}")
for i, row in enumerate(rows(cases("fields", "FIELDS"), 8)):
    value, g = field(row[0], [of(n) for n in row[1:5]], [of(n) for n in row[5:]])
    print(f"field {i} {row[0]} {hexed(value, *g, root(dot(g, g)))}")
for n in cases("words", "WORDS"):
    bits = pattern(of(n))
    print(f"words {n:016x} {bits % 2**32} {bits >> 32} {order_bits(of(n)):016x}")


# Intake, in the table's order, on the trial program's mesh.
POINTS = [(0, 0, 0), (1, 0, 0), (0, 1, 0), (0, 0, 1), (0, 0, -1), (-1, -1, -1)]


def intake_number(sizes, lengths, passes, coordinate, tets):
    """The first number of document 01's table that applies, 0 if none does."""
    nv, ne, ns = sizes
    if nv > 4096 or ne > 16384 or ns > 4 * ne:
        return 10
    need = [3 * nv, 3 * nv, nv, 8 * ne, 12 * ne, 256 * ne + 32 * nv + 1024, 16 * nv]
    if any(have < least for have, least in zip(lengths, need)):
        return 10
    if passes > 16:
        return 11
    points = POINTS + [(coordinate, 0.0, 0.0)] + [(0.0, 0.0, 0.0)] * 5000
    if any(not abs(x) <= 2**20 for p in points[:nv] for x in p):
        return 12
    tets = tets[:ne]
    if any(not 0 <= v < nv or t.count(v) > 1 for t in tets for v in t):
        return 13
    if len({tuple(sorted(t)) for t in tets}) < len(tets):
        return 14
    if any(not determinant([points[v] for v in t]) > 0 for t in tets):
        return 15
    return boundary_number(tets)


def exact(nv, ne):
    return [3 * nv, 3 * nv, nv, 8 * ne, 12 * ne, 256 * ne + 32 * nv + 1024, 16 * nv]


FIRST = [[0, 1, 2, 3], [0, 2, 1, 4]]
ADDED = [(8, [0, 1, 2, 9]), (16, [1, 0, 3, 2]), (32, [0, 1, 3, 4]), (64, [0, 2, 1, 5]), (128, [5, 1, 2, 3])]

for k in range(9):
    lengths = exact(7, 2)
    if 1 <= k <= 7:
        lengths[k - 1] -= 1
    print(f"intake short {k} {intake_number((7, 2, 9 if k == 8 else 8), lengths, 16, 0.0, FIRST)}")
for nv in (4096, 4097):
    print(f"intake vertices {nv} {intake_number((nv, 2, 8), exact(nv, 2), 16, 0.0, FIRST)}")
for words in (1024, 1023):
    print(f"intake empty {words} {intake_number((0, 0, 0), [0, 0, 0, 0, 0, words, 0], 16, 0.0, [])}")
for n in cases("intakes", "COORDINATES"):
    print(f"intake coordinate {n:016x} {intake_number((7, 2, 8), exact(7, 2), 16, of(n), FIRST)}")
for second in sorted(itertools.permutations(range(4))):
    tets = [FIRST[0], list(second)]
    print(f"intake order {int(''.join(map(str, second)))} {intake_number((7, 2, 8), exact(7, 2), 16, 0.0, tets)}")
for faults in range(256):
    tets = FIRST + [t for weight, t in ADDED if faults & weight]
    lengths = exact(7, len(tets))
    lengths[2] -= faults & 1
    coordinate = math.nan if faults & 4 else 0.0
    number = intake_number((7, len(tets), 4 * len(tets)), lengths, 17 if faults & 2 else 16, coordinate, tets)
    print(f"intake faults {faults} {number}")


# Block files, through `report`. The files are made by tools/blocks/blocks.py, and read here anew, as document 01 says and request (i) of document 02.


def words_at(data, k):
    return struct.unpack_from("<128I", data, 512 * k)


def floats_in(words, i, n):
    return [of(words[i + 2 * j] | words[i + 2 * j + 1] << 32) for j in range(n)]


def small(*floats):
    return all(abs(x) <= 2**20 for x in floats)


def used_words(words):
    """The words from 3 on that the records of a block use: in the header not those of unused field places, nor numbers that a field's kind doesn't use."""
    kind, _, count = words[:3]
    used = set(range(3, 3 + {1: 92, 2: 13, 3: 4}[kind] * count))
    for j in range(8 if kind == 1 else 0):
        place = list(range(23 + 9 * j, 32 + 9 * j))
        if j >= words[22]:
            used -= set(place)
        elif words[place[0]] == 0:
            used -= set(place[3:])
    return used


def read_blocks(data):
    """The number of the table's block part or 10, and where there is none the header and the records of vertices and of elements."""

    def checked(k, kind, count):
        if len(data) < 512 * (k + 1):
            return 1
        words = words_at(data, k)
        if sum(words) % 2**32:
            return 2
        if words[:3] != (kind, k, count):
            return 3
        return 30 if any(words[i] for i in set(range(3, 127)) - used_words(words)) else 0

    number = checked(0, 1, 1)
    if number:
        return number, None
    header = words_at(data, 0)
    if header[3] > 24 or header[4] > 24:
        return 10, None
    found, k = {2: [], 3: []}, 1
    for kind, total, full, size in ((2, header[3], 9, 13), (3, header[4], 31, 4)):
        while len(found[kind]) < total:
            count = min(full, total - len(found[kind]))
            number = checked(k, kind, count)
            if number:
                return number, None
            found[kind] += rows(words_at(data, k)[3 : 3 + size * count], size)
            k += 1
    return int(len(data) > 512 * k), (header, found[2], found[3])


def header_number(header):
    """11, or 0."""
    box, cells, (periodic, passes, fields) = floats_in(header, 5, 6), header[17:20], header[20:23]
    if not small(*box) or any(not lo < hi for lo, hi in rows(box, 2)):
        return 11
    if any(not 1 <= c <= 4096 for c in cells) or periodic > 7 or passes > 16 or fields > 8:
        return 11
    for j in range(fields):
        kind = header[23 + 9 * j]
        if kind > 2 or not small(*floats_in(header, 24 + 9 * j, 4 if kind else 1)):
            return 11
    return 0


def mean(points):
    """Per direction the sum left to right, then divided by 4."""
    return [(((a + b) + c) + d) / 4 for a, b, c, d in zip(*points)]


def plotted(data):
    """What `plot` prints. A table only for meshes that the passes leave as they are."""
    number, read = read_blocks(data)
    if number:
        return f"refused {number}"
    header, vertices, tets = read
    number = header_number(header)
    if number:
        return f"refused {number}"
    lo, hi = floats_in(header, 5, 6)[::2], floats_in(header, 5, 6)[1::2]
    parameters, points = ([floats_in(v, i, 3) for v in vertices] for i in (0, 6))
    if any(not small(*p) for p in points) or any(not lo[a] <= p[a] <= hi[a] for p in parameters for a in range(3)):
        return "refused 12"
    if any(v >= len(points) or t.count(v) > 1 for t in tets for v in t):
        return "refused 13"
    if len({tuple(sorted(t)) for t in tets}) < len(tets):
        return "refused 14"
    if any(not determinant([points[v] for v in t]) > 0 for t in tets):
        return "refused 15"
    if boundary_number(tets):
        return f"refused {boundary_number(tets)}"
    scores = [score([points[v] for v in t]) for t in tets]
    assert all(s >= 0.15 for s in scores)
    if not manifold(tets):
        return "refused 22"
    assert list(dict.fromkeys(flat(tets))) == list(range(len(points)))
    simplices = [{tuple(sorted(s)) for t in tets for s in itertools.combinations(t, n)} for n in (1, 2, 3, 4)]
    counts = [len(s) for s in simplices]
    lines = [f"vertices {len(points)} elements {len(tets)}", "collapse 0 move 0 reconnect 0"]
    lines.append(f"low {sum(s < 0.1 for s in scores)} euler {counts[0] - counts[1] + counts[2] - counts[3]}")
    for j in range(header[22]):
        given = header[23 + 9 * j], floats_in(header, 24 + 9 * j, 4)
        values = [field(*given, mean([points[v] for v in t]))[0] for t in tets]
        lines.append(f"inside {j} {sum(x <= 0 for x in values)}")
    return "\n".join(lines + ["element " + " ".join(map(str, t)) for t in tets])


def plot_file(points, tets, low=0.0):
    plot = blocks.Plot()
    plot.box = [low, 1.0] * 3
    plot.fields = [(0, [0.5])]
    plot.vertices = [[float(x) for x in p] * 2 + [0] for p in points]
    plot.elements = tets
    return plot.bytes()


def answers(files):
    """Each answer to the files, 0 for a table, and how often it came."""
    texts = [plotted(f) for f in files]
    given = [int(t[8:]) if t.startswith("refused") else 0 for t in texts]
    return [x for number in sorted(set(given)) for x in (number, given.count(number))]


def with_word(data, i, words):
    """The file with words from i on, their block sealed anew."""
    k = i // 128
    block = list(words_at(data, k))[:127]
    block[i % 128 : i % 128 + len(words)] = words
    return data[: 512 * k] + blocks.sealed(block) + data[512 * k + 512 :]


SIDE = [(0, 0, 0), (1, 0, 0), (0, 1, 0), (0, 0, 1), (0.25, 0.25, 0.5), (0.25, 0.25, 1)]
TOUCHING = [(0, 0, 0), (1, 0, 0), (0, 1, 0), (0, 0, 1), (-1, 0, 0), (0, -1, 0), (0, 0, -1)]
FILES = [
    plot_file(SIDE[:4], [(0, 1, 2, 3)]),
    plot_file([], []),
    plot_file(SIDE[:4], [(0, 1, 3, 2)]),
    plot_file(SIDE[:4], [(0, 1, 2, 3), (1, 2, 0, 3)]),
    plot_file(SIDE, [(0, 1, 2, 3), (0, 1, 2, 4), (0, 1, 2, 5)]),
    plot_file(SIDE[:5], [(0, 1, 2, 3), (0, 1, 2, 4)]),
    plot_file(TOUCHING, [(0, 1, 2, 3), (0, 4, 6, 5)], -1.0),
]
GOOD = FILES[0]
for mesh, data in enumerate(FILES):
    print(f"block mesh {mesh} {len(data)}\n{plotted(data)}")
for bit in (1, 128):
    changed = [GOOD[:i] + bytes([GOOD[i] ^ bit]) + GOOD[i + 1 :] for i in range(len(GOOD))]
    print("block changed", bit, *answers(changed))
for mesh, first, end in ((0, 0, 1536), (0, 1536, 2562), (1, 0, 1025)):
    twice = FILES[mesh] + FILES[mesh]
    print("block lengths", mesh, first, end, *answers([twice[:n] for n in range(first, end)]))
for i in cases("blocks", "WORDS"):
    print("block values", i, *answers([with_word(GOOD, i, [v]) for v in range(40)]))
for bit in (0, 31):
    for k in range(3):
        flipped = [with_word(GOOD, 128 * k + i, [words_at(GOOD, k)[i] ^ 1 << bit]) for i in range(3, 127)]
        print("block words", k, bit, *answers(flipped))
for i, words, v in rows(cases("blocks", "EDITS"), 3):
    data = with_word(GOOD, i, [v % 2**32, v >> 32][:words])
    print(f"block edit {i} {v:016x} {plotted(data)}")
print("block exchanged", plotted(GOOD[:512] + GOOD[1024:] + GOOD[512:1024]))


# The place that an inside count looks at: one element, its points of one row of heights and its parameters of another.


def raised(heights):
    return [[x, y, z] for (x, y), z in zip(((0.0, 0.0), (0.8, 0.0), (0.0, 0.6), (0.8, 0.6)), heights)]


def inside_file(points, parameters, level):
    plot = blocks.Plot()
    plot.box = [0.0, 4.0] * 3
    plot.fields = [(0, [level]), (1, [1.0, 1.0, 1.0, -1.4]), (2, [0.4, 0.3, 0.7, 0.1]), (2, [0.0, 0.0, 0.5, 0.01])]
    plot.vertices = [u + p + [0] for u, p in zip(parameters, points)]
    plot.elements = [(0, 1, 2, 3)]
    return plot.bytes()


HEIGHTS = float_rows("inside", "HEIGHTS")
for row, parameters in [(i, i) for i in range(len(HEIGHTS))] + [(0, 3)]:
    *heights, level = HEIGHTS[row]
    print(f"inside row {row} {parameters}")
    print(plotted(inside_file(raised(heights), raised(HEIGHTS[parameters][:4]), level)))
