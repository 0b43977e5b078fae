#!/usr/bin/env python3
"""Block files from a readable text, and a block file shown as such a text.

    blocks.py make < plot.txt > plot.blocks
    blocks.py show < plot.blocks > plot.txt

The text has one thing a line; # begins a comment:

    box XLO XHI YLO YHI ZLO ZHI
    cells X Y Z
    periodic BITS               x is 1, y 2, z 4; 0 if left out
    passes N                    1 if left out
    field level C
    field plane NX NY NZ D
    field ball X Y Z R
    vertex PX PY PZ X Y Z MASK  parameters, point, mask
    vertex X Y Z                a point that is its own parameters, mask 0
    element A B C D

Numbers are decimal; floats may be nan, inf and -inf, and what `show` prints is read back to the same bits, but for the bits of a NaN.
`make` writes what the text says, good or bad: `plot` judges it. It refuses what a block file cannot hold. Spare words are 0 in what it writes.
`show` reads a file of any size. It refuses what `plot` refuses for a block's sake, with the same number; with 30 it names the leftovers word by word,
the first eight of a block.
"""
import struct
import sys

VERTICES = 9
ELEMENTS = 31
PLACES = 8
# The words of a vertex and of an element record.
SIZES = {2: 13, 3: 4}
# Each kind of field with its number and how many numbers it uses.
KINDS = {"level": (0, 1), "plane": (1, 4), "ball": (2, 4)}
# At most this many leftover words of a block are named; of the others only the number is told.
TOLD = 8


class Refused(Exception):
    pass


def floats(*values):
    """The words of floats, low first."""
    return list(struct.unpack("<%dI" % (2 * len(values)), struct.pack("<%dd" % len(values), *values)))


def sealed(words):
    """A block's words with word 127 such that all 128 add to 0 modulo 2^32."""
    words = words + [0] * (127 - len(words))
    return struct.pack("<128I", *words, -sum(words) % 2**32)


class Plot:
    def __init__(self):
        self.box = [0.0, 1.0, 0.0, 1.0, 0.0, 1.0]
        self.cells = [1, 1, 1]
        self.periodic = 0
        self.passes = 1
        self.fields = []
        self.vertices = []
        self.elements = []

    def blocks(self):
        """The words of each block, without word 127."""
        header = [1, 0, 1, len(self.vertices), len(self.elements)] + floats(*self.box)
        header += self.cells + [self.periodic, self.passes, len(self.fields)]
        for kind, numbers in self.fields:
            header += [kind] + floats(*(numbers + [0.0] * (4 - len(numbers))))
        yield header
        number = 1
        vertex = lambda v: floats(*v[:6]) + [v[6]]
        for kind, records, full, words in ((2, self.vertices, VERTICES, vertex), (3, self.elements, ELEMENTS, list)):
            for first in range(0, len(records), full):
                part = records[first : first + full]
                yield [kind, number, len(part)] + [w for record in part for w in words(record)]
                number += 1

    def bytes(self):
        return b"".join(sealed(words) for words in self.blocks())

    def text(self):
        show = lambda values: " ".join(repr(x) for x in values)
        names = {number: name for name, (number, _) in KINDS.items()}
        yield "box " + show(self.box)
        yield "cells " + show(self.cells)
        yield "periodic %d" % self.periodic
        yield "passes %d" % self.passes
        for kind, numbers in self.fields:
            yield "field %s %s" % (names[kind], show(numbers))
        for v in self.vertices:
            yield "vertex " + show(v)
        for e in self.elements:
            yield "element " + show(e)


def word(text):
    value = int(text)
    if not 0 <= value < 2**32:
        raise Refused("not a word of 32 bits: " + text)
    return value


def line(plot, name, rest):
    if name == "box":
        plot.box = [float(x) for x in rest]
        wanted = 6
    elif name == "cells":
        plot.cells = [word(x) for x in rest]
        wanted = 3
    elif name in ("periodic", "passes"):
        setattr(plot, name, word(rest[0]))
        wanted = 1
    elif name == "field":
        kind, count = KINDS[rest[0]]
        plot.fields.append((kind, [float(x) for x in rest[1:]]))
        wanted = 1 + count
    elif name == "vertex" and len(rest) == 3:
        plot.vertices.append([float(x) for x in rest] * 2 + [0])
        wanted = 3
    elif name == "vertex":
        plot.vertices.append([float(x) for x in rest[:6]] + [word(x) for x in rest[6:]])
        wanted = 7
    elif name == "element":
        plot.elements.append([word(x) for x in rest])
        wanted = 4
    else:
        raise Refused("unknown word: " + name)
    if len(rest) != wanted:
        raise Refused("%s takes %d numbers" % (name, wanted))


def parse(text):
    plot = Plot()
    for number, raw in enumerate(text.splitlines(), 1):
        words = raw.split("#")[0].split()
        if not words:
            continue
        try:
            line(plot, words[0], words[1:])
        except (ValueError, KeyError, IndexError, Refused) as error:
            raise Refused("line %d: %s" % (number, error)) from error
    if len(plot.fields) > PLACES:
        raise Refused("a block file has places for %d fields" % PLACES)
    return plot


def spare(words):
    """The places of a block's spare words: behind its records, in the header also unused field places and numbers that a field's kind does not use."""
    if words[0] != 1:
        return list(range(3 + SIZES[words[0]] * words[2], 127))
    counts = dict(KINDS.values())
    places = []
    for j in range(PLACES):
        first = 23 + 9 * j
        if j >= words[22]:
            places += range(first, first + 9)
        elif words[first] in counts:
            places += range(first + 1 + 2 * counts[words[first]], first + 9)
    return places + list(range(95, 127))


def leftovers(words):
    """The spare words of a block that are not 0, with their values; nothing if all are 0."""
    left = [i for i in spare(words) if words[i]]
    told = ["word %d is %08x" % (i, words[i]) for i in left[:TOLD]]
    if len(left) > TOLD:
        told.append("%d more" % (len(left) - TOLD))
    return ", ".join(told)


def block(data, k, kind, count):
    """The words of block k, or the number that `plot` gives for it."""
    if len(data) < 512 * (k + 1):
        raise Refused("refused 1")
    words = struct.unpack_from("<128I", data, 512 * k)
    if sum(words) % 2**32:
        raise Refused("refused 2")
    if words[:3] != (kind, k, count):
        raise Refused("refused 3")
    left = leftovers(words)
    if left:
        raise Refused("refused 30: block %d: %s" % (k, left))
    return words


def float_at(words, i, count):
    return list(struct.unpack("<%dd" % count, struct.pack("<%dI" % (2 * count), *words[i : i + 2 * count])))


def records(data, k, kind, total, full):
    """The records of all blocks of a kind from block k on, and the number of the block behind them."""
    found = []
    size = SIZES[kind]
    while len(found) < total:
        count = min(full, total - len(found))
        words = block(data, k, kind, count)
        found += [words[3 + size * r : 3 + size * (r + 1)] for r in range(count)]
        k += 1
    return found, k


def fields_in(header):
    """The fields of a header, as far as the text has words for them."""
    counts = dict(KINDS.values())
    found = []
    for j in range(min(header[22], PLACES)):
        kind = header[23 + 9 * j]
        if kind not in counts:
            raise Refused("field %d has the unknown kind %d" % (j, kind))
        found.append((kind, float_at(header, 24 + 9 * j, counts[kind])))
    if header[22] > PLACES:
        raise Refused("%d fields" % header[22])
    return found


def read(data):
    """The plot of a block file of any size. No other file has this plot, but for the bits of a NaN."""
    header = block(data, 0, 1, 1)
    vertices, k = records(data, 1, 2, header[3], VERTICES)
    elements, k = records(data, k, 3, header[4], ELEMENTS)
    if len(data) > 512 * k:
        raise Refused("refused 1")
    plot = Plot()
    plot.box = float_at(header, 5, 6)
    plot.cells = list(header[17:20])
    plot.periodic, plot.passes = header[20:22]
    plot.fields = fields_in(header)
    plot.vertices = [float_at(r, 0, 6) + [r[12]] for r in vertices]
    plot.elements = [list(r) for r in elements]
    return plot


def main(args):
    if args == ["make"]:
        sys.stdout.buffer.write(parse(sys.stdin.read()).bytes())
    elif args == ["show"]:
        print("\n".join(read(sys.stdin.buffer.read()).text()))
    else:
        raise Refused(__doc__.strip())


if __name__ == "__main__":
    try:
        main(sys.argv[1:])
    except Refused as error:
        sys.exit(str(error))
