#!/usr/bin/env python3
"""Trials of blocks.py: python3 -m unittest discover tools/blocks"""
import struct
import unittest

import blocks

M4 = """
box 0 1 0 1 0 1
cells 1 1 1
field level 0.5
vertex 0 0 0
vertex 1 0 0
vertex 0 1 0
vertex 0 0 1
element 0 1 2 3
"""


def large():
    """More records than two blocks of each kind hold, with every kind of field."""
    lines = ["box -2 3 -1 1e3 0.1 7", "cells 4 5 6", "periodic 5", "passes 16"]
    lines += ["field plane 0 0 1 -0.5", "field ball 1 2 3 0.1", "field level -0.0"]
    lines += ["vertex %r 0.1 -2.5 1e-300 inf %d.5 %d" % (k / 7, k, 2**32 - 1 - k) for k in range(20)]
    lines += ["element %d %d %d %d" % (k, k + 1, 4000000000, 0) for k in range(63)]
    return "\n".join(lines)


def edited(data, *edits):
    """The file with other words (block, word, value), their blocks sealed anew."""
    for k, i, value in edits:
        words = list(struct.unpack_from("<128I", data, 512 * k))[:127]
        words[i] = value
        data = data[: 512 * k] + blocks.sealed(words) + data[512 * (k + 1) :]
    return data


def told(data):
    """What `show` says against a file; nothing if it shows it."""
    try:
        blocks.read(data)
    except blocks.Refused as error:
        return str(error)
    return ""


class Trials(unittest.TestCase):
    def test_layout(self):
        data = blocks.parse(M4).bytes()
        self.assertEqual(len(data), 3 * 512)
        for k in range(3):
            words = struct.unpack_from("<128I", data, 512 * k)
            self.assertEqual(words[:3], [(1, 0, 1), (2, 1, 4), (3, 2, 1)][k])
            self.assertEqual(sum(words) % 2**32, 0)
        self.assertEqual(struct.unpack_from("<2I", data, 12), (4, 1))
        self.assertEqual(struct.unpack_from("<6d", data, 20), (0, 1, 0, 1, 0, 1))
        self.assertEqual(struct.unpack_from("<7I", data, 68), (1, 1, 1, 0, 1, 1, 0))
        self.assertEqual(struct.unpack_from("<d", data, 96), (0.5,))
        self.assertEqual(struct.unpack_from("<4I", data, 1024 + 12), (0, 1, 2, 3))

    def test_read_back(self):
        for text in (M4, large()):
            data = blocks.parse(text).bytes()
            shown = "\n".join(blocks.read(data).text())
            self.assertEqual(blocks.parse(shown).bytes(), data)

    def test_several_blocks(self):
        data = blocks.parse(large()).bytes()
        heads = [struct.unpack_from("<3I", data, 512 * k) for k in range(len(data) // 512)]
        self.assertEqual(heads, [(1, 0, 1), (2, 1, 9), (2, 2, 9), (2, 3, 2), (3, 4, 31), (3, 5, 31), (3, 6, 1)])

    def test_damaged(self):
        data = blocks.parse(M4).bytes()
        for bad, told in ((data[:-1], "refused 1"), (data + b"x", "refused 1"), (b"", "refused 1"), (data[:100] + b"x" + data[101:], "refused 2")):
            with self.assertRaisesRegex(blocks.Refused, told):
                blocks.read(bad)
        with self.assertRaisesRegex(blocks.Refused, "refused 3"):
            blocks.read(data[:512] + data[1024:] + data[512:1024])

    def test_make_leaves_nothing(self):
        for text, used in ((M4, [26, 55, 7]), (large(), [44, 120, 120, 29, 127, 127, 7])):
            data = blocks.parse(text).bytes()
            self.assertEqual(len(data), 512 * len(used))
            for k, first in enumerate(used):
                words = struct.unpack_from("<128I", data, 512 * k)
                self.assertEqual(set(words[first:127]), {0} if first < 127 else set())
            self.assertEqual(told(data), "")
        eight = blocks.parse(M4 + "field level 7\n" + "field ball 1 2 3 4\n" * 6).bytes()
        self.assertEqual(struct.unpack_from("<6I", eight, 4 * 35), (0,) * 6)
        self.assertEqual(struct.unpack_from("<32I", eight, 4 * 95), (0,) * 32)
        self.assertEqual(told(eight), "")

    def test_leftovers(self):
        data = blocks.parse(M4).bytes()
        for k, i, value in (
            (0, 95, 1),
            (0, 126, 0x80000000),
            (0, 32, 1),
            (0, 94, 7),
            (0, 26, 1),
            (0, 27, 0x80000000),
            (0, 31, 9),
            (1, 55, 1),
            (1, 126, 1),
            (2, 7, 4),
            (2, 126, 0xFFFFFFFF),
        ):
            self.assertEqual(told(edited(data, (k, i, value))), "refused 30: block %d: word %d is %08x" % (k, i, value))
        self.assertEqual(told(edited(data, (0, 126, 1), (0, 95, 2))), "refused 30: block 0: word 95 is 00000002, word 126 is 00000001")
        self.assertEqual(told(edited(data, (0, 22, 0))), "refused 30: block 0: word 25 is 3fe00000")
        many = told(edited(data, *((1, i, i) for i in range(55, 127))))
        self.assertEqual(many, "refused 30: block 1: " + "".join("word %d is %08x, " % (i, i) for i in range(55, 63)) + "64 more")

    def test_words_in_use(self):
        data = blocks.parse(M4).bytes()
        for k, i, value in ((0, 24, 1), (0, 25, 0x3FF00000), (0, 22, 2), (0, 23, 2), (1, 54, 1), (2, 6, 9)):
            self.assertEqual(told(edited(data, (k, i, value))), "")

    def test_full_blocks(self):
        nine = blocks.parse(M4 + "vertex 0.5 0.5 0.5\n" * 5).bytes()
        self.assertEqual(told(nine), "")
        self.assertEqual(told(edited(nine, (1, 119, 1))), "")
        self.assertEqual(told(edited(nine, (1, 120, 1))), "refused 30: block 1: word 120 is 00000001")
        # An element block of 31 has no spare word.
        data = blocks.parse(large()).bytes()
        self.assertEqual(told(edited(data, (4, 126, 1))), "")
        self.assertEqual(told(edited(data, (6, 7, 1))), "refused 30: block 6: word 7 is 00000001")

    def test_kinds_and_many_fields(self):
        data = blocks.parse(M4).bytes()
        self.assertEqual(told(edited(data, (0, 23, 3), (0, 26, 1), (0, 31, 9))), "field 0 has the unknown kind 3")
        self.assertEqual(told(edited(data, (0, 23, 3), (0, 32, 1))), "refused 30: block 0: word 32 is 00000001")
        self.assertEqual(told(edited(data, (0, 22, 9))), "9 fields")
        self.assertEqual(told(edited(data, (0, 22, 9), (0, 86, 2), (0, 87, 5), (0, 94, 5))), "9 fields")
        self.assertEqual(told(edited(data, (0, 22, 9), (0, 94, 5))), "refused 30: block 0: word 94 is 00000005")
        self.assertEqual(told(edited(data, (0, 22, 9), (0, 95, 5))), "refused 30: block 0: word 95 is 00000005")

    def test_order(self):
        data = blocks.parse(M4).bytes()
        left = edited(data, (0, 95, 1))
        self.assertEqual(told(left[:508] + bytes([left[508] ^ 1]) + left[509:]), "refused 2")
        self.assertEqual(told(edited(data, (0, 2, 2), (0, 95, 1))), "refused 3")
        # A block's before the next block's numbers, the last one's before bytes behind it, all before what the header says.
        first = "refused 30: block 1: word 100 is 00000001"
        self.assertEqual(told(edited(data, (1, 100, 1))[:1200]), first)
        self.assertEqual(told(edited(data, (1, 100, 1), (2, 0, 2))), first)
        self.assertEqual(told(edited(data, (1, 0, 3), (2, 100, 1))), "refused 3")
        self.assertEqual(told(edited(data, (2, 126, 1)) + b"xyz"), "refused 30: block 2: word 126 is 00000001")
        self.assertEqual(told(data + b"xyz"), "refused 1")
        self.assertEqual(told(edited(data, (0, 23, 3), (2, 100, 1))), "refused 30: block 2: word 100 is 00000001")
        empty = blocks.parse("").bytes()
        self.assertEqual(told(edited(empty, (0, 126, 1)) + bytes(512)), "refused 30: block 0: word 126 is 00000001")
        self.assertEqual(told(empty + bytes(512)), "refused 1")

    def test_text_refused(self):
        for text in ("vertex 1 2", "element 1 2 3 4294967296", "field cone 1", "wall 3", "passes", "field level 1\n" * 9):
            with self.assertRaises(blocks.Refused):
                blocks.parse(text)


if __name__ == "__main__":
    unittest.main()
