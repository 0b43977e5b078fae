"""Vectors of three floats, for the programs that work out answers from document 01: each operation rounded once, sums left to right."""
import struct


def of(bits):
    """The f64 of a pattern."""
    return struct.unpack("<d", struct.pack("<Q", bits))[0]


def sub(a, b):
    return [a[i] - b[i] for i in range(3)]


def dot(a, b):
    return a[0] * b[0] + a[1] * b[1] + a[2] * b[2]


def cross(a, b):
    return [a[1] * b[2] - a[2] * b[1], a[2] * b[0] - a[0] * b[2], a[0] * b[1] - a[1] * b[0]]
