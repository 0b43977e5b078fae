#!/usr/bin/env python3
# Works out the numbers of `inverse` in src/root.rt of crate geometry: python3 tools/root/polynomial.py
# y is the guess by halving the bits, and p = x * y * y. The polynomial of degree 6 has the least largest relative
# error against 1 / root p where p can be, by Remez's exchange on a grid, and is then scaled to lie below.
# The program's proofs use nothing of this: a worse polynomial makes `root` slower, not wrong.
import math
import struct
from fractions import Fraction

SEED = 0x5FE6_EB50_C7B5_37A9
DEGREE = 6


def number(bits):
    return struct.unpack("<d", struct.pack("<Q", bits))[0]


def bits(x):
    return struct.unpack("<Q", struct.pack("<d", x))[0]


# the least and the largest p, over x from 1 to 4
def span(many=200_000):
    ps = []
    for i in range(many):
        x = 1 + 3 * i / many
        y = number(SEED - (bits(x) >> 1))
        ps.append(x * y * y)
    return min(ps), max(ps)


# the solution of a square system, its right side in the last column
def solve(rows):
    n = len(rows)
    for i in range(n):
        for k in range(n):
            if k != i:
                f = rows[k][i] / rows[i][i]
                rows[k] = [a - f * b for a, b in zip(rows[k], rows[i])]
    return [float(rows[i][n] / rows[i][i]) for i in range(n)]


def error(c, x):
    return math.sqrt(x) * sum(a * x**j for j, a in enumerate(c)) - 1


# the coefficients and the largest relative error
def remez(lo, hi, n, rounds=30, steps=4000):
    grid = [lo + (hi - lo) * i / steps for i in range(steps + 1)]
    at = [(lo + hi) / 2 - (hi - lo) / 2 * math.cos(math.pi * k / (n + 1)) for k in range(n + 2)]
    for _ in range(rounds):
        rows = [[Fraction(x) ** j * Fraction(math.sqrt(x)) for j in range(n + 1)] + [Fraction((-1) ** k), Fraction(1)] for k, x in enumerate(at)]
        c = solve(rows)[: n + 1]
        e = [error(c, x) for x in grid]
        runs = [[0]]
        for i in range(1, steps + 1):
            if (e[i] > 0) == (e[runs[-1][0]] > 0):
                runs[-1].append(i)
            else:
                runs.append([i])
        if len(runs) != n + 2:
            break
        at = [grid[max(run, key=lambda i: abs(e[i]))] for run in runs]
    return c, max(map(abs, e))


lo, hi = span()
c, e = remez(lo, hi, DEGREE)
print(f"p from {lo:.4f} to {hi:.4f}, error 2^{math.log2(e):.1f}")
for j, a in enumerate(c):
    print(j, repr(a * (1 - 1.05 * e - 2.0**-50)))
