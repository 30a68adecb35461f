"""Marks where a last grain of the older frames' rows hangs on a half, or on the unit of a rotation.

near rounds g n/10^14, with g 1,461 for A and 1 for B. Neither g nor the unit has a factor of two or five, and n is 10^9 D m and the unit
times s. So a half needs an s that is a multiple of 10^9: with s = 0 one comes up where D m is an odd multiple of 50,000. Rotations are
so small that s is within 10^9, but for A of ITRF93, y and z; and y has only multiples of 3 there, so it is z alone that has halves with
s = 10^9 and s = -10^9 (rare.py). The assertions say what is special about the numbers.
"""

from fractions import Fraction

import damage
import frames
import sample
from frames import ROWS, UNIT
from halves import kinds
from mark import good_mark
from rounding import near, root

ITRF93, ITRF88 = 6, 11
OLDER = range(3, 12)
HALF = 5 * 10**13   # of what near divides by
MIDDLE = 6_350_000  # metres, half-way between the limits of a mark

# Odd multiples of 50,000 m that make accepted marks in a plane, and of 12,500 m, at which 2.92 ppb gives halves.
WIDE, FINE = ((89, 91), (103, -75), (-19, 125), (-125, -21)), ((359, 357), (401, -309), (-3, 507), (-497, -91))

# Rotations of ITRF93: for each component the other two in the ratio where s is 0, of A and of B.
LEVEL_A = ((0, 74, 15), (57, 0, 10), (171, 148, 0))
LEVEL_B = ((0, 19, -7), (11, 0, -7), (11, 19, 0))


def in_plane(n, step, pairs, at):
    """A mark with y = 0, or x = 0, by turns."""
    a, b = (step * odd for odd in pairs[at % 4])
    return (a, 0, b) if n % 2 else (0, a, b)


def plane_halves():
    """A frame and a mark with halves of A, of B or of both. Where x or y is 0 the other of them has no rotation; z has one in ITRF93 and ITRF88 alone."""
    for n, frame in enumerate(f for f in OLDER if f != ITRF93):
        for k in range(3):
            fine = ROWS[frame].at.d == 292 and k % 2 == 0  # then A has the halves, else B
            yield frame, in_plane(n + k + k // 2, *((12_500, FINE) if fine else (50_000, WIDE)), n + k)


def level(ratio, i, odd):
    """A mark with an odd multiple of 50,000 m in component i, the others in this ratio."""
    m = 50_000 * odd
    scale = root((MIDDLE**2 - m * m) // sum(v * v for v in ratio))
    return tuple(m if k == i else v * scale for k, v in enumerate(ratio))


def level_halves():
    """Marks of ITRF93 with s = 0 in one component and a half there, of A or of B; of ITRF88 in y, of A."""
    for ratios in (LEVEL_A, LEVEL_B):
        for i, ratio in enumerate(ratios):
            for odd in (61, -63):
                yield ITRF93, level(ratio, i, odd)
    for odd in (57, -59):
        yield ITRF88, level((5, 0, 3), 1, odd)


def turned_halves():
    """Marks of ITRF93 with a half in z of A where s is 10^9 or -10^9: one of each kind. n has the sign of s there, for D z is smaller."""
    (r1, r2, _), d = ROWS[ITRF93].at.r, ROWS[ITRF93].at.d
    found = {}
    for s in (10**9, -10**9):
        z = (50_000 - UNIT * (s // 10**9)) * pow(d, -1, 100_000) % 100_000
        for z in range(z - 3_000_000, 3_000_000, 100_000):
            # r1 y - r2 x = s: the point next to the axis, then along the line
            x = near(-r2 * s, r1 * r1 + r2 * r2) + r1 * root(MIDDLE**2 - s * s // (r1 * r1 + r2 * r2) - z * z) // root(r1 * r1 + r2 * r2)
            x += next(k for k in range(-r1) if (s + r2 * (x + k)) % r1 == 0)
            mark = x, (s + r2 * x) // r1, z
            assert frames.turned(ROWS[ITRF93].at.r, mark)[2] == s and good_mark(mark)
            found.setdefault((s, kinds(frames.row_a, ITRF93, mark)[2]), mark)
    assert len(found) == 4 and all(kind for _, kind in found)
    return [(ITRF93, mark) for mark in found.values()]


def half_marks():
    """A frame and a mark of every half; all kinds in each component of A and of B."""
    met = set()
    for frame, mark in (*plane_halves(), *level_halves(), *turned_halves()):
        found = [(name, "xyz"[i], kind) for name, row in (("A", frames.row_a), ("B", frames.row_b)) for i, kind in enumerate(kinds(row, frame, mark)) if kind]
        assert good_mark(mark) and found, (frame, mark)
        met.update(found)
        yield frame, mark
    assert len(met) == 2 * 3 * 4, met


# Other units: a last digit more, one less, and 0.01 mas to five more digits.
MORE, LESS, BY_PI = UNIT + 1, UNIT - 1, Fraction(484_813_681_109_536, 10**5)


def by_unit(unit, row, frame, mark):
    """A row with another unit."""
    try:
        frames.UNIT = unit
        return row(frame, mark)
    finally:
        frames.UNIT = UNIT


def close(rng, line, g, i):
    """Marks with component i next to a half, above it or below, by less than a part in 10^5."""
    mark = damage.put(sample.mark(rng), i, 0)
    count = (HALF - g * UNIT * frames.turned(line.r, mark)[i]) // 10**9 + rng.randrange(2)
    first = count * pow(g * line.d, -1, 100_000) % 100_000
    for m in range(first - 6_500_000, 6_500_000, 100_000):
        if good_mark(damage.put(mark, i, m)):
            yield damage.put(mark, i, m)


def unit_mark(rng, row, frame, i, unit):
    """A mark where another unit gives another component i of a row."""
    line, g = (ROWS[frame].at, 1_461) if row is frames.row_a else (ROWS[frame].rates, 1)
    while True:
        for mark in close(rng, line, g, i):
            if by_unit(unit, row, frame, mark)[i] != row(frame, mark)[i]:
                return mark


def unit_marks(rng):
    """A frame and a mark for each other unit: A of ITRF93, of ITRF88 and of ITRF91, B of ITRF93 and of ITRF89."""
    for row, frame, places in ((frames.row_a, ITRF93, (0, 1, 2)), (frames.row_a, ITRF88, (1, 2)), (frames.row_a, 8, (0, 1)),
                               (frames.row_b, ITRF93, (2, 0, 1)), (frames.row_b, 10, (1, 0))):
        for i, unit in zip(places, (MORE, LESS, BY_PI)):
            yield frame, unit_mark(rng, row, frame, i, unit)
