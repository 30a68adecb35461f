"""Parts of Step 1 of Chapter 7 (source 000) beside degree two, metres.

Our solid tide leaves them out, but for the Moon's third degree and the latitude part of
h and l; these two are here as a second writing, which published.py holds against exact.py.

Exact fractions. Unit vectors are the vectors over their whole lengths. North
and east are irrational by themselves, but every product below is rational:
with r2 = x*x + y*y of the station, each longitude term brings a 1/r2.

Source 000 prints (7b) with R cubed. Source 003 prints R squared, which is what
P(2,1) = 3 sin cos needs. R squared is used here.
"""

from fractions import Fraction

from bodies import MOON, RE, SUN, UNIT, distance
from exact import direction, dot, factor
from mark import length

H_LAT, L_LAT = Fraction(-6, 10_000), Fraction(2, 10_000)         # h(2), l(2)
H3, L3 = Fraction(292, 1_000), Fraction(15, 1_000)
L1_DAY, L1_HALF = Fraction(12, 10_000), Fraction(24, 10_000)     # l(1)
HI_DAY, HI_HALF = Fraction(-25, 10_000), Fraction(-22, 10_000)   # h imaginary
LI = Fraction(-7, 10_000)                                        # l imaginary


def add(*vectors):
    return tuple(sum(v[i] for v in vectors) for i in range(3))


class Place:
    """A station and one body: unit vectors, cosine, and longitude products."""

    def __init__(self, mark, label, vector):
        r = distance(vector)
        self.u, self.d = direction(mark, length(mark)), direction(vector, r)
        self.c = dot(self.u, self.d)
        self.k = factor(label, r)
        self.per_r = RE / (r * UNIT[label])
        x, y, z = self.u
        self.flat = x * x + y * y                            # cos^2 phi
        self.along = x * self.d[0] + y * self.d[1]           # cos cos cos(dlon)
        self.aside = y * self.d[0] - x * self.d[1]           # cos cos sin(dlon)
        self.north = (-z * x, -z * y, self.flat)             # cos phi times n
        self.east = (-y, x, Fraction(0))                     # cos phi times e

    def mix(self, radial, across):
        """radial u + across (d - c u)."""
        return tuple(radial * self.u[i] + across * (self.d[i] - self.c * self.u[i])
                     for i in range(3))

    def ground(self, north, east):
        """north and east are per cos phi, so that no root is left."""
        return tuple(north * n + east * e for n, e in zip(self.north, self.east))


def degree_three(p):
    """Formula (6), of either body."""
    k = p.k * p.per_r
    return p.mix(k * H3 * (Fraction(5, 2) * p.c**3 - Fraction(3, 2) * p.c),
                 k * L3 * (Fraction(15, 2) * p.c**2 - Fraction(3, 2)))


def latitude(p):
    """Formula (5) with h(2) P and l(2) P in place of h and l."""
    p2 = (3 * p.u[2]**2 - 1) / 2
    return p.mix(p.k * H_LAT * p2 * (3 * p.c**2 - 1) / 2, p.k * L_LAT * p2 * 3 * p.c)


def l_one(p):
    """Formulas (8) and (9): the l(1) terms."""
    s, sb = p.u[2], p.d[2]
    day = -L1_DAY * s * p.k * 3 * sb
    cos2phi = 1 - 2 * s * s
    first = p.ground(day * s * p.along / p.flat, -day * cos2phi * p.aside / p.flat)
    half = -L1_HALF / 2 * s * p.k * 3
    second = p.ground(half * (p.along**2 - p.aside**2) / p.flat,
                      half * s * 2 * p.along * p.aside / p.flat)
    return add(first, second)


def out_of_phase(p):
    """Formulas (10) and (11): the imaginary parts of h and l."""
    s, sb = p.u[2], p.d[2]
    cos2phi = 1 - 2 * s * s
    # sin 2 Phi sin 2 phi sin(dlon) = 4 sb s aside
    radial = -Fraction(3, 4) * HI_DAY * p.k * 4 * sb * s * p.aside
    day = -Fraction(3, 2) * LI * p.k * 2 * sb
    ground = p.ground(day * cos2phi * p.aside / p.flat, day * s * p.along / p.flat)
    # cos^2 cos^2 sin 2 dlon = 2 along aside; cos^2 cos^2 cos 2 dlon = along^2 - aside^2
    radial += -Fraction(3, 4) * HI_HALF * p.k * 2 * p.along * p.aside
    half = Fraction(3, 4) * LI * p.k
    other = p.ground(half * 2 * s * 2 * p.along * p.aside / p.flat,
                     -half * 2 * (p.along**2 - p.aside**2) / p.flat)
    return add(tuple(radial * v for v in p.u), ground, other)


def both(part, mark, moon, sun):
    """A part for the Moon plus the same for the Sun."""
    return add(part(Place(mark, MOON, moon)), part(Place(mark, SUN, sun)))
