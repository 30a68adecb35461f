"""Both tides as exact fractions, grains: what the bounds compare with.

The body vectors are whole; K0 and all else stay fractions. The distances L, R and S (size, r and s here) are those given, fractions in the
unit of their vectors: metres, and kilometres for the Sun. Where none is given it is the whole one, as in the 100-grain bound.
"""

import math
from fractions import Fraction

from bodies import GM_RATIO, MOON, RE, SUN, UNIT, distance
from units import METRE

H2, L2 = Fraction(6_078, 10_000), Fraction(847, 10_000)           # of degree two where P is 0
H2_SLOPE, L2_SLOPE = Fraction(-6, 10_000), Fraction(2, 10_000)    # what each gains as P goes from 0 to 1
H3, L3 = Fraction(292, 1_000), Fraction(15, 1_000)


def direction(vector, size=None):
    """The vector over a distance; a unit vector where that is the real one."""
    size = size or distance(vector)
    return tuple(Fraction(v, size) for v in vector)


def dot(a, b):
    return sum(p * q for p, q in zip(a, b))


def latitude(u):
    """P = (3 sin^2 phi - 1)/2, and sin phi is uz."""
    return (3 * u[2]**2 - 1) / 2


def permanent(mark, size=None):
    """(14a) times u, plus (14b) northwards.

    sin phi = uz, and sin 2 phi times the north vector is 2 uz (z - uz u), z
    being the unit vector to the pole.
    """
    u = direction(mark, size)
    p = latitude(u)
    radial = (Fraction(-1_206, 10_000) + Fraction(1, 10_000) * p) * p
    north = (Fraction(-252, 10_000) - Fraction(1, 10_000) * p) * 2 * u[2]
    pole = (0, 0, 1)
    return tuple(METRE * (radial * u[i] + north * (pole[i] - u[2] * u[i])) for i in range(3))


def factor(label, r):
    """(GM ratio) Re^4 / R^3 in metres."""
    return GM_RATIO[label] * RE**4 / (r * UNIT[label])**3


def stand(mark, vector, size, r):
    """R, the unit vectors to mark and body, and the cosine of the angle between them."""
    r = r or distance(vector)
    u, d = direction(mark, size), direction(vector, r)
    return r, u, d, dot(u, d)


def displaced(k, u, d, c, radial, across):
    """k metres, as grains: times radial along u, and across along d less its part c along u."""
    k *= METRE
    return tuple(k * (radial * u[i] + across * (d[i] - c * u[i])) for i in range(3))


def formula_five(mark, label, vector, love, shida, size=None, r=None):
    """One body's degree two with a given h and l."""
    r, u, d, c = stand(mark, vector, size, r)
    return displaced(factor(label, r), u, d, c, love * (3 * c**2 - 1) / 2, 3 * shida * c)


def degree_two(mark, label, vector, size=None, r=None):
    """Formula (5) for one body, with h and l at the mark's latitude."""
    p = latitude(direction(mark, size))
    return formula_five(mark, label, vector, H2 + H2_SLOPE * p, L2 + L2_SLOPE * p, size, r)


def degree_three(mark, moon, size=None, r=None):
    """Formula (6) for the Moon; k is (Moon ratio) Re^5 / R^4 in metres."""
    r, u, d, c = stand(mark, moon, size, r)
    k = GM_RATIO[MOON] * RE**5 / Fraction(r)**4
    return displaced(k, u, d, c, H3 * (5 * c**3 - 3 * c) / 2, L3 * (15 * c**2 - 3) / 2)


def tide(mark, moon, sun, size=None, r=None, s=None):
    """Degree two of both bodies and degree three of the Moon."""
    parts = degree_two(mark, MOON, moon, size, r), degree_three(mark, moon, size, r), degree_two(mark, SUN, sun, size, s)
    return tuple(sum(axis) for axis in zip(*parts))


def gap(got, wanted):
    """The greatest difference of a component."""
    return max(abs(a - b) for a, b in zip(got, wanted))


def hundredths(value):
    """A gap in grains, rounded up to 0.01."""
    found = math.ceil(100 * value)
    return f"{found // 100}.{found % 100:02d}"
