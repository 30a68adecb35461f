"""The solid tide of one body and of a pair, grains.

Degree two of both bodies is formula (5) of Chapter 7 (source 000) with h and l that
follow the mark's latitude: h = 0.6078 - 0.0006 P and l = 0.0847 + 0.0002 P. Degree three
of the Moon is formula (6) with h = 0.292 and l = 0.015 everywhere.
"""

from typing import NamedTuple

from bodies import K0, K0_3, MOON, R0, SUN, distance, judge, order_pair
from mark import latitude, unit
from rounding import E, near
from units import ZERO, plus


class Stand(NamedTuple):
    """A mark and how a body stands to it, all scaled by E: what the degrees start from."""
    u: tuple  # to the mark
    d: tuple  # to the body
    c: int    # cosine of the angle between them
    c2: int   # its square
    q: int    # R0 / R
    q3: int   # its cube
    lat: int  # P of the mark's latitude


def stand(mark, label, vector):
    """For a whole body vector, in the body's unit."""
    u = unit(mark)
    r = distance(vector)
    d = tuple(near(v * E, r) for v in vector)
    c = near(sum(a * b for a, b in zip(u, d)), E)
    q = near(R0[label] * E, r)
    q2 = near(q * q, E)
    return Stand(u, d, c, near(c * c, E), q, near(q2 * q, E), latitude(u[2])[1])


def degree_two(label, s):
    """(rho, t) of formula (5), grains: along the mark, and across it towards the body.

    h and l are exact until K is in: scaled by 10,000 E, they are 6,078 E - 6 P and 847 E + 2 P.
    """
    k = near(K0[label] * s.q3, E)
    p = near(3 * s.c2 - E, 2)
    rho = near(near((6_078 * E - 6 * s.lat) * k, 10_000 * E) * p, E)
    t = 3 * near(near((847 * E + 2 * s.lat) * k, 10_000 * E) * s.c, E)
    return rho, t


def degree_three(s):
    """(rho, t) of formula (6), for the Moon; no 3 stands before t here."""
    q4 = near(s.q3 * s.q, E)
    k = near(K0_3 * q4, E)
    c3 = near(s.c2 * s.c, E)
    p = near(5 * c3 - 3 * s.c, 2)
    v = near(15 * s.c2 - 3 * E, 2)
    rho = near(near(292 * k, 1_000) * p, E)
    t = near(near(15 * k, 1_000) * v, E)
    return rho, t


def displaced(s, rho, t):
    """rho along the mark, t along the body less its part along the mark; rounded once."""
    return tuple(near(rho * s.u[i] + t * (s.d[i] - near(s.c * s.u[i], E)), E) for i in range(3))


def part(mark, label, vector):
    """One body's displacement at a mark: each degree is rounded by itself, then added."""
    s = stand(mark, label, vector)
    two = displaced(s, *degree_two(label, s))
    return plus(two, displaced(s, *degree_three(s))) if label == MOON else two


def tide(mark, moon, sun):
    """The Moon's part plus the Sun's, for whole vectors."""
    return plus(part(mark, MOON, moon), part(mark, SUN, sun))


def ordered_tide(mark, moon_bits, sun_bits):
    """(number, tide) for doubles already in order; zeros when refused."""
    number, moon, sun = judge(moon_bits, sun_bits)
    return (number, ZERO) if number else (0, tide(mark, moon, sun))


def pair_tide(mark, first, second):
    """(number, tide) of two labelled entries: 17, then 10, then 11."""
    number, moon_bits, sun_bits = order_pair(first, second)
    return (number, ZERO) if number else ordered_tide(mark, moon_bits, sun_bits)
