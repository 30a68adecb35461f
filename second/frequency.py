"""Step 2 of Chapter 7 (source 000): the terms of Tables 7.3a and 7.3b, metres.

The tables hold the terms of at least 0.05 mm; the IERS routine has more terms,
so a few hundredths of a millimetre stay unexplained.
"""

from fractions import Fraction

from angles import delaunay, sidereal, sine_cosine
from leftout import add

# Multipliers of l l' F D Omega, then R in phase, R out, T in phase, T out, 0.01 mm.
DIURNAL = (
    ((1, 0, 2, 0, 2), (-8, 0, -1, 1)),
    ((0, 0, 2, 0, 1), (-10, 0, 0, 0)),
    ((0, 0, 2, 0, 2), (-51, 0, -2, 3)),
    ((1, 0, 0, 0, 0), (6, 0, 0, 0)),
    ((0, 1, 2, -2, 2), (-6, 0, 0, 0)),
    ((0, 0, 2, -2, 2), (-123, -7, 6, 1)),
    ((0, 0, 0, 0, -1), (-22, 1, 1, 0)),
    ((0, 0, 0, 0, 0), (1200, -78, -67, -3)),
    ((0, 0, 0, 0, 1), (173, -12, -10, 0)),
    ((0, -1, 0, 0, 0), (-50, -1, 3, 0)),
    ((0, 0, -2, 2, -2), (-11, 1, 1, 0)),
)
ZONAL = (
    ((0, 0, 0, 0, 1), (47, 16, 23, 7)),
    ((0, 0, -2, 2, -2), (-20, -11, -12, -5)),
    ((-1, 0, 0, 0, 0), (-11, -9, -8, -4)),
    ((0, 0, -2, 0, -2), (-13, -15, -11, -7)),
    ((0, 0, -2, 0, -1), (-5, -6, -5, -3)),
)


def metres(row):
    return [Fraction(v, 100_000) for v in row]


def diurnal(place, turns, row):
    """Formulas (12a) and (12b); theta = sidereal time + half a turn - N F."""
    r_in, r_out, t_in, t_out = metres(row)
    s, c = sine_cosine(turns)
    x, y, z = place.u
    # sin and cos of theta + longitude, both times cos phi.
    sin_cos, cos_cos = s * x + c * y, c * x - s * y
    radial = (r_in * sin_cos + r_out * cos_cos) * 2 * z
    east = (t_in * cos_cos - t_out * sin_cos) * z
    north = (t_in * sin_cos + t_out * cos_cos) * (1 - 2 * z * z)
    return add(tuple(radial * v for v in place.u),
               place.ground(north / place.flat, east / place.flat))


def zonal(place, turns, row):
    """Formulas (13a) and (13b); theta = - N F."""
    r_in, r_out, t_in, t_out = metres(row)
    s, c = sine_cosine(turns)
    z = place.u[2]
    radial = (3 * z * z - 1) / 2 * (r_in * c + r_out * s)
    north = (t_in * c + t_out * s) * 2 * z  # sin 2 phi over cos phi
    return add(tuple(radial * v for v in place.u), place.ground(north, 0))


def step_two(place, days, tt_minus_ut):
    """Both bands; days of UT1 from 2000.0 noon, tt_minus_ut in seconds."""
    t = (days + Fraction(tt_minus_ut) / 86_400) / 36_525
    moving = list(delaunay(t))
    turned = sidereal(days, t) + Fraction(1, 2)
    parts = []
    for multipliers, row in DIURNAL:
        parts.append(diurnal(place, turned - sum(n * f for n, f in zip(multipliers, moving)), row))
    for multipliers, row in ZONAL:
        parts.append(zonal(place, -sum(n * f for n, f in zip(multipliers, moving)), row))
    return add(*parts)
