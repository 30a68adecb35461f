"""Moon and Sun: labels, reference distances, K0, and the judging of a pair.

An entry is (label, (three doubles as 64-bit numbers)). Moon entries are in
metres, Sun entries in kilometres. There is no third label.
"""

from fractions import Fraction

from rounding import FAR, NOT_FINITE, near, root, whole
from units import METRE

MOON, SUN = 0, 1

R0 = {MOON: 384_400_000, SUN: 149_597_870}          # metres; kilometres
UNIT = {MOON: 1, SUN: 1_000}                        # metres in the entry's unit
RANGE = {MOON: (350_000_000, 410_000_000), SUN: (146_000_000, 153_000_000)}

RE = Fraction(63_781_366, 10)  # metres, Table 1.1
GM_RATIO = {
    MOON: Fraction(123_000_371, 10**10),
    SUN: Fraction(132_712_442_099 * 10**9, 398_600_441_800_000),
}


def exact_k0(label, degree):
    """(GM ratio) Re^(degree + 2) / R0^(degree + 1) in grains, not rounded."""
    return GM_RATIO[label] * RE**(degree + 2) / (R0[label] * UNIT[label])**(degree + 1) * METRE


def rounded_k0(label, degree):
    value = exact_k0(label, degree)
    return near(value.numerator, value.denominator)


K0 = {MOON: rounded_k0(MOON, 2), SUN: rounded_k0(SUN, 2)}
K0_3 = rounded_k0(MOON, 3)  # the Moon alone has a third degree


def distance(vector):
    return root(sum(v * v for v in vector))


def in_range(label, vector):
    least, most = RANGE[label]
    return least <= distance(vector) <= most


def judge(moon_bits, sun_bits):
    """(number, Moon vector, Sun vector); 10 is tested on both before 11.

    A far component has no whole number here, and any far component makes the
    distance greater than every accepted one.
    """
    moon = [whole(b) for b in moon_bits]
    sun = [whole(b) for b in sun_bits]
    if NOT_FINITE in moon + sun:
        return 10, None, None
    if FAR in moon + sun:
        return 11, None, None
    if not (in_range(MOON, moon) and in_range(SUN, sun)):
        return 11, None, None
    return 0, tuple(moon), tuple(sun)


def order_pair(first, second):
    """(number, Moon doubles, Sun doubles); 17 unless one is of each label."""
    if {first[0], second[0]} != {MOON, SUN}:
        return 17, None, None
    return (0, first[1], second[1]) if first[0] == MOON else (0, second[1], first[1])
