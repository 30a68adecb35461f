"""The three leaf functions: near, root, whole. Exact integers only.

The file is not called numbers.py: that name would hide the standard module
which fractions imports.

Decisions, where the paper leaves room:
- near by b = 0 is 0, so that the function is total.
- whole calls a double far when its rounded magnitude is greater than 2^30;
  2^30 + 1/2 rounds to 2^30, which is even, and is not far.
  2^30 metres (or kilometres) is beyond every accepted body distance, so a far
  component always means refusal 11.
"""

import math

E = 1 << 30  # the scale of all unit vectors and ratios

NOT_FINITE = "nan"  # infinite or not a number
FAR = "far"         # rounded magnitude greater than 2^30


def near(a, b):
    """The whole number nearest to a/b, of an exact half the even neighbour; 0 by b = 0."""
    assert b >= 0
    if b == 0:
        return 0
    below, left = divmod(a, b)  # a/b is below + left/b, of either sign, and left < b
    if 2 * left == b:
        return below if below % 2 == 0 else below + 1
    return below if 2 * left < b else below + 1


def root(n):
    """The greatest r with r*r <= n, bit by bit from the top."""
    assert n >= 0
    r = 0
    for place in reversed(range((n.bit_length() + 1) // 2)):
        trial = r | (1 << place)
        if trial * trial <= n:
            r = trial
    assert r == math.isqrt(n)
    return r


def parts(bits):
    """A double's 64 bits as (sign, exponent field, fraction field)."""
    assert 0 <= bits < 1 << 64
    return bits >> 63, (bits >> 52) & 0x7FF, bits & ((1 << 52) - 1)


def finite(bits):
    """Neither infinite nor not a number."""
    return parts(bits)[1] != 0x7FF


def ratio(bits):
    """A finite double as an exact signed pair (numerator, denominator)."""
    sign, field, fraction = parts(bits)
    assert field != 0x7FF
    # Field 0 holds the denormals: no hidden bit, same scale as field 1.
    mantissa = fraction if field == 0 else fraction | (1 << 52)
    power = max(field, 1) - 1075
    if sign:
        mantissa = -mantissa
    return (mantissa << power, 1) if power >= 0 else (mantissa, 1 << -power)


def whole(bits):
    """A double, by its bits, as NOT_FINITE, FAR or the nearest whole number."""
    if not finite(bits):
        return NOT_FINITE
    value = near(*ratio(bits))
    return FAR if abs(value) > E else value
