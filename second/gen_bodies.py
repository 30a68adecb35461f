"""Body doubles for vectors: good ones, edges of the ranges, damaged ones."""

import sample
from bodies import MOON, RANGE, SUN
from metres import quotient_bits

NAN, SIGNALLING, NEGATIVE_NAN = 0x7FF8 << 48, (0x7FF << 52) | 1, 0xFFF8_0000_0000_0001
PLUS_INF, MINUS_INF = 0x7FF << 52, 0xFFF << 52
NOT_FINITE = (NAN, SIGNALLING, NEGATIVE_NAN, PLUS_INF, MINUS_INF)
DENORMAL, MINUS_ZERO = 1, 1 << 63
GREATEST = (0x7FE << 52) | ((1 << 52) - 1)


def doubles(vector, parts=1):
    """The doubles nearest to vector / parts."""
    return tuple(quotient_bits(v, parts) for v in vector)


def good(rng, label):
    """Accepted doubles with fractions of all kinds."""
    vector = sample.moon(rng) if label == MOON else sample.sun(rng)
    # Fractions under a half round back to the same whole, so R is kept.
    if rng.randrange(4) == 0:
        return doubles(vector)
    if rng.randrange(3) == 0:
        return doubles([8 * v + rng.choice((-3, -1, 1, 3)) for v in vector], 8)
    return doubles([1_000 * v + rng.randint(-499, 499) for v in vector], 1_000)


def swap(bits, i, value):
    return tuple(value if k == i else b for k, b in enumerate(bits))


def edges(label):
    """Doubles on both sides of both ends of a body's range."""
    least, most = RANGE[label]
    for n in (least - 1, least, least + 1, most - 1, most, most + 1):
        for i in range(3):
            yield doubles(tuple((n if i != 1 else -n) if k == i else 0 for k in range(3)))
    for n in (2 * least - 1, 2 * most + 1, 1 - 2 * least, -2 * most - 1):
        half = doubles((n, 0, 0), 2)  # a half: both ends of both ranges are even, so it rounds to the end
        yield half
        yield (half[0] - 1, 0, 0)     # the double next to it, nearer to zero
        yield (half[0] + 1, 0, 0)
    for other in range(1, 60_000):
        if other * other > 2 * most:  # (most + 1)^2 - most^2 = 2 most + 1
            yield doubles((most, other - 1, 0))
            yield doubles((most, other, 0))
            break


def tiny(label):
    """Zeros, minus zeros, denormals and small halves beside a good component."""
    n = {MOON: 384_400_000, SUN: 149_597_870}[label]
    for bits in (0, MINUS_ZERO, DENORMAL, DENORMAL | 1 << 63, (1 << 52) - 1,
                 quotient_bits(1, 2), quotient_bits(-1, 2), quotient_bits(1, 2) - 1,
                 quotient_bits(5, 2), quotient_bits(-5, 2)):
        yield (quotient_bits(n, 1), bits, 0)
        yield (bits, MINUS_ZERO, quotient_bits(-n, 1))


def far(label):
    """Finite but much too far, or nothing at all."""
    for bits in (quotient_bits(1 << 30, 1), quotient_bits(-(1 << 30), 1),
                 quotient_bits((1 << 30) + 1, 1), quotient_bits((1 << 31) + 1, 2),
                 quotient_bits(1 << 32, 1), quotient_bits(1 << 63, 1),
                 quotient_bits(-(1 << 64), 1), GREATEST, GREATEST | 1 << 63):
        yield (bits, 0, 0)
        yield (0, quotient_bits(RANGE[label][0], 1), bits)
    yield (0, 0, 0)
    yield (DENORMAL, DENORMAL, MINUS_ZERO)


def refused_by_nan(rng, label):
    for i in range(3):
        for bits in NOT_FINITE:
            yield swap(good(rng, label), i, bits)


def pairs(rng):
    """Pairs of labelled entries: every edge of one body beside a good other."""
    for label in (MOON, SUN):
        other = 1 - label
        for found in (edges(label), tiny(label), far(label), refused_by_nan(rng, label)):
            for bits in found:
                entries = [(label, bits), (other, good(rng, other))]
                rng.shuffle(entries)
                yield tuple(entries)
    yield from mixed_pairs(rng)


def mixed_pairs(rng):
    """Both bodies bad, and pairs that are not one of each."""
    nan, out = (NAN, 0, 0), doubles((1 << 29, 0, 0))
    for first, second in ((nan, out), (out, nan), (nan, nan), (out, out)):
        yield (MOON, first), (SUN, second)
        yield (SUN, first), (MOON, second)
    for label in (MOON, SUN):
        for bits in (good(rng, label), nan, out):
            yield (label, good(rng, label)), (label, bits)
            yield (label, bits), (label, good(rng, label))
    for _ in range(60):
        first, second = (MOON, good(rng, MOON)), (SUN, good(rng, SUN))
        yield first, second
        yield second, first
