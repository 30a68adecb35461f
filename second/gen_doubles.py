"""Doubles for whole, by their bits: every exponent, halves, edges, what is not finite."""

FIELDS = 2048  # exponent fields; as many doubles come first, one for each
FULL = (1 << 52) - 1


def double(sign, field, fraction):
    return (sign << 63) | (field << 52) | fraction


def bits_of(numerator, halvings=0):
    """The bits of numerator / 2^halvings, which must fit a double exactly."""
    sign, size = (1, -numerator) if numerator < 0 else (0, numerator)
    if size == 0:
        return 0
    length = size.bit_length()
    fraction = ((size << 53) >> length) & FULL
    assert size << 53 == (fraction | 1 << 52) << length
    return double(sign, length - 1 - halvings + 1023, fraction)


def about(bits):
    """A double and its two neighbours, of both signs."""
    for near_by in (bits - 1, bits, bits + 1):
        yield near_by
        yield near_by | 1 << 63


def halves(rng):
    """k + 1/2, and whole numbers that are edges, with their neighbours."""
    found = list(range(12)) + [rng.randrange(1 << 29) for _ in range(12)]
    found += [(1 << p) - 1 for p in (8, 16, 24, 28, 29)]
    found += [(1 << 30) - 1, 1 << 30, 384_400_000, 149_597_870]
    for k in found:
        yield from about(bits_of(2 * k + 1, 1))
    for n in (1 << 30, (1 << 30) - 1, (1 << 30) + 1, 1 << 31, 1 << 52, 1 << 53,
              (1 << 52) + 1, (1 << 53) - 1, 1, 2, 350_000_000, 410_000_000):
        yield from about(bits_of(n))


def special():
    """Zeros, denormals, the least normal, infinities, both kinds of NaN."""
    infinity = 0x7FF << 52
    for low in (0, 1, 2, 1 << 51, FULL, 1 << 52, infinity - 1, infinity,
                infinity + 1, infinity + 2, infinity | (1 << 51) - 1,
                infinity | 1 << 51, infinity | (1 << 51) + 1,
                infinity | FULL):
        yield low
        yield low | 1 << 63


def doubles(rng):
    for field in range(FIELDS):
        yield double(rng.randrange(2), field, rng.choice((0, 1, FULL, rng.randrange(FULL))))
    for field in range(1018, 1057):
        for sign in (0, 1):
            for fraction in (0, 1, 1 << 51, FULL, rng.randrange(FULL)):
                yield double(sign, field, fraction)
    yield from halves(rng)
    yield from special()
    for _ in range(100):
        yield rng.randrange(1 << 64)
