"""Units and small vector functions.

Lengths are grains: 1,461 grains = 1 micrometre. Times are quarter-days from
2000.0, 1,461 to the year, so 1 micrometre a year is 1 grain a quarter-day.
"""

METRE = 1_461_000_000   # grains
TENTH_MM = 146_100      # grains, the unit of a field offset
YEAR = 1_461            # quarter-days


def plus(a, b):
    return tuple(p + q for p, q in zip(a, b))


def minus(a, b):
    return tuple(p - q for p, q in zip(a, b))


def times(a, k):
    return tuple(p * k for p in a)


def within(vector, limit):
    """Each component within +-limit, the limit itself included."""
    return all(-limit <= v <= limit for v in vector)


ZERO = (0, 0, 0)
