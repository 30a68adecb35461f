"""What latitude adds to the solid tide, against the sizes that source 000 prints after formula (5); published.py runs it.

The sentence: the increments do not exceed 0.4 mm radially and 0.2 mm in the transverse direction. Held against it are exact fractions,
of both bodies together: what -0.0006 P does in place of h, along the mark, and what 0.0002 P does in place of l, across it.
"""

from fractions import Fraction

import exact
import sample
from bodies import MOON, RANGE, SUN
from chance import Chance
from mark import L_LEAST, length
from rounding import root
from units import METRE, plus

MICROMETRE = METRE // 10**6  # grains
PUBLISHED = (("along the mark", 400 * MICROMETRE), ("across it", 200 * MICROMETRE))


def squares(mark, moon, sun):
    """The squares of both sizes, grains."""
    p = exact.latitude(exact.direction(mark, length(mark)))
    for slopes in ((exact.H2_SLOPE * p, 0), (0, exact.L2_SLOPE * p)):
        added = plus(*(exact.formula_five(mark, *body, *slopes) for body in enumerate((moon, sun))))
        yield exact.dot(added, added)


def most():
    """What the squares do not exceed at any accepted mark and bodies.

    P goes from -1/2 to 1 and so does p, and the part across goes with c (d - c u), which is at most 1/2: at a pole, both bodies at their
    least distances, overhead for the first and half-way down for the second. But unit vectors are over whole lengths, so that u may be as
    long as a = 1 + 1/L and d as b = 1 + 1/R. Then c is at most a b, and the square of c (d - c u) is c^2 (b^2 - c^2 (2 - a^2)), at most
    b^4 / (4 (2 - a^2)).
    """
    a, b = (1 + Fraction(1, least) for least in (L_LEAST, min(RANGE[MOON][0], RANGE[SUN][0])))
    p, overhead = ((3 * c**2 - 1) / 2 for c in (a, a * b))
    k = METRE * sum(exact.factor(label, RANGE[label][0]) for label in (MOON, SUN))
    return (exact.H2_SLOPE * p * k * overhead * a)**2, (3 * exact.L2_SLOPE * p * k)**2 * b**4 / (4 * (2 - a**2))


def worst_places():
    """Both poles, under both bodies at their least distances: overhead, then half-way down."""
    for mark in ((0, 0, L_LEAST), (0, 0, -L_LEAST)):
        for aside in (0, 1):
            yield mark, *(sample.aimed(mark, 1, aside, RANGE[label][0]) for label in (MOON, SUN))


def any_places():
    rng = Chance(46)
    for _ in range(400):
        yield sample.mark(rng), sample.moon(rng), sample.sun(rng)


def micrometres(square):
    """A size in grains, given by its square, in micrometres: rounded down to 0.01."""
    found = root(int(square * 100**2 / MICROMETRE**2))
    return f"{found // 100}.{found % 100:02d}"


def check(t):
    worst, anywhere = (list(zip(*(squares(*place) for place in places))) for places in (worst_places(), any_places()))
    for (name, limit), bound, *found in zip(PUBLISHED, most(), map(max, worst), map(max, anywhere)):
        t.true(f"latitude adds {name}, by reasoning", bound <= limit**2)
        t.true(f"latitude adds {name}, at each place", max(found) <= bound)
        print(f"latitude adds {name}, micrometres: {micrometres(found[0])} at a pole, {micrometres(found[1])} among random places,"
              f" {micrometres(bound)} by reasoning, {limit // MICROMETRE} published")
