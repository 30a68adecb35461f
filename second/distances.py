"""What the whole-number distances cost: both tides against their exact formulas at other distances; bounds.py runs it.

Each distance is any fraction from the whole one up to, but not including, one more (a metre for the mark and the Moon, a kilometre for
the Sun), chosen by itself. Each component stays within 2,922 grains (2 micrometres) of the formula there. The real distances lie there too.

Where the gap is great: with one more in a distance, a product that has 1/L (or 1/R, 1/S) in it n times gets less by n/L of itself. In all the
formulas move by what stands here over that distance, in metres; the small terms by latitude are left out.

permanent, L: z, uz (0.3915 uz^2 - 0.0099), greatest at a pole; x, ux (0.3915 uz^2 - 0.0603), and y alike, greatest where uz^2 is 0.718
solid, L:     along the mark, K2 (h (9 c^2 - 1)/2 - 6 l c^2), greatest where c is 1 or -1; overhead degree three adds K3 (7 h - 12 l)
solid, R:     along the mark, K2 h (15 c^2 - 3)/2, greatest there too; overhead degree three adds K3 10 h
solid, S:     as degree two by R

Overhead each of these makes the tide less, so that they add up. h is greatest and l least on the equator. Opposite to the Moon degree
three takes away.
"""

from fractions import Fraction
from itertools import product
from typing import NamedTuple

import exact
import sample
from bodies import MOON, RANGE, SUN, distance
from chance import Chance
from exact import gap, hundredths
from gen_latitude import PLACES
from mark import L_LEAST
from permanent import shift
from rounding import root
from solid import tide
from tally import Tally

LIMIT = 2_922                   # grains
TOO_FEW = 80                    # grains; both tides exceed such a limit
TOO_FAR = 40                    # metres, kilometres for the Sun; with a range of so many in place of one both tides exceed LIMIT
ALMOST_NONE = Fraction(1, 100)  # grains
STEP = Fraction(1, 10**9)       # metres, kilometres for the Sun; a real distance stays 1/(2 R + 2) and more below R + 1, which is further


class Reach(NamedTuple):
    """Fractions to take for one distance."""
    whole: int
    under: Fraction    # just under one more
    between: Fraction  # anywhere
    below: Fraction    # next to the real distance
    above: Fraction


def squares(vector):
    return sum(v * v for v in vector)


def reach(rng, vector):
    whole, found = distance(vector), root(squares(vector) * 10**18)
    return Reach(whole, whole + 1 - STEP, whole + rng.randrange(10**9) * STEP, found * STEP, (found + 1) * STEP)


def holds_real(vector, found):
    """The real distance is from the whole one up to one more, and between two fractions that are so too."""
    n = squares(vector)
    return (found.whole**2 <= n < (found.whole + 1)**2 and found.below**2 <= n < found.above**2
            and found.whole <= found.below and found.above < found.whole + 1)


class Cost:
    """The gaps of one tide, grains: of its steps against its formula, which takes vectors and then their distances."""

    def __init__(self, name, steps, formula, *of):
        self.name, self.steps, self.formula, self.of = name, steps, formula, of
        self.tally, self.rng = Tally(f"{name} within 2,922 grains at other distances"), Chance(13)
        self.most, self.real = (0, ()), 0   # the greatest gap and where; the greatest at the real distances
        self.alone = [0] * len(of)          # how far each distance by itself moves the formula at most, the last distance first

    def hold(self, vectors, with_ends):
        """On both sides of the real distances, at two choices out of each reach, and at all ends, or at the far one alone."""
        got, reaches = self.steps(*vectors), [reach(self.rng, v) for v in vectors]
        self.tally.true(f"{vectors}: the real distances", all(map(holds_real, vectors, reaches)))
        whole, under, _, below, above = zip(*reaches)
        beside = [self.formula(*vectors, *at) for at in (below, above)]
        self.tally.true(f"{vectors}: on both sides of the real distances", gap(*beside) < ALMOST_NONE)
        chosen = [self.formula(*vectors, *map(self.rng.choice, reaches)) for _ in range(2)]
        ends = [self.formula(*vectors, *at) for at in (product(*zip(whole, under)) if with_ends else (under,))]
        if with_ends:
            self.alone = [max(a, gap(ends[0], ends[1 << i])) for i, a in enumerate(self.alone)]
        real, most = (max(gap(got, wanted) for wanted in some) for some in (beside, beside + chosen + ends))
        self.tally.true(f"{vectors}: the limit", most <= LIMIT)
        self.real, self.most = max(self.real, real), max(self.most, (most, vectors))

    def further(self):
        """Where the gap is greatest, that with all distances just under TOO_FAR more."""
        vectors = self.most[1]
        return gap(self.steps(*vectors), self.formula(*vectors, *(distance(v) + TOO_FAR - STEP for v in vectors)))

    def close(self):
        most, further = self.most[0], self.further()
        self.tally.true(f"the limit is needed, {TOO_FEW} grains are too few", most > TOO_FEW)
        self.tally.true(f"the range is needed, up to {TOO_FAR} more is too far", further > LIMIT)
        print(f"greatest gap, {self.name}, at distances in reach: {hundredths(most)} grains; at the real ones: {hundredths(self.real)} grains;"
              f" up to {TOO_FAR} more: {hundredths(further)} grains")
        alone = (f"{of} {hundredths(a)} grains" for of, a in zip(self.of, reversed(self.alone)))
        print(f"greatest move by one distance alone, {self.name}: {', '.join(alone)}")
        return self.tally.close()


def full(vector):
    """A vector beside this one of the same whole length, its real one all but one more: each component is lengthened, the least first."""
    found, most = list(vector), (distance(vector) + 1)**2 - 1
    for i in sorted(range(3), key=lambda i: abs(vector[i])):
        size = root(found[i]**2 + most - squares(found))
        found[i] = size if found[i] >= 0 else -size
    assert distance(found) == distance(vector)
    return tuple(found)


def steep_marks():
    """Of the least length: on the axes, and where x or y of the permanent shift moves most."""
    yield from sample.on_axes(L_LEAST)
    flat, up = root(282 << 40), root(718 << 40)
    for direction in ((flat, 0, up), (0, flat, up)):
        yield sample.along(direction, L_LEAST)


def beside_axes(rng, count):
    """Full marks of the least length within 60 km of an axis: there the rounding of the steps adds to the gap, now more, now less."""
    for x, y, z in list(sample.on_axes(L_LEAST)) * count:
        aside = rng.randint(-50_000, 50_000)
        yield full(sample.along((x, y, aside) if x else (aside, y, z), L_LEAST))


def steep():
    """A mark, a Moon and a Sun at their least distances, both bodies in every place."""
    for mark in steep_marks():
        for places in product(PLACES, repeat=2):
            yield mark, *(sample.aimed(mark, *place, RANGE[label][0]) for label, place in zip((MOON, SUN), places))


def steepest(rng):
    """Both bodies overhead, all full, and the bodies up to 1,000 beyond their least distances."""
    for mark in beside_axes(rng, 50):
        yield mark, *(full(sample.along(mark, RANGE[label][0] + rng.randrange(1_000))) for label in (MOON, SUN))


def check(marks, standings):
    """These, then steep ones; 1 or more when anything failed."""
    rng = Chance(31)
    permanent, solid = Cost("permanent", shift, exact.permanent, "mark"), Cost("solid", tide, exact.tide, "mark", "Moon", "Sun")
    for mark in (*marks, *steep_marks(), *beside_axes(rng, 100)):
        permanent.hold((mark,), True)
    for three in steep():
        solid.hold(three, True)
    for three in (*standings, *steepest(rng)):
        solid.hold(three, False)
    return permanent.close() + solid.close()
