"""The published values of the IERS routine DEHANTTIDEINEL, after conversion.

The published displacement minus what our solid tide leaves out must agree with it
within 150 grains (0.1 micrometre): the mark is rounded to whole metres, body
vectors to whole metres and kilometres.
"""

import sys
from fractions import Fraction

import exact
import increments
import leftout
from bodies import MOON, SUN, judge
from exact import dot
from frequency import step_two
from metres import quotient_bits
from rounding import near, root
from solid import pair_tide
from tally import Tally
from units import METRE, minus, plus, times

LIMIT = 150  # grains

STATION = ("4075578.385", "931852.890", "4801570.154")                      # m
SUN_M = ("137859926952.015", "54228127881.4350", "23509422341.6960")        # m
MOON_M = ("-179996231.920342", "-312468450.131567", "-169288918.592160")    # m
PUBLISHED = ("0.07700420357108126", "0.06304056321824968", "0.05516568152597247")
BESIDE_TWO = ("0.004861565556554481", "0.0014014819076995644", "0.005716312701019473")

# The routine's date for this case: 13 April 2009, 0 h UT, as days from 2000.0 noon.
DAYS, TT_MINUS_UT = Fraction("3389.5"), "66.184"

# The 2015 case of the routine: its Sun is beyond 153,000,000 km.
SUN_2015_M = ("100210282451.6279", "103055630398.3160", "56855096480.4475")
SUN_2015_KM = 154_580_289
MOON_2015_M = ("369817604.4348", "1897917.5258", "120804980.8284")


def exactly(texts):
    return tuple(Fraction(t) for t in texts)


def bits(values):
    return tuple(quotient_bits(v.numerator, v.denominator) for v in values)


def entries(moon_m, sun_m):
    """Labelled entries as doubles: Moon in metres, Sun in kilometres."""
    return ((MOON, bits(exactly(moon_m))),
            (SUN, bits([v / 1_000 for v in exactly(sun_m)])))


def rounded(values):
    return tuple(near(v.numerator, v.denominator) for v in values)


def whole_case():
    """The mark, and the Moon and the Sun as whole vectors."""
    moon, sun = entries(MOON_M, SUN_M)
    return rounded(exactly(STATION)), *judge(moon[1], sun[1])[1:]


def moons_third():
    """The third degree of the Moon, metres."""
    mark, moon, _ = whole_case()
    return leftout.degree_three(leftout.Place(mark, MOON, moon))


def of_latitude():
    """What latitude adds to degree two of both bodies, metres."""
    return leftout.both(leftout.latitude, *whole_case())


def left_out():
    """Of the published displacement what our solid tide is without, metres.

    BESIDE_TWO is all of it but degree two with one h and l everywhere; the Moon's third degree and the latitude of h and l are ours too.
    """
    return tuple(a - b - c for a, b, c in zip(exactly(BESIDE_TWO), moons_third(), of_latitude()))


def tide_case(t):
    mark, whole_moon, _ = whole_case()
    moon, sun = entries(MOON_M, SUN_M)
    number, got = pair_tide(mark, moon, sun)
    t.same("accepted", number, 0)
    t.same("either order", pair_tide(mark, sun, moon), (number, got))
    t.same("third degree, written twice", exact.degree_three(mark, whole_moon), times(moons_third(), METRE))
    wanted = [(p - q) * METRE for p, q in zip(exactly(PUBLISHED), left_out())]
    gaps = [a - b for a, b in zip(got, wanted)]
    print("grains off the published values:", *(near(g.numerator, g.denominator) for g in gaps))
    for axis, gap in zip("xyz", gaps):
        t.true(f"{axis} within {LIMIT} grains", abs(gap) <= LIMIT)


def latitude_twice(t):
    """What latitude adds, by both writings: degree two of both bodies with h and l at the mark's latitude, less that with one h and l everywhere."""
    for mark, *both in (whole_case(), *increments.worst_places(), *increments.any_places()):
        added = [minus(exact.degree_two(mark, *body), exact.formula_five(mark, *body, exact.H2, exact.L2)) for body in enumerate(both)]
        t.same(f"latitude, written twice, {mark}", plus(*added), times(leftout.both(leftout.latitude, mark, *both), METRE))


def micrometres(vector):
    return " ".join(str(near((v * 10**6).numerator, (v * 10**6).denominator)) for v in vector)


def share(vector, whole):
    """Percent of whole that vector explains along it, to 0.1."""
    value = 1_000 * dot(vector, whole) / dot(whole, whole)
    tenths = near(value.numerator, value.denominator)
    return f"{'-' if tenths < 0 else ''}{abs(tenths) // 10}.{abs(tenths) % 10} %"


def shares(t):
    """Prints the parts recomputed from Chapter 7, micrometres."""
    whole = left_out()
    mark, moon, sun = whole_case()
    print("the Moon's third degree, ours, micrometres:", micrometres(moons_third()))
    print("the latitude of h and l, ours, micrometres:", micrometres(of_latitude()))
    print("left out in all, micrometres:", micrometres(whole))
    found = {
        "third degree of the Sun": leftout.degree_three(leftout.Place(mark, SUN, sun)),
        "l(1)": leftout.both(leftout.l_one, mark, moon, sun),
        "out of phase": leftout.both(leftout.out_of_phase, mark, moon, sun),
        "Step 2, tables of 000": step_two(leftout.Place(mark, MOON, moon), DAYS, TT_MINUS_UT),
    }
    total = found["together"] = leftout.add(*found.values())
    for name, vector in found.items():
        print(f"{name}: {micrometres(vector)}, share {share(vector, whole)}")
    t.true("within 0.1 mm of what was left out",
           max(abs(a - b) for a, b in zip(total, whole)) <= Fraction(1, 10_000))


def far_case(t):
    # The distance to the nearest km, before any component is rounded.
    halves = sum(v * v for v in exactly(SUN_2015_M)) * 4 / 1_000**2
    size = (root(int(halves)) + 1) // 2
    t.same("Sun of 2015, km", size, SUN_2015_KM)
    mark = rounded(exactly(STATION))
    t.same("refused", pair_tide(mark, *entries(MOON_2015_M, SUN_2015_M)), (11, (0, 0, 0)))


def main():
    t = Tally("published values")
    tide_case(t)
    latitude_twice(t)
    shares(t)
    increments.check(t)
    far_case(t)
    return t.close()


if __name__ == "__main__":
    sys.exit(main())
