"""Checks the bounds by exact fractions on seeded random cases, and where exact halves come up.

Both tides stay within 100 grains of their exact formulas in each component, and
within 2,922 where the distances are not whole (distances.py). The solid tide stays
under 1 m, and the Moon's third degree by itself within 18,400,000 grains. A card
exported and expanded keeps each position component within half a unit (73,050
grains, 0.05 mm) and each velocity within 50 micrometres a year; this is what the
rounding of a field record allows, and the paper names no other. How great the frame
rows A and B get is worked out, and reached (frame_sizes.py).
"""

import sys

import distances
import exact
import field
import frame_sizes
import gen_latitude
import sample
from bodies import MOON, RANGE, SUN
from chance import Chance
from exact import gap, hundredths
from gen_halves import exported
from half_places import half_bodies, marks, twice
from permanent import shift
from solid import degree_three, displaced, stand, tide
from tally import Tally
from units import METRE, ZERO, minus, times

LIMIT = 100         # grains
THIRD = 18_400_000  # grains, for a component of the third degree alone
ROUNDS = 400


def axis_marks():
    """Marks on the axes, which are the poles and four on the equator, at both ends of the range too; rounding is plain there."""
    for size in (6_300_000, 6_378_137, 6_400_000):
        yield from sample.on_axes(size)


def all_marks(rng):
    return [*axis_marks(), *(sample.mark(rng) for _ in range(ROUNDS)), *marks()]


def permanent_bound(tried):
    t, worst = Tally("permanent within 100 grains"), 0
    for mark in tried:
        off = gap(shift(mark), exact.permanent(mark))
        worst = max(worst, off)
        t.true(f"{mark}", off <= LIMIT)
    print(f"greatest gap, permanent: {hundredths(worst)} grains")
    return t.close()


def moons(rng, mark):
    """One anywhere; then, at the least and the greatest distance, straight over the
    mark, opposite, at right angles to it, and anywhere."""
    yield sample.moon(rng)
    for size in RANGE[MOON]:
        for direction in (mark, times(mark, -1), sample.across(mark), sample.moon(rng)):
            yield sample.along(direction, size)


def standings(rng):
    """A mark, a Moon and a Sun."""
    for mark in [*axis_marks(), *(sample.mark(rng) for _ in range(ROUNDS))]:
        for moon in moons(rng, mark):
            yield mark, moon, sample.sun(rng)
    for mark, moon in (*half_bodies(MOON), *twice()):
        yield mark, moon, sample.sun(rng)
    for mark, sun in half_bodies(SUN):
        yield mark, sample.moon(rng), sun
    yield from at_latitudes(rng)


def at_latitudes(rng):
    """The axes and marks of a known P, both bodies in every place, near and far; then halves that hang on latitude."""
    for mark in (*axis_marks(), *gen_latitude.known_marks()):
        for turn in range(4):
            for both in gen_latitude.standings(mark, turn):
                yield mark, *both
    for mark, label, body in (*gen_latitude.half_bodies(), *gen_latitude.narrow()):
        yield mark, *((body, sample.sun(rng)) if label == MOON else (sample.moon(rng), body))


def solid_bound(tried):
    t, worst, third = Tally("solid within 100 grains, under 1 m, its third degree too"), 0, 0
    for mark, moon, sun in tried:
        got = tide(mark, moon, sun)
        off = gap(got, exact.tide(mark, moon, sun))
        s = stand(mark, MOON, moon)
        alone = gap(displaced(s, *degree_three(s)), ZERO)
        worst, third = max(worst, off), max(third, alone)
        t.true(f"{mark} {moon} {sun}", off <= LIMIT and gap(got, ZERO) < METRE and alone <= THIRD)
    print(f"greatest gap, solid: {hundredths(worst)} grains")
    print(f"greatest component of the third degree: {third} grains")
    return t.close()


def field_bound(rng):
    t = Tally("field within half a unit, and steady")
    for card in (*(sample.card(rng, tide=rng.randrange(2)) for _ in range(ROUNDS)), *exported(rng)):
        number, record = field.export(card, bytes(field.SIZE))
        again, back = field.expand(record)
        t.same("accepted", (number, again), (0, 0))
        t.true("position", gap(minus(card.position, back.position), ZERO) <= 73_050)
        t.true("velocity", gap(minus(card.velocity, back.velocity), ZERO) <= 50)
        t.same("second export", field.export(back, bytes(field.SIZE)), (0, record))
        t.same("rest", back[:5] + back[7:], card[:5] + card[7:])
    return t.close()


def frame_bound():
    t = Tally("how great A and B get, and the unit of a rotation")
    frame_sizes.check(t)
    return t.close()


def main():
    rng = Chance(100)
    tried, stood = all_marks(rng), list(standings(rng))
    failed = permanent_bound(tried) + solid_bound(stood) + field_bound(rng) + frame_bound()
    return 1 if failed + distances.check(tried, stood[::11]) else 0


if __name__ == "__main__":
    sys.exit(main())
