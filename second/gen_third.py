"""Vectors for the Moon's third degree: how the Moon stands to the mark, halves inside the steps, each degree rounded by itself, and old cards.

The assertions say what is special about the numbers.
"""

import damage
import gen_bodies
import gen_calls
import gen_tides
import sample
import wire
from bodies import K0_3, MOON, R0, RANGE, SUN
from card import SOLID
from gen_unseen import AXIS, pair
from halves import PART, kinds
from rounding import E, near
from solid import degree_three, degree_two, displaced, part, stand, tide
from units import plus

# The squares of a Moon's parts along the mark and across it; a minus: opposite to the mark. Overhead, opposite, at right angles, then where the
# radial part is zero (c c = 3/5) and where the part across is (c c = 1/5).
PLACES = ((1, 0), (-1, 0), (0, 1), (3, 2), (-3, 2), (1, 4), (-1, 4))

# Moons (metres) with a half in one step of the third degree at AXIS: the step, the sign of what is rounded, the Moon.
HALVES = (
    ("c3", 1, (356_050_967, 1_966_947, 0)), ("c3", -1, (-375_330_378, 2_073_420, 0)),
    ("p", 1, (-19_557_942, 354_239_143, 0)), ("p", -1, (-330_039_861, 121_720_772, 0)),
    ("p", 1, (-242_157_850, 308_300_407, 0)), ("p", -1, (233_010_957, 269_960_897, 0)),
    ("v", 1, (202_636_888, 288_709_678, 0)), ("v", -1, (-51_460_618, 374_010_643, 0)),
    ("v", 1, (-249_996_885, 274_210_007, 0)), ("v", -1, (20_751_734, 399_357_292, 0)),
    ("H", 1, (407_119_031, 0, 0)), ("H", 1, (-366_318_959, 0, 0)),
    ("S", 1, (326_463_008, 244_847_256, 0)), ("S", 1, (53_735_642, 372_291_450, 0)),
    ("rho", 1, (-191_919_904, 332_415_025, 0)), ("rho", -1, (190_719_797, 330_336_379, 0)),
    ("t", 1, (204_399_947, 354_031_094, 0)), ("t", -1, (0, 365_839_986, 0)), ("t", -1, (89_419_458, 346_320_072, 0)),
    ("y", 1, (309_967_808, 178_959_997, 0)), ("y", -1, (309_967_808, -178_959_997, 0)),
    ("y", -1, (42_408_886, 190_839_988, 327_812_736)), ("y", 1, (42_408_886, -190_839_988, 327_812_736)),
)
# With a half in y of degree two as well, of the other kind: the two make up for each other (gen_halves has those that do not).
MADE_UP = (("y", 1, (316_826_724, 182_919_994, 0)), ("y", -1, (327_467_944, -189_063_705, 0)))

# Moons (metres) where the last grain at AXIS hangs on how a step is made, and the altered version (second/altered.py) that they show.
NARROW = (
    ("third-q4-cut", (372_910_219, 0, 0)), ("third-q4-from-q2", (351_873_735, 0, 0)), ("third-q4-at-once", (383_808_626, 0, 0)),
    ("third-K-cut", (408_676_238, 0, 0)), ("third-H-from-K0", (353_200_409, 0, 0)), ("third-S-from-K0", (-191_727_347, 348_897_228, 0)),
    ("third-c3-cut", (-264_004_889, 247_443_252, 0)), ("third-c3-at-once", (-180_880_119, 303_454_977, 0)),
    ("third-c3-at-once", (215_017_806, 283_715_734, 0)),
)


def steps(moon):
    """What each step of the third degree rounds at AXIS: numerator and denominator."""
    s = stand(AXIS, MOON, moon)
    k = near(K0_3 * near(s.q3 * s.q, E), E)
    p, v = 5 * near(s.c2 * s.c, E) - 3 * s.c, 15 * s.c2 - 3 * E
    _, t = degree_three(s)
    return {"c3": (s.c2 * s.c, E), "p": (p, 2), "v": (v, 2), "H": (292 * k, 1_000), "S": (15 * k, 1_000),
            "rho": (near(292 * k, 1_000) * near(p, 2), E), "t": (near(15 * k, 1_000) * near(v, 2), E), "y": (t * s.d[1], E)}


def special_moons():
    for step, sign, moon in HALVES + MADE_UP:
        a, b = steps(moon)[step]
        assert a * sign % b * 2 == b and a * sign > 0, (step, moon)
        yield moon
    for *_, moon in MADE_UP:
        found = dict(zip(PART, kinds(part, AXIS, MOON, moon)))
        assert {found["y"][1:], found["y3"][1:]} == {"even", "odd"} and part(AXIS, MOON, moon) == together(stand(AXIS, MOON, moon)), moon
    for _, moon in NARROW:
        yield moon


def turned(v):
    """Another axis to the front: AXIS becomes the south pole."""
    return v[1], v[2], -v[0]


def placed_moons(mark):
    """At the least and at the greatest distance, each of PLACES."""
    for size in RANGE[MOON]:
        for square, aside in PLACES:
            yield sample.aimed(mark, square, aside, size)


def together(s):
    """Both degrees rounded as one sum, which is not the rule."""
    return displaced(s, *plus(degree_two(MOON, s), degree_three(s)))


def along_exact(s):
    """The third degree with c u/E not rounded, which is not the rule."""
    rho, t = degree_three(s)
    third = [near(E * rho * s.u[i] + t * (E * s.d[i] - s.c * s.u[i]), E * E) for i in range(3)]
    return plus(displaced(s, *degree_two(MOON, s)), third)


def unlike(rng, count, other):
    """Marks and Moons where another last step gives another part."""
    while count:
        mark, moon = sample.mark(rng), sample.moon(rng)
        if other(stand(mark, MOON, moon)) != part(mark, MOON, moon):
            count -= 1
            yield mark, moon


def marks_and_moons(rng):
    yield AXIS, (R0[MOON], 0, 0)  # case 12
    for mark in (AXIS, (0, 0, -6_356_752), sample.mark(rng), sample.mark(rng)):
        for moon in placed_moons(mark):
            yield mark, moon
    for moon in special_moons():
        yield AXIS, moon
        yield turned(AXIS), turned(moon)
    yield from unlike(rng, 8, together)
    yield from unlike(rng, 2, along_exact)


def pairs(rng):
    for mark, moon in marks_and_moons(rng):
        entries = list(pair(moon, sample.sun(rng)))
        rng.shuffle(entries)
        yield gen_tides.pack(mark) + b"".join(map(wire.pack_body, entries))


def in_rows(rng, mark, moons):
    doubles = [bits for moon in moons for bits in gen_bodies.doubles(moon) + gen_bodies.good(rng, SUN)]
    return gen_tides.series_payload(mark, doubles, len(doubles) // 2)


def series(rng):
    for mark in (AXIS, *(sample.mark(rng) for _ in range(5))):
        yield in_rows(rng, mark, placed_moons(mark))
    yield in_rows(rng, AXIS, special_moons())
    yield in_rows(rng, turned(AXIS), map(turned, special_moons()))
    for size in RANGE[MOON]:  # down the sky from overhead, and up to the horizon from below
        mark = sample.mark(rng)
        yield in_rows(rng, mark, [sample.aimed(mark, sign * (8 - n), n, size) for sign in (1, -1) for n in range(8)])
    yield in_rows(rng, AXIS, [(R0[MOON], 0, 0)])


def solid_on(rng, mark, moon):
    """A card at the mark, and the call that puts the Moon's tide and a Sun's on."""
    sun = sample.sun(rng)
    return damage.moved_to(damage.base(rng), mark), wire.pack_call(wire.SOLID_ON, *pair(moon, sun)), tide(mark, moon, sun)


def solid_calls(rng):
    off = wire.pack_call(wire.SOLID_OFF)
    for mark in (AXIS, sample.mark(rng)):
        for n, moon in enumerate(placed_moons(mark)):
            card, on, _ = solid_on(rng, mark, moon)
            yield gen_calls.payload(card, on, *(off, on) * (n % 2))
    for mark in (AXIS, sample.mark(rng)):
        card, on, gain = solid_on(rng, mark, sample.aimed(mark, 1, 0, RANGE[MOON][0]))
        yield from gen_calls.about_edges(card, gain, on)


def without_latitude(mark, label, body):
    """A body's degree two as it was before h and l followed the mark's latitude: as where P is 0."""
    s = stand(mark, label, body)._replace(lat=0)
    return displaced(s, *degree_two(label, s))


def kept_tide(rng, mark, moon, sun, stored):
    """A card that stores an older tide: a frame change keeps it, solid off takes it away, and solid on then stores the tide of today."""
    assert stored != tide(mark, moon, sun)
    free = damage.moved_to(damage.base(rng), mark)
    card = free._replace(tide=SOLID, position=plus(free.position, stored), vector=stored)
    frame, on = wire.pack_call(wire.FRAME, (card.frame + 1) % 3), wire.pack_call(wire.SOLID_ON, *pair(moon, sun))
    off = wire.pack_call(wire.SOLID_OFF)
    for entries in ((frame,), (off,), (on,), (on, frame, off, on)):
        yield gen_calls.payload(card, *entries)


def old_cards(rng):
    """Cards that store the tide of degree two alone."""
    for _ in range(5):
        mark, moon, sun = sample.mark(rng), sample.moon(rng), sample.sun(rng)
        stored = plus(without_latitude(mark, MOON, moon), without_latitude(mark, SUN, sun))
        yield from kept_tide(rng, mark, moon, sun, stored)


def payloads(rng):
    for data in pairs(rng):
        yield wire.PAIR, data
    for data in series(rng):
        yield wire.SERIES, data
    for found in (solid_calls, old_cards):
        for data in found(rng):
            yield wire.CALLS, data
