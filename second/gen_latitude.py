"""Vectors for h and l of degree two, which follow the mark's latitude: marks from pole to pole, halves in H, in S and in P, and old cards.

The assertions say what is special about the numbers.
"""

import gen_bodies
import gen_calls
import gen_tides
import sample
import wire
from bodies import MOON, RANGE, SUN
from gen_halves import beside
from gen_third import kept_tide, solid_on, without_latitude
from gen_unseen import AXIS, pair
from halves import PART, shows
from mark import L_LEAST, L_MOST, latitude, unit
from rounding import E, near, root
from solid import degree_three, displaced, part, stand
from units import plus, times

NORTH, SOUTH = (0, 0, 6_356_752), (0, 0, -6_356_752)  # P is E, its greatest
LEVEL = (3_486_606, -3_870_619, 3_683_620)            # sin^2 phi is 1/3, and P 0: h and l are as they were
THIRTY = (4_000_000, 3_809_261, -3_189_068)           # uz is -E/2, and P -E/8
FORTY_FIVE = (1_428_511, 4_271_410, -4_503_952)       # s2 is E/2, and P E/4
HIGH = (-3_244_246, -1_698_576, 5_178_859)            # sin^2 phi is 2/3, and P E/2

# Marks and their P, which is least on the equator; 137 m beside it s2 is still 0, and at 138 m it is 1.
KNOWN = ((NORTH, E), (SOUTH, E), (AXIS, -E // 2), ((0, -6_378_137, 0), -E // 2), (LEVEL, 0), (times(LEVEL, -1), 0),
         ((0, 6_378_137, 137), -E // 2), ((-6_378_137, 0, -138), 2 - E // 2), ((3_872_957, -3_476_405, 3_680_026), 1),
         ((-2_071_476, -4_761_763, -3_671_879), -2), (THIRTY, -E // 8), (FORTY_FIVE, E // 4), (HIGH, E // 2))

# The squares of a body's parts along the mark and across it, as in gen_third: overhead, opposite, at right angles, and half-way down.
PLACES = ((1, 0), (-1, 0), (0, 1), (1, 1))

# Distances (metres; kilometres) with an exact half, on which the part hangs: in H, overhead, with an even and with an odd whole part; in S,
# half-way down, the same. First the Moon's, then the Sun's. half_places.py has those of the equator; at HIGH S has none (rare.py).
HALVES = (
    (NORTH, (380_490_997, 363_255_104, 353_392_475, 383_752_064), (149_708_925, 151_267_298, 148_762_006, 151_064_188)),
    (SOUTH, (367_162_604, 386_019_649, 350_223_119, 364_679_289), (146_898_513, 149_225_595, 152_400_730, 147_799_183)),
    (LEVEL, (397_696_935, 359_965_294, 404_142_437, 399_803_012), (147_142_635, 151_283_155, 151_206_778, 150_718_598)),
    (THIRTY, (392_289_443, 406_637_668, 356_369_186, 381_061_657), (149_635_442, 151_127_855, 148_307_505, 150_544_857)),
    (FORTY_FIVE, (374_385_109, 376_365_678, 357_684_419, 365_285_734), (152_664_099, 149_527_234, 151_458_919, 150_667_992)),
    (HIGH, (391_738_287, 389_535_612), (152_426_203, 149_249_611)),
)
# The same where K has as many factors of two as it can have (rare.py), and P the fewest with which a half comes up, six and seven:
# each at a mark of its own.
ELSEWHERE = (
    (MOON, 398_551_693, ((1_063_922, 1_875_535, -5_985_888), (470_241, -670_813, 6_293_649),
                         (4_958_939, -3_417_732, -2_101_720), (1_359_014, -6_016_844, -1_554_745))),
    (SUN, 150_770_765, ((-2_721_254, 5_563_164, -1_552_053), (3_755_095, 4_850_254, -1_770_149),
                        (-2_863_547, 3_215_436, 4_673_249), (3_954_767, 3_302_035, 3_777_548))),
)
STEPS = (("H", "+even", (1, 0)), ("H", "+odd", (1, 0)), ("S", "+even", (1, 1)), ("S", "+odd", (1, 1)))  # and where the body stands

# Marks with a half in P, on which the part of a body overhead hangs at this distance.
P_HALVES = (
    ("+even", MOON, (-4_025_294, -982_424, 4_775_170), 387_157_470), ("-even", MOON, (-5_552_987, 0, 3_122_943), 376_471_006),
    ("+odd", MOON, (2_008_841, 0, 5_971_145), 366_706_070), ("-odd", MOON, (0, -5_162_528, -3_610_865), 383_766_673),
    ("+even", SUN, (2_335_405, 225_727, 5_869_420), 149_590_046), ("-even", SUN, (4_303_198, 3_457_609, -3_036_030), 146_461_152),
    ("+odd", SUN, (-4_410_592, -2_413_985, -3_795_970), 150_855_983), ("-odd", SUN, (4_678_856, 4_179_096, 577_503), 149_983_645),
)

# Marks and distances, first the Moon's and then the Sun's, where the last grain hangs on how a step is made: the altered version (second/altered.py)
# that they show, and where the body stands.
NARROW = (
    ("lat-s2-cut", (1, 0), ((4_947_144, 860_162, -3_804_723), 359_980_694), ((0, 5_995_837, -2_238_292), 151_140_893)),
    ("lat-P-cut", (1, 0), ((431_276, -5_825_313, -2_360_033), 383_230_542), ((4_245_553, -4_191_932, -2_023_128), 147_764_231)),
    ("lat-P-at-once", (1, 0), ((-5_391_976, -3_329_278, -322_638), 404_543_919), ((520_749, 3_648_996, -5_109_176), 146_049_153)),
    ("lat-P-at-once", (1, 1), ((-1_770_338, 569_729, 6_019_248), 351_307_147), ((1_467_218, -3_159_874, -5_300_055), 152_352_261)),
    ("lat-P-at-once-from-the-mark", (1, 0), ((2_212_052, -643_939, 5_863_638), 354_776_401), ((-3_890_452, 3_166_076, -3_970_070), 151_060_583)),
    ("lat-P-not-rounded", (1, 0), ((-2_553_294, -3_434_570, 4_623_252), 386_177_043), ((0, -2_123_940, 5_966_563), 146_506_004)),
    ("lat-P-and-s2-not-rounded", (1, 0), ((0, -3_891_580, 4_954_353), 363_265_414), ((-134_876, -4_898_434, 4_084_033), 149_133_605)),
    ("lat-more", (1, 0), ((3_323_196, 5_102_875, 1_614_641), 387_558_649), ((-2_620_259, -2_739_237, -5_142_911), 150_299_764)),
    ("lat-less", (1, 0), ((-866_337, 5_871_977, -2_318_860), 395_711_357), ((-6_259_341, 0, 714_615), 148_466_690)),
    ("H-latitude-of-rounded-P-K", (1, 0), ((-6_120_452, 1_733_950, 0), 362_961_336), ((4_026_255, -4_901_666, -500_369), 151_598_216)),
    ("S-latitude-of-rounded-P-K", (1, 1), ((1_272_351, -6_186_786, 70_622), 354_154_549), ((-3_681_203, -289_511, 5_104_427), 151_739_121)),
)


def known_marks():
    for mark, p in KNOWN:
        assert latitude(unit(mark)[2])[1] == p, mark
        yield mark


def standings(mark, turn=0):
    """Moons and Suns, each at each of PLACES, near and far."""
    for n, place in enumerate(PLACES):
        for end in (0, 1):
            yield sample.aimed(mark, *place, RANGE[MOON][end]), sample.aimed(mark, *PLACES[(n + turn + end) % 4], RANGE[SUN][(n + turn) % 2])


def half_bodies():
    """A mark, a label and a body of each half."""
    for mark, *both in HALVES:
        for label, sizes in zip((MOON, SUN), both):
            yield from halves_of(mark, label, sizes)
    for label, size, marks in ELSEWHERE:
        for step, mark in zip(STEPS, marks):
            yield checked(*step, mark, label, size)
    for kind, label, mark, size in P_HALVES:
        yield checked("P", kind, (1, 0), mark, label, size)


def halves_of(mark, label, sizes):
    """A body at each of these distances, one for each of STEPS."""
    for step, size in zip(STEPS, sizes):
        yield checked(*step, mark, label, size)


def checked(step, kind, place, mark, label, size):
    body = sample.aimed(mark, *place, size)
    assert shows(PART, step, kind, part, mark, label, body), (step, kind, mark, label)
    return mark, label, body


def narrow():
    for _, place, *both in NARROW:
        for label, (mark, size) in zip((MOON, SUN), both):
            yield mark, label, sample.aimed(mark, *place, size)


def pairs(rng):
    for turn, mark in enumerate(known_marks()):
        for moon, sun in list(standings(mark, turn))[:8 if turn < 6 else 2]:
            yield mark, *pair(moon, sun)
    for mark, label, body in (*half_bodies(), *narrow()):
        yield mark, *beside(rng, label, gen_bodies.doubles(body))


def slanted(rng, tenths):
    """A mark with z at so many tenths of its length, at any longitude."""
    x, y = (rng.randint(1, 1_000_000) * rng.choice((1, -1)) for _ in range(2))
    z = near(tenths * root((x * x + y * y) << 40), root((100 - tenths**2) << 40))
    return sample.along((x, y, z), rng.randint(L_LEAST, L_MOST))


def in_rows(mark, both):
    """A series of these Moons and Suns."""
    doubles = [bits for moon, sun in both for bits in gen_bodies.doubles(moon) + gen_bodies.doubles(sun)]
    return gen_tides.series_payload(mark, doubles, len(doubles) // 2)


def series(rng):
    for turn, mark in enumerate(known_marks()):
        yield in_rows(mark, standings(mark, turn + 1))
    for tenths in (*range(-9, 0), *range(1, 10)):
        mark = slanted(rng, tenths)
        yield in_rows(mark, [*list(standings(mark, tenths % 4))[tenths % 2::4], (sample.moon(rng), sample.sun(rng))])
    for mark, *both in HALVES:
        bodies = ([body for *_, body in halves_of(mark, label, sizes)] for label, sizes in zip((MOON, SUN), both))
        yield in_rows(mark, zip(*bodies))


def solid_calls(rng):
    """The tide on, or on, off and on again; and on at the edge of the position and past it."""
    off = wire.pack_call(wire.SOLID_OFF)
    for mark in (*known_marks(), *(slanted(rng, tenths) for tenths in (-8, -4, 3, 7))):
        for n, place in enumerate(((1, 0), (1, 1))):
            card, on, _ = solid_on(rng, mark, sample.aimed(mark, *place, RANGE[MOON][n]))
            yield gen_calls.payload(card, on, *(off, on) * n)
    for mark in (NORTH, slanted(rng, -9)):
        card, on, gain = solid_on(rng, mark, sample.aimed(mark, 1, 0, RANGE[MOON][0]))
        yield from gen_calls.about_edges(card, gain, on)


def before(mark, moon, sun):
    """The tide with the same h and l everywhere, as old cards store it."""
    s = stand(mark, MOON, moon)
    return plus(plus(without_latitude(mark, MOON, moon), displaced(s, *degree_three(s))), without_latitude(mark, SUN, sun))


def old_cards(rng):
    for mark in (NORTH, AXIS, *(slanted(rng, tenths) for tenths in (-7, 3, 8))):
        moon, sun = sample.moon(rng), sample.sun(rng)
        yield from kept_tide(rng, mark, moon, sun, before(mark, moon, sun))


def payloads(rng):
    for mark, *entries in pairs(rng):
        yield wire.PAIR, gen_tides.pack(mark) + b"".join(map(wire.pack_body, entries))
    for data in series(rng):
        yield wire.SERIES, data
    for found in (solid_calls, old_cards):
        for data in found(rng):
            yield wire.CALLS, data
