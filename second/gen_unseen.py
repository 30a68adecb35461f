"""Vectors for what the other generators leave out: halves inside the steps, a tide of zeros, two faults at once, sites alike but for a byte.

They were added for altered versions (second/altered.py) that no other vector saw. The assertions say what is special about the numbers.
"""

import damage
import gen_bodies
import gen_calls
import gen_catalogue
import gen_records
import gen_tides
import sample
import wire
from bodies import MOON, SUN
from card import EPOCH_MOST
from gen_bodies import NAN, doubles
from halves import PART, kinds
from mark import unit
from permanent import SLOPE
from rounding import E
from solid import part, tide
from units import ZERO

AXIS = (6_378_137, 0, 0)             # the mark of case 2, metres
SIXTY = (3_189_068, 0, 5_523_628)    # a mark with half of L in x
# A Moon (metres) and a Sun (kilometres) whose parts at AXIS cancel in every grain: one stands low where the other stands high, on opposite sides.
LOW_MOON, HIGH_SUN = (100_454_602, 396_874_283, 0), (130_911_278, -65_761_359, 0)


def half_marks():
    """Marks with half of L in one component, which gives halves in the last step of x and y and, by z, in e; then halves in A, in w and in the last of z."""
    for x, y in ((3_189_003, 2_000_000), (-3_189_003, 2_000_000), (2_000_000, -3_189_003)):
        mark = (x, y, 5_148_711)
        assert E // 2 in map(abs, unit(mark))
        yield mark
    for z in (3_189_068, -3_189_068):
        mark = (4_000_000, 3_809_261, z)
        p = (3 * unit(mark)[2]**2 // E - E) // 2  # exact here
        assert SLOPE * p % E == E // 2
        yield mark
    yield from ((4_406_654, -1_000_000, 4_490_187), (5_887_737, -1_000_000, 2_216_733), (6_283_955, -1_000_000, 322_559))


def half_rows():
    """A mark and its opposite with halves in A (x and y, frames 1 and 2) and in B (z, frame 2)."""
    for sign in (1, -1):
        mark = tuple(sign * m for m in (4_025_000, -3_775_000, 3_181_250))
        assert 1_461 * 94 * mark[0] % 100_000 == 1_461 * 134 * mark[1] % 100_000 == 8 * mark[2] % 100_000 == 50_000
        for frame in (1, 2):
            yield bytes([frame]) + gen_tides.pack(mark)


def pair(moon, sun):
    return (MOON, doubles(moon)), (SUN, doubles(sun))


def half_steps():
    """Marks and Moons (metres) with a half in one step of the Moon's degree two, and the step as halves.py names it."""
    yield AXIS, (384_413_082, 0, 0), "H"
    yield AXIS, (270_053_023, 270_000_000, 0), "S"
    yield AXIS, (0, 384_400_000, 0), "rho: c is 0, and H is odd"
    yield AXIS, (192_200_006, 332_900_176, 0), "t: c is half of E, and S is odd"
    yield AXIS, (332_900_167, 192_200_001, 0), "y: the last step; d is half of E, and t is odd"
    yield SIXTY, (200_000_009, 330_000_000, 0), "c: u is half of E, and d is odd"
    yield SIXTY, (200_000_029, 330_000_000, 0), "along-x: c u; u is half of E, and c is odd"


def far_and_nan(rng):
    """A component past 2^30 beside one that is not a number, in one body or in both: 10 comes first."""
    far, nan, zero = doubles((1 << 31,))[0], NAN, 0
    for moon, sun in (((nan, far, zero), None), (None, (far, zero, nan)), ((far, zero, zero), (zero, nan, zero)), ((zero, zero, nan), (zero, far, zero))):
        yield (MOON, moon or gen_bodies.good(rng, MOON)), (SUN, sun or gen_bodies.good(rng, SUN))


def pairs(rng):
    for mark, moon, step in half_steps():
        assert kinds(part, mark, MOON, moon)[PART.index(step.split(":")[0])], step
        yield mark, *pair(moon, sample.sun(rng))
    assert tide(AXIS, LOW_MOON, HIGH_SUN) == ZERO
    yield AXIS, *pair(LOW_MOON, HIGH_SUN)
    for first, second in far_and_nan(rng):
        yield sample.mark(rng), first, second


def two_faults(rng):
    """Field records with two faults, of neighbouring checks from 2 to 8."""
    faults = ({"site": b"1234XM001"}, {"frame": 12}, {"tide": 2}, {"epoch": EPOCH_MOST + 1}, {"mark": (6_299_999, 0, 0)},
              {"slow": (0, 5_001, 0)}, {"away": (0, 0, -10_000_001)})
    for first, second in zip(faults, faults[1:]):
        both = {"away": ZERO, "slow": ZERO, **first, **second}
        away, slow = both.pop("away"), both.pop("slow")
        yield gen_records.field_bytes(damage.base(rng)._replace(**both), away, slow)


def zero_tides(rng):
    """A solid tide of zeros is on: it is stored, keeps the other calls away, and comes off; and far_and_nan as a call."""
    card = damage.moved_to(damage.base(rng), AXIS)
    on = wire.pack_call(wire.SOLID_ON, *pair(LOW_MOON, HIGH_SUN))
    yield gen_calls.payload(card, on)
    for entry in gen_calls.every_entry(rng):
        yield gen_calls.payload(card, on, entry)
    yield gen_calls.payload(card, *(wire.pack_call(wire.SOLID_ON, *found) for found in far_and_nan(rng)))


def twice_refused(rng):
    """A card for each number, and calls that would be refused by their own checks too: the card's number comes first."""
    moon = (MOON, gen_bodies.good(rng, MOON))
    entries = (wire.pack_call(wire.MOVE, 3 * EPOCH_MOST), wire.pack_call(wire.FRAME, 12), wire.pack_call(wire.SOLID_ON, moon, moon))
    for card in damage.each_number(rng):
        yield gen_calls.payload(card, *entries)


def alike_sites(rng):
    """Sites that differ in the last byte only."""
    data = b"".join(b"12345M00%c" % last + record[9:] for last, record in zip(b"123", gen_catalogue.accepted(rng, 3)))
    for key in (b"12345M002", b"12345M003", b"12345M004"):
        yield gen_catalogue.find(key, data)


def payloads(rng):
    for mark in half_marks():
        yield wire.PERMANENT, gen_tides.pack(mark)
    for data in half_rows():
        yield wire.ROWS, data
    for mark, first, second in pairs(rng):
        yield wire.PAIR, gen_tides.pack(mark) + wire.pack_body(first) + wire.pack_body(second)
    for (_, moon), (_, sun) in far_and_nan(rng):
        yield wire.SERIES, gen_tides.series_payload(sample.mark(rng), gen_tides.row(rng) + [*moon, *sun], 6)
    for data in two_faults(rng):
        yield wire.EXPAND, data
    for found in (zero_tides, twice_refused):
        for data in found(rng):
            yield wire.CALLS, data
    for data in alike_sites(rng):
        yield wire.LOOKUP, data
