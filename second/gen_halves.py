"""Vectors for exact halves, which go to the even neighbour: of each sign, and with an even and with an odd whole part, wherever one can come up.

A half with an even whole part goes towards zero, one with an odd whole part away from it, so only both kinds together tell the rule from all others.
half_places.py has the marks and bodies. The assertions say what is special about the numbers.
"""

import struct

import calls
import damage
import gen_bodies
import gen_calls
import gen_doubles
import gen_records
import gen_tides
import sample
import wire
from bodies import MOON, RANGE, SUN, in_range
from card import SIZE, check
from field import SIZE as FIELD_SIZE, VELOCITY_UNIT
from gen_numbers import I_MAX, I_MIN, U_MAX
from gen_third import turned
from gen_unseen import AXIS, SIXTY, pair
from half_places import MARKS, MOST, ROW_MARKS, half_bodies, marks, row_marks, twice
from halves import away, by, kind_of
from permanent import shift
from rounding import near, root, whole
from units import METRE, TENTH_MM, ZERO, plus, times

def ratios():
    """Arguments of near: a and b."""
    for b in (2, TENTH_MM):
        for k in (3, 4):
            for sign in (1, -1):
                yield from ((sign * (k * b + b // 2) + off, b) for off in (-1, 0, 1))
    # 1/2, 3/2, 5/2 and 7/2 with as great a divisor as a signed number and an unsigned one allow.
    for odd in (1, 3, 5, 7):
        b = min(I_MAX // odd * 2, U_MAX - 1)
        for a in (odd * b // 2, -odd * b // 2):
            yield from ((a + off, b) for off in (-1, 0, 1) if I_MIN <= a + off <= I_MAX)
    for a, b in ((I_MAX, U_MAX - 2), (I_MIN, U_MAX - 2), (I_MAX - 2, 2), (2 - I_MAX, 2), ((1 << 62) - 1, I_MAX - 1), (1 - (1 << 62), I_MAX - 1)):
        yield a, b
    yield from shifted_ratios()


def shifted_ratios():
    """An even whole number more: near((2 k b + a)/b) = 2 k + near(a/b)."""
    for a, b in ((1, 2), (-1, 2), (3, 2), (-3, 2), (TENTH_MM // 2, TENTH_MM), (-3 << 29, 1 << 30)):
        for k in (1, I_MAX // (2 * b) - 1, I_MIN // (2 * b) + 1):
            assert kind_of(a, b) and near(2 * k * b + a, b) == 2 * k + near(a, b)
            yield 2 * k * b + a, b


def doubles():
    """k + 1/2: the least with no neighbours, then up to the last that is not far and the first that is."""
    for k in (0, 1, 2):
        for sign in (1, -1):
            yield gen_doubles.bits_of(sign * (2 * k + 1), 1)
    for k in (13, 1 << 29, (1 << 30) - 2, 1 << 30, (1 << 30) + 1):
        yield from gen_doubles.about(gen_doubles.bits_of(2 * k + 1, 1))
    assert [whole(gen_doubles.bits_of(2 * k + 1, 1)) for k in (1 << 30, (1 << 30) + 1)] == [1 << 30, "far"]


def rows():
    for n, mark in enumerate(row_marks()):
        for frame in (1, 2)[n % 2:]:
            yield bytes([frame]) + gen_tides.pack(mark)


def beside(rng, label, body):
    """A labelled pair: this body's doubles beside a good other."""
    entries = [(label, body), (1 - label, gen_bodies.good(rng, 1 - label))]
    rng.shuffle(entries)
    return entries


def edge_bodies(label):
    """Doubles at k + 1/2 about both ends of a body's range, on each axis; the last of each end is out of reach."""
    least, most = RANGE[label]
    for n, doubled in enumerate((2 * least + 1, 2 * least - 1, 2 * least - 3, 2 * most - 1, 2 * most + 1, 2 * most + 3)):
        yield gen_bodies.doubles(damage.put(ZERO, n % 3, -doubled if n % 2 else doubled), 2)


def crossing_bodies(label):
    """Doubles with one component at k + 1/2, of which one neighbour is in reach and the other out: k even and k odd, at both ends."""
    for end, step in zip(RANGE[label], (-1, 0)):
        square = 2 * end + step  # what the other components' squares are held against
        for k in (root(square // 2), root(square // 2) + 1):
            z = root(square - k * k)
            low, high = (in_range(label, (end + step, y, z)) for y in (k, k + 1))
            assert low != high, (label, end, k)
            yield gen_bodies.doubles((2 * (end + step), 2 * k + 1, 2 * z), 2)


def pairs(rng):
    """Every second of the table's turned to another axis."""
    for label in (MOON, SUN):
        for n, (mark, body) in enumerate((*half_bodies(label), *(twice() if label == MOON else ()))):
            mark, body = (turned(mark), turned(body)) if n % 2 else (mark, body)
            yield mark, *beside(rng, label, gen_bodies.doubles(body))
        for body in (*edge_bodies(label), *crossing_bodies(label)):
            yield sample.mark(rng), *beside(rng, label, body)


def series(rng):
    """The table's bodies at each of its marks; then accepted bodies at k + 1/2, and a row past the end of a range."""
    both = [list(half_bodies(label)) for label in (MOON, SUN)]
    for mark in (AXIS, SIXTY):
        moons, suns = ([body for at, body in found if at == mark] for found in both)
        rows_of = [gen_bodies.doubles(moon) + gen_bodies.doubles(suns[n % len(suns)]) for n, moon in enumerate(moons)]
        yield gen_tides.series_payload(mark, sum(map(list, rows_of), []), 3 * len(rows_of))
    moons, suns = (list(edge_bodies(label)) for label in (MOON, SUN))
    good = [(moons[n], suns[m]) for n, m in ((0, 4), (1, 3), (3, 1), (4, 0))]
    for bad in ([], [(moons[5], suns[0])], [(moons[0], suns[2])]):
        run = [bits for moon, sun in good + bad for bits in moon + sun]
        yield gen_tides.series_payload(sample.mark(rng), run, len(run) // 2)


def some_halves(k, unit, off):
    """k and k + 1 units and a half, of both signs."""
    low, high = (n * unit + unit // 2 + off for n in (k, k + 1))
    return low, -high, -low


def exported(rng):
    """Offsets and velocities at halves of the field units, up to the last that fits, and one off them."""
    for k, slow in ((0, 0), (3, 3), (12, 12), (9_999_997, 4_997), (9_999_998, 4_998)):
        for sign in (1, -1):
            for off in (-1, 0, 1) if k == 3 else (0,):
                card = damage.base(rng, rng.randrange(2))
                yield card._replace(position=plus(times(card.mark, METRE), times(some_halves(k, TENTH_MM, off), sign)),
                                    velocity=times(some_halves(slow, VELOCITY_UNIT, off), sign))


def half_calls(rng):
    """Each kind of call where a half is met; and the permanent shift taking a card to its edge and past it."""
    on, off = wire.pack_call(wire.MEAN_ON), wire.pack_call(wire.MEAN_OFF)
    for n, mark in enumerate((MOST, *(found[1] for _, found in MARKS))):
        card = damage.moved_to(damage.base(rng), mark)
        yield gen_calls.payload(card, on) if n % 2 else gen_calls.payload(card._replace(tide=1), off)
    for past in (0, 1):
        yield gen_calls.payload(gen_calls.at_edge(damage.moved_to(damage.base(rng), MOST), shift(MOST), 0, 1, past), on)
    for mark in list(row_marks())[::3]:
        card = damage.moved_to(damage.base(rng), mark)._replace(velocity=(1, 2, 3))
        yield gen_calls.payload(card, *(wire.pack_call(wire.FRAME, to) for to in (1, 2)))
    for label in (MOON, SUN):
        for body in (*list(edge_bodies(label))[4:], *crossing_bodies(label)):
            yield gen_calls.payload(damage.base(rng), wire.pack_call(wire.SOLID_ON, *beside(rng, label, body)))


def old_cards(rng):
    """Cards made by a call under the old rule, which makes them otherwise today: the card, the call back and the call again."""
    back = {wire.MEAN_ON: (wire.MEAN_OFF,), wire.FRAME: (wire.FRAME, 0), wire.SOLID_ON: (wire.SOLID_OFF,)}
    made = [(mark, calls.mean_on, (wire.MEAN_ON,)) for mark in (MOST, MARKS[1][1][1], MARKS[3][1][1])]
    made += [(ROW_MARKS[n], calls.frame, (wire.FRAME, to)) for n, to in ((0, 1), (0, 2), (1, 2))]
    made += [(mark, calls.solid_on, (wire.SOLID_ON, *pair(moon, sample.sun(rng)))) for mark, moon in list(half_bodies(MOON))[:17:8]]
    for mark, call, entry in made:
        card = damage.moved_to(damage.base(rng), mark)._replace(frame=0, velocity=(1, -2, 3))
        old = by(away, call, card, *entry[1:])[1]
        assert check(old) == 0 and old != call(card, *entry[1:])[1], (mark, call)
        yield old, wire.pack_call(*back[entry[0]]), wire.pack_call(*entry)


def payloads(rng):
    for a, b in ratios():
        yield wire.NEAR, struct.pack(">qQ", a, b)
    for bits in doubles():
        yield wire.WHOLE, struct.pack(">Q", bits)
    for mark in marks():
        yield wire.PERMANENT, gen_tides.pack(mark)
    for data in rows():
        yield wire.ROWS, data
    for mark, *entries in pairs(rng):
        yield wire.PAIR, gen_tides.pack(mark) + b"".join(map(wire.pack_body, entries))
    for data in series(rng):
        yield wire.SERIES, data
    for card in exported(rng):
        yield wire.EXPORT, gen_records.lent(FIELD_SIZE, card)
    for data in half_calls(rng):
        yield wire.CALLS, data
    for old, back, again in old_cards(rng):
        yield wire.READ, gen_records.record(old)
        yield wire.WRITE, gen_records.lent(SIZE, old)
        yield wire.CALLS, gen_calls.payload(old, back)
        yield wire.CALLS, gen_calls.payload(old, back, again)
