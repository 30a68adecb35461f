"""Vectors of the older frames, codes 3 to 11: rows at marks of every kind, changes between all frames, records and catalogues.

A change to a frame and on to another ends as the direct one does, so it is the first and the last frame of a list that its answer shows.
The assertions say what is special about the numbers.
"""

from itertools import product

import damage
import field
import frame_sizes
import frames
import gen_calls
import gen_catalogue
import gen_records
import gen_tides
import replay
import sample
import wire
from card import EPOCH_MOST, MEAN, SIZE, SOLID, VELOCITY_MOST
from frame_places import ITRF88, ITRF93, OLDER, half_marks, unit_marks
from mark import L_LEAST, L_MOST
from tally import Tally
from units import ZERO, times

CODES = range(12)
UNKNOWN = (12, 13, 14, 128, 255)
FIRST = UNKNOWN[0]
OCTANTS = tuple(product((1, -1), repeat=3))


def plain_marks():
    """Both ends of each axis, and a mark in each octant with three unlike components."""
    yield from sample.on_axes(6_378_137)
    for signs in OCTANTS:
        yield tuple(sign * m for sign, m in zip(signs, (5_100_000, 3_200_000, 2_100_000)))


def far_marks():
    """The marks of the greatest A and B, and their opposites."""
    for name, frame in (("A", ITRF88), ("B", ITRF93)):
        *_, mark = frame_sizes.greatest(Tally("sizes"), name)
        yield frame, mark
        yield frame, times(mark, -1)


def row_marks(rng):
    """A frame and a mark."""
    marks = list(plain_marks())
    for frame in CODES:
        if frame in (ITRF93, ITRF88):
            some = marks
        else:
            some = marks[frame % 3 * 2:][:2] + marks[6 + frame % 4 * 2:][:2] if frame in OLDER else marks[frame::7]
        yield from ((frame, mark) for mark in some)
        yield from ((frame, sample.mark(rng)) for _ in range(3 if frame in OLDER else 1))
    yield ITRF93, (L_LEAST, 0, 0)
    yield ITRF88, (0, 0, -L_MOST)
    yield from far_marks()
    yield from half_marks()
    yield from unit_marks(rng)


def calm(rng, frame, tide=0):
    """A card that no frame change and no short move is refused for."""
    card = damage.base(rng, tide)
    return card._replace(frame=frame, epoch=rng.randint(-140_000, 140_000), velocity=sample.within(rng, 400_000))


def to(*codes):
    return [wire.pack_call(wire.FRAME, code) for code in codes]


def done(card, entries):
    """The numbers that a list of calls gives, and the last card."""
    numbers = []
    for entry in entries:
        number, card = replay.one_call(card, entry)
        numbers.append(number)
    return numbers, card


def move(rng):
    return wire.pack_call(wire.MOVE, rng.randint(-2_000, 2_000))


def plain(code):
    return wire.pack_call(code)


# Lists that lead from one frame to another, with a third and an unknown code at hand.
WAYS = (
    lambda rng, old, new, other, bad: to(new),
    lambda rng, old, new, other, bad: to(other, new),
    lambda rng, old, new, other, bad: [move(rng), *to(new)],
    lambda rng, old, new, other, bad: to(new, other, old, new, new),
    lambda rng, old, new, other, bad: to(bad, new),
    lambda rng, old, new, other, bad: [*to(other), move(rng), *to(new)],
    lambda rng, old, new, other, bad: [plain(wire.MEAN_ON), *to(new), plain(wire.MEAN_OFF)],
    lambda rng, old, new, other, bad: [wire.pack_call(wire.SOLID_ON, *gen_calls.good_pair(rng)), *to(new)],
    lambda rng, old, new, other, bad: [*to(new, bad), plain(wire.MEAN_ON)],
    lambda rng, old, new, other, bad: to(new),
)


def all_pairs(rng):
    """From each frame to each, itself too, by WAYS in turn, but for those between 0, 1 and 2; only unknown codes are refused."""
    for n, (old, new) in enumerate(pair for pair in product(CODES, CODES) if max(pair) in OLDER):
        card, bad = calm(rng, old), UNKNOWN[n % 5]
        entries = WAYS[n % 10](rng, old, new, (old + 5 + n // 12) % 12, bad)
        numbers, last = done(card, entries)
        assert last.frame == new and numbers == [3 if entry in to(bad) else 0 for entry in entries]
        yield gen_calls.payload(card, *entries)


def laws(rng):
    """Round and back: the card ends as it began, and the epoch's moves make up for each other."""
    for old in (0, ITRF93, 9, ITRF88):
        card, d = calm(rng, old), rng.randint(1, 2_000)
        there, back = wire.pack_call(wire.MOVE, d), wire.pack_call(wire.MOVE, -d)
        round_trip = to(*(code for code in CODES if code != old), old)
        for entries in (round_trip, [*to((old + 4) % 12), there, *to((old + 7) % 12, 12, old), back]):
            assert done(card, entries)[1] == card
            yield gen_calls.payload(card, *entries)


# From, to, and the sign of the velocity's gain: of each component both, with ITRF93 on either side among them.
EDGES = ((0, 6, 1), (6, 0, 1), (0, 11, -1), (11, 0, -1), (2, 3, -1), (3, 2, 1), (6, 10, 1), (10, 6, 1), (7, 6, -1), (6, 8, -1), (11, 6, -1), (6, 4, 1))


def drawn(rng, old, i, sign, gain):
    """A card that gains in component i with this sign, and what it gains."""
    while True:
        card = calm(rng, old, rng.randrange(3))
        found = gain(card)
        if found[i] * sign > 0:
            return card, found


def faster(rng, old, new, i, sign, off):
    """A card whose velocity the change takes to off past its limit in component i, on this side."""
    card, gain = drawn(rng, old, i, sign, lambda card: frames.velocity_gain(old, new, card.mark))
    return card._replace(velocity=damage.put(card.velocity, i, sign * (VELOCITY_MOST + off) - gain[i]))


def further(rng, old, new, i, sign, off):
    """The same with its position."""
    card, gain = drawn(rng, old, i, sign, lambda card: frames.position_gain(old, new, card.mark, card.epoch))
    return gen_calls.at_edge(card, gain, i, sign, off)


def edges(rng):
    """7 and 8: a change to the limit itself, which is accepted, and one past it."""
    met = set()
    for n, (old, new, sign) in enumerate(EDGES):
        for number, found, i, side in ((7, faster, n % 3, sign), (8, further, (n + 1) % 3, (1, -1)[n % 2])):
            for off in (0, 1):
                card = found(rng, old, new, i, side, off)
                assert done(card, to(new))[0] == [number * off]
                met.add((number, i, side, off))
                yield gen_calls.payload(card, *to(new))
    assert len(met) == 24, met


def refused_between(rng):
    """A third frame refused where the direct change is not: the list goes on from the card as it was. Then 7 and 8 at once, and 3 before both."""
    for number, old, third, new in ((7, 0, 6, 11), (8, 3, 6, 2), (7, 11, 6, 3), (8, 6, 11, 7)):
        found = faster if number == 7 else further
        card = found(rng, old, third, 1, 1, 1)
        while done(card, to(third, new))[0] != [number, 0]:
            card = found(rng, old, third, 1, 1, 1)
        yield gen_calls.payload(card, *to(third, new))
        yield gen_calls.payload(card, *to(third, 12, new, third, new))
    for old, new in ((2, 6), (6, 11)):
        card = further(rng, old, new, 2, 1, 1)._replace(velocity=(VELOCITY_MOST, -VELOCITY_MOST, VELOCITY_MOST))
        assert done(card, to(new))[0] == [7]
        yield gen_calls.payload(card, *to(new))
        yield gen_calls.payload(card, *to(13))


def under_tides(rng):
    """Cards with a tide on go through older frames and keep it; then it comes off. A move with solid tide on is refused in any frame."""
    for n, frame in enumerate((3, 6, 8, 11)):
        mean, solid = calm(rng, frame, MEAN), calm(rng, frame, SOLID)
        assert solid.tide == SOLID and mean.vector == ZERO
        yield gen_calls.payload(mean, *to((frame + 3) % 12), plain(wire.MEAN_OFF), move(rng), *to((frame + 7) % 12))
        yield gen_calls.payload(solid, *to((frame + 5) % 12), move(rng), plain(wire.SOLID_OFF), move(rng), *to((frame + 8) % 12))
        yield gen_calls.payload(solid, *to(UNKNOWN[n], (frame + 2) % 12, frame), plain(wire.MEAN_ON))


def unknown_asked(rng):
    """Unknown codes asked of a card in an older frame, and a card in an unknown frame asked for known ones and by every call."""
    for n, code in enumerate(UNKNOWN):
        yield gen_calls.payload(calm(rng, 3 + 2 * n), *to(code))
    for code in (FIRST, 255):
        yield gen_calls.payload(calm(rng, code), *gen_calls.every_entry(rng), *to(11, code))


def call_lists(rng):
    for found in (all_pairs, laws, edges, refused_between, under_tides, unknown_asked):
        yield from found(rng)


def framed(rng):
    """Cards in older frames, and in unknown ones, alone and beside another fault: the first number in the paper's order is given."""
    for frame in (3, 6, 10, 11):
        yield calm(rng, frame, rng.randrange(2))
    for frame in (FIRST, 255):
        yield calm(rng, frame)
    yield calm(rng, FIRST)._replace(site=b"1234XM001")
    yield calm(rng, 255)._replace(tide=3)
    yield calm(rng, FIRST)._replace(epoch=EPOCH_MOST + 1)
    yield calm(rng, 11)._replace(tide=3)


def records(rng):
    """Kinds 8 to 12 with the cards of framed; a wrong length comes before the frame, and solid tide on is not exported."""
    for card in framed(rng):
        yield wire.READ, gen_records.record(card)
        yield wire.EXPAND, gen_records.field_of(rng, card)
    for kind, right in ((wire.WRITE, SIZE), (wire.EXPORT, field.SIZE)):
        for card in framed(rng):
            yield kind, gen_records.lent(right, card)
        yield kind, gen_records.lent(right - 1, calm(rng, FIRST))
        yield kind, gen_records.lent(right, calm(rng, 11, SOLID))
        yield kind, gen_records.lent(right, calm(rng, FIRST, SOLID))
    for card in framed(rng):
        yield wire.METRES, wire.pack_raw(card)
    yield wire.READ, gen_records.record(calm(rng, FIRST))[:-1]
    yield wire.EXPAND, gen_records.field_of(rng, calm(rng, FIRST))[:-1]


def in_frames(rng, codes):
    """A record in each of these frames."""
    return [gen_records.record(calm(rng, code, rng.randrange(3))) for code in codes]


def catalogues(rng):
    """Kinds 14 to 17: lookup takes any frame, the others judge it."""
    found = in_frames(rng, (*CODES, FIRST, 255))
    for place in (7, 11, 12):
        yield wire.LOOKUP, gen_catalogue.find(found[place][:9], b"".join(found))
    yield wire.READER, gen_catalogue.reader(len(found) + 2, b"".join(found))
    yield wire.READER, gen_catalogue.reader(5, b"".join(found[10:13]) + found[0][:40])
    for data in in_frames(rng, (*CODES, *UNKNOWN)):
        yield wire.LINE, data
    older = in_frames(rng, OLDER)
    yield wire.CHECK, b"".join(older)
    for code in UNKNOWN:
        yield wire.CHECK, b"".join(older[:code % 4] + in_frames(rng, (code,)) + older[code % 4:5])
    # 14 before 3; then 4 at an earlier card before 3 at a later one, and 3 before 4 on one card.
    yield wire.CHECK, older[0] + in_frames(rng, (FIRST,))[0][:-1]
    bad = [gen_records.record(calm(rng, code)._replace(tide=3)) for code in (11, FIRST)]
    yield wire.CHECK, older[1] + bad[0] + bad[1]
    yield wire.CHECK, older[1] + bad[1] + bad[0]


def payloads(rng):
    for frame, mark in row_marks(rng):
        yield wire.ROWS, bytes([frame]) + gen_tides.pack(mark)
    for data in call_lists(rng):
        yield wire.CALLS, data
    yield from records(rng)
    yield from catalogues(rng)
