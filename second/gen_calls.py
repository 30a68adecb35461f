"""Vectors of the six calls: damaged cards, each call's own edges, long lists."""

import damage
import frames
import gen_bodies
import sample
import wire
from bodies import MOON, SUN
from card import EPOCH_MOST, POSITION_MOST, VELOCITY_MOST
from damage import I_MAX, I_MIN
from permanent import shift
from solid import pair_tide
from units import METRE, ZERO, minus, plus, times


def payload(card, *entries):
    return wire.pack_raw(card) + b"".join(entries)


def good_pair(rng):
    pair = [(MOON, gen_bodies.good(rng, MOON)), (SUN, gen_bodies.good(rng, SUN))]
    rng.shuffle(pair)
    return pair


def every_entry(rng):
    """One entry of each call, with arguments that are accepted."""
    yield wire.pack_call(wire.MOVE, rng.randint(-50, 50))
    yield wire.pack_call(wire.FRAME, rng.randrange(3))
    yield wire.pack_call(wire.MEAN_ON)
    yield wire.pack_call(wire.MEAN_OFF)
    yield wire.pack_call(wire.SOLID_ON, *good_pair(rng))
    yield wire.pack_call(wire.SOLID_OFF)


def damaged(rng):
    """Each call on a card for each number; each single damage on all six at once."""
    for card in damage.each_number(rng):
        for entry in every_entry(rng):
            yield payload(card, entry)
    for card in (*damage.singles(rng), *damage.several(rng, 20), *damage.anything(rng, 20)):
        yield payload(card, *every_entry(rng))


def at_edge(card, gain, i, sign, off):
    """The card placed so that the gain takes component i to off past its edge."""
    edge = sign * POSITION_MOST + card.mark[i] * METRE
    return card._replace(position=damage.put(card.position, i, edge - gain[i] + sign * off))


def about_edges(card, gain, entry):
    """Just inside, at and just past both edges of every component.

    Where the gain points inwards the first card is itself too far away: then
    the refusal is the card's own.
    """
    for i in range(3):
        for sign in (1, -1):
            for off in (-1, 0, 1):
                yield payload(at_edge(card, gain, i, sign, off), entry)


def moves(rng):
    for epoch, d in ((EPOCH_MOST, 0), (EPOCH_MOST, 1), (-EPOCH_MOST, -1), (-EPOCH_MOST, 0),
                     (0, EPOCH_MOST), (0, EPOCH_MOST + 1), (0, -EPOCH_MOST),
                     (0, -EPOCH_MOST - 1), (-EPOCH_MOST, 2 * EPOCH_MOST),
                     (EPOCH_MOST, -2 * EPOCH_MOST - 1), (1, I_MAX), (-1, I_MIN), (0, I_MIN),
                     (0, I_MAX), (5, 1 << 32), (-5, -(1 << 32))):
        slow = damage.base(rng)._replace(epoch=epoch, velocity=(3, -2, 0))
        for card in (slow, slow._replace(tide=1), slow._replace(tide=2, vector=(5, 6, 7))):
            yield payload(card, wire.pack_call(wire.MOVE, d))
    for d in (1, -1, 1_461, -9_999, 100_000):
        card = damage.base(rng)._replace(epoch=0, velocity=(500_000, -1, -77_777))
        yield from about_edges(card, times(card.velocity, d), wire.pack_call(wire.MOVE, d))
    card = damage.base(rng)._replace(epoch=EPOCH_MOST, velocity=(VELOCITY_MOST,) * 3)
    for d in (-2 * EPOCH_MOST, -2 * EPOCH_MOST - 1, 1, -1_000):
        yield payload(card, wire.pack_call(wire.MOVE, d))


def frame_changes(rng):
    for to in (0, 1, 2, 12, 13, 127, 128, 255):
        for tide in range(3):
            yield payload(damage.base(rng, tide), wire.pack_call(wire.FRAME, to))
    for old in range(3):
        for new in range(3):
            yield from frame_edges(rng, old, new)


def frame_edges(rng, old, new):
    entry = wire.pack_call(wire.FRAME, new)
    card = damage.base(rng, rng.randrange(3))._replace(frame=old)
    gain = frames.velocity_gain(old, new, card.mark)
    for i in range(3):
        for sign in (1, -1):
            for off in (-1, 0, 1):
                value = sign * (VELOCITY_MOST + off) - gain[i]
                yield payload(card._replace(velocity=damage.put(card.velocity, i, value)), entry)
    calm = card._replace(velocity=ZERO)
    gain = frames.position_gain(old, new, calm.mark, calm.epoch)
    yield from about_edges(calm, gain, entry)
    both = at_edge(calm, gain, 2, 1, 1)._replace(velocity=(VELOCITY_MOST,) * 3)
    yield payload(both, entry)


def mean_changes(rng):
    for tide in (0, 1, 2):
        for code in (wire.MEAN_ON, wire.MEAN_OFF):
            for _ in range(6):
                yield payload(damage.base(rng, tide), wire.pack_call(code))
    for _ in range(3):
        card = damage.base(rng)
        gain = shift(card.mark)
        yield from about_edges(card, gain, wire.pack_call(wire.MEAN_ON))
        yield from about_edges(card._replace(tide=1), minus(ZERO, gain),
                               wire.pack_call(wire.MEAN_OFF))


def solid_changes(rng):
    for first, second in gen_bodies.pairs(rng):
        entry = wire.pack_call(wire.SOLID_ON, first, second)
        yield payload(damage.base(rng), entry)
    for tide in (1, 2):
        for pair in list(gen_bodies.mixed_pairs(rng))[::3]:
            yield payload(damage.base(rng, tide), wire.pack_call(wire.SOLID_ON, *pair))
    for _ in range(4):
        card, pair = damage.base(rng), good_pair(rng)
        number, gain = pair_tide(card.mark, *pair)
        assert number == 0
        yield from about_edges(card, gain, wire.pack_call(wire.SOLID_ON, *pair))
        # Refused bodies come before refusal 8.
        yield payload(at_edge(card, gain, 0, 1, 1),
                      wire.pack_call(wire.SOLID_ON, pair[0], pair[0]))


def solid_ends(rng):
    for tide in (0, 1, 2):
        for _ in range(6):
            yield payload(damage.base(rng, tide), wire.pack_call(wire.SOLID_OFF))
    for vector in ((METRE, -METRE, METRE), (-METRE, METRE, 1), ZERO, (1, -1, 0)):
        card = damage.base(rng, 2)._replace(vector=vector)
        yield from about_edges(card, minus(ZERO, vector), wire.pack_call(wire.SOLID_OFF))


def random_entry(rng, pairs, codes=(0, 1, 2) * 5 + (12,)):
    """Any call; now and then with one of these pairs of bodies, else with good ones, and with one of these frames."""
    code = rng.choice((wire.MOVE,) * 3 + (wire.FRAME,) * 3 + (wire.MEAN_ON, wire.MEAN_OFF,
                      wire.SOLID_ON, wire.SOLID_OFF) * 2)
    if code == wire.MOVE:
        return wire.pack_call(code, rng.choice((0, 1, -1, rng.randint(-2_000, 2_000),
                                                rng.randint(-200_000, 200_000))))
    if code == wire.FRAME:
        return wire.pack_call(code, rng.choice(codes))
    if code == wire.SOLID_ON:
        return wire.pack_call(code, *(rng.choice(pairs) if rng.randrange(4) == 0
                                      else good_pair(rng)))
    return wire.pack_call(code)


def lists(rng):
    """Random lists, most short, a few as long as a payload allows."""
    pairs = list(gen_bodies.pairs(rng))
    yield payload(sample.card(rng))
    for n in [rng.randrange(2, 30) for _ in range(150)] + [200, 500, 930, 930]:
        card = sample.card(rng, most=rng.choice((METRE, 900 * METRE, POSITION_MOST)))
        yield payload(card, *(random_entry(rng, pairs) for _ in range(n)))


def payloads(rng):
    for found in (damaged, moves, frame_changes, mean_changes, solid_changes, solid_ends, lists):
        for data in found(rng):
            yield wire.CALLS, data
