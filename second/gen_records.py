"""Vectors of read, write, export, expand and metres."""

import struct

import card as cards
import damage
import field
import sample
import wire
from units import METRE, TENTH_MM, plus, times

I32 = 1 << 31


def record(card, byte_11=0):
    """The bytes of any card whose numbers fit, else None."""
    small = (card.epoch, *card.mark, *card.velocity)
    if not all(-I32 <= v < I32 for v in small):
        return None
    return struct.pack(cards.LAYOUT, card.site, card.frame, card.tide, byte_11, card.epoch,
                       *card.mark, *card.velocity, *card.position, *card.vector)


def wrong_lengths(data):
    """Too short and too long by one and by much, and nothing at all."""
    for n in (0, 1, 9, field.SIZE - 1, field.SIZE, field.SIZE + 1, cards.SIZE - 1, cards.SIZE,
              cards.SIZE + 1, cards.SIZE + 8, 2 * cards.SIZE):
        if n != len(data):
            yield (data * n)[:n]


def reads(rng):
    for card in (*damage.singles(rng), *damage.several(rng, 40), *damage.anything(rng, 40)):
        data = record(card)
        if data is not None:
            yield data
    for byte in (1, 2, 128, 255):
        yield record(damage.base(rng), byte)
        yield record(damage.base(rng)._replace(epoch=146_101), byte)
    yield from wrong_lengths(record(damage.base(rng)))
    for i in range(cards.SIZE):  # each byte damaged once
        data = bytearray(record(sample.card(rng)))
        data[i] ^= 1 << rng.randrange(8)
        yield bytes(data)
    for _ in range(10):
        yield rng.randbytes(cards.SIZE)
        yield record(sample.card(rng))


def field_bytes(card, away, slow, byte_11=0, last=0):
    return struct.pack(field.LAYOUT, card.site, card.frame, card.tide, byte_11, card.epoch,
                       *card.mark, *away, *slow, last)


def small(rng, most):
    return tuple(rng.randint(-most, most) for _ in range(3))


def field_of(rng, card, **other):
    return field_bytes(card, small(rng, field.OFFSET_MOST), small(rng, field.VELOCITY_MOST),
                       **other)


def field_edges(rng):
    """Offsets, velocities and zero bytes on both sides of their ranges."""
    for i in range(3):
        for sign in (1, -1):
            for value in (9_999_999, 10_000_000, 10_000_001, I32 - 1):
                away = damage.put(small(rng, 100), i, sign * value)
                yield field_bytes(damage.base(rng), away, small(rng, 5_000))
            for value in (4_999, 5_000, 5_001, 32_767):
                slow = damage.put(small(rng, 100), i, sign * value)
                yield field_bytes(damage.base(rng), small(rng, 100), slow)
    yield field_bytes(damage.base(rng), (-I32, 0, 0), (0, 0, -32_768))
    for tide in (0, 1, 2, 3, 255):
        yield field_of(rng, damage.base(rng)._replace(tide=tide))
    for other in ({"byte_11": 1}, {"byte_11": 255}, {"last": 1}, {"last": 256}, {"last": 65_535}):
        yield field_of(rng, damage.base(rng), **other)


def expands(rng):
    for card in (*damage.singles(rng), *damage.several(rng, 30)):
        if card.vector == (0, 0, 0) and record(card) is not None:
            yield field_of(rng, card)
    for card in damage.several(rng, 30):
        yield field_bytes(card._replace(tide=rng.choice((0, 1, 2)),
                                        velocity=(0, 0, 0)), (0, 0, 10_000_001), (0, 5_001, 0),
                          last=rng.choice((0, 0, 1)))
    yield from field_edges(rng)
    yield from wrong_lengths(field_of(rng, damage.base(rng)))
    for _ in range(30):
        yield field_of(rng, sample.card(rng, tide=rng.randrange(2)))


def rounding_cards(rng):
    """Offsets and velocities about the halves of the field units."""
    for k in (0, 1, 7, 9_999_999):
        for off in (-1, 0, 1):
            for sign in (1, -1):
                away = sign * (k * TENTH_MM + TENTH_MM // 2 + off)
                slow = sign * (100 * (k % 5_000) + 50 + off)
                card = damage.base(rng)
                yield card._replace(position=plus(times(card.mark, METRE), (away, -away, 0)),
                                    velocity=(slow, 0, -slow))


def lent_cards(rng):
    """What a writer, an exporter and metres out are all tried with."""
    yield from damage.singles(rng)
    yield from damage.several(rng, 25)
    yield from damage.anything(rng, 25)
    yield from rounding_cards(rng)
    for tide in range(3):
        for _ in range(20):
            yield sample.card(rng, tide=tide)


def lent(size, card):
    return struct.pack(">I", size) + wire.pack_raw(card)


def wrong_buffers(rng, right):
    for size in (0, 1, field.SIZE - 1, field.SIZE, field.SIZE + 1, cards.SIZE - 1, cards.SIZE,
                 cards.SIZE + 1, 200):
        if size != right:
            yield lent(size, sample.card(rng))
            yield lent(size, damage.SPOIL[size % 8](damage.base(rng, 2)))


def metre_cards(rng):
    """Grain counts of every size: quotients that end, that do not, and zero."""
    for power in range(0, 41):
        card = damage.base(rng)
        grains = (1 << power, -(1 << power) - 1, rng.getrandbits(power + 1))
        if max(map(abs, grains)) <= cards.POSITION_MOST:
            yield card._replace(position=plus(times(card.mark, METRE), grains))
    for grains in ((METRE, -METRE, 0), (METRE // 2, 1, -1), (METRE + 1, METRE - 1, 1461)):
        card = damage.base(rng)
        yield card._replace(position=plus(times(card.mark, METRE), grains))


def payloads(rng):
    for data in reads(rng):
        yield wire.READ, data
    for kind, right in ((wire.WRITE, cards.SIZE), (wire.EXPORT, field.SIZE)):
        for card in lent_cards(rng):
            yield kind, lent(right, card)
        for payload in wrong_buffers(rng, right):
            yield kind, payload
    for data in expands(rng):
        yield wire.EXPAND, data
    for card in (*lent_cards(rng), *metre_cards(rng)):
        yield wire.METRES, wire.pack_raw(card)
