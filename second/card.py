"""The card: its value, its checks 2 to 9, its bytes.

A card value may hold anything: nine bytes of site, a frame and a tide byte,
and thirteen signed 64-bit numbers. Byte 11 has no place in the value.
"""

import struct
from typing import NamedTuple

from frames import known
from mark import good_mark
from units import METRE, ZERO, minus, times, within

SIZE = 88                           # bytes of a card
EPOCH_MOST = 146_100                # quarter-days either side of 2000.0
VELOCITY_MOST = 500_000             # micrometres a year
POSITION_MOST = 1_000 * METRE       # grains from the mark
TIDE_MOST = METRE                   # grains

FREE, MEAN, SOLID = 0, 1, 2         # byte 10

LAYOUT = ">9sBBBi3i3i3q3q"
assert struct.calcsize(LAYOUT) == SIZE


class Card(NamedTuple):
    site: bytes
    frame: int
    tide: int
    epoch: int
    mark: tuple
    velocity: tuple
    position: tuple
    vector: tuple  # the stored solid tide


ZERO_CARD = Card(bytes(9), 0, 0, 0, ZERO, ZERO, ZERO, ZERO)


def site_shape(site):
    """Nine bytes: five digits, M or S, three digits."""
    digits = b"0123456789"
    return (len(site) == 9 and site[5] in b"MS"
            and all(site[i] in digits for i in (0, 1, 2, 3, 4, 6, 7, 8)))


def offset(card):
    """Position minus mark, grains."""
    return minus(card.position, times(card.mark, METRE))


def good_position(card):
    """Refusal 8 when this is false."""
    return within(offset(card), POSITION_MOST)


def good_epoch(epoch):
    """Refusal 5 when this is false."""
    return -EPOCH_MOST <= epoch <= EPOCH_MOST


def check(card, byte_11=0):
    """The first refusal of 2 to 9 that the card meets, or 0."""
    if not site_shape(card.site):
        return 2
    if not known(card.frame):
        return 3
    if card.tide > SOLID or byte_11 != 0 or (card.tide != SOLID and card.vector != ZERO):
        return 4
    if not good_epoch(card.epoch):
        return 5
    if not good_mark(card.mark):
        return 6
    if not within(card.velocity, VELOCITY_MOST):
        return 7
    if not good_position(card):
        return 8
    if not within(card.vector, TIDE_MOST):
        return 9
    return 0


def read(record):
    """(number, card); the card of all zeros when refused."""
    if len(record) != SIZE:
        return 1, ZERO_CARD
    site, frame, tide, zero, epoch, *rest = struct.unpack(LAYOUT, record)
    card = Card(site, frame, tide, epoch, tuple(rest[0:3]), tuple(rest[3:6]),
                tuple(rest[6:9]), tuple(rest[9:12]))
    number = check(card, zero)
    return (number, ZERO_CARD) if number else (0, card)


def to_bytes(card):
    """The bytes of a card that passes check."""
    return struct.pack(LAYOUT, card.site, card.frame, card.tide, 0, card.epoch,
                       *card.mark, *card.velocity, *card.position, *card.vector)


def write(card, buffer):
    """(number, the buffer after): 1 for the buffer's length, then 2 to 9."""
    number = 1 if len(buffer) != SIZE else check(card)
    return (number, bytes(buffer)) if number else (0, to_bytes(card))
