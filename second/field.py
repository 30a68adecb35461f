"""The field record: export from a card, expand to a card.

Refusal 4 covers byte 10 (only 0 or 1), byte 11 and bytes 46-47. The order is
that of the card's checks, not of the bytes: velocity (7) before offset (8).
"""

import struct

from card import SOLID, ZERO_CARD, Card, check, good_epoch, offset, site_shape
from frames import known
from mark import good_mark
from rounding import near
from units import METRE, TENTH_MM, ZERO, plus, times, within

SIZE = 48                 # bytes of a field record
OFFSET_MOST = 10_000_000  # units of 0.1 mm
VELOCITY_MOST = 5_000     # units of 100 micrometres a year
VELOCITY_UNIT = 100       # micrometres a year

LAYOUT = ">9sBBBi3i3i3hH"
assert struct.calcsize(LAYOUT) == SIZE


def to_bytes(card):
    away = [near(g, TENTH_MM) for g in offset(card)]
    slow = [near(v, VELOCITY_UNIT) for v in card.velocity]
    return struct.pack(LAYOUT, card.site, card.frame, card.tide, 0, card.epoch,
                       *card.mark, *away, *slow, 0)


def export(card, buffer):
    """(number, the buffer after): 1, then 2 to 9, then 12 with solid tide on."""
    number = 1 if len(buffer) != SIZE else check(card)
    if number == 0 and card.tide == SOLID:
        number = 12
    return (number, bytes(buffer)) if number else (0, to_bytes(card))


def check_record(site, frame, tide, zeros, epoch, mark, away, slow):
    """The first refusal of 2 to 8, or 0; the order is the card's."""
    if not site_shape(site):
        return 2
    if not known(frame):
        return 3
    if tide >= SOLID or any(zeros):
        return 4
    if not good_epoch(epoch):
        return 5
    if not good_mark(mark):
        return 6
    if not within(slow, VELOCITY_MOST):
        return 7
    if not within(away, OFFSET_MOST):
        return 8
    return 0


def expand(record):
    """(number, card); the card of all zeros when refused."""
    if len(record) != SIZE:
        return 1, ZERO_CARD
    site, frame, tide, zero, epoch, *rest, last = struct.unpack(LAYOUT, record)
    mark, away, slow = (tuple(rest[i:i + 3]) for i in (0, 3, 6))
    number = check_record(site, frame, tide, (zero, last), epoch, mark, away, slow)
    if number:
        return number, ZERO_CARD
    position = plus(times(mark, METRE), times(away, TENTH_MM))
    return 0, Card(site, frame, tide, epoch, mark, times(slow, VELOCITY_UNIT),
                   position, ZERO)
