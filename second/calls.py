"""The calls on a card. Each gives (number, card); refused, the card handed in.

Each call checks its card 2 to 9 first. Its own checks follow in the order of
the paper; the last, 8, is made on the position that would come out. A move with
solid tide on is refused whatever d is, 0 too.
"""

import frames
from card import FREE, MEAN, SOLID, VELOCITY_MOST, check, good_epoch, good_position
from permanent import shift
from solid import pair_tide
from units import ZERO, minus, plus, times, within


def settled(old, new):
    """The last check: the new card, or the old one with refusal 8."""
    return (0, new) if good_position(new) else (8, old)


def move(card, d):
    number = check(card)
    if number:
        return number, card
    if card.tide == SOLID:
        return 13, card
    if not good_epoch(card.epoch + d):
        return 5, card
    return settled(card, card._replace(
        epoch=card.epoch + d,
        position=plus(card.position, times(card.velocity, d))))


def frame(card, to):
    number = check(card)
    if number:
        return number, card
    if not frames.known(to):
        return 3, card
    velocity = plus(card.velocity, frames.velocity_gain(card.frame, to, card.mark))
    if not within(velocity, VELOCITY_MOST):
        return 7, card
    gain = frames.position_gain(card.frame, to, card.mark, card.epoch)
    return settled(card, card._replace(
        frame=to, velocity=velocity, position=plus(card.position, gain)))


def mean_on(card):
    number = check(card) or (12 if card.tide != FREE else 0)
    if number:
        return number, card
    return settled(card, card._replace(
        tide=MEAN, position=plus(card.position, shift(card.mark))))


def mean_off(card):
    number = check(card) or (12 if card.tide != MEAN else 0)
    if number:
        return number, card
    return settled(card, card._replace(
        tide=FREE, position=minus(card.position, shift(card.mark))))


def solid_on(card, first, second):
    number = check(card) or (12 if card.tide != FREE else 0)
    if number:
        return number, card
    number, tide = pair_tide(card.mark, first, second)
    if number:
        return number, card
    return settled(card, card._replace(
        tide=SOLID, position=plus(card.position, tide), vector=tide))


def solid_off(card):
    number = check(card) or (12 if card.tide != SOLID else 0)
    if number:
        return number, card
    return settled(card, card._replace(
        tide=FREE, position=minus(card.position, card.vector), vector=ZERO))
