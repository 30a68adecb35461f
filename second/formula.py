"""Checks the paper's formula for any list of calls against the calls themselves, over all twelve frames.

Refused calls change nothing, so only accepted ones count in the net move.
"""

import sys

import calls
import frames
import sample
from bodies import MOON, SUN
from card import MEAN, check
from chance import Chance
from metres import quotient_bits
from permanent import shift
from tally import Tally
from units import METRE, ZERO, minus, plus, times


def tides(card):
    """The tides in force: the stored vector, and the shift when mean-tide."""
    return plus(card.vector, shift(card.mark) if card.tide == MEAN else ZERO)


def predicted(first, last, net):
    """Position and velocity at the end, from the first card and the net move."""
    b_first = frames.row_b(first.frame, first.mark)
    b_last = frames.row_b(last.frame, first.mark)
    position = minus(minus(first.position, tides(first)),
                     frames.at_epoch(first.frame, first.mark, first.epoch))
    position = plus(position, times(minus(first.velocity, b_first), net))
    position = plus(position, frames.at_epoch(last.frame, first.mark, first.epoch + net))
    return (plus(position, tides(last)),
            plus(minus(first.velocity, b_first), b_last))


def random_call(rng, card):
    """One call on the card: (number, card, what the epoch gained if accepted)."""
    d = rng.choice((0, rng.randint(-3_000, 3_000)))
    kind = rng.randrange(6)
    if kind == 0:
        number, after = calls.move(card, d)
        return number, after, 0 if number else d
    if kind == 4:
        entries = [(MOON, doubles(sample.moon(rng))), (SUN, doubles(sample.sun(rng)))]
        rng.shuffle(entries)
        return (*calls.solid_on(card, *entries), 0)
    plain = {1: lambda: calls.frame(card, rng.randrange(14)), 2: lambda: calls.mean_on(card),
             3: lambda: calls.mean_off(card), 5: lambda: calls.solid_off(card)}
    return (*plain[kind](), 0)


def doubles(vector):
    return tuple(quotient_bits(v, 1) for v in vector)


def main():
    rng, t = Chance(13), Tally("formula for lists of calls")
    for _ in range(200):
        first = last = sample.card(rng, most=990 * METRE)._replace(frame=rng.randrange(12))
        net = 0
        for _ in range(rng.randrange(1, 30)):
            number, after, gained = random_call(rng, last)
            t.true("a refused call changes nothing", number == 0 or after == last)
            last, net = after, net + gained
        t.same("outcome", (last.position, last.velocity), predicted(first, last, net))
        t.same("epoch, mark, site, check", (last.epoch, last.mark, last.site, check(last)),
               (first.epoch + net, first.mark, first.site, 0))
    return t.close()


if __name__ == "__main__":
    sys.exit(main())
