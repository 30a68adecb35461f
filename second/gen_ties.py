"""Vectors of ties at one pillar: the same list of calls on the first of two alike cards, and then on the second.

The worked example comes first. The assertions say what is special about the lists.
"""

import gen_calls
import wire
from card import POSITION_MOST, VELOCITY_MOST, check, offset
from pillar import ANTENNA, TELESCOPE, accepted, anything, between, drawn, example, grown, same, still, tied, unlike
from units import METRE

CALM = 990 * METRE  # grains from the mark: seldom refused with 8


def holds(cards, last):
    """The law, of two cards at first and at last."""
    return between(*last) == tied(between(*cards), last[0].epoch - cards[0].epoch)


def found(rng, n, most, count, fits, special, ready=lambda card: True, law=True):
    """Two alike cards that are ready and so many calls, drawn until special(the code and the numbers of each call); without law, until it is broken."""
    while True:
        cards = drawn(rng, n % 12, (n + n // 12) % 3, most)
        if all(map(ready, cards)):
            steps = list(grown(rng, cards, count, fits))
            if special({(entry[0], *numbers) for entry, numbers, _ in steps}):
                held = holds(cards, steps[-1][2])
                assert held or not law
                if held == law:  # a later call may mend what one broke
                    return cards, steps


def in_full(rng):
    """All six calls, accepted by both, from each frame twice and under each tide."""
    for n in range(24):
        yield found(rng, n, CALM, 12, accepted, lambda calls: {code for code, *_ in calls} == set(wire.CALL_NAMES))


def without_moves(rng):
    """Frame changes and tides, accepted by both."""
    for n in range(10):
        cards, steps = found(rng, n, CALM, 6, still, lambda calls: len(calls) > 2)
        assert between(*steps[-1][2]) == between(*cards)
        yield cards, steps


def refused_by_both(rng):
    """Each number at least once, the same from both cards each time."""
    for n, number in enumerate((13, 5, 3, 12, 17, 10, 11, 7, 7, 8, 8, 8)):
        yield found(rng, n, POSITION_MOST, 7, same, lambda calls: number in {given for _, given, _ in calls} and len(calls) > 4)


def at_limits(rng):
    """Both cards at a limit of position and at one of velocity, and three calls or more that both accept."""
    def ready(card):
        return max(map(abs, offset(card))) == POSITION_MOST and max(map(abs, card.velocity)) == VELOCITY_MOST

    for n in range(6):
        yield found(rng, n, POSITION_MOST, 6, accepted, lambda calls: len(calls) > 2, ready)


def refused_by_one(rng):
    """One card, the first or the second, refuses with 8 or 7 what the other accepts, and the law does not hold at the end."""
    for n, numbers in enumerate(((8, 0), (0, 8), (7, 0), (0, 7)) * 2):
        yield found(rng, n, POSITION_MOST, 5, anything, lambda calls: numbers in {given[1:] for given in calls}, law=False)


def payloads(rng):
    worked = [(entry, numbers, after) for _, entry, _, numbers, after in example()]
    pairs = [((TELESCOPE, ANTENNA), worked)]
    for sort in (in_full, without_moves, refused_by_both, at_limits, refused_by_one):
        pairs += sort(rng)
    for cards, steps in pairs:
        assert not unlike(*cards) and [*map(check, cards)] == [0, 0]
        for card in cards:
            yield wire.CALLS, gen_calls.payload(card, *(entry for entry, *_ in steps))
