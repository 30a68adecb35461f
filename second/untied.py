"""What the conditions of a tie are for: worked pairs of cards that are not alike or get unlike numbers, and shifts worked out from the position.

ties.py runs this. The cards are those of the worked example, each time with something changed.
"""

from fractions import Fraction

import frames
import sample
import wire
from card import FREE, MEAN, POSITION_MOST, SOLID, TIDE_MOST, check
from chance import Chance
from pillar import (A_2000, ANTENNA, B_2000, EXAMPLE, MEAN_OFF, MEAN_ON, SHIFT, SOLID_OFF, TELESCOPE, TO_2000, accepted, between, both, drawn,
                    example, grown, tied, unlike)
from rounding import near
from units import METRE, ZERO, minus, plus, times


def unlike_byte_10(t):
    """Where byte 10 is unlike no tide call is accepted by both, and so the tie stands through every list that both accept."""
    for n, (first, second, taken) in enumerate(((FREE, MEAN, {"frame", "move"}), (FREE, SOLID, {"frame"}), (MEAN, SOLID, {"frame"}))):
        cards = TELESCOPE._replace(tide=first), ANTENNA._replace(tide=second)
        t.same("accepted by both", {wire.CALL_NAMES[entry[0]] for _, entry in EXAMPLE if both(cards, entry)[0] == (0, 0)}, taken)
        rng = Chance(50 + n)
        for frame in range(12):
            one, other = drawn(rng, frame, FREE, 990 * METRE)
            cards = one._replace(tide=first), other._replace(tide=second, vector=sample.within(rng, TIDE_MOST) if second == SOLID else ZERO)
            for *_, after in grown(rng, cards, 6, accepted):
                t.same("unlike byte 10", between(*after), tied(between(*cards), after[0].epoch - cards[0].epoch))


FAR = plus(times(TELESCOPE.mark, METRE), (POSITION_MOST, 0, 0))

# What is unlike, what the telescope and the antenna have otherwise than in the example, a call, its numbers, and by how many grains the vector between
# changes. With the marks a metre apart in z it is near(1,461 x 134/100,000) = 2; the epochs are a year apart, and 0.1 mm is stored for the telescope.
NEEDED = (
    (["epoch"], {}, {"epoch": 1_461}, TO_2000, (0, 0), times(B_2000, -1_461)),
    (["frame"], {}, {"frame": 2}, TO_2000, (0, 0), A_2000),
    (["mark"], {}, {"mark": (6_378_137, 0, 1)}, TO_2000, (0, 0), (0, 0, -2)),
    (["vector"], {"tide": SOLID, "vector": (146_100, 0, 0)}, {"tide": SOLID}, SOLID_OFF, (0, 0), (-146_100, 0, 0)),
    (["tide"], {}, {"tide": MEAN}, MEAN_ON, (0, 12), SHIFT),
    ([], {"position": FAR}, {}, MEAN_ON, (8, 0), times(SHIFT, -1)),
    ([], {"velocity": (500_000, 15_000, 3_000)}, {}, TO_2000, (7, 0), times(A_2000, -1)),
)


def needed(t):
    """A worked pair for each condition."""
    for what, first, second, entry, numbers, change in NEEDED:
        cards = TELESCOPE._replace(**first), ANTENNA._replace(**second)
        given, after = both(cards, entry)
        t.same(f"{what} {numbers}", (unlike(*cards), [*map(check, cards)], given), (what, [0, 0], numbers))
        t.same(f"{what} {numbers}: grains", minus(between(*after)[0], between(*cards)[0]), change)


def mended(t):
    """A later call may mend a broken tie: the card that refused mean on with 8 refuses mean off with 12."""
    cards = TELESCOPE._replace(position=FAR), ANTENNA
    t.same("mean on and off", both(both(cards, MEAN_ON)[1], MEAN_OFF), ((12, 0), cards))


def from_position(cards, entry):
    """The first slip that the paper names: the call on cards whose marks are their own positions, in whole metres."""
    places = [tuple(near(p, METRE) for p in card.position) for card in cards]
    numbers, after = both([card._replace(mark=place) for card, place in zip(cards, places)], entry)
    return numbers, [card._replace(mark=old.mark) for card, old in zip(after, cards)]


# By how many grains that changes the vector between, for each call of the example by itself. The first: 1,461 x 134/100,000 times (3, 0, 0) - (1, -1, 1),
# rounded. Then 88,134,825 and 14,646,525 (which is A + 2 T) times 1 m/6,378,137 m. The others are as found.
SLIPPED = ((4, 2, -2), (0, 14, -2), ZERO, (0, -14, 2), (0, 27, -18), (18, -13, 6), ZERO, ZERO)
SLIPPED_AT_END = (22, -11, 4)  # when all eight are made so
# The same of the two frame changes with D and the rotations times the position itself; the first is (3.5, 1.8, -1.8) but for rounding.
SLIPPED_EXACT = ((4, 1, -2), (17, -13, 6))


def slips(t):
    cards, exact = (TELESCOPE, ANTENNA), iter(SLIPPED_EXACT)
    for (name, entry, before, _, after), change in zip(example(), SLIPPED, strict=True):
        numbers, slipped = from_position(before, entry)
        t.same(f"{name} from the position", (numbers, minus(between(*slipped)[0], between(*after)[0])), ((0, 0), change))
        cards = from_position(cards, entry)[1]
        if entry[0] == wire.FRAME:
            gains = [frames.position_gain(card.frame, entry[1], [Fraction(p, METRE) for p in card.position], card.epoch) for card in before]
            t.same(f"{name} by exact positions", minus(*gains), next(exact))
    t.same("all calls from the position", minus(between(*cards)[0], between(*after)[0]), SLIPPED_AT_END)
