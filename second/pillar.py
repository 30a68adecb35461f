"""Two cards on one pillar (request L12): alike cards, what is between them, lists of calls made on both, and the worked example.

Alike are two cards with the same mark, frame, epoch, byte 10 and stored tide vector. Their sites, positions and velocities are free.
"""

import gen_bodies
import gen_calls
import replay
import sample
import wire
from card import FREE, VELOCITY_MOST, Card
from chance import Chance
from gen_unseen import AXIS, pair
from units import METRE, TENTH_MM, ZERO, minus, plus, times

FRAMES = (*range(12), 12)                                   # those that a call asks for; 12 is unknown
REFUSED = tuple(gen_bodies.mixed_pairs(Chance(48)))[:12]    # pairs of bodies, with 10, 11 or 17


def unlike(first, second):
    """What keeps two cards from being alike."""
    return [name for name in ("mark", "frame", "epoch", "tide", "vector") if getattr(first, name) != getattr(second, name)]


def between(first, second):
    """The first less the second: of the positions, grains, and of the velocities, micrometres a year."""
    return minus(first.position, second.position), minus(first.velocity, second.velocity)


def tied(before, net):
    """What is between them by the law, after a net move of so many quarter-days."""
    vector, drift = before
    return plus(vector, times(drift, net)), drift


def drawn(rng, frame, tide, most):
    """Two alike cards; most bounds their distances from the mark, grains."""
    first = sample.card(rng, tide, most)._replace(frame=frame)
    return first, first._replace(site=sample.site(rng), velocity=sample.within(rng, VELOCITY_MOST),
                                 position=plus(times(first.mark, METRE), sample.within(rng, most)))


def both(cards, entry):
    """One call on each: the numbers, and the cards after it."""
    return tuple(zip(*(replay.one_call(card, entry) for card in cards)))


def grown(rng, cards, count, fits):
    """So many calls on both, each drawn until fits(its code, the numbers): the entry, the numbers and the cards after it."""
    while count:
        entry = gen_calls.random_entry(rng, REFUSED, FRAMES)
        numbers, after = both(cards, entry)
        if fits(entry[0], *numbers):
            cards, count = after, count - 1
            yield entry, numbers, cards


def accepted(code, first, second):
    return first == second == 0


def still(code, first, second):
    """Accepted, and no move."""
    return code != wire.MOVE and first == second == 0


def same(code, first, second):
    return first == second


def anything(code, first, second):
    return True


def on_pillar(site, away, velocity):
    """A card of the example, on the pillar of case 2; away from the mark in 0.1 mm."""
    return Card(site, 0, FREE, 0, AXIS, velocity, plus(times(AXIS, METRE), times(away, TENTH_MM)), ZERO)


TELESCOPE = on_pillar(b"90001S001", (30_000, 2_500, -1_000), (20_000, 15_000, 3_000))
ANTENNA = on_pillar(b"90001S002", (12_000, -6_500, 8_000), (19_900, 15_200, 3_050))

TO_2000, TO_93 = (wire.pack_call(wire.FRAME, code) for code in (2, 6))
MEAN_ON, MEAN_OFF, SOLID_OFF = map(wire.pack_call, (wire.MEAN_ON, wire.MEAN_OFF, wire.SOLID_OFF))
FIVE_YEARS = wire.pack_call(wire.MOVE, 7_305)
SOLID_ON = wire.pack_call(wire.SOLID_ON, *pair((384_400_000, 0, 0), (0, 149_597_870, 0)))
EXAMPLE = (("to ITRF2000", TO_2000), ("mean on", MEAN_ON), ("five years on", FIVE_YEARS), ("mean off", MEAN_OFF),
           ("solid on", SOLID_ON), ("to ITRF93", TO_93), ("solid off", SOLID_OFF), ("five years on", FIVE_YEARS))

# Numbers of this pillar in the paper, grains and micrometres a year.
A_2000, B_2000 = (9_710_834, -2_483_700, -15_340_500), (610, 100, -1_800)  # case 5
SHIFT = (88_134_825, 0, 0)                                                 # case 2


def example():
    """After each call of the example: its name, its entry, the cards before it, the numbers, and the cards after it."""
    cards = TELESCOPE, ANTENNA
    for name, entry in EXAMPLE:
        numbers, after = both(cards, entry)
        yield name, entry, cards, numbers, after
        cards = after
