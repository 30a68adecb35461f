"""Checks ties at one pillar (request L12): what lists of calls do to the vector between two alike cards, and to that between unlike ones.

ties.py            the checks: the worked example, random lists, what each condition is for, and shifts worked out from the position
ties.py --example  the worked example after each of its calls
"""

import sys
from collections import Counter
from decimal import Decimal

import frames
import untied
import wire
from card import FREE, MEAN, POSITION_MOST, SOLID, check, offset
from chance import Chance
from make_vectors import OWN
from pillar import (A_2000, ANTENNA, B_2000, SHIFT, TELESCOPE, accepted, anything, between, drawn, example, grown, same, still, tied, unlike)
from tally import Tally
from units import METRE, ZERO, minus, plus, times

# The Moon overhead, case 12: 320,924,792. The Sun at right angles: -1/2 of near(0.6081 x 240,449,078) = 146,217,084.
TIDE = (320_924_792 - 73_108_542, 0, 0)
# A + 7,305 B of ITRF93, (-3,288,058, -10,046,748, 10,467,597) and (-2,226, 2,065, 3,475), less that of ITRF2000.
TO_93_GAIN, TO_93_FASTER = (-33_715_872, 6_791_277, 64_341_972), (-2_836, 1_965, 5_275)

# What the example's calls do, by hand: what both positions gain (grains), what both velocities gain (micrometres a year), the move (quarter-days).
# Then the vector between: grains, by 7,305 times (100, -200, -50) with each move, and metres.
FIRST = ((2_629_800_000, 1_314_900_000, -1_314_900_000), "1.8 0.9 -0.9")
FIVE = ((2_630_530_500, 1_313_439_000, -1_315_265_250), "1.8005 0.899 -0.90025")
TEN = ((2_631_261_000, 1_311_978_000, -1_315_630_500), "1.801 0.898 -0.9005")
DRIFT = (100, -200, -50)
BY_HAND = ((A_2000, B_2000, 0, FIRST), (SHIFT, ZERO, 0, FIRST), (ZERO, ZERO, 7_305, FIVE), (times(SHIFT, -1), ZERO, 0, FIVE),
           (TIDE, ZERO, 0, FIVE), (TO_93_GAIN, TO_93_FASTER, 0, FIVE), (times(TIDE, -1), ZERO, 0, FIVE), (ZERO, ZERO, 7_305, TEN))


def in_metres(vector):
    return " ".join(str(Decimal(g) / METRE) for g in vector)


def worked_example(t):
    t.same("first", (between(TELESCOPE, ANTENNA), in_metres(FIRST[0])), ((FIRST[0], DRIFT), FIRST[1]))
    for (name, _, before, numbers, after), (gain, faster, d, (vector, metres)) in zip(example(), BY_HAND, strict=True):
        wanted = [(plus(plus(card.position, gain), times(card.velocity, d)), plus(card.velocity, faster)) for card in before]
        t.same(f"{name}: both", (numbers, [(card.position, card.velocity) for card in after]), ((0, 0), wanted))
        t.same(f"{name}: between", (between(*after), in_metres(vector), unlike(*after)), ((vector, DRIFT), metres, []))


# Each sort of list, how many, the calls that fit, and how far from the mark the cards may be, grains.
SORTS = (("accepted in full", 432, accepted, 990 * METRE), ("without moves", 180, still, 990 * METRE), ("the same numbers", 468, same, POSITION_MOST))


def random_lists(t):
    """The law after every beginning of every list, and that there were enough of each sort."""
    rng, seen = Chance(48), Counter()
    for sort, count, fits, most in SORTS:
        for n in range(count):
            first = drawn(rng, n % 12, n // 12 % 3, most)
            start, refused = between(*first), False
            t.true("free parts unlike", all(getattr(first[0], name) != getattr(first[1], name) for name in ("site", "position", "velocity")))
            for entry, (number, _), cards in grown(rng, first, rng.randint(1, 12), fits):
                net = cards[0].epoch - first[0].epoch
                t.same(sort, (between(*cards), unlike(*cards)), (start if fits is still else tied(start, net), []))
                seen[wire.CALL_NAMES[entry[0]], number] += 1
                refused |= number != 0
            t.same("accepted", [*map(check, first + cards)], [0] * 4)
            seen.update([(sort, "refused" if refused else "accepted"), ("net", (net > 0) - (net < 0)), ("first", first[0].frame, first[0].tide),
                         ("last", cards[0].frame)])
    enough(t, seen)


def enough(t, seen):
    for sort, count, fits, _ in SORTS:
        t.true(f"lists {sort}", seen[sort, "refused"] > 400 if fits is same else seen[sort, "accepted"] == count)
    for name, own in OWN.items():
        for number in own:
            t.true(f"{name} with {number} from both", seen[name, number] >= (400 if number == 0 else 3))
    t.true("moves on and back", min(seen["net", sign] for sign in (1, -1)) > 150)
    t.true("all frames under all tides at first", min(seen["first", frame, tide] for frame in range(12) for tide in (FREE, MEAN, SOLID)) > 20)
    t.true("all frames at the end", min(seen["last", frame] for frame in range(12)) > 20)


def unlike_numbers(t):
    """Alike cards get unlike numbers by 7 and 8 alone. The tie breaks where one of them is 0, and stands where the two are 7 and 8."""
    rng, seen = Chance(49), Counter()
    for n in range(300):
        cards = drawn(rng, n % 12, n // 12 % 3, POSITION_MOST)
        for _, numbers, after in grown(rng, cards, 6, anything):
            if numbers[0] != numbers[1]:
                seen[tuple(sorted(numbers))] += 1
                net = sum(new.epoch - old.epoch for new, old in zip(after, cards))  # one of the two, or none, went on
                vector, drift = (now != by_law for now, by_law in zip(between(*after), tied(between(*cards), net)))
                t.true(f"{numbers}", after == cards if 0 not in numbers else vector if 8 in numbers else drift)
            if 0 in numbers and any(numbers):
                break
            cards = after
    t.true(f"7 and 8 alone: {seen}", set(seen) == {(0, 7), (0, 8), (7, 8)} and min(seen.values()) > 20)


def show():
    """Prints the example as two tables."""
    states = [("at first", (TELESCOPE, ANTENNA)), *((f"{n}. {name}", after) for n, (name, *_, after) in enumerate(example(), 1))]

    def numbers(*vectors):
        return [" ".join(f"{v:,}" for v in vector) for vector in vectors]

    rows = [["After", "Byte 10", "Frame", "Epoch", "Telescope less the mark, grains", "Antenna less the mark, grains", "Between, grains"]]
    rows += [[name, str(one.tide), frames.ROWS[one.frame].name, str(one.epoch), *numbers(offset(one), offset(other), between(one, other)[0])]
             for name, (one, other) in states]
    rows += [[], ["After", "Telescope's velocity, micrometres a year", "Antenna's", "Difference", "Between, m"]]
    rows += [[name, *numbers(one.velocity, other.velocity, between(one, other)[1]), in_metres(between(one, other)[0])] for name, (one, other) in states]
    for row in rows:
        print(f"| {' | '.join(row)} |" if row else "")
        if row and row[0] == "After":
            print("|---" * len(row) + "|")


def main(arguments):
    if arguments == ["--example"]:
        return show()
    failed = 0
    for part in (worked_example, random_lists, unlike_numbers, untied.unlike_byte_10, untied.needed, untied.mended, untied.slips):
        tally = Tally(part.__name__.replace("_", " "))
        part(tally)
        failed += tally.close()
    return 1 if failed else 0


if __name__ == "__main__":
    sys.exit(main(sys.argv[1:]))
