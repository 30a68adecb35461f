"""Checks the numbered cases 1 to 13 of the paper against this program, then the older frames.

Of the frames: the table as printed (printed.py), the two cases of the request, rows without rotation, unknown codes, and the two laws of
frame changes, through a third frame and back.
"""

import sys
from fractions import Fraction

import bodies
import calls
import field
import frames
import listing
import printed
import sample
from card import EPOCH_MOST, SIZE, Card, check, read, to_bytes
from chance import Chance
from permanent import shift
from rounding import near, whole
from solid import part
from tally import Tally
from units import METRE, ZERO, plus, times

EQUATOR = (6_378_137, 0, 0)  # the mark of case 2
SITE = b"90001M001"


def at_mark(mark, **other):
    card = Card(SITE, 0, 0, 0, mark, ZERO, times(mark, METRE), ZERO)
    return card._replace(**other)


def case_1(t):
    for a, wanted in ((1, 0), (-1, 0), (-3, -2)):
        t.same(f"near({a}/2)", near(a, 2), wanted)
    for b in range(1, 13):  # the library's own rounding takes halves to even too
        for a in range(-50, 51):
            t.same(f"near({a}/{b})", near(a, b), round(Fraction(a, b)))


def case_2(t):
    t.same("shift", shift(EQUATOR), (88_134_825, 0, 0))


def case_3(t):
    t.same("shift", shift((0, 0, 6_356_752)), (0, 0, -176_050_500))


def case_4(t):
    t.same("A", frames.row_a(1, EQUATOR), (5_837_351, -1_314_900, -6_866_700))
    t.same("B", frames.row_b(1, EQUATOR), (300, 0, 0))


def case_5(t):
    t.same("A", frames.row_a(2, EQUATOR), (9_710_834, -2_483_700, -15_340_500))
    t.same("B", frames.row_b(2, EQUATOR), (610, 100, -1_800))


def case_6(t):
    t.same("x", frames.at_epoch(1, EQUATOR, 7_305)[0], 8_028_851)
    number, card = calls.frame(at_mark(EQUATOR, epoch=7_305), 1)
    t.same("call", (number, card.position[0] - EQUATOR[0] * METRE), (0, 8_028_851))


def case_7(t):
    number, card = calls.move(at_mark(EQUATOR, velocity=(20_000, 0, 0)), 1_461)
    t.same("moved", (number, card.position[0] - EQUATOR[0] * METRE), (0, 29_220_000))


def case_8(t):
    card = at_mark(EQUATOR, epoch=146_100)
    t.same("moved", calls.move(card, 1), (5, card))


def case_9(t):
    for mark, wanted in (((6_300_000, 0, 0), 0), ((6_400_000, 1, 0), 0),
                         ((6_299_999, 0, 0), 6), ((6_400_001, 0, 0), 6)):
        t.same(f"{mark}", check(at_mark(mark)), wanted)


def case_10(t):
    t.same("2.5", whole(0x4004_0000_0000_0000), 2)
    t.same("-0.5", whole(0xBFE0_0000_0000_0000), 0)


def case_11(t):
    for grains, wanted in ((73_050, 0), (73_049, 0), (-73_050, 0)):
        card = at_mark(EQUATOR, position=(EQUATOR[0] * METRE + grains, 0, 0))
        number, record = field.export(card, bytes(field.SIZE))
        got = int.from_bytes(record[28:32], "big", signed=True)
        t.same(f"{grains}", (number, got), (0, wanted))


def case_12(t):
    for label, degree, wanted in ((bodies.MOON, 2, 523_578_453), (bodies.SUN, 2, 240_449_078), (bodies.MOON, 3, 8_687_448)):
        t.same("K0", bodies.rounded_k0(label, degree), wanted)
        t.true("K0 comes from no half", (2 * bodies.exact_k0(label, degree)).denominator > 1)
    t.same("K0 in use", (bodies.K0[bodies.MOON], bodies.K0[bodies.SUN], bodies.K0_3), (523_578_453, 240_449_078, 8_687_448))
    # On the equator P is -1/2, so h is 0.6078 + 0.0003 = 0.6081.
    love = Fraction("0.6078") - Fraction("0.0006") * Fraction(-1, 2)
    t.same("h", love, Fraction("0.6081"))
    wanted = round(love * bodies.K0[bodies.MOON]) + round(Fraction("0.292") * bodies.K0_3)
    t.same("both degrees overhead", wanted, 320_924_792)
    t.same("part", part(EQUATOR, bodies.MOON, (384_400_000, 0, 0)), (wanted, 0, 0))


def case_13(t):
    record = to_bytes(at_mark(EQUATOR))
    line = "90001M001 0 0 9318458157000000 0 0\n"
    t.same("line", listing.lines(record), line)
    t.same("short last part", listing.lines(record + bytes(SIZE - 1)), line + "refused 1\n")
    t.same("no input", listing.lines(b""), "")
    t.same("read back", read(record), (0, at_mark(EQUATOR)))


def table_as_printed(t):
    printed.check(t)


def older_frames(t):
    for frame, a, b in ((6, (-3_288_058, -10_046_748, 10_467_597), (-2_226, 2_065, 3_475)),
                        (11, (130_315_949, 6_509_230, -182_917_200), (674, 118, -3_200))):
        t.same(f"A of {frame}", frames.row_a(frame, EQUATOR), a)
        t.same(f"B of {frame}", frames.row_b(frame, EQUATOR), b)


def rows_without_rotation(t):
    """A = 146,100 T + near(1,461 D m/100,000) and B = 100 T + near(D m/100,000), as before the rotations."""
    plain = [code for code, row in frames.ROWS.items() if row.at.r == row.rates.r == ZERO]
    t.same("their codes", plain, [0, 1, 2])
    rng = Chance(42)
    for mark in (*sample.on_axes(6_400_000), *(sample.mark(rng) for _ in range(200))):
        for code in plain:
            _, at, rates = frames.ROWS[code]
            a = plus(times(at.t, 146_100), [near(1_461 * at.d * m, 100_000) for m in mark])
            b = plus(times(rates.t, 100), [near(rates.d * m, 100_000) for m in mark])
            t.same(f"{code} at {mark}", (frames.row_a(code, mark), frames.row_b(code, mark)), (a, b))


def unknown_frames(t):
    """0 to 11 are known, and 12 and above refused with 3: on a card, in a record of both kinds, and as what a call asks for."""
    for code in range(256):
        number, card = 0 if code <= 11 else 3, at_mark(EQUATOR, frame=code)
        t.same(f"card {code}", (check(card), read(to_bytes(card))[0], field.expand(field.to_bytes(card))[0]), (number,) * 3)
        asked, after = calls.frame(at_mark(EQUATOR), code)
        t.same(f"asked for {code}", (asked, after.frame), (number, 0 if number else code))


def calm_card(rng):
    """A card in any frame at any epoch that no frame change is refused for."""
    mark = sample.mark(rng)
    return at_mark(mark, frame=rng.randrange(12), epoch=rng.randint(-EPOCH_MOST, EPOCH_MOST), velocity=sample.within(rng, 400_000),
                   position=plus(times(mark, METRE), sample.within(rng, 900 * METRE)))


def frame_laws(t):
    """Through a third frame is the same as direct, and back is exact."""
    rng = Chance(43)
    for _ in range(60):
        card = calm_card(rng)
        for first in range(12):
            number, there = calls.frame(card, first)
            t.same(f"back from {first}", (number, calls.frame(there, card.frame)), (0, (0, card)))
            for second in range(12):
                t.same(f"{card.frame} through {first} to {second}", calls.frame(there, second), calls.frame(card, second))
                t.same("accepted", calls.frame(there, second)[0], 0)


def main():
    cases = [case_1, case_2, case_3, case_4, case_5, case_6, case_7, case_8,
             case_9, case_10, case_11, case_12, case_13, table_as_printed, older_frames,
             rows_without_rotation, unknown_frames, frame_laws]
    failed = 0
    for case in cases:
        tally = Tally(case.__name__.replace("_", " "))
        case(tally)
        failed += tally.close()
    return 1 if failed else 0


if __name__ == "__main__":
    sys.exit(main())
