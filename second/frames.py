"""The frame rows A (grains) and B (micrometres a year) at a mark.

TABLE is Table 4.1 of source 003 as printed. A line has a frame's name, T1 T2 T3 in mm, D in ppb, R1 R2 R3 in mas and the epoch.
The line below it has their rates a year, in the same units. They lead from ITRF2008, whose own row is zero and is not printed.

The numbers were compared with the print twice, all 154 of them. Once by lines: each line here with its line of the print, by eye, and
each line of the print, with one space for every gap, looked for in this text. Once by columns: printed.py has the columns as they were
read from the print by themselves, from top to bottom, and cases.py holds the two readings against each other. They agree.
The signs of the rotations are those of the matrix under equation (4.3) of source 003, and the rates go with (4.5).
Source 004 gives ITRF2005 at 2005.0 as -0.5 -0.9 -4.7 mm with 0.3 mm a year in x: the same row five years earlier.
"""

from typing import NamedTuple

from rounding import near
from units import ZERO, plus, times, minus

TABLE = """\
ITRF2005 -2.0 -0.9 -4.7 0.94 0.00 0.00 0.00 2000.0
rates 0.3 0.0 0.0 0.00 0.00 0.00 0.00
ITRF2000 -1.9 -1.7 -10.5 1.34 0.00 0.00 0.00 2000.0
rates 0.1 0.1 -1.8 0.08 0.00 0.00 0.00
ITRF97 4.8 2.6 -33.2 2.92 0.00 0.00 0.06 2000.0
rates 0.1 -0.5 -3.2 0.09 0.00 0.00 0.02
ITRF96 4.8 2.6 -33.2 2.92 0.00 0.00 0.06 2000.0
rates 0.1 -0.5 -3.2 0.09 0.00 0.00 0.02
ITRF94 4.8 2.6 -33.2 2.92 0.00 0.00 0.06 2000.0
rates 0.1 -0.5 -3.2 0.09 0.00 0.00 0.02
ITRF93 -24.0 2.4 -38.6 3.41 -1.71 -1.48 -0.30 2000.0
rates -2.8 -0.1 -2.4 0.09 -0.11 -0.19 0.07
ITRF92 12.8 4.6 -41.2 2.21 0.00 0.00 0.06 2000.0
rates 0.1 -0.5 -3.2 0.09 0.00 0.00 0.02
ITRF91 24.8 18.6 -47.2 3.61 0.00 0.00 0.06 2000.0
rates 0.1 -0.5 -3.2 0.09 0.00 0.00 0.02
ITRF90 22.8 14.6 -63.2 3.91 0.00 0.00 0.06 2000.0
rates 0.1 -0.5 -3.2 0.09 0.00 0.00 0.02
ITRF89 27.8 38.6 -101.2 7.31 0.00 0.00 0.06 2000.0
rates 0.1 -0.5 -3.2 0.09 0.00 0.00 0.02
ITRF88 22.8 2.6 -125.2 10.41 0.10 0.00 0.06 2000.0
rates 0.1 -0.5 -3.2 0.09 0.00 0.00 0.02
"""

DECIMALS = (1, 1, 1, 2, 2, 2, 2)  # of a printed T, D and R
UNIT = 4_848_136_811              # 0.01 mas in radian, over 10^20


class Line(NamedTuple):
    """A printed line in whole numbers; a line of rates a year."""
    t: tuple  # 0.1 mm
    d: int    # 0.01 ppb
    r: tuple  # 0.01 mas


class Row(NamedTuple):
    name: str
    at: Line     # at 2000.0
    rates: Line


def in_units(text, decimals):
    """A printed number with so many decimals, in units of the last one."""
    before, after = text.split(".")
    assert len(after) == decimals, text
    return int(before + after)


def line(texts):
    assert len(texts) == len(DECIMALS)
    t1, t2, t3, d, r1, r2, r3 = map(in_units, texts, DECIMALS)
    return Line((t1, t2, t3), d, (r1, r2, r3))


def rows(table):
    lines = [text.split() for text in table.splitlines()]
    for (name, *numbers, epoch), (word, *rates) in zip(lines[::2], lines[1::2]):
        assert (epoch, word) == ("2000.0", "rates")
        yield Row(name, line(numbers), line(rates))


NOTHING = Line(ZERO, 0, ZERO)
# By its code: ITRF2008, then the table's, newest first.
ROWS = dict(enumerate((Row("ITRF2008", NOTHING, NOTHING), *rows(TABLE))))


def known(frame):
    """Refusal 3 when this is false."""
    return frame in ROWS


def turned(r, mark):
    """s: how far the rotations move a mark, in 0.01 mas times metres."""
    (r1, r2, r3), (x, y, z) = r, mark
    return r2 * z - r3 * y, r3 * x - r1 * z, r1 * y - r2 * x


def moved(found, mark):
    """n: how far D and the rotations of a line move a mark, in metres over 10^20."""
    return tuple(10**9 * found.d * m + UNIT * s for m, s in zip(mark, turned(found.r, mark)))


def row_a(frame, mark):
    """A = 146,100 T + near(1,461 n/10^14): n is one fraction, rounded once."""
    at = ROWS[frame].at
    return tuple(146_100 * t + near(1_461 * n, 10**14) for t, n in zip(at.t, moved(at, mark)))


def row_b(frame, mark):
    """B = 100 T + near(n/10^14), both of the rates."""
    rates = ROWS[frame].rates
    return tuple(100 * t + near(n, 10**14) for t, n in zip(rates.t, moved(rates, mark)))


def at_epoch(frame, mark, epoch):
    """A + B x epoch, grains."""
    return plus(row_a(frame, mark), times(row_b(frame, mark), epoch))


def position_gain(old, new, mark, epoch):
    return minus(at_epoch(new, mark, epoch), at_epoch(old, mark, epoch))


def velocity_gain(old, new, mark):
    return minus(row_b(new, mark), row_b(old, mark))
