"""Table 4.1 of source 003 read a second time, by columns, and the rows worked out from it by the matrix of equation (4.3); cases.py runs it.

The columns were read from the print from top to bottom, first the lines of the frames and then the lines of their rates. They stay
texts and become fractions of a metre and of a radian; frames.py makes whole numbers of its lines and adds them up in another order.
"""

from fractions import Fraction

import frames
import sample
from chance import Chance
from units import METRE

FRAMES = "ITRF2005 ITRF2000 ITRF97 ITRF96 ITRF94 ITRF93 ITRF92 ITRF91 ITRF90 ITRF89 ITRF88".split()

# T1 T2 T3 in mm, D in ppb, R1 R2 R3 in mas; each as printed at 2000.0, then its rates a year.
COLUMNS = (
    ("-2.0 -1.9 4.8 4.8 4.8 -24.0 12.8 24.8 22.8 27.8 22.8", "0.3 0.1 0.1 0.1 0.1 -2.8 0.1 0.1 0.1 0.1 0.1"),
    ("-0.9 -1.7 2.6 2.6 2.6 2.4 4.6 18.6 14.6 38.6 2.6", "0.0 0.1 -0.5 -0.5 -0.5 -0.1 -0.5 -0.5 -0.5 -0.5 -0.5"),
    ("-4.7 -10.5 -33.2 -33.2 -33.2 -38.6 -41.2 -47.2 -63.2 -101.2 -125.2", "0.0 -1.8 -3.2 -3.2 -3.2 -2.4 -3.2 -3.2 -3.2 -3.2 -3.2"),
    ("0.94 1.34 2.92 2.92 2.92 3.41 2.21 3.61 3.91 7.31 10.41", "0.00 0.08 0.09 0.09 0.09 0.09 0.09 0.09 0.09 0.09 0.09"),
    ("0.00 0.00 0.00 0.00 0.00 -1.71 0.00 0.00 0.00 0.00 0.10", "0.00 0.00 0.00 0.00 0.00 -0.11 0.00 0.00 0.00 0.00 0.00"),
    ("0.00 0.00 0.00 0.00 0.00 -1.48 0.00 0.00 0.00 0.00 0.00", "0.00 0.00 0.00 0.00 0.00 -0.19 0.00 0.00 0.00 0.00 0.00"),
    ("0.00 0.00 0.06 0.06 0.06 -0.30 0.06 0.06 0.06 0.06 0.06", "0.00 0.00 0.02 0.02 0.02 0.07 0.02 0.02 0.02 0.02 0.02"),
)
MAS = Fraction(4_848_136_811, 10**18)  # radian: a hundred of the paper's units of 0.01 mas


def texts(frame, rates):
    """The seven numbers of a frame, or of its rates, as printed."""
    return [column[rates].split()[FRAMES.index(frame)] for column in COLUMNS]


def displaced(numbers, mark):
    """T + D X + R X of (4.3), metres: T apart from what is rounded."""
    t1, t2, t3, d, r1, r2, r3 = map(Fraction, numbers)
    matrix = ((d / 10**9, -r3 * MAS, r2 * MAS), (r3 * MAS, d / 10**9, -r1 * MAS), (-r2 * MAS, r1 * MAS, d / 10**9))
    return [t / 1_000 for t in (t1, t2, t3)], [sum(c * m for c, m in zip(line, mark)) for line in matrix]


def rounded(numbers, mark, unit):
    """The same in units of so many to the metre; the library's own rounding takes halves to even too."""
    return tuple(t * unit + round(moved * unit) for t, moved in zip(*displaced(numbers, mark)))


def check(t):
    lines = frames.TABLE.splitlines()
    t.same("names and codes", [(code, row.name) for code, row in frames.ROWS.items()], list(enumerate(["ITRF2008", *FRAMES])))
    for n, name in enumerate(FRAMES):
        for rates, line in enumerate((f"{name} %s 2000.0", "rates %s")):
            t.same(f"{name}, rates {rates}: the line as printed", lines[2 * n + rates], line % " ".join(texts(name, rates)))
    t.same("no other line", len(lines), 2 * len(FRAMES))
    rng = Chance(41)
    for code, name in enumerate(FRAMES, 1):
        for mark in (*sample.on_axes(6_378_137), *(sample.mark(rng) for _ in range(40))):
            t.same(f"A of {name} at {mark}", frames.row_a(code, mark), rounded(texts(name, 0), mark, METRE))
            t.same(f"B of {name} at {mark}", frames.row_b(code, mark), rounded(texts(name, 1), mark, 10**6))
