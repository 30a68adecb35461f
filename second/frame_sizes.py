"""How great A and B get, and what the unit of a rotation costs; bounds.py runs it.

What near rounds of A or B goes with n, a sum of the mark's components, each times a whole number of its row. An accepted mark is under
6,400,001 m long, and each of its components within 6,400,000 m. So n is within 6,400,000 m times the sum of the sizes of the three whole
numbers, and its square within the sum of their squares times that of the mark. The sign that makes it greatest is that of T.
"""

from fractions import Fraction
from itertools import product

import frames
from angles import PI
from mark import L_MOST, good_mark
from rounding import near, root
from units import METRE, TENTH_MM

SQUARE_MOST = (L_MOST + 1)**2 - 1  # of an accepted mark's length
BOX = {"A": 284_788_066, "B": 12_284}  # grains, micrometres a year: with each component within 6,400,000 m, by itself
AROUND = range(-40, 41)            # metres about the best direction
COST = Fraction(3, 1_000)          # grains: what another unit moves A by, at most


def lines():
    """What it is of, the frame, the line, what T is multiplied with, and what n/10^14 is."""
    for frame, row in frames.ROWS.items():
        yield "A", frame, row.at, TENTH_MM, 1_461
        yield "B", frame, row.rates, 100, 1


def weights(line, i):
    """The whole numbers that a mark's components are multiplied with in component i of n."""
    return tuple(frames.moved(line, axis)[i] for axis in ((1, 0, 0), (0, 1, 0), (0, 0, 1)))


def squares(found):
    return sum(v * v for v in found)


def by_box(line, i):
    return L_MOST * sum(map(abs, weights(line, i)))


def by_length(line, i):
    return min(by_box(line, i), root(SQUARE_MOST * squares(weights(line, i))))


def far_marks(found):
    """Accepted marks about the direction of these weights, as long as they may be."""
    most = max(range(3), key=lambda i: abs(found[i]))
    others = [i for i in range(3) if i != most]
    middle = [near(found[i] * root(SQUARE_MOST << 80), root(squares(found) << 80)) for i in others]
    for offs in product(AROUND, AROUND):
        mark = [0, 0, 0]
        for i, at, off in zip(others, middle, offs):
            mark[i] = at + off
        mark[most] = root(SQUARE_MOST - squares(mark)) * (1 if found[most] > 0 else -1)
        yield tuple(mark)


def greatest(t, name):
    """The frame, component and size of the greatest, by reasoning, and a mark that has it."""
    found = [(unit * abs(line.t[i]) + near(part * by_length(line, i), 10**14), frame, i, line)
             for kind, frame, line, unit, part in lines() if kind == name for i in range(3)]
    size, frame, i, line = max(found, key=lambda row: row[0])
    sign = -1 if line.t[i] < 0 else 1
    mark = max(far_marks([sign * w for w in weights(line, i)]), key=lambda m: sign * frames.moved(line, m)[i])
    row = {"A": frames.row_a, "B": frames.row_b}[name](frame, mark)
    t.true(f"the mark of the greatest {name} is accepted", good_mark(mark))
    t.same(f"the greatest {name} is reached", row[i], sign * size)
    return frames.ROWS[frame].name, "xyz"[i], size, mark


def sizes(t):
    for name, limit in BOX.items():
        box = max(unit * abs(line.t[i]) + near(part * by_box(line, i), 10**14)
                  for kind, _, line, unit, part in lines() if kind == name for i in range(3))
        t.same(f"the greatest {name} with each component by itself", box, limit)
        frame, axis, size, mark = greatest(t, name)
        t.true(f"the greatest {name} is less than that", size < box)
        print(f"greatest {name}: {size}, {axis} of {frame} at {mark}; with each component by itself {box}")


def counted(value, decimals):
    """A fraction in units of so many decimals."""
    value *= 10**decimals
    return near(value.numerator, value.denominator)


def unit_cost(t):
    """0.01 mas as a part of a half turn, against the unit; PI is good to 29 decimals."""
    real = PI / (180 * 3_600 * 100_000)
    t.same("the unit is 0.01 mas to its last digit", counted(real, 20), frames.UNIT)
    off = real - Fraction(frames.UNIT, 10**20)
    turns = {name: max(root(SQUARE_MOST * squares(line.r[k] for k in range(3) if k != i))
                       for kind, _, line, *_ in lines() if kind == name for i in range(3)) for name in BOX}
    grains, rate = turns["A"] * off * METRE, turns["B"] * off * 10**6
    t.true("the unit's cost", 0 < grains < COST and 0 < rate < COST / 10**4)
    print(f"0.01 mas is {counted(off, 25)} x 10^-25 radian more than the unit: at most {counted(grains, 7)} x 10^-7 grains of A"
          f" and {counted(rate, 10)} x 10^-10 micrometres a year of B")


def check(t):
    sizes(t)
    unit_cost(t)
