"""Checks the steps with no half, or with few, over every accepted distance and every uz from 0 to E: the reasons given in alterations.py.

first x second / E is a half when the two have 29 factors of two together. So one of them has many, and few numbers need to be tried.

H and S of degree two are halves where (6,078 E - 6 P) K and (847 E + 2 P) K are odd multiples of 5,000 E, which has 33 factors of two. Where P has
fewer than 29, the first factor has one more than P. So P and K need 32 together, and K has no more than is found here.

A and B of a frame with rotation are halves only where s, by which the rotations move the mark, is a multiple of 10^9 (frame_places.py).
"""

import math
import sys
from bisect import bisect_left

import frames
from bodies import K0, K0_3, MOON, R0, RANGE, SUN
from frame_sizes import SQUARE_MOST, squares
from halves import kind_of, to_odd
from permanent import NORTH, SLOPE
from rounding import E, near, root
from tally import Tally


def where(f, values, wanted):
    """The values for which f, which grows with them, is wanted."""
    for value in values[bisect_left(values, wanted, key=f):]:
        if f(value) != wanted:
            return
        yield value


def multiples(f, values, many):
    """The values for which f is a multiple of many."""
    for wanted in range(-(-f(values[0]) // many) * many, f(values[-1]) + 1, many):
        yield from where(f, values, wanted)


def half_products(first, second, values, factors):
    """The values that make first x second / E a half; first has this many factors of two, or second all others and one more."""
    both = (first, 1 << factors), (second, 1 << 30 - factors)
    return {v for f, many in both for v in multiples(f, values, many) if kind_of(first(v) * second(v), E)}


def distances(t, label):
    far_first = range(RANGE[label][1], RANGE[label][0] - 1, -1)  # so that q grows

    def q(r):
        return near(R0[label] * E, r)

    def q2(r):
        return near(q(r)**2, E)

    def q3(r):
        return near(q2(r) * q(r), E)

    def q4(r):
        return near(q3(r) * q(r), E)

    def k(r):
        return near(K0[label] * q3(r), E)

    twos = next(n for n in reversed(range(30)) if any(multiples(k, far_first, 1 << n)))
    t.same("factors of two in K", twos, {MOON: 26, SUN: 25}[label])
    t.same("q3", half_products(q2, q, far_first, 15), set())
    t.same("K", half_products(q3, lambda r: K0[label], far_first, 26), set())
    if label == MOON:
        t.same("K of degree three", half_products(q4, lambda r: K0_3, far_first, 26), set())
        only = half_products(q3, q, far_first, 15)
        t.same("q4", only, {377_637_789})
        for r in only:
            t.same("K of degree three by either", near(K0_3 * to_odd(q3(r) * q(r), E), E), near(K0_3 * q4(r), E))


def directions(t):
    def size(s2):
        """-T of the permanent shift, which grows with s2."""
        return NORTH + near(SLOPE * near(3 * s2 - E, 2), E)

    found = [(uz, kind_of(-size(s2) * s2, E)) for s2 in half_products(size, lambda s2: s2, range(E + 1), 15)
             for uz in where(lambda uz: near(uz * uz, E), range(E + 1), s2)]
    t.same("w", (len(found), {kind for _, kind in found}), (7, {"-even"}))


def love_numbers(t):
    """H and S where P has 29 factors of two or more, from the equator to a pole: halves where K is an odd multiple of what stands there, of H and of S.

    20,000 stands where there is none: all K are like those below it.
    """
    for p, *wanted in ((-E // 2, 5_000, 2_500), (0, 2_500, 5_000), (E // 2, 200, 20_000), (E, 625, 5_000)):
        for name, scaled, odd in zip("HS", (6_078 * E - 6 * p, 847 * E + 2 * p), wanted):
            found = [k for k in range(20_000) if kind_of(scaled * k, 10_000 * E)]
            t.same(f"{name} where P is {p}", found, list(range(odd, 20_000, 2 * odd)))


def frame_lines():
    """The lines of the table and what n is multiplied with."""
    for row in frames.ROWS.values():
        yield "A", row.name, row.at, 1_461
        yield "B", row.name, row.rates, 1


def rotations(t):
    """What multiples of 10^9 each component of s can be: 0 alone, but for z of A of ITRF93."""
    for name, frame, line, _ in frame_lines():
        for i in range(3):
            others = [r for k, r in enumerate(line.r) if k != i]
            most = root(SQUARE_MOST * squares(others)) // 10**9
            found = [k for k in range(-most, most + 1) if k == 0 or k * 10**9 % math.gcd(*others) == 0]
            t.same(f"s of {name}, {frame}, {'xyz'[i]}", found, [-1, 0, 1] if (name, frame, i) == ("A", "ITRF93", 2) else [0])
    for s, wanted in ((1, 61_329), (-1, 38_671)):  # z less a multiple of 100,000 m
        t.same(f"z where s is {s} billion", [z for z in range(100_000) if (341 * z + frames.UNIT * s) % 100_000 == 50_000], [wanted])


# Where s is 0 a half comes up at the odd multiples of so many metres; the first one's whole part is even or odd, the next one's the other.
ODD_MULTIPLES = {("A", 94): (25_000, "odd"), ("A", 134): (25_000, "odd"), ("A", 292): (12_500, "even"), ("A", 341): (50_000, "even"),
                 ("A", 221): (50_000, "even"), ("A", 361): (50_000, "even"), ("A", 391): (50_000, "odd"), ("A", 731): (50_000, "odd"),
                 ("A", 1_041): (50_000, "even"), ("B", 8): (6_250, "even"), ("B", 9): (50_000, "even")}


def scales(t):
    t.same("every D", set(ODD_MULTIPLES), {(name, line.d) for name, _, line, _ in frame_lines() if line.d})
    for (name, d), (odd, first) in ODD_MULTIPLES.items():
        scaled = d * (1_461 if name == "A" else 1)
        found = {m: kind_of(scaled * m, 100_000) for m in range(4 * odd)}
        wanted = {odd: f"+{first}", 3 * odd: "+odd" if first == "even" else "+even"}
        t.same(f"{name} with D {d}", {m: kind for m, kind in found.items() if kind}, wanted)


def main():
    t = Tally("steps with no half, or with few")
    distances(t, MOON)
    distances(t, SUN)
    directions(t)
    love_numbers(t)
    rotations(t)
    scales(t)
    return t.close()


if __name__ == "__main__":
    sys.exit(main())
