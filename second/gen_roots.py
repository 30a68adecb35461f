"""Vectors of root for a method that takes a pair of bits at a time: roots of every width, and at every pair what is left just at the trial.

Each pair gives one bit of the root, at a place from 31 down to 0. The trial is what is taken off what is left when the bit is set, where it fits.
The assertions say what is special about the numbers.
"""

import struct

import gen_numbers
import wire
from chance import Chance
from gen_numbers import U_MAX
from rounding import root

WIDTH = 32  # bits of the greatest root, one for each pair of a 64-bit number


def shapes(width):
    """Roots of so many bits: all set, the top one, every second from the top (0101.. is 1010.. with one bit less), the top one and the lowest."""
    top = 1 << width - 1
    every, second = 2 * top - 1, 4 * top // 3
    assert second ^ second >> 1 == every
    return every, top, second, top | 1


def roots(rng):
    """The shapes of every width, and a random root of every second: gen_numbers has the squares of all roots under 60."""
    for width in range(1, WIDTH + 1):
        random = [rng.randrange(1 << width - 1, 1 << width)] if width > 5 and width % 2 == 0 else []
        for r in (*shapes(width), *random):
            assert r.bit_length() == width
            yield r


def about(r):
    """About r*r, half-way up to the next square, and about that."""
    found = (r * r - 1, r * r, r * r + 1, r * r + r, r * r + 2 * r, (r + 1) * (r + 1))
    assert [root(n) - r for n in found] == [-1, 0, 0, 0, 0, 1]
    return [n for n in found if n <= U_MAX]


def ties(rng, place):
    """About the square of a root whose lowest set bit is at this place: all that is left there is the trial, one less, one more, one more in its pair."""
    unit = 1 << place
    r = (1 << WIDTH - 1 | rng.randrange(1 << WIDTH - 1) | unit) & -unit
    for over in (-1, 0, 1, unit * unit):
        n = r * r + over
        above = root(n) & -2 * unit  # the bits found before this place
        assert n - above * above == (2 * above + unit) * unit + over and n <= U_MAX
        yield n


def by_hand(n):
    """At each place from the top, how far what is left of the pairs so far goes over the trial, and the root so far."""
    r = left = 0
    for place in reversed(range(WIDTH)):
        left, trial = left << 2 | n >> 2 * place & 3, 4 * r + 1
        over, fits = left - trial, left >= trial
        r, left = 2 * r + fits, over if fits else left
        yield place, over, r
    assert r == root(n)


def arguments(rng):
    """Each once, and none that gen_numbers has."""
    found = [n for r in roots(rng) for n in about(r)]
    found += [n for place in range(WIDTH) for n in ties(rng, place)]
    stored = {payload for source, seed in gen_numbers.SOURCES for kind, payload in source(Chance(seed)) if kind == wire.ROOT}
    return [n for n in dict.fromkeys(found) if struct.pack(">Q", n) not in stored]


def payloads(rng):
    found = arguments(rng)
    # Of the pairs so far alone, what is left is just at the trial too, at each place below a set bit. For the first bit gen_numbers has the powers of two.
    steps = {(place, over) for n in found for place, over, r in by_hand(n) if r > 1}
    assert steps.issuperset((place, over) for place in range(WIDTH - 1) for over in (-1, 0, 1))
    for n in found:
        yield wire.ROOT, struct.pack(">Q", n)
