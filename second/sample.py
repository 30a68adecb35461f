"""Random marks, body vectors and cards that are accepted, from a given generator."""

from bodies import MOON, RANGE, SUN, distance
from card import (EPOCH_MOST, POSITION_MOST, SOLID, TIDE_MOST, VELOCITY_MOST, Card,
                  check)
from mark import L_LEAST, L_MOST, length
from rounding import near, root
from units import METRE, ZERO, plus, times


def of_length(rng, least, most, size):
    """A whole vector with least <= size(vector) <= most."""
    while True:
        raw = [rng.randint(-1_000_000, 1_000_000) for _ in range(3)]
        for i in range(3):
            if rng.randrange(8) == 0:
                raw[i] = 0
        norm = root(sum(v * v for v in raw))
        if norm == 0:
            continue
        wanted = rng.choice((least, most, rng.randint(least, most)))
        vector = tuple(v * wanted // norm for v in raw)
        if least <= size(vector) <= most:
            return vector


def along(direction, size):
    """A whole vector in that direction whose whole length is size."""
    norm = root(sum(v * v for v in direction) << 80)
    vector = [near((v << 40) * size, norm) for v in direction]
    most = max(range(3), key=lambda i: abs(vector[i]))
    step = 1 if vector[most] > 0 else -1
    while distance(vector) != size:
        vector[most] += step if distance(vector) < size else -step
    return tuple(vector)


def on_axes(size):
    """Both ends of each axis at this distance: for a mark the poles and four places on the equator."""
    for i in range(3):
        for sign in (1, -1):
            yield tuple(sign * size if k == i else 0 for k in range(3))


def across(vector):
    """A vector at right angles to one that is not zero."""
    x, y, z = vector
    return (-y, x, 0) if x or y else (z, 0, 0)


def aimed(mark, square, aside, size):
    """A body at this distance whose parts along the mark and across it have these squares; a minus: opposite to the mark."""
    up = along(times(mark, square), root(abs(square) << 60)) if square else ZERO
    out = along(across(mark), root(aside << 60)) if aside else ZERO
    return along(plus(up, out), size)


def mark(rng):
    return of_length(rng, L_LEAST, L_MOST, length)


def moon(rng):
    return of_length(rng, *RANGE[MOON], distance)


def sun(rng):
    return of_length(rng, *RANGE[SUN], distance)


def within(rng, most):
    """Three numbers within +-most, now and then at an edge or zero."""
    return tuple(rng.choice((rng.randint(-most, most),) * 6 + (most, -most, 0))
                 for _ in range(3))


def site(rng):
    return b"%05d%c%03d" % (rng.randrange(100_000), rng.choice(b"MS"), rng.randrange(1_000))


def card(rng, tide=None, most=POSITION_MOST):
    """An accepted card; most bounds its distance from the mark."""
    tide = rng.randrange(3) if tide is None else tide
    where = mark(rng)
    found = Card(site(rng), rng.randrange(3), tide, rng.randint(-EPOCH_MOST, EPOCH_MOST),
                 where, within(rng, VELOCITY_MOST),
                 plus(times(where, METRE), within(rng, most)),
                 within(rng, TIDE_MOST) if tide == SOLID else ZERO)
    assert check(found) == 0
    return found
