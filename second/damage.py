"""Cards at the edges of every check, damaged cards, and cards damaged twice.

Each yield is a raw card. Whether it is accepted is for the program to say.
Values near powers of two would pass if a wider number were cut or wrapped.
"""

import sample
from card import EPOCH_MOST, POSITION_MOST, TIDE_MOST, VELOCITY_MOST
from mark import L_LEAST, L_MOST
from units import METRE, ZERO, plus, times

I_MIN, I_MAX = -(1 << 63), (1 << 63) - 1
WILD = (I_MIN, I_MIN + 1, I_MAX, 1 << 32, -(1 << 32), (1 << 31), -(1 << 31) - 1)


def put(vector, i, value):
    return tuple(value if k == i else v for k, v in enumerate(vector))


def base(rng, tide=0):
    return sample.card(rng, tide=tide, most=100 * METRE)


def bad_sites(rng):
    card = base(rng)
    for i in range(9):
        for byte in b"/:" if i != 5 else b"LNRTms5":
            yield card._replace(site=bytes(put(card.site, i, byte)))
    for byte, i in ((0, 0), (255, 8), (ord("M"), 4), (ord(" "), 6)):
        yield card._replace(site=bytes(put(card.site, i, byte)))
    for site in (b"00000M000", b"99999S999", b"00000S009"):
        yield card._replace(site=site)


def frames_and_tides(rng):
    for frame in (0, 1, 2, 12, 13, 128, 255):
        yield base(rng)._replace(frame=frame)
    for tide in (3, 4, 128, 255):
        yield base(rng)._replace(tide=tide)
        yield base(rng)._replace(tide=tide, vector=(1, 2, 3))
    for tide in (0, 1):
        for i in range(3):
            for value in (1, -1, I_MIN, TIDE_MOST + 1):
                yield base(rng, tide)._replace(vector=put(ZERO, i, value))
    yield base(rng, 2)._replace(vector=ZERO)


def epochs(rng):
    for edge in (EPOCH_MOST, -EPOCH_MOST):
        for value in (edge - 1, edge, edge + 1):
            yield base(rng)._replace(epoch=value)
    for value in WILD:
        yield base(rng)._replace(epoch=value)


def moved_to(card, mark):
    """The same card at another mark, as near to it as before."""
    return card._replace(mark=mark, position=times(mark, METRE))


def edge_marks():
    """Marks on both sides of both ends of the range of L."""
    for n in (L_LEAST, L_LEAST - 1, L_MOST, L_MOST + 1):
        for i in range(3):
            for sign in (1, -1):
                yield put(ZERO, i, sign * n)
    yield (L_MOST, 1, 0)
    yield (L_MOST, 3_520, 640)           # (L_MOST + 1)^2 - 1: the last accepted
    yield (6_399_999, -5_056, 192)       # (L_MOST + 1)^2: the first refused
    yield (L_MOST, 3_571, 219)           # one more
    yield (6_299_995, 6_783, -4_122)     # L_LEAST^2 - 2 (-1 has no three squares)
    yield (-6_299_968, 14_624, 13_760)   # L_LEAST^2: the first accepted
    yield (6_299_983, 14_556, 1_524)     # one more
    yield (3_637_306, 3_637_306, 3_637_306)
    yield (3_637_308, -3_637_307, 3_637_307)
    yield (-3_695_042, 3_695_041, -3_695_042)
    yield (3_695_043, 3_695_042, 3_695_042)


def wild_marks():
    for n in WILD:
        yield (n, 0, 0)
        yield (6_378_137, n, 0)       # 2^32 squared wraps to 0
    yield (I_MIN, I_MIN, I_MIN)
    yield (1 << 32, 1 << 32, 6_378_137)
    yield ZERO


def marks(rng):
    for mark in edge_marks():
        yield moved_to(base(rng), mark)
    for mark in wild_marks():
        yield base(rng)._replace(mark=mark)


def velocities(rng):
    for i in range(3):
        for edge in (VELOCITY_MOST, -VELOCITY_MOST):
            for value in (edge - 1, edge, edge + 1):
                card = base(rng)
                yield card._replace(velocity=put(card.velocity, i, value))
    for n, value in enumerate(WILD):
        card = base(rng)
        yield card._replace(velocity=put(card.velocity, n % 3, value))


def positions(rng):
    for i in range(3):
        for edge in (POSITION_MOST, -POSITION_MOST):
            for value in (edge - 1, edge, edge + 1):
                card = base(rng)
                away = put(ZERO, i, value)
                yield card._replace(position=plus(times(card.mark, METRE), away))
    for n, value in enumerate(WILD + (I_MAX - 1, 0, 1 << 62)):
        card = moved_to(base(rng), ((6_378_137, 0, 0), (0, -6_356_752, 0))[n % 2])
        yield card._replace(position=put(card.position, n % 3, value))


def vectors(rng):
    for i in range(3):
        for edge in (TIDE_MOST, -TIDE_MOST):
            for value in (edge - 1, edge, edge + 1):
                card = base(rng, 2)
                yield card._replace(vector=put(card.vector, i, value))
    for n, value in enumerate(WILD):
        card = base(rng, 2)
        yield card._replace(vector=put(card.vector, n % 3, value))


SINGLE = (bad_sites, frames_and_tides, epochs, marks, velocities, positions, vectors)


def singles(rng):
    for kind in SINGLE:
        yield from kind(rng)


SPOIL = (
    lambda c: c._replace(site=b"1234XM001"),
    lambda c: c._replace(frame=12),
    lambda c: c._replace(tide=3),
    lambda c: c._replace(epoch=EPOCH_MOST + 1),
    lambda c: c._replace(mark=(6_299_999, 0, 0)),
    lambda c: c._replace(velocity=(0, VELOCITY_MOST + 1, 0)),
    lambda c: c._replace(position=plus(c.position, (0, 0, 3_000 * METRE))),
    lambda c: c._replace(vector=(0, 0, -TIDE_MOST - 1)),
)


def several(rng, count):
    """Two to five defects at once: the first in the paper's order is given."""
    for _ in range(count):
        card = base(rng, 2)
        for spoil in rng.sample(SPOIL, rng.randint(2, 5)):
            card = spoil(card)
        yield card


def anything(rng, count):
    """Cards of random fields of all sizes."""
    def number():
        return rng.choice((rng.randint(-10, 10), rng.getrandbits(64) - (1 << 63)))

    for _ in range(count):
        spoilt = base(rng, rng.randrange(3))
        for name in ("mark", "velocity", "position", "vector"):
            if rng.randrange(3) == 0:
                spoilt = spoilt._replace(**{name: (number(), number(), number())})
        if rng.randrange(4) == 0:
            spoilt = spoilt._replace(epoch=number(), tide=rng.randrange(256))
        yield spoilt


def each_number(rng):
    """One card for each number 2 to 9, in order."""
    for spoil in SPOIL:
        yield spoil(base(rng, 2))
