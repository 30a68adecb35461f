"""Vectors of near, root and whole: all of them, and a share."""

import struct

import wire
from gen_doubles import FIELDS, doubles

I_MIN, I_MAX, U_MAX = -(1 << 63), (1 << 63) - 1, (1 << 64) - 1


def around(n, low, high):
    """n and its two neighbours, kept within low..high."""
    return [v for v in (n - 1, n, n + 1) if low <= v <= high]


def signed_edges():
    found = [I_MIN, I_MIN + 1, I_MAX, I_MAX - 1, 0]
    for power in range(0, 64, 3):
        for sign in (1, -1):
            found += around(sign << power, I_MIN, I_MAX)
    return sorted(set(found))


def unsigned_edges():
    found = [0, 1, 2, 3, U_MAX, U_MAX - 1, 1 << 63, (1 << 63) + 1]
    for power in (8, 16, 30, 31, 32, 33, 60, 62):
        found += around(1 << power, 0, U_MAX)
    found += [10_000, 100_000, 146_100, 1_461]
    return sorted(set(found))


def ratios(rng):
    """Arguments of near: a and b."""
    few = [I_MIN, I_MIN + 1, -3, -2, -1, 0, 1, 2, 3, I_MAX - 1, I_MAX]
    for b in unsigned_edges():
        for a in few:
            yield a, b
    for a in signed_edges():
        for b in (0, 1, 2, U_MAX):
            yield a, b
    yield from half_ratios(rng)
    for _ in range(200):
        a = rng.randrange(-(1 << rng.randrange(1, 64)), 1 << rng.randrange(1, 64))
        yield a, rng.randrange(1 << rng.randrange(1, 65))


def half_ratios(rng):
    """Exact halves k/2 of both signs, one off them, and multiples."""
    divisors = [2, 4, 6, 10, 1_000, 10_000, 100_000, 146_100, 1 << 30, 1 << 40]
    for b in divisors:
        for k in (0, 1, 2, rng.randrange(1 << 20)):
            for sign in (1, -1):
                for off in (-1, 0, 1):
                    yield sign * (k * b + b // 2) + off, b
                yield sign * k * b, b
    # The greatest even divisors whose half is still a signed number.
    for b in (1 << 63, U_MAX - 1, (1 << 63) + 2):
        for sign in (1, -1):
            for off in (-1, 0, 1):
                a = sign * (b // 2) + off
                if I_MIN <= a <= I_MAX:
                    yield a, b


def squares(rng):
    """Arguments of root, each once."""
    found = []
    for r in range(0, 60):
        found += around(r * r, 0, U_MAX)
    for power in range(64):
        found += around(1 << power, 0, U_MAX)
    for r in ((1 << 32) - 1, (1 << 32) - 2, 3037000499, 3037000500, 1 << 31,
              6_300_000, 6_400_000, 350_000_000, 410_000_000, 146_000_000,
              153_000_000):
        found += around(r * r, 0, U_MAX)
    found += [U_MAX, U_MAX - 1, U_MAX - 2]
    found += [rng.randrange(1 << rng.randrange(1, 65)) for _ in range(200)]
    return list(dict.fromkeys(found))


def drawn(rng):
    """All arguments of near, of root and of whole, drawn in this order."""
    return list(ratios(rng)), squares(rng), list(doubles(rng))


def packed(near, root, whole):
    for a, b in near:
        yield wire.NEAR, struct.pack(">qQ", a, b)
    for n in root:
        yield wire.ROOT, struct.pack(">Q", n)
    for bits in whole:
        yield wire.WHOLE, struct.pack(">Q", bits)


def payloads(rng):
    return packed(*drawn(rng))


def share(rng):
    """One in some."""
    near, root, whole = drawn(rng)
    return packed(near[::6], root[::5], whole[:FIELDS:16] + whole[FIELDS::3])


SOURCES = (share, 36), (payloads, 1461)  # each with its seed, for make_vectors.py
