"""Vectors of the permanent shift, frame rows, tides of a pair and series."""

import struct

import damage
import gen_bodies
import sample
import wire
from bodies import MOON, SUN
from mark import good_mark
from published import (MOON_2015_M, MOON_M, STATION, SUN_2015_M, SUN_M, entries, exactly,
                       rounded)


def pack(mark):
    return struct.pack(">3q", *mark)


def good_marks(rng, count):
    """Accepted marks: those of cases 2 and 3, all edges, then random ones."""
    return ([(6_378_137, 0, 0), (0, 0, 6_356_752)]
            + [m for m in damage.edge_marks() if good_mark(m)]
            + [sample.mark(rng) for _ in range(count)])


def row(rng):
    return list(gen_bodies.good(rng, MOON) + gen_bodies.good(rng, SUN))


def series_payload(mark, doubles, numbers):
    return (pack(mark) + struct.pack(">II", len(doubles), numbers)
            + struct.pack(f">{len(doubles)}Q", *doubles))


def accepted_series(rng):
    for rows in [0, 1, 2, 3, 5, 8, 20, 100] + [rng.randrange(12) for _ in range(30)]:
        yield series_payload(sample.mark(rng), sum((row(rng) for _ in range(rows)), []), 3 * rows)


def unfit_series(rng):
    """Lengths that do not fit, and refusal 6 before all else."""
    for doubles, numbers in ((0, 3), (6, 0), (6, 2), (6, 4), (6, 6), (5, 3), (7, 3), (1, 0),
                             (12, 3), (6, 9), (11, 6), (13, 6), (3, 0), (0, 1), (600, 299),
                             (18, 9)):
        run = sum((row(rng) for _ in range(101)), [])[:doubles]
        yield series_payload(sample.mark(rng), run, numbers)
        if doubles:
            run[0] = gen_bodies.NAN
            yield series_payload(sample.mark(rng), run, numbers)
    for mark in list(damage.edge_marks()) + list(damage.wild_marks()):
        yield series_payload(mark, row(rng), 3)
    yield series_payload((6_299_999, 0, 0), row(rng), 2)
    yield series_payload((6_299_999, 0, 0), [], 0)
    yield series_payload((6_299_999, 0, 0), [gen_bodies.NAN] * 6, 3)


def bad_row_series(rng):
    """Rows refused by 10 or 11, alone, together, and in either order."""
    nan, far = gen_bodies.NAN, gen_bodies.doubles((1 << 29,))[0]
    for rows in (1, 2, 5, 9):
        for bad in sorted({0, rows // 2, rows - 1}):
            for place in range(6):
                for value in (gen_bodies.NOT_FINITE[place % 5], far):
                    run = [row(rng) for _ in range(rows)]
                    run[bad][place] = value
                    yield series_payload(sample.mark(rng), sum(run, []), 3 * rows)
    for first, second in ((nan, far), (far, nan), (nan, nan), (far, far)):
        for a, b in ((1, 3), (3, 1), (2, 2)):
            run = [row(rng) for _ in range(5)]
            run[a][rng.randrange(3)] = first
            run[b][3 + rng.randrange(3)] = second
            yield series_payload(sample.mark(rng), sum(run, []), 15)


def published_pairs():
    """The published case, and the one of 2015 whose Sun is refused."""
    for moon, sun in ((MOON_M, SUN_M), (MOON_2015_M, SUN_2015_M)):
        first, second = entries(moon, sun)
        for pair in ((first, second), (second, first)):
            yield pack(rounded(exactly(STATION))) + b"".join(map(wire.pack_body, pair))


def payloads(rng):
    for mark in good_marks(rng, 150):
        yield wire.PERMANENT, pack(mark)
    for mark in good_marks(rng, 30):
        for frame in range(3):
            yield wire.ROWS, bytes([frame]) + pack(mark)
    for first, second in gen_bodies.pairs(rng):
        yield wire.PAIR, pack(sample.mark(rng)) + wire.pack_body(first) + wire.pack_body(second)
    for payload in published_pairs():
        yield wire.PAIR, payload
    for found in (accepted_series(rng), unfit_series(rng), bad_row_series(rng)):
        for payload in found:
            yield wire.SERIES, payload
