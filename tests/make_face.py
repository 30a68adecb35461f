"""Vectors of the C face for tests/face.c, from the second program: python3 tests/make_face.py > FILE.

A line: the function, its arguments, the length of the output, the number, and what the output holds (`-` or 0 elements when
refused). The output's length comes first (1), then the record, then the call. A line's form is face.c's.
"""

import sys
from pathlib import Path

sys.path.insert(0, str(Path(__file__).resolve().parent.parent / "second"))

import calls
import damage
import field
import gen_bodies
import gen_catalogue
import gen_halves
import gen_latitude
import half_places
import pillar
import sample
import wire
from bodies import MOON, SUN
from card import SIZE, read, to_bytes
from catalogue import check, lookup
from chance import Chance
from mark import good_mark
from metres import metres
from permanent import shift
from series import series
from units import METRE, plus, times

ROOMS = (SIZE, 0, 1, SIZE - 1, SIZE + 1, 2 * SIZE)
I_MIN, I_MAX = -(1 << 63), (1 << 63) - 1
KNOWN = range(12)  # the frames' codes
# Codes that no frame has: the next ones, the last of a byte, and those that a byte would take for a known one.
UNKNOWN = (12, 13, 128, 255, 256, 257, 258, 267, 1 << 16, 1 << 31, (1 << 32) - 1)


def text(data):
    return data.hex() or "-"


def words(bits):
    return " ".join("%016x" % b for b in bits)


def line(*parts):
    print(*parts)


def called(record, room, call):
    """(number, bytes) of a card call through the face."""
    number, card = (1, None) if room != SIZE else read(record)
    if number == 0:
        number, card = call(card)
    return (number, b"") if number else (0, to_bytes(card))


def labelled(card, first, second):
    """Solid on by labels; a label that is neither is 17, after 12."""
    if {first[0], second[0]} <= {MOON, SUN}:
        return calls.solid_on(card, first, second)
    return calls.solid_on(card, (MOON, first[1]), (MOON, first[1]))


def card_lines(record, room, rng):
    """Every card call on one record."""
    move_line(record, room, rng.choice((0, 1, -1, 1461, rng.randint(-300_000, 300_000), I_MIN, I_MAX, 1 << 32)))
    frame_line(record, room, rng.choice((*KNOWN, 12, 255, 256)))
    for name in ("mean_on", "mean_off", "solid_off"):
        plain_line(record, room, name)
    solid_line(record, room, (MOON, gen_bodies.good(rng, MOON)), (SUN, gen_bodies.good(rng, SUN)))


def move_line(record, room, d):
    number, out = called(record, room, lambda c: calls.move(c, d))
    line("move", text(record), d, room, number, text(out))


def plain_line(record, room, name):
    """A call without arguments."""
    number, out = called(record, room, getattr(calls, name))
    line(name, text(record), room, number, text(out))


def frame_line(record, room, g):
    number, out = called(record, room, lambda c: calls.frame(c, g))
    line("frame", text(record), g, room, number, text(out))


def solid_line(record, room, first, second):
    number, out = called(record, room, lambda c: labelled(c, first, second))
    line("solid_on", text(record), first[0], words(first[1]), second[0], words(second[1]), room, number, text(out))


def other_lines(record, rng):
    """The check, the field edition and the metres of one record."""
    number, card = read(record)
    line("check", text(record), number, "-")
    for room in (field.SIZE, rng.choice((0, field.SIZE - 1, field.SIZE + 1, SIZE))):
        got, out = (1, b"") if room != field.SIZE else (number, b"") if number else field.export(card, bytes(room))
        line("export", text(record), room, got, text(b"" if got else out))
    for room in (3, rng.choice((0, 1, 2, 4))):
        got, out = (1, ()) if room != 3 else (number, ()) if number else metres(card)
        line("metres", text(record), room, got, 0 if got else 3, words(() if got else out))


def expand_line(record, room):
    number, card = (1, None) if room != SIZE else field.expand(record)
    line("expand", text(record), room, number, "-" if number else text(to_bytes(card)))


def records(rng):
    """Records of every kind: accepted ones of each tide, one for each number, edges, and wrong lengths."""
    for tide in (0, 1, 2) * 8:
        yield to_bytes(sample.card(rng, tide=tide))
        yield to_bytes(sample.card(rng, tide=tide, most=100 * METRE))
    for card in list(damage.each_number(rng)) + list(damage.singles(rng)):
        try:
            yield to_bytes(card)
        except Exception:  # a value that no record holds
            pass
    good = to_bytes(sample.card(rng, tide=0, most=METRE))
    for byte in (1, 255):
        yield good[:11] + bytes((byte,)) + good[12:]
    for size in (0, 1, field.SIZE, SIZE - 1):
        yield good[:size]
    yield good + b"\0"
    yield bytes(SIZE)


def solid_lines(rng):
    free, mean = (to_bytes(sample.card(rng, tide=t, most=METRE)) for t in (0, 1))
    for first, second in list(gen_bodies.pairs(rng))[::5] + list(gen_bodies.mixed_pairs(rng)):
        solid_line(free, SIZE, first, second)
    moon, sun = gen_bodies.good(rng, MOON), gen_bodies.good(rng, SUN)
    for k in (0, 1, 2, 3, 128, 255, 256, 257, (1 << 32) - 1):
        for l in (0, 1, 2, 255, 256, 257):
            solid_line(free, SIZE, (k, moon), (l, sun))
            solid_line(mean, SIZE, (k, moon), (l, sun))
            solid_line(free, SIZE, (l, sun), (k, moon))


def frame_lines(rng):
    """From every frame to every other and itself, and to codes that none has, at marks of every octant and epochs of every size."""
    for f in KNOWN:
        for g in (*KNOWN, *UNKNOWN):
            frame_line(to_bytes(sample.card(rng, tide=rng.randrange(3), most=10 * METRE)._replace(frame=f)), SIZE, g)


def field_lines(rng):
    for tide in (0, 1) * 12:
        card = sample.card(rng, tide=tide)
        record = field.export(card, bytes(field.SIZE))[1]
        for room in (SIZE, rng.choice(ROOMS[1:])):
            expand_line(record, room)
        for _ in range(6):
            at = rng.randrange(field.SIZE)
            expand_line(record[:at] + bytes((rng.randrange(256),)) + record[at + 1:], SIZE)
    for size in (0, 1, field.SIZE - 1):
        expand_line(record[:size], SIZE)
        expand_line(record[:size], 0)
    expand_line(record + b"\0", SIZE)


def mark_lines(rng):
    marks = [sample.mark(rng) for _ in range(20)] + list(damage.edge_marks()) + list(damage.wild_marks())
    for mark in marks:
        if not all(I_MIN <= v <= I_MAX for v in mark):
            continue
        for room in (3, rng.choice((0, 1, 2, 4))):
            permanent_line(mark, room)
        rows = rng.randrange(4)
        good = [b for _ in range(rows) for b in gen_bodies.good(rng, MOON) + gen_bodies.good(rng, SUN)]
        series_line(mark, good, 3 * rows)
        series_line(mark, good + [0], 3 * rows)
        series_line(mark, good, 3 * rows + rng.choice((1, 2, 3)))
        if rows:
            at = rng.randrange(6 * rows)
            for bad in (0x7FF0 << 48, 0x7FF8 << 48 | 1, 0x41F0 << 48, 1):
                series_line(mark, good[:at] + [bad] + good[at + 1:], 3 * rows)


def permanent_line(mark, room):
    number = 1 if room != 3 else 0 if good_mark(mark) else 6
    line("permanent", *mark, room, number, 0 if number else 3, *(() if number else shift(mark)))


def series_line(mark, doubles, count):
    number, row, found = series(mark, doubles, [0] * count)
    found = [] if number else found
    line("series", *mark, len(doubles), words(doubles), count, number + 256 * row, len(found), *found)


def place_of(catalogue, key, number, part):
    """A lookup's place in bytes: of the first record that is the part found, or the catalogue's length when refused."""
    if number:
        return len(catalogue)
    return next(at for at in range(0, len(catalogue), SIZE) if catalogue[at:at + 9] == key and catalogue[at:at + SIZE] == part)


def find_lines(rng):
    for payload in gen_catalogue.lookups(rng):
        size = int.from_bytes(payload[:4], "big")
        key, catalogue = payload[4:4 + size], payload[4 + size:]
        number, part = lookup(catalogue, key)
        line("find", text(key), text(catalogue), place_of(catalogue, key, number, part), "-", number, "-")


def check_lines(rng):
    """Whole catalogues of at most MOST bytes of face.c: number + 256 x place."""
    for _, payload in gen_catalogue.checks(rng):
        if len(payload) <= 4096:
            number, place = check(payload)
            line("check_catalogue", text(payload), number + 256 * place, "-")


def half_lines(rng):
    """Where exact halves come up: the field edition, cards of the older rule, permanent shifts, frame rows, bodies."""
    for card in gen_halves.exported(rng):
        other_lines(to_bytes(card), rng)
    for old, _, _ in gen_halves.old_cards(rng):
        card_lines(to_bytes(old), SIZE, rng)
        other_lines(to_bytes(old), rng)
    for mark in half_places.marks():
        permanent_line(mark, 3)
    for mark in half_places.row_marks():
        for g in (1, 2):
            frame_line(to_bytes(damage.moved_to(damage.base(rng), mark)), SIZE, g)
    for label in (MOON, SUN):
        bodies = [gen_bodies.doubles(body) for _, body in half_places.half_bodies(label)]
        for body in (*bodies, *gen_halves.edge_bodies(label), *gen_halves.crossing_bodies(label)):
            first, second = gen_halves.beside(rng, label, body)
            moon, sun = (first, second) if first[0] == MOON else (second, first)
            solid_line(to_bytes(damage.base(rng)), SIZE, first, second)
            series_line(half_places.AXIS, [*moon[1], *sun[1]], 3)


def latitude_lines(rng):
    """Where h and l follow the latitude: marks from pole to pole under Moons and Suns in every place, and exact halves in P, H and S."""
    for turn, mark in enumerate(gen_latitude.known_marks()):
        record = to_bytes(damage.moved_to(damage.base(rng), mark))
        rows = [tuple(map(gen_bodies.doubles, both)) for both in gen_latitude.standings(mark, turn)]
        series_line(mark, [bits for moon, sun in rows for bits in (*moon, *sun)], 3 * len(rows))
        for moon, sun in rows:
            solid_line(record, SIZE, (MOON, moon), (SUN, sun))
    for mark, label, body in gen_latitude.half_bodies():
        record = to_bytes(damage.moved_to(damage.base(rng), mark))
        solid_line(record, SIZE, *gen_halves.beside(rng, label, gen_bodies.doubles(body)))


def tie_lines():
    """Two instruments on one pillar: each call of the worked example on both cards."""
    for _, entry, before, _, _ in pillar.example():
        for record in map(to_bytes, before):
            if entry[0] == wire.MOVE:
                move_line(record, SIZE, int.from_bytes(entry[1:9], "big", signed=True))
            elif entry[0] == wire.FRAME:
                frame_line(record, SIZE, entry[1])
            elif entry[0] == wire.SOLID_ON:
                solid_line(record, SIZE, wire.unpack_body(entry[1:26]), wire.unpack_body(entry[26:51]))
            else:
                plain_line(record, SIZE, wire.CALL_NAMES[entry[0]].replace(" ", "_"))


def main():
    rng = Chance(2026)
    for record in records(rng):
        card_lines(record, SIZE, rng)
        card_lines(record, rng.choice(ROOMS[1:]), rng)
        other_lines(record, rng)
    solid_lines(rng)
    frame_lines(rng)
    field_lines(rng)
    mark_lines(rng)
    find_lines(rng)
    check_lines(rng)
    half_lines(rng)
    latitude_lines(rng)
    tie_lines()


main()
