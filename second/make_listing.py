"""Writes a long listing: make_listing.py OUTDIR.

OUTDIR/stdin holds cards for the listing program and a short last part, and
OUTDIR/stdout their lines. There are more than twice 512 cards, so that a
program that reads 512 at a time has to go on twice.
"""

import os
import random
import sys

import damage
import gen_catalogue
import gen_frames
import gen_records
import listing
import sample
from card import SIZE
from chance import Chance

PARTS = 1_200  # and then one in each frame, known and unknown
SHORT = 40  # bytes of the last part


def early(rng):
    """Case 13, a card for each number, then 70 of which one in five has a byte damaged."""
    yield gen_catalogue.case_13(rng)
    for card in damage.each_number(rng):
        yield gen_records.record(card)
    for _ in range(70):
        data = bytearray(gen_records.record(sample.card(rng)))
        if rng.randrange(5) == 0:
            data[rng.randrange(SIZE)] ^= 0xFF
        yield bytes(data)


def later(rng, count):
    """Cards at every edge, damaged cards, accepted cards, mixed."""
    cards = (*damage.singles(rng), *damage.several(rng, 150), *damage.anything(rng, 150))
    found = [data for data in map(gen_records.record, cards) if data is not None]
    found += gen_catalogue.accepted(rng, count - len(found))
    rng.shuffle(found)
    return found


def make():
    # The early cards and the short part come from Python's own generator and not from Chance;
    # of it only randrange, randint and choice are used.
    rng = random.Random(11)
    first = list(early(rng))
    last = gen_records.record(sample.card(rng))[:SHORT]
    frames = gen_frames.in_frames(Chance(56), (*gen_frames.CODES, *gen_frames.UNKNOWN))
    return b"".join(first + later(Chance(55), PARTS - len(first) - 1) + frames) + last


def main(outdir):
    data = make()
    os.makedirs(outdir, exist_ok=True)
    with open(os.path.join(outdir, "stdin"), "wb") as out:
        out.write(data)
    with open(os.path.join(outdir, "stdout"), "wb") as out:
        out.write(listing.lines(data).encode("ascii"))
    print(f"{-(-len(data) // SIZE)} parts, {len(data)} bytes of stdin")


if __name__ == "__main__":
    if len(sys.argv) != 2:
        sys.exit("usage: make_listing.py OUTDIR")
    main(sys.argv[1])
