"""Writes the vectors of docs/VECTORS.md: make_vectors.py OUTDIR.

stdin and stdout of OUTDIR/replay_shifts (numbers, frames and tides), of
OUTDIR/replay (records and calls) and of OUTDIR/replay_catalogues (catalogues),
and OUTDIR/VECTORS-COUNT.md with the count of vectors per kind and of calls per
refusal number. Nothing else is touched.
"""

import os
import sys

import gen_calls
import gen_catalogue
import gen_frames
import gen_halves
import gen_latitude
import gen_numbers
import gen_records
import gen_roots
import gen_third
import gen_tides
import gen_ties
import gen_unseen
import replay
import wire
from chance import Chance

MOST = 3_000_000  # bytes of every stdin together

# The program that answers each kind.
PROGRAMS = {kind: "replay_shifts" if kind <= wire.SERIES else
            "replay" if kind <= wire.CALLS else "replay_catalogues" for kind in wire.NAMES}

# Each source and its seed. A new one comes last, so that what stands stays as it is.
SHARE, NUMBERS = gen_numbers.SOURCES
SOURCES = (SHARE, (gen_tides.payloads, 37), (gen_records.payloads, 38),
           (gen_calls.payloads, 39), (gen_catalogue.payloads, 40),
           NUMBERS, (gen_catalogue.checks, 41), (gen_unseen.payloads, 42),
           (gen_third.payloads, 43), (gen_halves.payloads, 44), (gen_roots.payloads, 45),
           (gen_latitude.payloads, 46), (gen_frames.payloads, 47), (gen_ties.payloads, 48))

# Every number that each call can give; "own" are those after its card's check.
CARD = (2, 3, 4, 5, 6, 7, 8, 9)
CAN_GIVE = {
    "tide of a pair": (0, 10, 11, 17), "series": (0, 6, 10, 11, 16),
    "read": (0, 1, *CARD), "write": (0, 1, *CARD), "export": (0, 1, *CARD, 12),
    "expand": (0, 1, 2, 3, 4, 5, 6, 7, 8), "metres": (0, *CARD),
    "lookup": (0, 2, 14, 15), "reader": (0, 1, *CARD, "done"), "list line": (0, 1, *CARD),
    "catalogue check": (0, *CARD, 14),
}
OWN = {"move": (0, 13, 5, 8), "frame": (0, 3, 7, 8), "mean on": (0, 12, 8),
       "mean off": (0, 12, 8), "solid on": (0, 12, 17, 10, 11, 8), "solid off": (0, 12, 8)}


def make():
    """Every vector: its kind and its bytes, in order."""
    for source, seed in SOURCES:
        for kind, payload in source(Chance(seed)):
            yield kind, wire.vector(kind, payload)


def check_counts(found):
    """Fails unless every number that can be given was given, and no other."""
    wanted = {(n, k, False) for n, ks in CAN_GIVE.items() for k in ks}
    for name, own in OWN.items():
        wanted |= {(name, k, False) for k in own} | {(name, k, True) for k in CARD}
    wanted |= {(wire.NAMES[k], 0, False) for k in (wire.NEAR, wire.ROOT, wire.WHOLE,
                                                   wire.PERMANENT, wire.ROWS)}
    missing, extra = wanted - set(found), set(found) - wanted
    assert not missing and not extra, (missing, extra)


def count_page(kinds, found):
    lines = ["# Counts of the vectors", "",
             "Written by second/make_vectors.py. A vector of kind `calls` holds many calls.", "",
             "| Kind | Vectors |", "|---|---|"]
    lines += [f"| {wire.NAMES[k]} | {n} |" for k, n in sorted(kinds.items())]
    lines += [f"| all | {sum(kinds.values())} |", "",
              "`card` counts refusals by the check of the card handed in, `own` those by the",
              "call's own checks. Number 0 is accepted.", "",
              "| Call | Number | Given | By |", "|---|---|---|---|"]
    order = list(wire.NAMES.values()) + list(wire.CALL_NAMES.values())

    def place(key):
        name, number, by_card = key
        return order.index(name), by_card, 99 if number == "done" else number

    for key in sorted(found, key=place):
        name, number, by_card = key
        by = "card" if by_card else ("" if number == 0 else "own" if name in OWN else "")
        lines.append(f"| {name} | {number} | {found[key]} | {by} |")
    return "\n".join(lines) + "\n"


def save(path, data):
    with open(path, "wb") as out:
        out.write(data)


def main(outdir):
    counts, kinds, size = replay.Counts(), {}, 0
    inputs, outputs = ({name: [] for name in PROGRAMS.values()} for _ in range(2))
    for kind, data in make():
        (_, line), = replay.answers(data, counts)
        kinds[kind] = kinds.get(kind, 0) + 1
        size += len(data)
        inputs[PROGRAMS[kind]].append(data)
        outputs[PROGRAMS[kind]].append((line + "\n").encode("ascii"))
    total = sum(kinds.values())
    assert total >= 3_000 and size < MOST, (total, size)
    check_counts(counts.found)
    for name in inputs:
        os.makedirs(os.path.join(outdir, name), exist_ok=True)
        save(os.path.join(outdir, name, "stdin"), b"".join(inputs[name]))
        save(os.path.join(outdir, name, "stdout"), b"".join(outputs[name]))
    save(os.path.join(outdir, "VECTORS-COUNT.md"), count_page(kinds, counts.found).encode("ascii"))
    print(f"{total} vectors, {size} bytes of stdin")


if __name__ == "__main__":
    if len(sys.argv) != 2:
        sys.exit("usage: make_vectors.py OUTDIR")
    main(sys.argv[1])
