"""Do the stored vectors see a wrong rule? Answers them with altered versions of this program, each with one change.

altered.py            every altered version of alterations.py, alterations_frames.py, alterations_tides.py and alterations_cards.py
altered.py NAME..     those named, and where each is first seen
altered.py --applies  only that each old text stands exactly once in its file

An altered version is seen when a line of its answers differs from the stored one, and fell over when it ended with an error before that.
Status 1 when one is not seen that should be, is seen that should not, fell over, or cannot be made. WORKERS limits the versions tried at once.
"""

import multiprocessing
import os
import shutil
import subprocess
import sys
import tempfile
from itertools import zip_longest

import alterations
import alterations_cards
import alterations_frames
import alterations_tides
from alterations import Alteration
from tally import Tally

HERE = os.path.dirname(os.path.abspath(__file__))
CRATES = os.path.join(HERE, "..", "crates")

SHIFTS = ("rounding", "units", "mark", "permanent")
FRAMES = ("frames",)
TIDES = ("bodies", "solid", "series")
CARDS = ("card", "field", "metres", "calls", "catalogue", "listing")
TABLE = [Alteration(row[0], file, *row[1:])
         for files, table in ((SHIFTS, alterations), (FRAMES, alterations_frames), (TIDES, alterations_tides), (CARDS, alterations_cards))
         for file in files for row in getattr(table, file.upper())]

# The crate whose vectors are stored, and what answers them here.
PROGRAMS = (("replay_shifts", "replay.py"), ("replay", "replay.py"), ("replay_catalogues", "replay.py"), ("list", "listing.py"))

SEEN, NOT_SEEN, FELL = "seen", "not seen", "fell over"


def source(name):
    with open(os.path.join(HERE, name + ".py"), encoding="ascii") as text:
        return text.read()


def applies(tally):
    """Each name stands once, each old text once in its file, and the new one is another."""
    names = [a.name for a in TABLE]
    for a in TABLE:
        held = (names.count(a.name), source(a.file).count(a.old), a.old != a.new)
        tally.same(f"{a.name}: its name, its old text in {a.file}.py, a change", held, (1, 1, True))


def programs(file):
    """The stored vectors and what answers them, those first that see a change of this file soonest."""
    soonest = "list" if file == "listing" else "replay" if file in CARDS else "replay_shifts"
    return sorted(PROGRAMS, key=lambda found: found[0] != soonest)


def first_difference(folder, crate, program):
    """The number from 1 of the first line that is not the stored one, 0 where all are the same, or FELL."""
    with open(os.path.join(CRATES, crate, "stdin"), "rb") as given, open(os.path.join(CRATES, crate, "stdout"), "rb") as wanted:
        command = [sys.executable, "-B", os.path.join(folder, program)]
        with subprocess.Popen(command, stdin=given, stdout=subprocess.PIPE, stderr=subprocess.DEVNULL) as running:
            for place, (line, stored) in enumerate(zip_longest(running.stdout, wanted), 1):
                if line is None and running.wait():
                    return FELL
                if line != stored:
                    running.kill()  # what follows makes no difference
                    return place
        return FELL if running.returncode else 0


def outcome(a):
    """(SEEN, NOT_SEEN or FELL, where first)."""
    with tempfile.TemporaryDirectory() as above:
        folder = shutil.copytree(HERE, os.path.join(above, "second"), ignore=shutil.ignore_patterns("__pycache__"))
        with open(os.path.join(folder, a.file + ".py"), "w", encoding="ascii") as out:
            out.write(source(a.file).replace(a.old, a.new))
        for crate, program in programs(a.file):
            place = first_difference(folder, crate, program)
            if place:
                return (FELL, crate) if place == FELL else (SEEN, f"{crate}, line {place}")
    return NOT_SEEN, ""


def run(chosen, tell_all):
    workers = int(os.environ.get("WORKERS") or os.cpu_count())
    counts, wrong = dict.fromkeys((SEEN, NOT_SEEN, FELL), 0), 0
    with multiprocessing.Pool(workers) as pool:
        for a, (found, where) in zip(chosen, pool.imap(outcome, chosen)):
            counts[found] += 1
            bad = found != (NOT_SEEN if a.same else SEEN)
            wrong += bad
            if found != SEEN or bad or tell_all:
                print(f"{'WRONG ' if bad else ''}{a.file}, {a.name}: {found} ({where if found != NOT_SEEN else a.same or 'no reason is given'})")
    fell = f", {counts[FELL]} fell over" if counts[FELL] else ""
    print(f"{len(chosen)} altered versions: {counts[SEEN]} seen, {counts[NOT_SEEN]} not seen{fell}")
    return 1 if wrong else 0


def main(arguments):
    tally = Tally("alterations")
    applies(tally)
    if arguments == ["--applies"] or tally.failed:
        return tally.close()
    unknown = set(arguments) - {a.name for a in TABLE}
    if unknown:
        sys.exit(f"no such alteration: {' '.join(sorted(unknown))}")
    return run([a for a in TABLE if not arguments or a.name in arguments], bool(arguments))


if __name__ == "__main__":
    sys.exit(main(sys.argv[1:]))
