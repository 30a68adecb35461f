"""Writes data/sample.cat: sixteen cards of well-known sites, with plausible values. A sample, and no reference for anything.

    python3 data/make_sample.py
"""
import os
import sys

HERE = os.path.dirname(os.path.abspath(__file__))
sys.path.insert(0, os.path.join(HERE, "..", "second"))
import card
from units import METRE, ZERO

# site, position in metres at 2005.0 to one decimal, velocity in millimetres a year
SITES = [
    ("10317M001", ("1202430.6", "252626.7", "6237767.5"), (-14, 7, 11)),       # Ny-Alesund
    ("10402M004", ("3370658.6", "711877.1", "5349786.9"), (-14, 14, 11)),      # Onsala
    ("12734M008", ("4641949.6", "1393045.4", "4133287.4"), (-18, 19, 15)),     # Matera
    ("13504M003", ("3899225.3", "396731.8", "5015078.3"), (-15, 17, 10)),      # Kootwijk
    ("14201M010", ("4075580.6", "931853.7", "4801568.1"), (-16, 17, 10)),      # Wettzell
    ("21605M002", ("-2831733.3", "4675666.0", "3275369.4"), (-31, -11, -13)),  # Shanghai
    ("21730S005", ("-3957199.2", "3310199.7", "3737711.7"), (-4, 2, -9)),      # Tsukuba
    ("30302M004", ("5085352.4", "2668396.1", "-2768731.0"), (-1, 19, 17)),     # Hartebeesthoek
    ("40104M002", ("918129.4", "-4346071.2", "4561977.8"), (-16, -4, 4)),      # Algonquin
    ("40405S031", ("-2353614.1", "-4641385.4", "3676976.5"), (-14, 6, -4)),    # Goldstone
    ("40408M001", ("-2281621.3", "-1453595.8", "5756961.9"), (-22, -4, -9)),   # Fairbanks
    ("40424M004", ("-5543838.1", "-2054587.4", "2387809.6"), (-10, 63, 32)),   # Kokee Park
    ("40451M123", ("1130773.6", "-4831253.6", "3994200.4"), (-15, -1, 2)),     # Greenbelt
    ("41705M003", ("1769693.3", "-5044574.1", "-3468321.1"), (23, -6, 15)),    # Santiago
    ("50103M108", ("-4460996.1", "2682557.1", "-3674443.9"), (-36, 1, 45)),    # Tidbinbilla
    ("50107M004", ("-2389025.3", "5043316.8", "-3078530.9"), (-47, 9, 50)),    # Yarragadee
]
EPOCH = 5 * 1461  # quarter-days: 2005.0


def tenths(text):
    return int(text.replace(".", ""))


def made(site, position, velocity):
    grains = tuple(tenths(p) * METRE // 10 for p in position)
    mark = tuple((tenths(p) + 5) // 10 for p in position)
    return card.Card(site.encode(), 0, 0, EPOCH, mark, tuple(1000 * v for v in velocity), grains, ZERO)


if __name__ == "__main__":
    with open(os.path.join(HERE, "sample.cat"), "wb") as out:
        for row in SITES:
            one = made(*row)
            assert card.check(one) == 0, row
            out.write(card.to_bytes(one))
