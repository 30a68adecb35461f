"""The permanent shift of a mark, grains, tide-free to mean-tide.

Chapter 7, formulas (14a) and (14b): radial (-0.1206 + 0.0001 P) P and north
(-0.0252 - 0.0001 P) sin 2 phi, metres. Both source 000 and 003 print these.
"""

from mark import latitude, unit
from rounding import E, near

RADIAL = 176_196_600  # 0.1206 m in grains
NORTH = 36_817_200    # 0.0252 m in grains
SLOPE = 146_100       # 0.0001 m in grains


def shift(mark):
    ux, uy, uz = unit(mark)
    s2, p = latitude(uz)
    e = near(SLOPE * p, E)
    a = near((e - RADIAL) * p, E)
    t = -NORTH - e
    w = near(t * s2, E)
    flat = a - 2 * w
    return near(flat * ux, E), near(flat * uy, E), near((flat + 2 * t) * uz, E)
