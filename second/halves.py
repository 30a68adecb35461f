"""The halves inside a work: what near rounds, in order; the same work by another rule, or with one half the other way."""

import frames
import mark
import permanent
import solid
from rounding import near

STEPPED = (mark, permanent, frames, solid)  # the files whose steps are rounded

# The steps that near rounds, in order: of a permanent shift, and of a body's part of the tide. The Moon's part has its third degree too, named with a 3.
SHIFT = "ux uy uz s2 P e A w x y z".split()
PART = ("ux uy uz dx dy dz c q q2 c2 q3 s2 P K p H rho S t along-x x along-y y along-z z"
        " q4 K3 c3 p3 v H3 rho3 S3 t3 along-x3 x3 along-y3 y3 along-z3 z3").split()


def kind_of(a, b):
    """A half's sign and whole part: with an even one it goes towards zero, with an odd one away from it. Empty where a/b is no half."""
    return "-+"[a > 0] + ("even", "odd")[abs(a) // b % 2] if 2 * (a % b) == b else ""


def to_odd(a, b):
    """The odd neighbour of a half: both neighbours together are 2 a/b."""
    return 2 * a // b - near(a, b)


def away(a, b):
    """The old rule: a half goes to the neighbour away from zero."""
    size = (2 * abs(a) + b) // (2 * b)
    return -size if a < 0 else size


def by(rule, work, *arguments):
    """work(*arguments) with every step of the shifts, the frame rows and the tides rounded by another rule."""
    try:
        for file in STEPPED:
            file.near = rule
        return work(*arguments)
    finally:
        for file in STEPPED:
            file.near = near


class Watch:
    """near, keeping what it rounds; the half at the place `odd`, if one is named, goes to the odd neighbour."""

    def __init__(self, odd=None):
        self.seen, self.odd = [], odd

    def __call__(self, a, b):
        self.seen.append((a, b))
        return to_odd(a, b) if len(self.seen) - 1 == self.odd else near(a, b)


def kinds(work, *arguments):
    """What kind of half each step of a work is, in order."""
    watch = Watch()
    by(watch, work, *arguments)
    return [kind_of(*found) for found in watch.seen]


def shows(names, step, kind, work, *arguments):
    """Is there a half of this kind in the step, and does the answer hang on it?"""
    place = names.index(step)
    return kinds(work, *arguments)[place] == kind and by(Watch(place), work, *arguments) != work(*arguments)
