"""The altered versions that second/altered.py runs, of numbers, marks and the permanent shift.

Each is one change in one file of the paper's rules. A row is a name, the old text, which stands exactly once in its file, and the new text.
Where the change can alter no answer at all, the row's fourth part says why, and the run fails when an answer differs all the same.
alterations_frames.py, alterations_tides.py and alterations_cards.py have the rows of the other files.
"""

from typing import NamedTuple


class Alteration(NamedTuple):
    name: str
    file: str       # of second/, without .py
    old: str
    new: str
    same: str = ""  # why no answer can differ


def cut(a, b):
    """near(a/b) rounded down, for the steps where no half comes up."""
    return f"near({a}, {b})", f"(({a}) // ({b}))"


def half_away(a, b):
    """near(a/b) with exact halves away from zero, for the steps where a half comes up; b is even there."""
    return f"near({a}, {b})", f"near(2 * ({a}) + (({a}) > 0) - (({a}) < 0), 2 * ({b}))"


def half_to_zero(a, b):
    """near(a/b) with exact halves towards zero; b is even too."""
    return f"near({a}, {b})", f"near(2 * ({a}) - (({a}) > 0) + (({a}) < 0), 2 * ({b}))"


def half_up(a, b):
    """near(a/b) with exact halves towards the greater number."""
    return f"near({a}, {b})", f"((2 * ({a}) + ({b})) // (2 * ({b})))"


def halves(name, a, b, away="", to_zero=""):
    """Two rows of a step: its halves away from zero, as the rule was, and towards it. away and to_zero say why no answer can differ."""
    return (f"{name}-half-away", *half_away(a, b), away), (f"{name}-half-to-zero", *half_to_zero(a, b), to_zero)


def swap(first, second):
    return first + second, second + first


# s2 and P of a mark's latitude, for the permanent shift and the tide alike, and the ways to get their rounding wrong.
SQUARE, LEGENDRE = ("uz * uz", "E"), ("3 * s2 - E", "2")
LATITUDE_STEPS = (("s2-cut", *cut(*SQUARE)), *halves("P", *LEGENDRE), ("P-half-up", *half_up(*LEGENDRE)), ("P-cut", *cut(*LEGENDRE)))


def of_one(name, old, new):
    """The same for one of the two by itself: its call of latitude is `old`, and `new` has both steps."""
    return tuple((f"{name}-{row[0]}", old, new.replace(*row[1:3])) for row in LATITUDE_STEPS)


# Lines of root: its places, its step, and the one that holds it against the library's own; where near takes a half, and where whole calls it.
PLACES = "reversed(range((n.bit_length() + 1) // 2))"
TRY, HELD = "if trial * trial <= n:\n            r = trial\n", "    assert r == math.isqrt(n)\n"
HALF, OF_DOUBLE = "return below if below % 2 == 0 else below + 1", "near(*ratio(bits))"


def root_with(old, new):
    """root with another text in it, and not held against the library's own."""
    lines = f"{PLACES}:\n        trial = r | (1 << place)\n        {TRY}"
    return lines + HELD, lines.replace(old, new)


def root_within(allowed):
    """root that takes a trial when its square is less than n plus so much; 1 is right."""
    return root_with("<= n", f"< n + ({allowed})")


# What a root found a place at a time may get wrong. The top place of a 64-bit number is 31, but this one starts at the number's own; 13 is a place between.
ROOT = (
    ("root-start-low", *root_with(PLACES, PLACES.replace("(n.bit_length() + 1) // 2", "min(31, (n.bit_length() + 1) // 2)"))),
    ("root-own-start-low", *root_with(PLACES, PLACES.replace("+ 1", "- 1"))),
    ("root-last-left-out", *root_with(PLACES, PLACES.replace("range(", "range(1, "))),
    ("root-place-skipped", *root_with("if ", "if place != 13 and ")),
    ("root-tie-at-top", *root_within("place != 31")),
    ("root-tie-at-last", *root_within("place > 0")),
    ("root-tie-at-a-middle-place", *root_within("place != 13")),
    ("root-tie-at-a-middle-place-after-a-bit", *root_within("place != 13 or r == 0")),
    ("root-one-less-at-a-middle-place", *root_within("1 + (place == 13)")),
    ("root-end-high", *root_within("2")),
    ("root-nearest", HELD, "    r += n - r * r > r\n"),
    ("root-left-in-33-bits", *root_with("trial * trial <= n", "trial * trial - r * r <= (n - r * r) % (1 << 33 + 2 * place)")),
)

ROUNDING = (
    ("scale", "E = 1 << 30", "E = 1 << 29"),
    ("near-half-away", HALF, "return below + (a > 0)"),
    ("near-half-to-zero", HALF, "return below + (a < 0)"),
    ("near-half-up", HALF, "return below + 1"),
    ("near-half-down", HALF, "return below"),
    ("near-half-to-odd", HALF, "return below if below % 2 == 1 else below + 1"),
    ("near-half-away-above-zero", HALF, HALF.replace("below %", "a < 0 and below %")),
    ("near-half-away-below-zero", HALF, HALF.replace("below %", "a < 0 or below %")),
    ("near-half-by-parity-of-a", HALF, HALF.replace("below % 2", "a % 2")),
    ("near-cut", "    return below if 2 * left < b else below + 1", "    return below"),
    ("near-by-zero", "if b == 0:\n        return 0", "if b == 0:\n        return a"),
    ("root-square-low", TRY + HELD, TRY.replace("<=", "<")),
    *ROOT,
    ("root-not-held", HELD, "", "the line only holds the root against the library's own, and it always agrees"),
    ("infinity-far", "return NOT_FINITE", "return NOT_FINITE if parts(bits)[2] else FAR"),
    ("hidden-bit-always", "fraction if field == 0 else fraction | (1 << 52)", "fraction | (1 << 52)",
     "a denormal is under 2^-1021 with or without the hidden bit, and rounds to 0"),
    ("double-scale", "max(field, 1) - 1075", "max(field, 1) - 1076"),
    ("double-sign", "    if sign:\n", "    if sign and field > 1022:\n"),
    ("whole-half-away", OF_DOUBLE, half_away("ratio(bits)[0]", "ratio(bits)[1]")[1]),
    ("whole-half-to-zero", OF_DOUBLE, half_to_zero("ratio(bits)[0]", "ratio(bits)[1]")[1]),
    ("whole-half-up", OF_DOUBLE, half_up("ratio(bits)[0]", "ratio(bits)[1]")[1]),
    ("far-limit-itself", "abs(value) > E", "abs(value) >= E"),
    ("far-before-rounding", "FAR if abs(value) > E", "FAR if abs(ratio(bits)[0]) > E * ratio(bits)[1]"),
)

UNITS = (
    ("metre", "1_461_000_000", "1_461_000_001"),
    ("tenth-mm", "146_100", "146_000"),
    ("minus-reversed", "p - q", "q - p"),
    ("within-least-out", "-limit <= v <= limit", "-limit < v <= limit"),
    ("within-most-out", "-limit <= v <= limit", "-limit <= v < limit"),
)

MARK = (
    ("mark-least-less", "6_300_000", "6_299_999"),
    ("mark-most-more", "6_400_000", "6_400_001"),
    ("mark-squares", "L_LEAST <= length(mark) <= L_MOST", "L_LEAST**2 <= sum(m * m for m in mark) <= L_MOST**2"),
    ("unit-cut", *cut("m * E", "size")),
    ("unit-exact-length", "near(m * E, size)", "near(m * E << 40, root(sum(v * v for v in mark) << 80))"),
    *LATITUDE_STEPS,
)

PERMANENT = (
    ("radial-digit", "176_196_600", "176_196_601"),
    ("north-digit", "36_817_200", "36_817_201"),
    ("slope-digit", "146_100", "146_101"),
    *of_one("shift", "s2, p = latitude(uz)", "s2 = near(uz * uz, E)\n    p = near(3 * s2 - E, 2)"),
    *halves("e", "SLOPE * p", "E"),
    *halves("A", "(e - RADIAL) * p", "E"),
    ("A-sign-of-e", "(e - RADIAL) * p", "(-e - RADIAL) * p"),
    ("T-sign-of-e", "-NORTH - e", "-NORTH + e"),
    *halves("w", "t * s2", "E", to_zero="of all uz from 0 to E only seven give a half, each with an even whole part: it goes towards zero by the rule"),
    ("T-once", "flat + 2 * t", "flat + t"),
    *halves("shift-x", "flat * ux", "E"),
    *halves("shift-y", "flat * uy", "E"),
    *halves("shift-z", "(flat + 2 * t) * uz", "E"),
)
