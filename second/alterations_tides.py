"""The altered versions of the bodies, the solid tide and the series, for second/altered.py; alterations.py says what a row is."""

from alterations import cut, half_away, half_to_zero, half_up, halves, of_one, swap

# judge's three tests, in the order of the paper.
NAN = "    if NOT_FINITE in moon + sun:\n        return 10, None, None\n"
LONG = "    if FAR in moon + sun:\n        return 11, None, None\n"
MOON_FIRST = "    if NOT_FINITE not in moon and (FAR in moon or not in_range(MOON, moon)):\n        return 11, None, None\n"

BODIES = (
    ("moon-reference", "384_400_000", "384_400_001"),
    ("sun-reference", "149_597_870", "149_597_871"),
    ("moon-least", "350_000_000", "350_000_001"),
    ("moon-most", "410_000_000", "410_000_001"),
    ("sun-least", "146_000_000", "145_999_999"),
    ("sun-most", "153_000_000", "152_999_999"),
    ("earth-radius", "63_781_366", "63_781_365"),
    ("moon-ratio", "123_000_371", "123_000_372"),
    ("sun-GM", "132_712_442_099", "132_712_443_099"),
    ("sun-GM-last-digit", "132_712_442_099", "132_712_442_098", "K0 of the Sun, the only number made of it, rounds to the same grain"),
    ("earth-GM", "398_600_441_800_000", "398_600_442_800_000"),
    ("K0-cut", *cut("value.numerator", "value.denominator")),
    ("K0-radius-power", "RE**(degree + 2)", "RE**4"),
    ("K0-distance-power", "**(degree + 1)", "**3"),
    ("third-K0-more", "K0_3 = rounded_k0(MOON, 3)", "K0_3 = rounded_k0(MOON, 3) + 1"),
    ("third-K0-less", "K0_3 = rounded_k0(MOON, 3)", "K0_3 = rounded_k0(MOON, 3) - 1"),
    ("third-K0-of-the-sun", "K0_3 = rounded_k0(MOON, 3)", "K0_3 = rounded_k0(SUN, 3)"),
    ("third-K0-from-degree-two", "K0_3 = rounded_k0(MOON, 3)", "K0_3 = near(K0[MOON] * 63_781_366, 10 * R0[MOON])",
     "K0 of degree two, rounded, times Re / R0 rounds to the same grain"),
    ("distance-nearest", "root(sum(v * v for v in vector))", "near(root(4 * sum(v * v for v in vector)), 2)"),
    ("range-by-squares", "least <= distance(vector) <= most", "least**2 <= sum(v * v for v in vector) <= most**2"),
    ("11-before-10", *swap(NAN, LONG)),
    ("moon-11-before-sun-10", NAN, MOON_FIRST + NAN),
    ("sun-11-before-moon-10", NAN, MOON_FIRST.replace("moon", "sun").replace("MOON", "SUN") + NAN),
    ("two-moons", "{first[0], second[0]} != {MOON, SUN}", "first[0] == second[0] == SUN"),
    ("bodies-as-they-come", "if first[0] == MOON else (0, second[1], first[1])", "if first[0] >= MOON else (0, second[1], first[1])"),
)

# The last step of a component, for both degrees; in part it is made for the third by itself.
ALONG = "s.c * s.u[i]", "E"
ACROSS = "t * (s.d[i] - near(s.c * s.u[i], E))"
COMPONENT = f"rho * s.u[i] + {ACROSS}"
ADDED = "plus(two, displaced(s, *degree_three(s)))"


def third(component):
    """The third degree with another last step."""
    return "displaced(s, *degree_three(s))", f"tuple({component} for rho, t in (degree_three(s),) for i in range(3))"


THIRD = (
    ("third-q4-cut", *cut("s.q3 * s.q", "E")),
    *halves("third-q4", "s.q3 * s.q", "E", *["of all accepted distances only 377,637,789 m gives a half, and K is the same by either"] * 2),
    ("third-q4-is-q3", "q4 = near(s.q3 * s.q, E)", "q4 = s.q3"),
    ("third-q4-is-q5", "near(s.q3 * s.q, E)", "near(near(s.q3 * s.q, E) * s.q, E)"),
    ("third-q4-from-q2", "near(s.q3 * s.q, E)", "near(near(s.q * s.q, E)**2, E)"),
    ("third-q4-at-once", "near(s.q3 * s.q, E)", "near(s.q**4, E**3)"),
    ("third-K-cut", *cut("K0_3 * q4", "E")),
    *halves("third-K", "K0_3 * q4", "E", *["no accepted distance gives a half"] * 2),
    ("third-c3-cut", *cut("s.c2 * s.c", "E")),
    *halves("third-c3", "s.c2 * s.c", "E"),
    ("third-c3-half-up", *half_up("s.c2 * s.c", "E")),
    ("third-c3-at-once", "near(s.c2 * s.c, E)", "near(s.c**3, E**2)"),
    ("third-c3-is-c2", "c3 = near(s.c2 * s.c, E)", "c3 = s.c2"),
    ("third-c3-is-c", "c3 = near(s.c2 * s.c, E)", "c3 = s.c"),
    ("third-c3-no-sign", "s.c2 * s.c,", "s.c2 * abs(s.c),"),
    *halves("third-p", "5 * c3 - 3 * s.c", "2"),
    ("third-p-half-up", *half_up("5 * c3 - 3 * s.c", "2")),
    ("third-p-not-rounded", "near(near(292 * k, 1_000) * p, E)", "near(near(292 * k, 1_000) * (5 * c3 - 3 * s.c), 2 * E)"),
    ("third-p-4-c3", "5 * c3", "4 * c3"),
    ("third-p-6-c3", "5 * c3", "6 * c3"),
    ("third-p-2-c", "c3 - 3 * s.c", "c3 - 2 * s.c"),
    ("third-p-4-c", "c3 - 3 * s.c", "c3 - 4 * s.c"),
    ("third-p-sign", "c3 - 3 * s.c", "c3 + 3 * s.c"),
    *halves("third-v", "15 * s.c2 - 3 * E", "2"),
    ("third-v-half-up", *half_up("15 * s.c2 - 3 * E", "2")),
    ("third-v-not-rounded", "near(near(15 * k, 1_000) * v, E)", "near(near(15 * k, 1_000) * (15 * s.c2 - 3 * E), 2 * E)"),
    ("third-v-14-c2", "15 * s.c2", "14 * s.c2"),
    ("third-v-16-c2", "15 * s.c2", "16 * s.c2"),
    ("third-v-2-E", "3 * E", "2 * E"),
    ("third-v-4-E", "3 * E", "4 * E"),
    ("third-v-of-c", "15 * s.c2", "15 * s.c"),
    ("third-v-of-c3", "15 * s.c2", "15 * c3"),
    ("third-h-more", "292 *", "293 *"),
    ("third-h-less", "292 *", "291 *"),
    *halves("third-H", "292 * k", "1_000"),
    ("third-H-from-K0", "near(292 * k, 1_000)", "near(292 * K0_3 * q4, 1_000 * E)"),
    ("third-H-not-rounded", "near(near(292 * k, 1_000) * p, E)", "near(292 * k * p, 1_000 * E)"),
    ("third-l-more", "15 * k", "16 * k"),
    ("third-l-less", "15 * k", "14 * k"),
    *halves("third-S", "15 * k", "1_000"),
    ("third-S-from-K0", "near(15 * k, 1_000)", "near(15 * K0_3 * q4, 1_000 * E)"),
    ("third-S-not-rounded", "near(near(15 * k, 1_000) * v, E)", "near(15 * k * v, 1_000 * E)"),
    *halves("third-rho", "near(292 * k, 1_000) * p", "E"),
    ("third-rho-half-up", *half_up("near(292 * k, 1_000) * p", "E")),
    *halves("third-t", "near(15 * k, 1_000) * v", "E"),
    ("third-t-half-up", *half_up("near(15 * k, 1_000) * v", "E")),
    ("third-t-thrice", "t = near(near(15 * k, 1_000) * v, E)", "t = 3 * near(near(15 * k, 1_000) * v, E)"),
    ("third-t-as-in-degree-two", "near(near(15 * k, 1_000) * v, E)", "near(near(15 * k, 1_000) * s.c, E)"),
    *((f"third-along-{row.__name__.replace('_', '-')}", *third(f"near({COMPONENT.replace(*row(*ALONG))}, E)")) for row in (half_away, half_to_zero)),
    *((f"third-part-{row.__name__.replace('_', '-')}", *third(row(COMPONENT, "E")[1])) for row in (half_away, half_to_zero)),
    ("third-part-half-up", *third(half_up(COMPONENT, "E")[1])),
    ("third-part-twice-rounded", *third(f"near(rho * s.u[i], E) + near({ACROSS}, E)")),
    ("third-along-not-rounded", *third("near(E * rho * s.u[i] + t * (E * s.d[i] - s.c * s.u[i]), E * E)")),
    ("third-part-along-left-in", *third("near(rho * s.u[i] + t * s.d[i], E)")),
    ("third-radial-along-body", *third(f"near(rho * s.d[i] + {ACROSS}, E)")),
    ("third-radial-only", *third("near(rho * s.u[i], E)")),
    ("third-across-only", *third(f"near({ACROSS}, E)")),
    ("third-added-before-rounding", ADDED, "displaced(s, *plus(degree_two(label, s), degree_three(s)))"),
    ("third-taken-away", ADDED, "tuple(a - b for a, b in zip(two, displaced(s, *degree_three(s))))"),
    ("third-twice", ADDED, "plus(two, plus(*[displaced(s, *degree_three(s))] * 2))"),
    ("third-left-out", f"return {ADDED} if label == MOON else two", "return two"),
    ("third-of-both", f"{ADDED} if label == MOON else two", ADDED),
    ("third-of-the-sun", f"{ADDED} if label == MOON else two", f"{ADDED} if label == SUN else two"),
    ("third-of-the-sun-by-its-own-K0", f"{ADDED} if label == MOON else two",
     f"{ADDED} if label == MOON else plus(two, (near(a * __import__('bodies').rounded_k0(SUN, 3), K0_3) for a in displaced(s, *degree_three(s))))"),
)

# P of the mark where the tide takes it, and the scale of h and l.
LAT, SCALE = "latitude(u[2])[1]", "10_000 * E"
FRACTION = "__import__('fractions').Fraction"

# Another P for the tide.
OTHER_P = (
    ("left-out", "0"),
    ("of-ux", "latitude(u[0])[1]"),
    ("of-uy", "latitude(u[1])[1]"),
    ("of-the-body", "latitude(d[2])[1]"),
    ("of-the-cosine", "latitude(c)[1]"),
    ("of-geodetic-latitude", "(lambda flat: near((2 * mark[2]**2 - flat) * E, 2 * (mark[2]**2 + flat)))"
     f"({FRACTION}(99_330_562, 10**8)**2 * (mark[0]**2 + mark[1]**2))"),
    ("by-cos-squared", "near(3 * (E - latitude(u[2])[0]) - E, 2)"),
    ("is-sin", "u[2]"),
    ("is-s2", "latitude(u[2])[0]"),
    ("twice", f"2 * {LAT}"),
    ("half", f"near({LAT}, 2)"),
    ("2-s2", "near(2 * latitude(u[2])[0] - E, 2)"),
    ("4-s2", "near(4 * latitude(u[2])[0] - E, 2)"),
    ("2-E", "near(3 * latitude(u[2])[0] - 2 * E, 2)"),
    ("no-E", "near(3 * latitude(u[2])[0], 2)"),
    ("not-scaled", f"near({LAT}, E)"),
    ("scaled-twice", f"{LAT} * E"),
    ("sign", f"-{LAT}"),
    ("size", f"abs({LAT})"),
    ("only-above-zero", f"max({LAT}, 0)"),
    ("only-below-zero", f"min({LAT}, 0)"),
    ("only-in-the-north", f"{LAT} * (u[2] >= 0)"),
    ("only-in-the-south", f"{LAT} * (u[2] <= 0)"),
    ("only-of-the-moon", f"{LAT} * (label == MOON)"),
    ("only-of-the-sun", f"{LAT} * (label == SUN)"),
    ("by-e", f"near(near(146_100 * {LAT}, E) * E, 146_100)"),
    ("P-at-once", "near(3 * u[2]**2 - E**2, 2 * E)"),
    ("P-at-once-from-the-mark", "near((3 * mark[2]**2 - sum(m * m for m in mark)) * E, 2 * sum(m * m for m in mark))"),
    ("P-not-rounded", f"{FRACTION}(3 * latitude(u[2])[0] - E, 2)"),
    ("P-and-s2-not-rounded", f"{FRACTION}(3 * u[2]**2 - E**2, 2 * E)"),
    ("more", f"{LAT} + 1"),
    ("less", f"{LAT} - 1"),
)


def slope(name, sign, turned, own, *others):
    """h or l with another factor of P, with none, with the sign turned, and of one body only."""
    old = f"{sign} {own} * s.lat"
    yield f"{name}-latitude-left-out", old, ""
    yield f"{name}-latitude-sign", old, f"{turned} {own} * s.lat"
    yield from ((f"{name}-latitude-{other}", old, f"{sign} {other} * s.lat") for other in others)
    yield from ((f"{name}-latitude-only-of-the-{body.lower()}", old, f"{old} * (label == {body})") for body in ("MOON", "SUN"))


def scaled(digits, sign, factor):
    """h or l scaled, exact."""
    return f"({digits} * E {sign} {factor} * s.lat)"


LOVE, SHIDA = ("6_078", "-", 6), ("847", "+", 2)
H, S = (f"near({scaled(*found)} * k, {SCALE})" for found in (LOVE, SHIDA))


def love_or_shida(name, after, digits, sign, factor):
    """H or S made in other ways; `after` is what it is multiplied by in the next step."""
    exact = scaled(digits, sign, factor)
    product = f"{exact} * k"
    rounded = f"near({product}, {SCALE})"
    return (
        *halves(name, product, SCALE),
        (f"{name}-half-up", *half_up(product, SCALE)),
        (f"{name}-cut", *cut(product, SCALE)),
        (f"{name}-not-rounded", f"near({rounded} * {after}, E)", f"near({product} * {after}, E * {SCALE})"),
        (f"{name}-rounded-twice", rounded, f"(near({digits} * k, 10_000) {sign} near({factor} * s.lat * k, {SCALE}))"),
        (f"{name}-latitude-cut", rounded, f"(near({digits} * k, 10_000) {sign} {factor} * s.lat * k // ({SCALE}))"),
        (f"{name}-latitude-of-rounded-P-K", rounded, f"near({digits} * k {sign} {factor} * near(s.lat * k, E), 10_000)"),
        (f"{name}-rounded-before-K", rounded, f"near(near({exact}, 10_000) * k, E)"),
        (f"{name}-rounded-to-ten-thousandths", rounded, f"near(near({exact}, E) * k, 10_000)"),
        (f"{name}-of-K0", rounded, rounded.replace("* k", "* K0[label]")),
        (f"{name}-latitude-of-K0", rounded, f"near({digits} * E * k {sign} {factor} * s.lat * K0[label], {SCALE})"),
        (f"{name}-from-K0", rounded, f"near({exact} * K0[label] * s.q3, E * {SCALE})"),
    )


LATITUDE = (
    *((f"lat-{name}", LAT, new) for name, new in OTHER_P),
    *of_one("lat", LAT, "(lambda uz: (lambda s2: near(3 * s2 - E, 2))(near(uz * uz, E)))(u[2])"),
    *slope("h", "-", "+", 6, 7, 5, 2, 60),
    *slope("l", "+", "-", 2, 3, 1, 6, 20),
    *love_or_shida("H", "p", *LOVE),
    *love_or_shida("S", "s.c", *SHIDA),
    ("latitude-rounded-by-itself", "displaced(s, *degree_two(label, s))",
     "plus(*(displaced(s, *found) for bare in (degree_two(label, s._replace(lat=0)),)"
     " for found in (bare, tuple(a - b for a, b in zip(degree_two(label, s), bare)))))"),
    ("third-h-with-latitude", "near(292 * k, 1_000)", f"near((2_920 * E - 6 * s.lat) * k, {SCALE})"),
    ("third-l-with-latitude", "near(15 * k, 1_000)", f"near((150 * E + 2 * s.lat) * k, {SCALE})"),
)

SOLID = (
    ("q-cut", *cut("R0[label] * E", "r")),
    ("q2-cut", *cut("q * q", "E")),
    ("q3-cut", *cut("q2 * q", "E")),
    ("K-cut", *cut("K0[label] * s.q3", "E")),
    ("direction-cut", *cut("v * E", "r")),
    *halves("c", "sum(a * b for a, b in zip(u, d))", "E"),
    ("c2-cut", *cut("c * c", "E")),
    *halves("p", "3 * s.c2 - E", "2"),
    ("p-half-up", *half_up("3 * s.c2 - E", "2")),
    ("p-of-the-mark", "near(3 * s.c2 - E, 2)", "s.lat"),
    ("h-more", "(6_078 *", "(6_079 *"),
    ("h-less", "(6_078 *", "(6_077 *"),
    ("l-more", "(847 *", "(848 *"),
    ("l-less", "(847 *", "(846 *"),
    *LATITUDE,
    *halves("rho", f"{H} * p", "E"),
    *halves("t", f"{S} * s.c", "E"),
    ("t-three-inside", f"3 * near({S} * s.c, E)", f"near(3 * {S} * s.c, E)"),
    *halves("along", *ALONG),
    *halves("part", COMPONENT, "E"),
    ("radial-along-body", "rho * s.u[i]", "rho * s.d[i]"),
    *THIRD,
    ("sun-as-moon", "part(mark, SUN, sun)", "part(mark, MOON, sun)"),
    ("10-before-17", "    return (number, ZERO) if number else ordered_tide",
     "    if number and judge(first[1], second[1])[0] == 10:\n        number = 10\n    return (number, ZERO) if number else ordered_tide"),
)


def less_third(room, mark, doubles):
    """Lines that take the third degree off `tide` again; doubles are the Moon's and the Sun's."""
    lines = ("import solid", f"s = solid.stand({mark}, solid.MOON, solid.judge({doubles})[1])",
             "tide = tuple(a - b for a, b in zip(tide, solid.displaced(s, *solid.degree_three(s))))")
    return "".join(f"{room}{line}\n" for line in lines)


def less_latitude(room, mark, doubles):
    """The same for what latitude brings, of both bodies."""
    lines = ("import solid", f"for label, body in enumerate(solid.judge({doubles})[1:]):", f"    s = solid.stand({mark}, label, body)",
             "    whole, bare = (solid.displaced(s, *solid.degree_two(label, found)) for found in (s, s._replace(lat=0)))",
             "    tide = tuple(a - b + c for a, b, c in zip(tide, whole, bare))")
    return "".join(f"{room}{line}\n" for line in lines)


LESS = (("third", less_third), ("latitude", less_latitude))
FOUND = "        found += tide\n"
MARK_TEST = "    if not good_mark(mark):\n        return 6, 0, numbers\n    rows = len(doubles) // 6\n"
FIT = "    if len(doubles) != 6 * rows or len(numbers) != 3 * rows:\n        return 16, 0, numbers\n"
BAD_ROW = "    for row in range(rows):\n        number = ordered_tide(mark, doubles[6 * row:6 * row + 3], doubles[6 * row + 3:6 * row + 6])[0]\n"

SERIES = (
    ("16-before-6", MARK_TEST + FIT, "    rows = len(doubles) // 6\n" + FIT + MARK_TEST),
    ("bad-row-before-16", FIT, BAD_ROW + "        if number:\n            return number, row, numbers\n" + FIT),
    ("10-of-a-later-row", FIT, FIT + BAD_ROW + "        if number == 10:\n            return number, row, numbers\n"),
    ("series-short-run", "len(numbers) != 3 * rows", "len(numbers) < 3 * rows"),
    ("series-odd-doubles", "len(doubles) != 6 * rows or ", ""),
    ("series-none-refused", "len(doubles) != 6 * rows or", "rows == 0 or len(doubles) != 6 * rows or"),
    ("series-sun-first", "six[:3], six[3:]", "six[3:], six[:3]"),
    *((f"series-without-{name}", FOUND, less("        ", "mark", "six[:3], six[3:]") + FOUND) for name, less in LESS),
    ("bad-row-from-1", "return number, row, numbers", "return number, row + 1, numbers"),
    ("bad-row-writes", "return number, row, numbers", "return number, row, found + numbers[len(found):]"),
    ("rows-beside-16", "return 16, 0, numbers", "return 16, rows, numbers"),
)
