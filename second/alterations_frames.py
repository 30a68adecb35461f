"""The altered versions of the frame rows, for second/altered.py; alterations.py says what a row is.

Most are made from the table: each printed number of codes 3 to 11 a unit of its last digit greater, and neighbouring frames with each other's rows.
"""

from decimal import Decimal

from alterations import half_away, half_to_zero, half_up, halves
from frames import TABLE

LINES = TABLE.splitlines(keepends=True)
BOTH = [first + second for first, second in zip(LINES[::2], LINES[1::2])]  # the two lines of each frame, which stand once
COLUMNS = ("T1", "T2", "T3", "D", "R1", "R2", "R3")
EQUAL = "ITRF97, ITRF96 and ITRF94 have the same row"


def a_unit_more(line, place):
    """A printed line with one number a unit of its last digit greater."""
    words = line.split()
    number = Decimal(words[place])
    words[place] = str(number + Decimal((0, (1,), number.as_tuple().exponent)))
    return " ".join(words) + "\n"


def table_digits():
    for both in BOTH[2:]:
        first, second = both.splitlines(keepends=True)
        name = first.split()[0].replace("ITRF", "frame-")
        for place, column in enumerate(COLUMNS, 1):
            yield f"{name}-{column}", both, a_unit_more(first, place) + second
            yield f"{name}-{column}-rate", both, first + a_unit_more(second, place)


def table_swaps():
    """Neighbouring codes with each other's rows."""
    for code, (first, second) in enumerate(zip(BOTH, BOTH[1:]), 1):
        yield f"frames-{code}-{code + 1}-swapped", first + second, second + first, EQUAL if code in (3, 4) else ""


TURNS = (("r2 * z", " - r3 * y"), ("r3 * x", " - r1 * z"), ("r1 * y", " - r2 * x"))  # s, in x, y and z


def other_sign(term):
    return term.replace("-", "+") if "-" in term else "-" + term


def turns():
    """Each term of s: its sign, another rotation, another component of the mark."""
    for terms in TURNS:
        for n, term in enumerate(terms):
            name, old = term.strip(" -").replace(" * ", "-"), "".join(terms)
            yield f"turn-{name}-sign", old, old.replace(term, other_sign(term))
            for letters in ("r1", "r2", "r3"), ("x", "y", "z"):
                used = next(letter for letter in letters if letter in term.split())
                for letter in letters:
                    if letter != used:
                        yield f"turn-{name}-by-{letter}", old, old.replace(term, term.replace(used, letter))


ROUND_A, ROUND_B = ("1_461 * n", "10**14"), ("n", "10**14")
SUM_A, SUM_B = "near(1_461 * n, 10**14) for t, n in zip(at.t, moved(at, mark))", "near(n, 10**14) for t, n in zip(rates.t, moved(rates, mark))"
AT, RATES = "at = ROWS[frame].at\n", "rates = ROWS[frame].rates\n"


def twice(name, text, line):
    """Each of the three terms rounded by itself; D and the rotations rounded apart; n/10^9 rounded first."""
    moved, rounded = f"moved({line}, mark)", text.split(" for t")[0]

    def parts(found):
        """The sum of n's parts, each rounded by itself."""
        return text.replace(rounded, f"sum({rounded} for n in parts)").replace("for t, n in", "for t, *parts in").replace(moved, found)

    yield f"{name}-each-term-rounded", text, parts(f"*(moved({line}, [m * (k == j) for k, m in enumerate(mark)]) for j in range(3))")
    yield f"{name}-rotation-rounded-apart", text, parts(f"moved({line}._replace(r=ZERO), mark), moved({line}._replace(d=0), mark)")
    yield f"{name}-billions-rounded", text, text.replace("n, 10**14", "near(n, 10**9), 10**5")


def other_units(name, line):
    """The unit with a last digit one more, and one less, in this row alone."""
    moved = f"moved({line}, mark)"
    yield f"{name}-unit-more", moved, f"plus({moved}, turned({line}.r, mark))"
    yield f"{name}-unit-less", moved, f"minus({moved}, turned({line}.r, mark))"


def rates_dropped():
    for k in range(3):
        yield f"row-b-without-R{k + 1}", RATES, RATES + f"    rates = rates._replace(r=tuple(r * (k != {k}) for k, r in enumerate(rates.r)))\n"
        yield f"row-a-without-R{k + 1}", AT, AT + f"    at = at._replace(r=tuple(r * (k != {k}) for k, r in enumerate(at.r)))\n"


def turned_halves(name, a, b, line):
    """The halves of frames with rotation by another rule; a and b as in halves."""
    for kind, rule in (("away", half_away), ("to-zero", half_to_zero), ("up", half_up)):
        old, new = rule(a, b)
        yield f"{name}-turned-half-{kind}", old, f"({new} if any({line}.r) else {old})"


EVEN = "what T adds is an even whole number, so a half goes to the same neighbour"

FRAMES = (
    ("frame-2005-T-x", "ITRF2005 -2.0 ", "ITRF2005 -2.1 "),
    ("frame-2005-T-y", "ITRF2005 -2.0 -0.9 ", "ITRF2005 -2.0 0.9 "),
    ("frame-2005-T-z", "-4.7 0.94", "-4.6 0.94"),
    ("frame-2005-D", "0.94 ", "0.95 "),
    ("frame-2005-T-rate", "rates 0.3 ", "rates 0.2 "),
    ("frame-2005-D-rate", "0.3 0.0 0.0 0.00", "0.3 0.0 0.0 0.01"),
    ("frame-2000-T", "-10.5 ", "-10.4 "),
    ("frame-2000-D", "1.34 ", "1.33 "),
    ("frame-2000-T-rate", "0.1 0.1 -1.8", "0.1 0.0 -1.8"),
    ("frame-2000-D-rate", "0.08 ", "0.09 "),
    ("frame-2000-R3", "1.34 0.00 0.00 0.00", "1.34 0.00 0.00 0.01"),
    ("frame-2008-D", "NOTHING = Line(ZERO, 0,", "NOTHING = Line(ZERO, 1,"),
    *table_digits(),
    *table_swaps(),
    ("frames-oldest-first", "*rows(TABLE))", "*list(rows(TABLE))[::-1])"),
    ("frame-12-known", "return frame in ROWS", "return 0 <= frame <= 12"),
    ("frame-11-refused", "return frame in ROWS", "return 0 <= frame <= 10"),
    ("frame-3-refused", "return frame in ROWS", "return frame in ROWS and frame != 3"),
    ("frames-from-3-refused", "return frame in ROWS", "return 0 <= frame <= 2"),
    ("unit-more", "4_848_136_811", "4_848_136_812"),
    ("unit-less", "4_848_136_811", "4_848_136_810"),
    ("unit-by-pi", "4_848_136_811", '__import__("fractions").Fraction(484_813_681_109_536, 10**5)'),
    *turns(),
    ("turns-the-other-way", "+ UNIT * s", "- UNIT * s"),
    ("D-the-other-way", "10**9 * found.d * m", "-10**9 * found.d * m"),
    *rates_dropped(),
    *halves("row-a", *ROUND_A),
    ("row-a-half-up", *half_up(*ROUND_A)),
    *turned_halves("row-a", *ROUND_A, "at"),
    ("row-a-rounded-first", "near(1_461 * n, 10**14)", "1_461 * near(n, 10**14)"),
    ("row-a-T-inside", "146_100 * t + near(1_461 * n, 10**14)", "near(146_100 * t * 10**14 + 1_461 * n, 10**14)", EVEN),
    ("row-a-T-in-mm", "146_100 * t", "1_461_000 * t"),
    ("row-a-T-turned", "moved(at, mark)", "moved(at, plus(mark, times(at.t, 1_000)))"),
    *twice("row-a", SUM_A, "at"),
    *other_units("row-a", "at"),
    *halves("row-b", *ROUND_B),
    ("row-b-half-up", *half_up(*ROUND_B)),
    *turned_halves("row-b", *ROUND_B, "rates"),
    ("row-b-T-inside", "100 * t + near(n, 10**14)", "near(100 * t * 10**14 + n, 10**14)", EVEN),
    *twice("row-b", SUM_B, "rates"),
    *other_units("row-b", "rates"),
    ("row-b-of-A", RATES, "rates = ROWS[frame].at\n"),
    ("position-gain-back", "at_epoch(new, mark, epoch), at_epoch(old, mark, epoch)", "at_epoch(old, mark, epoch), at_epoch(new, mark, epoch)"),
    ("position-gain-new-at-2000", "at_epoch(new, mark, epoch)", "row_a(new, mark)"),
    ("position-gain-old-at-2000", "at_epoch(old, mark, epoch)", "row_a(old, mark)"),
    ("velocity-gain-back", "row_b(new, mark), row_b(old, mark)", "row_b(old, mark), row_b(new, mark)"),
)
