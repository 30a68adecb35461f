"""Writes crates/laws/proofs/FormulaCases.antt from the second program's exact fractions (second/exact.py).

    python3 second/make_cases.py > crates/laws/proofs/FormulaCases.antt
"""
import math
from fractions import Fraction

import bodies
import exact
import mark
from distances import squares
from rounding import root

SCALE = 10**9
THOUSANDTH = Fraction(1, 1_000)  # metres, kilometres for the Sun
# name, mark (m), Moon (m), Sun (km)
CASES = [
    ("equator", (6378137, 0, 0), (384400000, 0, 0), (149597870, 0, 0)),
    ("pole", (0, 0, 6356752), (200000000, -250000000, 170000000), (-100000000, 90000000, 60000000)),
    ("east", (4075578, 931853, 4801570), (-179996232, -312468450, -169288919), (137859927, 54228128, 23509422)),
    ("west", (1130000, -4830000, 3994000), (300396717, 243238281, 120548076), (-54537460, 130244288, 56463429)),
    ("south", (-2000000, 5300000, -2900000), (0, 0, 350000000), (-1, 146000000, -2)),
]


def number(n):
    return f"(pos {n})" if n >= 0 else f"(neg_ℤ (pos {-n}))"


def vec(v):
    return "vec " + " ".join(number(n) for n in v)


def floors(v):
    return tuple(math.floor(x * SCALE) for x in v)


def wholes(case):
    return tuple(map(bodies.distance, case[1:]))


def real(vector):
    """Next to the real distance, not above it."""
    n = squares(vector)
    at = root(n * 10**6) * THOUSANDTH
    assert at**2 <= n < (at + THOUSANDTH)**2
    return at


def half(vector):
    return bodies.distance(vector) + Fraction(1, 2)


def under(vector):
    """Just under one more."""
    return bodies.distance(vector) + 1 - THOUSANDTH


# the case's name, what its statements' names end in, what they are at, and how the distances of mark, Moon and Sun are taken
OTHERS = [
    ("east", "real", "next to the real distances", (real, real, real)),
    ("west", "mixed", "the mark's a half more than the whole one, the Moon's next to the real one, the Sun's just under one more", (half, real, under)),
    ("south", "under", "all just under one more", (under, under, under)),
]


def others(case, ways):
    """Distances in reach of the whole ones, and none of them whole."""
    found = tuple(way(vector) for way, vector in zip(ways, case[1:]))
    for at, whole in zip(found, wholes(case)):
        assert whole <= at < whole + 1 and at != whole
    return found


def wholly(at):
    return f"(wholly {at} (lit< tt))"


def thousandths(at):
    top = at / THOUSANDTH
    assert top.denominator == 1
    return f"(thousandths {top} (lit< tt))"


out = []
p = out.append


def statement(name, formula, value):
    """That a formula gives a value, rounded down."""
    p(f"""pub {name} :
    floors ({formula})
    ≡ {vec(floors(value))}
unfolding floors
{name} = refl
""")


def permanent(case, distances, written, ending=""):
    name, m, _, _ = case
    size = distances[0]
    statement(f"permanent-{name}{ending}", f"permanent_formula {name} {written(size)}", exact.permanent(m, size))


def solid(case, distances, written, ending=""):
    name, *vectors = case
    size, r, s = map(written, distances)
    statement(f"solid-{name}{ending}", f"solid_formula {name} {size} {name}-moon {r} {name}-sun {s}", exact.tide(*vectors, *distances))


p("""-- The formulas at five marks and five pairs of bodies, to be held against another program: each component of the exact fraction in
-- billionths of a grain, rounded down.
--
-- second/exact.py of the second program gives the same numbers: floor(x * 10**9) for x in permanent(mark, l), and in
-- tide(mark, moon, sun, l, r, s). The distances l, r and s are the whole ones; at three of the marks there are also statements at others.
use mathlib.Core.Path.{◌≡◌, refl, sym}
use Prim.Native.Nat.{ℕ, ◌+◌, ◌*◌, ◌/◌, ◌^◌, ◌<◌}
use lib.Dec.{T, leb, ltb, leb→le, ltb→lt, lit<}
use lib.IntN.{ℤ, pos, negsuc, neg_ℤ}
use Rattle.algebra.specs.Fraction.{Fraction, Positive, whole, ratio, wholly, ◌+ᶠ◌, ◌-ᶠ◌, ◌*ᶠ◌, ◌·ᶠ◌, ◌/ᶠ◌, ◌÷ᶠ◌}
use Rattle.numbers.proofs.RootLaws.{root-same}
use Rattle.mark.specs.declared.Vec3.{Vec3}
use Rattle.mark.specs.Mark.{vec, squares, length_of}
use Rattle.laws.specs.Formulas.{Vector, dot, P2, P3, slope3, radial, north, Re, strength_at, strength_three_at, h2, l2, h3, l3}
use Rattle.laws.specs.Formulas.{permanent_formula, solid_formula}

-- ---- the inputs
""")
for kind, unit, at in (("", "metres", 1), ("-moon", "metres", 2), ("-sun", "kilometres", 3)):
    p(f"-- {'marks' if not kind else kind[1:].capitalize() + 's'}, {unit}")
    for case in CASES:
        name = case[0] + kind
        p(f"abbrev pub {name} : Vec3\n{name} = {vec(case[at])}\n")
p("""-- their whole lengths, by what a root is
is-length : (v : Vec3) (l : ℕ) → T (leb (l * l) (squares v)) → T (ltb (squares v) ((l + 1) * (l + 1))) → length_of v ≡ l
unfolding length_of
is-length v l a b = sym (root-same (squares v) l (record { below = leb→le (l * l) (squares v) a; above = ltb→lt (squares v) ((l + 1) * (l + 1)) b }))
""")
for kind, title, at in (("", "marks", 1), ("-moon", "moons", 2), ("-sun", "suns", 3)):
    p(f"pub {title}-lengths :")
    for i, case in enumerate(CASES):
        p(f"    {'× ' if i else ''}(length_of {case[0]}{kind} ≡ {mark.length(case[at])})")
    p("unfolding squares")
    p(f"{title}-lengths = (")
    for case in CASES:
        p(f"  is-length {case[0]}{kind} {mark.length(case[at])} tt tt,")
    p(")\n")
p("""-- ---- rounding down

-- n/d rounded down; of a negative number -(n + 1), one below -(n/d rounded down)
unfoldable pub down : ℤ → ℕ → ℤ
down (pos n) d = pos (n / d)
down (negsuc n) d = negsuc (n / d)

unfoldable pub billionths : Fraction → ℤ
unfolding ◌·ᶠ◌
billionths X = down (pos (10 ^ 9) ·ᶠ X).num X.den

-- with all that the formulas are made of open
unfoldable pub floors : Vector → Vec3
unfolding down billionths dot P2 P3 slope3 radial north Re strength_at strength_three_at h2 l2 h3 l3 whole ratio wholly ◌+ᶠ◌ ◌-ᶠ◌ ◌*ᶠ◌ ◌·ᶠ◌ ◌/ᶠ◌ ◌÷ᶠ◌
floors v = vec (billionths v.x) (billionths v.y) (billionths v.z)

-- ---- the permanent displacement
""")
for case in CASES:
    assert mark.good_mark(case[1])
    permanent(case, wholes(case), wholly)
p("-- ---- the solid tide: degree two of both bodies with h and l at the mark's latitude, degree three of the Moon\n")
for case in CASES:
    assert bodies.in_range(bodies.MOON, case[2]) and bodies.in_range(bodies.SUN, case[3])
    solid(case, wholes(case), wholly)
p("""-- ---- at other distances, each from the whole one up to, but not including, one more

-- a distance in thousandths
abbrev thousandths : (n : ℕ) → 0 < n → Positive
thousandths n p = record { top = n; bottom = 1000; top_pos = p; bottom_pos = lit< tt }
""")
for name, ending, what, ways in OTHERS:
    case, = (case for case in CASES if case[0] == name)
    p(f"-- {name}: {what}\n")
    for tide in (permanent, solid):
        tide(case, others(case, ways), thousandths, f"-{ending}")
print("\n".join(out).rstrip())
