"""Sine, cosine and the tide arguments of a date, without floats.

Angles are fractions of a turn. Sine and cosine are sums of their series in
whole numbers scaled by 2^90, good to far under a nanometre of displacement.
Polynomials are (5.43), (5.14) and (5.32) of source 003.
"""

from fractions import Fraction

SCALE = 1 << 90
PI = Fraction(314159265358979323846264338328, 10**29)

# Degrees at 2000.0, then arcseconds per century and its powers: l l' F D Omega.
DELAUNAY = (
    ("134.96340251", "1717915923.2178", "31.8792", "0.051635", "-0.00024470"),
    ("357.52910918", "129596581.0481", "-0.5532", "0.000136", "-0.00001149"),
    ("93.27209062", "1739527262.8478", "-12.7512", "-0.001037", "0.00000417"),
    ("297.85019547", "1602961601.2090", "-6.3706", "0.006593", "-0.00003169"),
    ("125.04455501", "-6962890.5431", "7.4722", "0.007702", "-0.00005939"),
)
SIDEREAL = ("0.014506", "4612.156534", "1.3915817")  # arcseconds; rest under 1e-4


def sine_cosine(turns):
    """(sin, cos) of an angle in turns, by the series of both."""
    turns -= round(turns)
    x = int(2 * PI * turns * SCALE)
    term, sums, k = SCALE, [SCALE, 0], 0
    while term:
        k += 1
        term = abs(term) * abs(x) // SCALE // k
        signed = term if k % 4 in (0, 1) else -term
        sums[k % 2] += signed if x >= 0 or k % 2 == 0 else -signed
    return Fraction(sums[1], SCALE), Fraction(sums[0], SCALE)


def polynomial(texts, t):
    return sum(Fraction(c) * t**i for i, c in enumerate(texts))


def delaunay(t):
    """l, l', F, D, Omega in turns; t in centuries of TT from 2000.0."""
    for degrees, *seconds in DELAUNAY:
        yield Fraction(degrees) / 360 + polynomial(["0", *seconds], t) / 1_296_000


def sidereal(days, t):
    """Greenwich mean sidereal time in turns; days of UT1 from 2000.0."""
    era = Fraction("0.7790572732640") + Fraction("1.00273781191135448") * days
    return era + polynomial(SIDEREAL, t) / 1_296_000
