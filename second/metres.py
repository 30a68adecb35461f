"""Metres out: the distance from the mark as three doubles, given as bits.

Ties cannot happen for grain counts in range; the rule is here for completeness.
"""

from card import check, offset
from units import METRE


def quotient_bits(n, d):
    """The double nearest to n/d, ties to even, +0 for zero; normal results only."""
    sign, n = (1, -n) if n < 0 else (0, n)
    if n == 0:
        return 0
    # With this power the quotient has 53 or 54 bits; one more makes 54 into 53.
    power = n.bit_length() - d.bit_length() - 53
    if scaled(n, d, power)[0] >> 53:
        power += 1
    kept, left, by = scaled(n, d, power)
    assert kept.bit_length() == 53
    if 2 * left > by or (2 * left == by and kept & 1):
        kept += 1
    if kept >> 53:
        kept, power = kept >> 1, power + 1
    field = power + 1075
    assert 1 <= field <= 2046
    return (sign << 63) | (field << 52) | (kept & ((1 << 52) - 1))


def scaled(n, d, power):
    """n / (d 2^power) as quotient, remainder and divisor."""
    top, by = (n, d << power) if power >= 0 else (n << -power, d)
    return top // by, top % by, by


def metres(card):
    """(number, three doubles as bits); three +0 when refused."""
    number = check(card)
    if number:
        return number, (0, 0, 0)
    return 0, tuple(quotient_bits(g, METRE) for g in offset(card))
