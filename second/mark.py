"""The mark: its accepted length; its unit vector and P of its latitude, scaled by E."""

from rounding import E, near, root

L_LEAST, L_MOST = 6_300_000, 6_400_000  # whole metres, both included


def length(mark):
    """L, the root of x*x + y*y + z*z, whole metres."""
    return root(sum(m * m for m in mark))


def good_mark(mark):
    """Refusal 6 when this is false."""
    return L_LEAST <= length(mark) <= L_MOST


def unit(mark):
    """u = near(m E / L) for each component."""
    size = length(mark)
    return tuple(near(m * E, size) for m in mark)


def latitude(uz):
    """s2 and P of a mark's latitude phi: sin^2 phi, and (3 sin^2 phi - 1)/2; sin phi is uz."""
    s2 = near(uz * uz, E)
    return s2, near(3 * s2 - E, 2)
