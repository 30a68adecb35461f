"""The tide series: one tide a row of six doubles, Moon then Sun.

Order of refusals: 6, 16, then the first bad row with 10 or 11. Lengths fit
when one count n has 6 n doubles and 3 n numbers; n = 0 is allowed.
"""

from mark import good_mark
from solid import ordered_tide


def series(mark, doubles, numbers):
    """(number, rows or the bad row, the numbers after the call)."""
    numbers = list(numbers)
    if not good_mark(mark):
        return 6, 0, numbers
    rows = len(doubles) // 6
    if len(doubles) != 6 * rows or len(numbers) != 3 * rows:
        return 16, 0, numbers
    found = []
    for row in range(rows):
        six = doubles[6 * row:6 * row + 6]
        number, tide = ordered_tide(mark, six[:3], six[3:])
        if number:
            return number, row, numbers  # a refused series writes no number
        found += tide
    return 0, rows, found
