"""A catalogue: cards end to end. Lookup by site, a reader with a place, a check of all.

Once done, a reader stays done; an empty catalogue is done at the first call.
"""

from card import SIZE, ZERO_CARD, read, site_shape

DONE = "done"


def lookup(catalogue, key):
    """(number, part): 2, 14, 15, or the first record whose site is the key.

    An empty catalogue is a multiple of a card's length, so it gives 15.
    """
    if not site_shape(key):
        return 2, b""
    if len(catalogue) % SIZE:
        return 14, b""
    for place in range(0, len(catalogue), SIZE):
        if catalogue[place:place + 9] == key:
            return 0, catalogue[place:place + SIZE]
    return 15, b""


class Reader:
    """Keeps the bytes and its place; a short last part is refused once."""

    def __init__(self, catalogue):
        self.catalogue = catalogue
        self.place = 0

    def next(self):
        """(number or DONE, card); steps past what it read."""
        if self.place >= len(self.catalogue):
            return DONE, ZERO_CARD
        part = self.catalogue[self.place:self.place + SIZE]
        self.place += len(part)
        return read(part)


def check(catalogue):
    """(number, place): 14 and 0, the first bad card, or 0 and the count of cards.

    Places are counted in cards from 0. Every part is as long as a card, so 1 is
    never given. An empty catalogue gives 0 and 0.
    """
    if len(catalogue) % SIZE:
        return 14, 0
    count = len(catalogue) // SIZE
    for place in range(count):
        number, _ = read(catalogue[place * SIZE:(place + 1) * SIZE])
        if number:
            return number, place
    return 0, count
