"""A small seeded generator, so that vectors stay the same under every Python."""


class Chance:
    """A 64-bit linear congruence (Knuth's constants); its upper halves are used."""

    def __init__(self, seed):
        self.state = seed
        for _ in range(8):
            self.half()

    def half(self):
        """32 bits."""
        self.state = (self.state * 6364136223846793005 + 1442695040888963407) % (1 << 64)
        return self.state >> 32

    def getrandbits(self, count):
        found = 0
        for _ in range(count // 32 + 1):
            found = found << 32 | self.half()
        return found & ((1 << count) - 1)

    def randrange(self, first, end=None):
        """first to end - 1, or 0 to first - 1."""
        least, size = (0, first) if end is None else (first, end - first)
        return least + self.getrandbits(size.bit_length() + 32) % size

    def randint(self, least, most):
        return self.randrange(least, most + 1)

    def choice(self, found):
        return found[self.randrange(len(found))]

    def shuffle(self, found):
        for i in range(len(found) - 1, 0, -1):
            k = self.randrange(i + 1)
            found[i], found[k] = found[k], found[i]

    def sample(self, found, count):
        mixed = list(found)
        self.shuffle(mixed)
        return mixed[:count]

    def randbytes(self, count):
        return bytes(self.randrange(256) for _ in range(count))
