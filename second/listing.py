"""The listing program: cards from standard input, one line each.

A line is site, frame, epoch, position x, y, z, or `refused N`. A short last
part gives `refused 1`. No input, no line.
"""

import sys

from card import SIZE, read


def line(record):
    """One record's line, without its line feed."""
    number, card = read(record)
    if number:
        return f"refused {number}"
    return " ".join([card.site.decode("ascii"), str(card.frame), str(card.epoch),
                     *map(str, card.position)])


def lines(data):
    return "".join(line(data[i:i + SIZE]) + "\n" for i in range(0, len(data), SIZE))


if __name__ == "__main__":
    sys.stdout.write(lines(sys.stdin.buffer.read()))
