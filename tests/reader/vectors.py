"""Takes the reader's vectors, and the lines that answer them, out of the stored ones: vectors.py FROM TO."""

import os
import struct
import sys

READER = 15


def main(source, target):
    with open(os.path.join(source, "stdin"), "rb") as file:
        data = file.read()
    with open(os.path.join(source, "stdout"), encoding="ascii") as file:
        lines = file.read().split("\n")
    at, place, vectors, answers = 0, 0, [], []
    while at < len(data):
        kind, size = struct.unpack_from(">BxxxI", data, at)
        if kind == READER:
            vectors.append(data[at:at + 8 + size])
            answers.append(lines[place] + "\n")
        at, place = at + 8 + size, place + 1
    assert vectors
    with open(os.path.join(target, "stdin"), "wb") as file:
        file.write(b"".join(vectors))
    with open(os.path.join(target, "stdout"), "w", newline="\n", encoding="ascii") as file:
        file.write("".join(answers))


if __name__ == "__main__":
    main(*sys.argv[1:])
