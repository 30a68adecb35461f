"""Answers vectors: standard input as docs/VECTORS.md fixes it, one line each."""

import struct
import sys

import calls
import catalogue
import field
import frames
import listing
import wire
from card import check, read, write
from metres import metres
from permanent import shift
from rounding import near, root, whole
from series import series
from solid import pair_tide


class Counts:
    """How often each call gave each number; card checks apart from own checks."""

    def __init__(self):
        self.found = {}

    def note(self, name, number, by_card=False):
        key = (name, number, by_card)
        self.found[key] = self.found.get(key, 0) + 1


def three(payload, at=0):
    return struct.unpack_from(">3q", payload, at)


def do_near(payload, counts):
    counts.note("near", 0)
    return str(near(*struct.unpack(">qQ", payload)))


def do_root(payload, counts):
    counts.note("root", 0)
    return str(root(*struct.unpack(">Q", payload)))


def do_whole(payload, counts):
    counts.note("whole", 0)
    return str(whole(*struct.unpack(">Q", payload)))


def do_permanent(payload, counts):
    counts.note("permanent", 0)
    return wire.text(shift(three(payload)))


def do_rows(payload, counts):
    counts.note("frame rows", 0)
    frame, mark = payload[0], three(payload, 1)
    return wire.text(frames.row_a(frame, mark), frames.row_b(frame, mark))


def do_pair(payload, counts):
    first, second = (wire.unpack_body(payload[i:i + wire.BODY_SIZE]) for i in (24, 49))
    number, tide = pair_tide(three(payload), first, second)
    counts.note("tide of a pair", number)
    return wire.text(number, tide)


def do_series(payload, counts):
    doubles, numbers = struct.unpack_from(">II", payload, 24)
    run = struct.unpack_from(f">{doubles}Q", payload, 32)
    number, row, after = series(three(payload), run, [wire.NUMBER_FILL] * numbers)
    counts.note("series", number)
    return wire.text(number, row, after)


def do_read(payload, counts):
    number, card = read(payload)
    counts.note("read", number)
    return wire.text(number, wire.card_text(card))


def lent(payload):
    """A lent buffer and a raw card."""
    (size,) = struct.unpack_from(">I", payload)
    return bytes([wire.BUFFER_FILL]) * size, wire.unpack_raw(payload[4:])


def do_write(payload, counts):
    buffer, card = lent(payload)
    number, after = write(card, buffer)
    counts.note("write", number)
    return wire.text(number, wire.bytes_text(after))


def do_export(payload, counts):
    buffer, card = lent(payload)
    number, after = field.export(card, buffer)
    counts.note("export", number)
    return wire.text(number, wire.bytes_text(after))


def do_expand(payload, counts):
    number, card = field.expand(payload)
    counts.note("expand", number)
    return wire.text(number, wire.card_text(card))


def do_metres(payload, counts):
    number, found = metres(wire.unpack_raw(payload))
    counts.note("metres", number)
    return wire.text(number, [f"{bits:016x}" for bits in found])


def one_call(card, entry):
    code = entry[0]
    if code == wire.MOVE:
        return calls.move(card, *struct.unpack_from(">q", entry, 1))
    if code == wire.FRAME:
        return calls.frame(card, entry[1])
    if code == wire.MEAN_ON:
        return calls.mean_on(card)
    if code == wire.MEAN_OFF:
        return calls.mean_off(card)
    if code == wire.SOLID_ON:
        return calls.solid_on(card, wire.unpack_body(entry[1:26]), wire.unpack_body(entry[26:51]))
    assert code == wire.SOLID_OFF
    return calls.solid_off(card)


def do_calls(payload, counts):
    card, numbers = wire.unpack_raw(payload[:wire.RAW_SIZE]), []
    for at in range(wire.RAW_SIZE, len(payload), wire.ENTRY_SIZE):
        entry = payload[at:at + wire.ENTRY_SIZE]
        by_card = check(card) != 0
        number, card = one_call(card, entry)
        counts.note(wire.CALL_NAMES[entry[0]], number, by_card)
        numbers.append(number)
    return wire.text(numbers, wire.card_text(card))


def do_lookup(payload, counts):
    (size,) = struct.unpack_from(">I", payload)
    number, part = catalogue.lookup(payload[4 + size:], payload[4:4 + size])
    counts.note("lookup", number)
    return wire.text(number, wire.bytes_text(part))


def do_reader(payload, counts):
    (times,) = struct.unpack_from(">I", payload)
    reader, said = catalogue.Reader(payload[4:]), []
    for _ in range(times):
        number, card = reader.next()
        counts.note("reader", number)
        said += [number, wire.card_text(card)]
    return wire.text(said)


def do_line(payload, counts):
    counts.note("list line", read(payload)[0])
    return listing.line(payload)


def do_check(payload, counts):
    number, place = catalogue.check(payload)
    counts.note("catalogue check", number)
    return wire.text(number, place)


ANSWER = {wire.NEAR: do_near, wire.ROOT: do_root, wire.WHOLE: do_whole,
          wire.PERMANENT: do_permanent, wire.ROWS: do_rows, wire.PAIR: do_pair,
          wire.SERIES: do_series, wire.READ: do_read, wire.WRITE: do_write,
          wire.EXPORT: do_export, wire.EXPAND: do_expand, wire.METRES: do_metres,
          wire.CALLS: do_calls, wire.LOOKUP: do_lookup, wire.READER: do_reader,
          wire.LINE: do_line, wire.CHECK: do_check}


def answers(data, counts):
    """Each vector's kind and line, in order."""
    at = 0
    while at < len(data):
        kind, size = struct.unpack_from(">BxxxI", data, at)
        yield kind, ANSWER[kind](data[at + 8:at + 8 + size], counts)
        at += 8 + size


if __name__ == "__main__":
    for _, line in answers(sys.stdin.buffer.read(), Counts()):
        sys.stdout.write(line + "\n")
