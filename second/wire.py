"""The bytes of vectors and the text of answers; docs/VECTORS.md fixes both."""

import struct

from card import Card

NEAR, ROOT, WHOLE, PERMANENT, ROWS, PAIR, SERIES = 1, 2, 3, 4, 5, 6, 7
READ, WRITE, EXPORT, EXPAND, METRES, CALLS = 8, 9, 10, 11, 12, 13
LOOKUP, READER, LINE, CHECK = 14, 15, 16, 17

NAMES = {NEAR: "near", ROOT: "root", WHOLE: "whole", PERMANENT: "permanent",
         ROWS: "frame rows", PAIR: "tide of a pair", SERIES: "series", READ: "read",
         WRITE: "write", EXPORT: "export", EXPAND: "expand", METRES: "metres",
         CALLS: "calls", LOOKUP: "lookup", READER: "reader", LINE: "list line",
         CHECK: "catalogue check"}

MOVE, FRAME, MEAN_ON, MEAN_OFF, SOLID_ON, SOLID_OFF = 1, 2, 3, 4, 5, 6
CALL_NAMES = {MOVE: "move", FRAME: "frame", MEAN_ON: "mean on", MEAN_OFF: "mean off",
              SOLID_ON: "solid on", SOLID_OFF: "solid off"}

PAYLOAD_MOST = 60_000
RAW = ">9sBB13q"          # a raw card, 115 bytes
RAW_SIZE = struct.calcsize(RAW)
BODY = ">BQQQ"            # a body entry, 25 bytes: label, three doubles
BODY_SIZE = struct.calcsize(BODY)
ENTRY_SIZE = 64           # one call
BUFFER_FILL = 0xEE        # each byte of a lent buffer before the call
NUMBER_FILL = -9_000_000_000  # each number of a lent run; no tide is so large


def vector(kind, payload):
    assert len(payload) <= PAYLOAD_MOST
    return struct.pack(">BxxxI", kind, len(payload)) + payload


def pack_raw(card):
    return struct.pack(RAW, card.site, card.frame, card.tide, card.epoch, *card.mark,
                       *card.velocity, *card.position, *card.vector)


def unpack_raw(data):
    site, frame, tide, epoch, *rest = struct.unpack(RAW, data)
    return Card(site, frame, tide, epoch, *(tuple(rest[i:i + 3]) for i in (0, 3, 6, 9)))


def pack_body(entry):
    return struct.pack(BODY, entry[0], *entry[1])


def unpack_body(data):
    label, *bits = struct.unpack(BODY, data)
    return label, tuple(bits)


def pack_call(code, *arguments):
    """One 64-byte entry; unused bytes are zero."""
    data = bytes([code])
    if code == MOVE:
        data += struct.pack(">q", *arguments)
    elif code == FRAME:
        data += bytes(arguments)
    elif code == SOLID_ON:
        data += b"".join(map(pack_body, arguments))
    return data.ljust(ENTRY_SIZE, b"\0")


def card_text(card):
    numbers = (card.frame, card.tide, card.epoch, *card.mark, *card.velocity,
               *card.position, *card.vector)
    return " ".join([card.site.hex(), *map(str, numbers)])


def bytes_text(data):
    return data.hex() if data else "-"


def text(*parts):
    """Parts with one space between; a vector counts as its numbers."""
    flat = []
    for part in parts:
        flat += [str(p) for p in part] if isinstance(part, (tuple, list)) else [str(part)]
    return " ".join(flat)
