"""Vectors of lookup, the catalogue reader, the list line and the check of a whole catalogue."""

import struct

import damage
import field
import gen_records
import sample
import wire
from card import SIZE

CARDS_MOST = wire.PAYLOAD_MOST // SIZE


def about(length):
    """A length and its two neighbours."""
    return length - 1, length, length + 1


def accepted(rng, count):
    return [gen_records.record(sample.card(rng)) for _ in range(count)]


def records(rng, count):
    """Accepted and refused records, all of a card's length."""
    found = accepted(rng, count)
    for i in range(count):
        if rng.randrange(4) == 0:
            data = bytearray(found[i])
            data[rng.randrange(9, SIZE)] ^= 0xFF  # keeps the site
            found[i] = bytes(data)
    return found


def find(key, catalogue):
    return struct.pack(">I", len(key)) + key + catalogue


def found_keys(rng):
    for count in (1, 2, 3, 7, 20, 40):
        found = records(rng, count)
        for i in sorted({0, count // 2, count - 1}):
            yield find(found[i][:9], b"".join(found))
        absent = sample.site(rng)
        yield find(absent, b"".join(found))
        yield find(absent, b"".join(found)[:-1])


def same_sites(rng):
    """One site several times: the first record is the one found."""
    for first in range(6):
        found = records(rng, 9)
        for i in range(first, 9, 2):
            found[i] = b"31415S926" + found[i][9:]
        yield find(b"31415S926", b"".join(found))


def shifted_keys(rng):
    """The key's bytes stand in the catalogue, but not where a record begins."""
    for at in (1, 9, 40, SIZE - 9, SIZE - 8, SIZE - 1, SIZE):
        data = bytearray(b"".join(records(rng, 3)))
        data[at:at + 9] = b"27182M818"
        yield find(b"27182M818", bytes(data))


def refused_keys(rng):
    data = b"".join(records(rng, 4))
    for key in (b"", b"1", b"12345M12", b"12345M1234", b"12345M001" * 6, data[:10], data[:8],
                bytes(9), b"12345m001", b"12345X001", b"1234AM001", b"12345M0 1"):
        for catalogue in (data, data[:-1], b""):
            yield find(key, catalogue)
    # The key without site shape stands in the catalogue all the same.
    yield find(b"12345X001", b"12345X001" + data[9:])
    for length in (0, 1, 8, 9, *about(SIZE), *about(2 * SIZE)):
        yield find(data[:9], data[:length])
        yield find(b"00000M000", data[:length])


def lookups(rng):
    for found in (found_keys, same_sites, shifted_keys, refused_keys):
        yield from found(rng)


def reader(times, catalogue):
    return struct.pack(">I", times) + catalogue


def readers(rng):
    for length in (0, 1, 9, *about(SIZE), SIZE + 8, *about(2 * SIZE), 3 * SIZE):
        data = b"".join(records(rng, 4))[:length]
        yield reader(length // SIZE + 4, data)
        yield reader(length // SIZE, data)
    damaged = [r for r in map(gen_records.record, damage.singles(rng)) if r]
    for _ in range(40):
        some = [rng.choice(damaged) if rng.randrange(2) else r for r in records(rng, 6)]
        data = b"".join(some) + rng.randbytes(rng.choice((0, 0, 1, 40, SIZE - 1)))
        yield reader(10, data)
    yield reader(60, b"".join(records(rng, 55)) + b"\0")
    for card in damage.each_number(rng):
        yield reader(3, gen_records.record(card) + gen_records.record(sample.card(rng)))


def case_13(rng):
    """The record of the paper's case 13, made of any card."""
    return gen_records.record(damage.moved_to(damage.base(rng), (6_378_137, 0, 0))._replace(
        site=b"90001M001", frame=0, epoch=0, velocity=(0, 0, 0)))


def list_lines(rng):
    yield case_13(rng)
    for card in (*damage.each_number(rng), *list(damage.singles(rng))[::3],
                 *damage.several(rng, 20)):
        data = gen_records.record(card)
        if data is not None:
            yield data
    for n in (1, 8, 9, field.SIZE, SIZE - 1):
        yield gen_records.record(sample.card(rng))[:n]
    yield from accepted(rng, 60)


def refused(rng):
    """One record for each number 2 to 9, in order."""
    return [gen_records.record(card) for card in damage.each_number(rng)]


def with_bad(rng, count, place, bad):
    """Accepted records but for one."""
    found = accepted(rng, count)
    found[place] = bad
    return b"".join(found)


def good_catalogues(rng):
    """Every length to just past two cards, those about other multiples, many cards."""
    data = b"".join(accepted(rng, 41))
    for length in (*range(2 * SIZE + 2), *about(3 * SIZE), *about(7 * SIZE), *about(40 * SIZE)):
        yield data[:length]
    for count in (2, 7, 40, 256, 500, CARDS_MOST):
        yield b"".join(accepted(rng, count))
    yield accepted(rng, 1)[0] * 5  # one site five times


def one_bad(rng):
    """Each number at the first, middle and last place, and at places of more than eight bits."""
    for count in (1, 2, 7, 40):
        for place in sorted({0, count // 2, count - 1}):
            for bad in refused(rng):
                yield with_bad(rng, count, place, bad)
    for place, bad in zip((255, 256, 299), refused(rng)):
        yield with_bad(rng, 300, place, bad)
    yield with_bad(rng, CARDS_MOST, CARDS_MOST - 1, refused(rng)[-1])
    for card in (*damage.singles(rng), *damage.several(rng, 20), *damage.anything(rng, 20)):
        data = gen_records.record(card)
        if data is not None:
            yield with_bad(rng, 3, rng.randrange(3), data)


def several_bad(rng):
    """The first bad card counts, whether the later one's number is smaller or greater."""
    for first in refused(rng):
        for second in refused(rng):
            yield b"".join(accepted(rng, 1) + [first] + accepted(rng, 1) + [second])
    for _ in range(30):
        found = accepted(rng, 9)
        for bad in rng.sample(refused(rng), rng.randint(2, 5)):
            found[rng.randrange(9)] = bad
        yield b"".join(found)
    for count in (1, 2, 5):
        yield bytes(count * SIZE)
        yield rng.randbytes(count * SIZE)


def bad_and_odd(rng):
    """A bad card where the length is wrong too: 14 comes first."""
    for bad in refused(rng):
        good = accepted(rng, 1)[0]
        for data in (bad + good, good + bad):
            yield data[:-1]
            yield data + b"\0"
            yield data + bad[:9]
        yield bad[:-1]


def checks(rng):
    for found in (good_catalogues, one_bad, several_bad, bad_and_odd):
        for data in found(rng):
            yield wire.CHECK, data


def payloads(rng):
    for kind, found in ((wire.LOOKUP, lookups), (wire.READER, readers), (wire.LINE, list_lines)):
        for data in found(rng):
            yield kind, data
