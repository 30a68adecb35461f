"""The altered versions of the card, its records, its calls and the catalogue, for second/altered.py; alterations.py says what a row is."""

from alterations import half_up, halves, swap
from alterations_tides import FRACTION, LESS


def tests(*conditions):
    """The lines of each test of a check, by its number."""
    return {number: f"    if {condition}:\n        return {number}\n" for number, condition in conditions}


CHECK = tests((2, "not site_shape(card.site)"), (3, "not known(card.frame)"),
              (4, "card.tide > SOLID or byte_11 != 0 or (card.tide != SOLID and card.vector != ZERO)"), (5, "not good_epoch(card.epoch)"),
              (6, "not good_mark(card.mark)"), (7, "not within(card.velocity, VELOCITY_MOST)"), (8, "not good_position(card)"),
              (9, "not within(card.vector, TIDE_MOST)"))
LENGTH = "    if len(record) != SIZE:\n        return 1, ZERO_CARD\n    site, frame, tide, zero, epoch, *rest = struct.unpack("

CARD = (
    *((f"card-{n}-{n + 1}", *swap(CHECK[n], CHECK[n + 1])) for n in range(2, 9)),
    ("epoch-more", "EPOCH_MOST = 146_100", "EPOCH_MOST = 146_101"),
    ("epoch-least-out", "-EPOCH_MOST <= epoch", "-EPOCH_MOST < epoch"),
    ("velocity-more", "VELOCITY_MOST = 500_000", "VELOCITY_MOST = 500_001"),
    ("position-more", "1_000 * METRE ", "1_000 * METRE + 1 "),
    ("tide-more", "TIDE_MOST = METRE", "TIDE_MOST = METRE + 1"),
    ("card-last-byte-first", '">9sBBBi3i3i3q3q"', '"<9sBBBi3i3i3q3q"'),
    ("card-velocity-first", "tuple(rest[0:3]), tuple(rest[3:6])", "tuple(rest[3:6]), tuple(rest[0:3])"),
    ("site-M-only", 'site[5] in b"MS"', 'site[5] in b"M"'),
    ("site-colon", 'b"0123456789"', 'b"0123456789:"'),
    ("site-last-any", "(0, 1, 2, 3, 4, 6, 7, 8)", "(0, 1, 2, 3, 4, 6, 7)"),
    ("site-long", "len(site) == 9", "len(site) >= 9"),
    ("byte-10-3", "card.tide > SOLID or byte_11", "card.tide > SOLID + 1 or byte_11"),
    ("byte-10-2-refused", "card.tide > SOLID or byte_11", "card.tide >= SOLID or byte_11"),
    ("byte-11-any", "byte_11 != 0 or ", ""),
    ("vector-beside-mean", "card.tide != SOLID and card.vector", "card.tide == FREE and card.vector"),
    ("vector-x-only", "card.vector != ZERO", "card.vector[0] != 0"),
    ("read-longer", LENGTH, LENGTH.replace("!=", "<").replace("unpack(", "unpack_from(")),
    ("read-refused-card", "(number, ZERO_CARD) if number", "(number, card) if number"),
    ("write-length-last", "1 if len(buffer) != SIZE else check(card)", "check(card) or (1 if len(buffer) != SIZE else 0)"),
    ("write-refused-zeros", "(number, bytes(buffer)) if number", "(number, bytes(len(buffer))) if number"),
)

FIELD_CHECK = tests((2, "not site_shape(site)"), (3, "not known(frame)"), (4, "tide >= SOLID or any(zeros)"), (5, "not good_epoch(epoch)"),
                    (6, "not good_mark(mark)"), (7, "not within(slow, VELOCITY_MOST)"), (8, "not within(away, OFFSET_MOST)"))

FIELD = (
    ("field-offset-more", "10_000_000", "10_000_001"),
    ("field-velocity-more", "VELOCITY_MOST = 5_000", "VELOCITY_MOST = 5_001"),
    ("field-velocity-unit", "VELOCITY_UNIT = 100", "VELOCITY_UNIT = 101"),
    *halves("field-offset", "g", "TENTH_MM"),
    ("field-offset-half-up", *half_up("g", "TENTH_MM")),
    *halves("field-velocity", "v", "VELOCITY_UNIT"),
    ("field-velocity-half-up", *half_up("v", "VELOCITY_UNIT")),
    ("export-length-last", "1 if len(buffer) != SIZE else check(card)", "check(card) or (1 if len(buffer) != SIZE else 0)"),
    ("export-12-first", "number = 1 if len(buffer) != SIZE else check(card)", "number = 1 if len(buffer) != SIZE else 0 if card.tide == SOLID else check(card)"),
    ("export-solid", "if number == 0 and card.tide == SOLID:", "if number == 0 and card.tide > SOLID:"),
    *((f"field-{n}-{n + 1}", *swap(FIELD_CHECK[n], FIELD_CHECK[n + 1])) for n in range(2, 8)),
    ("field-byte-10-2", "tide >= SOLID", "tide > SOLID"),
    ("field-last-bytes", "any(zeros)", "zeros[0]"),
    ("field-byte-11", "any(zeros)", "zeros[1]"),
    ("expand-without-mark", "plus(times(mark, METRE), times(away, TENTH_MM))", "times(away, TENTH_MM)"),
)

OUT = "tuple(quotient_bits(g, METRE) for g in offset(card))"
ROUND = "    if 2 * left > by or (2 * left == by and kept & 1):\n        kept += 1\n"


def by_doubles(quotient):
    """Metres out by the machine's doubles."""
    return OUT, f'struct.unpack(">3Q", struct.pack(">3d", *({quotient} for g in offset(card))))\nimport struct'


METRES = (
    ("metres-minus-zero", "if n == 0:\n        return 0", "if n == 0:\n        return 1 << 63"),
    ("metres-cut", ROUND, ""),
    ("metres-tie-to-odd", "kept & 1", "not kept & 1", "no grain count in range over 1,461,000,000 lies half-way between two doubles"),
    ("metres-no-carry", "    if kept >> 53:\n        kept, power = kept >> 1, power + 1\n", "",
     "a quotient in range that is no power of two is at least one part in 1.5 x 10^12 away from it, so rounding never reaches it"),
    ("metres-machine", *by_doubles("g / METRE"), "the machine's division is the nearest double too"),
    ("metres-reciprocal", *by_doubles("g * (1 / METRE)")),
    ("metres-divided-twice", *by_doubles("g / 1_461 / 1_000_000")),
    ("metres-refused", "return number, (0, 0, 0)", "return number, (0, 0, 1 << 63)"),
)

# The first slip that the paper names: the mark taken from the position, in whole metres.
MOVED = "tuple(p // 1_461_000_000 for p in card.position)"
# The same, exact: a tide asks for a direction alone, and takes grains as well.
EXACT = f"tuple({FRACTION}(p, 1_461_000_000) for p in card.position)"
# A Moon and a Sun of the moment, for the third slip.
FRESH = "__import__('solid').tide(card.mark, (0, 0, 384_400_000), (149_597_870, 0, 0))"
MOVE, FRAME = "def move(card, d):\n    number = ", "def frame(card, to):\n    number = "
THIRTEEN = "    if card.tide == SOLID:\n        return 13, card\n"
MOVE_8 = "    if not good_position(card._replace(position=plus(card.position, times(card.velocity, d)))):\n        return 8, card\n"
MOVE_5 = "    if not good_epoch(card.epoch + d):\n        return 5, card\n"
FRAME_3 = "    if not frames.known(to):\n        return 3, card\n"
FRAME_7 = "    if not within(velocity, VELOCITY_MOST):\n        return 7, card\n"
GAIN = "    gain = frames.position_gain(card.frame, to, card.mark, card.epoch)\n"
FAR_8 = "    if not good_position(card._replace(position=plus(card.position, gain))):\n        return 8, card\n"
SOLID_12 = "def solid_on(card, first, second):\n    number = check(card) or (12 if card.tide != FREE else 0)\n"
MEAN_ON, MEAN_OFF = (f"def mean_{w}(card):\n    number = check(card) or (12 if card.tide != {t} else 0)" for w, t in (("on", "FREE"), ("off", "MEAN")))
SOLID_OFF = MEAN_OFF.replace("mean", "solid").replace("MEAN", "SOLID")


PUT_ON = "    return settled(card, card._replace(\n        tide=SOLID, position=plus(card.position, tide), vector=tide))\n"


def solid_on_less(name, less):
    """Solid on without a part of the tide, or with it only in the position or only in what is stored."""
    lines = less("    ", "card.mark", "*solid.order_pair(first, second)[1:]").replace("import solid\n", "import solid; whole_tide = tide\n")
    return ((f"solid-on-without-{name}", PUT_ON, lines + PUT_ON),
            (f"solid-on-{name}-not-stored", PUT_ON, lines + PUT_ON.replace("position, tide", "position, whole_tide")),
            (f"solid-on-{name}-not-added", PUT_ON, lines + PUT_ON.replace("vector=tide", "vector=whole_tide")))


def eight_first(call, position):
    """The call with its last check, 8, before 12."""
    return call, call.replace("check(card) or ", f"check(card) or (0 if good_position(card._replace(position={position})) else 8) or ")


CALLS = (
    ("refused-card-changed", "else (8, old)", "else (8, new)"),
    ("position-in-micrometres", "(0, new) if", "(0, new._replace(position=tuple(p // 1_461 * 1_461 for p in new.position))) if"),
    ("8-on-old-card", "if good_position(new)", "if good_position(old)"),
    ("move-0-with-solid", "if card.tide == SOLID:\n        return 13", "if card.tide == SOLID and d:\n        return 13"),
    ("move-5-before-13", *swap(THIRTEEN, MOVE_5)),
    ("move-8-before-13", THIRTEEN, MOVE_8.replace("if ", "if good_epoch(card.epoch + d) and ") + THIRTEEN),
    ("move-8-before-5", MOVE_5, MOVE_8 + MOVE_5),
    ("move-13-before-card", MOVE, MOVE + "13 if card.tide == SOLID else "),
    ("move-5-before-card", MOVE, MOVE + "5 if card.tide != SOLID and not good_epoch(card.epoch + d) else "),
    ("move-position-left", "position=plus(card.position, times(card.velocity, d))", "position=card.position"),
    ("move-velocity-of-2008", "times(card.velocity, d)", "times(minus(card.velocity, frames.row_b(card.frame, card.mark)), d)"),
    ("move-year-of-365-days", "times(card.velocity, d)", "(v * d * 1_461 // 1_460 for v in card.velocity)"),
    ("move-epoch-left", "epoch=card.epoch + d,", "epoch=card.epoch,"),
    ("frame-3-before-card", FRAME, FRAME + "not frames.known(to) and 3 or "),
    ("frame-7-on-old", "within(velocity, VELOCITY_MOST)", "within(card.velocity, VELOCITY_MOST)"),
    ("frame-7-frame-changed", FRAME_7, FRAME_7.replace("7, card", "7, card._replace(frame=to)")),
    ("frame-8-before-7", FRAME_7 + GAIN, GAIN + FAR_8 + FRAME_7),
    ("frame-solid-refused", FRAME_3, FRAME_3 + "    if card.tide == SOLID:\n        return 12, card\n"),
    ("frame-same-refused", "if not frames.known(to):", "if not frames.known(to) or to == card.frame:"),
    ("frame-velocity-left", "frame=to, velocity=velocity,", "frame=to,"),
    ("frame-from-position", "position_gain(card.frame, to, card.mark,", f"position_gain(card.frame, to, {MOVED},"),
    ("frame-from-exact-position", "position_gain(card.frame, to, card.mark,", f"position_gain(card.frame, to, {EXACT},"),
    ("frame-velocity-from-position", "velocity_gain(card.frame, to, card.mark)", f"velocity_gain(card.frame, to, {MOVED})"),
    ("frame-at-2000", "to, card.mark, card.epoch)", "to, card.mark, 0)"),
    ("mean-on-over-solid", MEAN_ON, MEAN_ON.replace("!= FREE", "== MEAN")),
    ("mean-on-12-before-card", MEAN_ON, MEAN_ON.replace("check(card) or", "12 if card.tide != FREE else check(card) or")),
    ("mean-on-8-before-12", *eight_first(MEAN_ON, "plus(card.position, shift(card.mark))")),
    ("mean-on-from-position", "position=plus(card.position, shift(card.mark))", f"position=plus(card.position, shift({MOVED}))"),
    ("mean-on-from-exact-position", "position=plus(card.position, shift(card.mark))", "position=plus(card.position, shift(card.position))"),
    ("mean-on-byte-10", "tide=MEAN, position", "position"),
    ("mean-off-over-solid", MEAN_OFF, MEAN_OFF.replace("!= MEAN", "== FREE")),
    ("mean-off-unchecked", MEAN_OFF, MEAN_OFF.replace("check(card) or ", "")),
    ("mean-off-8-before-12", *eight_first(MEAN_OFF, "minus(card.position, shift(card.mark))")),
    ("mean-off-from-position", "position=minus(card.position, shift(card.mark))", f"position=minus(card.position, shift({MOVED}))"),
    ("mean-off-from-exact-position", "position=minus(card.position, shift(card.mark))", "position=minus(card.position, shift(card.position))"),
    ("solid-on-bodies-before-card", SOLID_12, SOLID_12.replace("check(card) or", "check(card) and pair_tide(card.mark, first, second)[0] or check(card) or")),
    ("solid-on-bodies-before-12", SOLID_12, SOLID_12.replace("check(card) or", "check(card) or pair_tide(card.mark, first, second)[0] or")),
    ("solid-on-over-mean", SOLID_12, SOLID_12.replace("!= FREE", "== SOLID")),
    ("solid-on-8-before-12", *eight_first(SOLID_12, "plus(card.position, pair_tide(card.mark, first, second)[1])")),
    ("solid-on-from-position", "pair_tide(card.mark, first", f"pair_tide({MOVED}, first"),
    ("solid-on-from-exact-position", "pair_tide(card.mark, first", "pair_tide(card.position, first"),
    ("solid-on-not-stored", "position=plus(card.position, tide), vector=tide", "position=plus(card.position, tide)"),
    *(row for name, less in LESS for row in solid_on_less(name, less)),
    ("solid-on-zero-tide-off", "tide=SOLID, position", "tide=SOLID if any(tide) else FREE, position"),
    ("solid-off-any", SOLID_OFF, SOLID_OFF.replace("!= SOLID", "== FREE")),
    ("solid-off-no-vector-refused", SOLID_OFF, SOLID_OFF.replace("card.tide != SOLID", "card.vector == ZERO")),
    ("solid-off-not-taken", "position=minus(card.position, card.vector), vector=ZERO", "vector=ZERO"),
    ("solid-off-fresh", "minus(card.position, card.vector)", f"minus(card.position, {FRESH})"),
    ("solid-off-vector-left", "position=minus(card.position, card.vector), vector=ZERO", "position=minus(card.position, card.vector)"),
)

KEY = "    if not site_shape(key):\n        return 2, b\"\"\n"
ODD = "    if len(catalogue) % SIZE:\n        return 14, b\"\"\n"
CHECK_ODD = "    if len(catalogue) % SIZE:\n        return 14, 0\n"
FOUND = "catalogue[place:place + 9] == key"

CATALOGUE = (
    ("lookup-14-before-2", *swap(KEY, ODD)),
    ("lookup-any-length", ODD, ""),
    ("lookup-any-key", KEY, ""),
    ("lookup-empty-14", ODD, ODD.replace("if ", "if not catalogue or ")),
    ("lookup-last", "for place in range(0, len(catalogue), SIZE):", "for place in reversed(range(0, len(catalogue), SIZE)):"),
    ("lookup-eight-bytes", FOUND, "catalogue[place:place + 8] == key[:8]"),
    ("lookup-any-place", "range(0, len(catalogue), SIZE):", "range(len(catalogue)):"),
    ("lookup-judges", FOUND, FOUND + " and read(catalogue[place:place + SIZE])[0] == 0"),
    ("lookup-part-short", "return 0, catalogue[place:place + SIZE]", "return 0, catalogue[place:place + SIZE - 1]"),
    ("reader-short-stays", "self.place += len(part)", "self.place += len(part) // SIZE * SIZE"),
    ("reader-short-done", "self.place >= len(self.catalogue)", "self.place + SIZE > len(self.catalogue)"),
    ("reader-refused-stays", "self.place += len(part)\n        return read(part)",
     "self.place += len(part) * (read(part)[0] in (0, 1))\n        return read(part)"),
    ("catalogue-14-last", CHECK_ODD,
     CHECK_ODD.replace("if", "if not any(read(catalogue[i:i + SIZE])[0] for i in range(0, len(catalogue) - SIZE + 1, SIZE)) and")),
    ("catalogue-any-length", CHECK_ODD, ""),
    ("catalogue-places-from-1", "return number, place", "return number, place + 1"),
    ("catalogue-last-bad", "for place in range(count):", "for place in reversed(range(count)):"),
    ("catalogue-last-card-left", "for place in range(count):", "for place in range(count - 1):"),
    ("catalogue-count-0", "return 0, count", "return 0, 0"),
)

LISTING = (
    ("line-order", "str(card.frame), str(card.epoch)", "str(card.epoch), str(card.frame)"),
    ("line-refused-colon", 'f"refused {number}"', 'f"refused: {number}"'),
    ("line-plus", "str(card.epoch),", 'f"{card.epoch:+d}",'),
    ("line-feed-between", '"".join(line(data[i:i + SIZE]) + "\\n" for', '"\\n".join(line(data[i:i + SIZE]) for'),
    ("line-short-left", "range(0, len(data), SIZE)", "range(0, len(data) // SIZE * SIZE, SIZE)"),
)
