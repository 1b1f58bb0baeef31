"""Cases of the questions about layouts: 1 to 7, 10, 22 and 23, each at its boundary."""

from reference import LEFT, RIGHT
from text_to_job import row_bytes

from .parts import (
    S0,
    S1,
    SEND,
    Case,
    Job,
    accepted,
    case,
    framed,
    no,
    pair_record,
    side_name,
)

BASE = Job()


def both_sides(name: str, question: int, item: int = 0, **changes) -> list:
    """The same fault on either side."""
    return [
        case(
            f"{side_name(side)} {question}: {name}",
            BASE.on(side, **changes),
            no(question, side, item),
        )
        for side in (LEFT, RIGHT)
    ]


# ---------------------------------------------------------------- 1 and 10: ranges


def in_range(lo: int, hi: int) -> Job:
    """An accepted job of any range: it has no constants."""
    pairs = tuple((f"({at},{lo},{hi},{{0}})",) * 2 for at in (0, 1))
    job = BASE.on_both(lo=lo, hi=hi, rows=("at 0 broadcast first to 1 keep keep",))
    return job._replace(pairs=pairs)


def range_cases() -> list:
    cases = []
    for lo, hi in ((0, -1), (1, 0), (127, -128), (-127, -128), (3, 2)):
        cases += both_sides(f"range {lo} to {hi}", 1, lo=lo, hi=hi)
    for lo, hi in ((-128, 127), (5, 5), (-1, 0), (-128, -128), (127, 127), (0, 0), (-2, -1)):
        cases.append(case(f"range {lo} to {hi}", in_range(lo, hi), accepted(2)))
    return cases


def same_range_cases() -> list:
    empty = BASE.on_both(rows=())._replace(pairs=())
    own_constant = BASE.on(RIGHT, hi=3, rows=("at 0 broadcast 3 to 1 keep keep",))
    return [
        case("10: hi differs", BASE.on(RIGHT, hi=1), no(10)),
        case("10: lo differs", BASE.on(LEFT, lo=-3), no(10)),
        case("10: differs by sign alone", empty.on(LEFT, hi=-2).on(RIGHT, lo=2), no(10)),
        case("10: no pairs", empty.on(RIGHT, lo=-1), no(10)),
        case("10: a constant of its own range", own_constant, no(10)),
        case("free sets, units and limits differ", differing_settings(), accepted(2)),
    ]


def differing_settings() -> Job:
    """Only the ranges must be the same; here no unit can move on either side."""
    pairs = tuple((f"({at},0,0,{{0}})", f"({at},0,0,{{0}}) (9,0,0,{{0}})") for at in (0, 1))
    return BASE.on(RIGHT, free=255, units=2, limit=3)._replace(pairs=pairs)


# ---------------------------------------------------------------- 2 and 3: links


def link_cases() -> list:
    met = "joined 0 0"
    cases = both_sides("17 links", 2, links=(met,) * 17)
    cases += both_sides("17 links, the first one bad", 2, links=(bytes(3),) + (met,) * 16)
    full = BASE.on_both(links=(met,) * 16)
    cases.append(case("16 links on each side", full, accepted(2)))
    for bad in ("000000", "030000", "FF0000", "010600", "010006", "02FF00", "0200FF"):
        link = bytes.fromhex(bad)
        cases += both_sides(f"link {bad}", 3, links=(link,))
    bad = bytes.fromhex("020006")
    cases += both_sides("link 15 of 16", 3, 15, links=(met,) * 15 + (bad,))
    cases += both_sides("two bad links", 3, 1, links=(met, bad, bad))
    return cases + [mixed_links()]


def mixed_links() -> Case:
    """The number counts the links of one side only, wherever they stand."""
    left, right = framed(3, LEFT, b"\1\0\0"), framed(3, RIGHT, b"\1\0\0")
    bad = framed(3, RIGHT, b"\1\0\6")
    records = BASE.records()
    data = b"".join(records[:2] + [left, right, left, left] + records[2:] + [right, left, bad])
    return Case("right 3: links of both sides mixed", data, no(3, RIGHT, 2))


# ---------------------------------------------------------------- 4 and 5: limit and units


def limit_cases() -> list:
    cases = both_sides("limit 9", 4, limit=9) + both_sides("limit 255", 4, limit=255)
    for limit in range(9):
        cases += groups_at_limit(limit)
    return cases


def groups_at_limit(limit: int) -> list:
    """A unit on as many groups as the limit, and on one more. Nothing is hidden."""

    def on_groups(count: int) -> tuple:
        groups = ",".join(str(group) for group in range(count))
        return tuple((f"({at},0,0,{{{groups}}})",) * 2 for at in (0, 1))

    job = BASE.on_both(limit=limit, free=255)._replace(pairs=on_groups(limit))
    cases = [case(f"limit {limit}, as many groups", job, accepted(2))]
    if limit < 8:
        over = job._replace(pairs=on_groups(limit + 1))
        cases.append(case(f"left 12: limit {limit}, one group more", over, no(12)))
        over = over.on(LEFT, limit=limit + 1)
        cases.append(case(f"right 13: limit {limit}, one group more", over, no(13, RIGHT)))
    return cases


def unit_count_cases() -> list:
    cases = []
    for units in (0, 7, 255):
        cases += both_sides(f"{units} units", 5, units=units)
    return cases


# ---------------------------------------------------------------- 6 and 7: rows

PLAIN = row_bytes("at 0 silent to 1 keep keep")
GUARDED = row_bytes("at 5 if first < 0 receive second to 6 second -1")
SENDING = row_bytes(SEND)

# What is changed in a good row so that it is no longer as laid out in the range -2 to 2.
BAD_ROWS = (
    ("from location 64", PLAIN, {0: 64}),
    ("from location 255", PLAIN, {0: 255}),
    ("to location 64", PLAIN, {9: 64}),
    ("to location 128", SENDING, {9: 128}),
    ("guard 4", GUARDED, {1: 4}),
    ("guard 255", GUARDED, {1: 255}),
    ("no guard, first operand a constant", PLAIN, {2: 2}),
    ("no guard, byte of the first operand", PLAIN, {3: 1}),
    ("no guard, second operand a register", PLAIN, {4: 1}),
    ("no guard, byte of the second operand", PLAIN, {5: 1}),
    ("guard compares kind 3", GUARDED, {2: 3}),
    ("guard compares a register with a byte", GUARDED, {3: 255}),
    ("guard compares the constant 3", GUARDED, {2: 2, 3: 3}),
    ("guard compares against kind 3", GUARDED, {4: 3}),
    ("guard compares against a register with a byte", GUARDED, {4: 1, 5: 1}),
    ("guard compares against -3", GUARDED, {5: 0xFD}),
    ("guard compares against 3", GUARDED, {5: 3}),
    ("action 3", PLAIN, {6: 3}),
    ("action 255", SENDING, {6: 255}),
    ("silent with a constant", PLAIN, {7: 2}),
    ("silent with a register", PLAIN, {7: 1}),
    ("silent with a byte", PLAIN, {8: 1}),
    ("broadcast of kind 3", SENDING, {7: 3}),
    ("broadcast of a register with a byte", SENDING, {7: 0}),
    ("broadcast of 3", SENDING, {8: 3}),
    ("broadcast of -3", SENDING, {8: 0xFD}),
    ("receive into a constant", GUARDED, {7: 2}),
    ("receive into kind 3", GUARDED, {7: 3}),
    ("receive with a byte", GUARDED, {8: 1}),
    ("new first register of kind 3", PLAIN, {10: 3}),
    ("new first register with a byte", PLAIN, {11: 1}),
    ("new first register 3", PLAIN, {10: 2, 11: 3}),
    ("new first register -3", GUARDED, {10: 2, 11: 0xFD}),
    ("new second register of kind 255", PLAIN, {12: 255}),
    ("new second register with a byte", PLAIN, {13: 255}),
    ("new second register 3", GUARDED, {13: 3}),
    ("new second register -3", GUARDED, {13: 0xFD}),
    ("byte 14", PLAIN, {14: 1}),
    ("byte 15", SENDING, {15: 128}),
)

# Rows at the edge of what is as laid out in the range -2 to 2.
GOOD_ROWS = (
    "at 63 silent to 63 keep keep",
    "at 63 if -2 = 2 broadcast first to 0 -2 2",
    "at 63 if 2 != first broadcast second to 0 second first",
    "at 63 if second < -2 receive first to 63 2 -2",
    "at 63 if 2 < second receive second to 63 second second",
    "at 63 if -1 < -1 broadcast 2 to 63 0 -1",
)


def with_bytes(row: bytes, changes: dict) -> bytes:
    return bytes(changes.get(place, byte) for place, byte in enumerate(row))


def row_cases() -> list:
    cases = both_sides("65 rows", 6, rows=(SEND,) * 65)
    cases += both_sides("65 rows, the first one bad", 6, rows=(bytes([64] * 16),) + (SEND,) * 64)
    for number, (name, row, changes) in enumerate(BAD_ROWS):
        bad = with_bytes(row, changes)
        before = number % 4
        cases += both_sides(f"{name}, row {before}", 7, before, rows=(SEND,) * before + (bad,))
    bad = bytes([64]) + PLAIN[1:]
    cases += both_sides("row 63 of 64", 7, 63, rows=(SEND,) * 63 + (bad,))
    cases += both_sides("two bad rows", 7, 2, rows=(SEND, SEND, bad, bad))
    good = BASE.on_both(rows=(SEND,) + GOOD_ROWS)
    cases.append(case("rows at the edge of the layout", good, accepted(2)))
    return cases + zero_out_of_range() + [mixed_rows(), full_rows()]


def zero_out_of_range() -> list:
    """The constant 0 is refused where 0 is outside the range; zero bytes stay zero bytes."""
    above, below = in_range(1, 5), in_range(-5, -1)
    rows = ("at 0 broadcast 0 to 1 keep keep",)
    return [
        case("left 7: 0 in the range 1 to 5", above.on(LEFT, rows=rows), no(7)),
        case("right 7: 0 in the range -5 to -1", below.on(RIGHT, rows=rows), no(7, RIGHT)),
        case("range 1 to 5", above, accepted(2)),
        case("range -5 to -1", below, accepted(2)),
    ]


def mixed_rows() -> Case:
    """The number counts the rows of one side only, wherever they stand."""
    left, right = framed(2, LEFT, SENDING), framed(2, RIGHT, SENDING)
    bad = framed(2, LEFT, bytes([64]) + SENDING[1:])
    records = BASE.records()
    data = b"".join(records[:2] + [right, left, right, right] + records[4:] + [left, right, bad])
    return Case("left 7: rows of both sides mixed", data, no(7, LEFT, 2))


def full_rows() -> Case:
    """64 rows on each side, all but one of them at a location that is never reached."""
    rows = (SEND,) + ("at 7 broadcast 1 to 1 keep keep",) * 63
    return case("64 rows on each side", BASE.on_both(rows=rows), accepted(2))


# ---------------------------------------------------------------- 22: length


def longest() -> Job:
    """A job of 1,022 pairs, with repeats; its length is the greatest that there is."""
    pairs = tuple(
        (f"({k % 64},{k // 64 % 5 - 2},0,{{0}})", f"({k % 64},0,{k // 320 - 2},{{0}})")
        for k in range(511)
    )
    return BASE.on_both(rows=())._replace(pairs=pairs + pairs)


def fullest() -> Job:
    """As many rows and links as there may be, and pairs up to the greatest length."""
    rows = (SEND,) + ("at 7 broadcast 1 to 1 keep keep",) * 63
    pairs = ((S0, S0), (S1, S1)) * 431
    return BASE.on_both(rows=rows, links=("joined 0 0",) * 16)._replace(pairs=pairs)


def length_cases() -> list:
    data = BASE.data()
    cases = [
        Case(f"22: length {length}", data[:length], no(22))
        for length in (0, 1, 63, 64, 65, 127, 129, 191, 193, 383)
    ]
    cases.append(Case("22: length 127 of zero bytes", bytes(127), no(22)))
    cases.append(Case("length 128", data[:128], accepted(0)))
    cases.append(Case("length 192", data[:192], accepted(0)))
    cases.append(Case("length 320", data[:320], no(15)))
    long = longest().data()
    one_more = pair_record((S1, S1))
    return cases + [
        Case("22: length 65,535", long[:-1], no(22)),
        Case("length 65,536", long, accepted(1022)),
        Case("22: length 65,537", long + b"\0", no(22)),
        Case("22: length 65,600", long + one_more, no(22)),
        case("length 65,536, rows and links full", fullest(), accepted(862)),
        Case("22: length 65,600, rows and links full", fullest().data() + one_more, no(22)),
        Case("length 65,472", long[:-64], accepted(1021)),
    ]


# ---------------------------------------------------------------- 23: frames


def with_byte(records: list, record: int, byte: int, new: int) -> bytes:
    changed = list(records)
    data = records[record]
    changed[record] = data[:byte] + bytes([new]) + data[byte + 1 :]
    return b"".join(changed)


def frame_records() -> list:
    """Two settings, two rows, two links and two pairs: records 0 to 7."""
    return BASE.on_both(links=("joined 0 0",)).records()


def frame_cases() -> list:
    records = frame_records()
    cases = [Case("frames in order", b"".join(records), accepted(2))]
    for record, end in ((0, 7), (1, 7), (2, 18), (3, 18), (4, 5), (5, 5), (6, 50), (7, 50)):
        for byte in (end, 63):
            data = with_byte(records, record, byte, 1 if byte == end else 128)
            cases.append(Case(f"23: byte {byte} of record {record}", data, no(23, LEFT, record)))
    for record in (0, 1, 2, 5, 7):
        for kind in (0, 5, 255):
            data = with_byte(records, record, 0, kind)
            cases.append(Case(f"23: kind {kind} of record {record}", data, no(23, LEFT, record)))
    for record, side in ((0, 1), (1, 0), (0, 2), (1, 255), (2, 2), (3, 255), (4, 2), (5, 3)):
        data = with_byte(records, record, 1, side)
        cases.append(Case(f"23: side {side} of record {record}", data, no(23, LEFT, record)))
    for record, side in ((6, 1), (7, 2)):
        data = with_byte(records, record, 1, side)
        cases.append(Case(f"23: side {side} of a pair", data, no(23, LEFT, record)))
    return cases + position_cases(records) + payload_edge_cases(records)


def position_cases(records: list) -> list:
    left, right, *rest = records
    orders = (
        ("settings change places", [right, left] + rest, 0),
        ("a row in front", [rest[0], left, right] + rest[1:], 0),
        ("a row between the settings", [left, rest[0], right] + rest[1:], 1),
        ("a pair in second place", [left, rest[4], right] + rest, 1),
        ("two left settings", [left, left] + rest, 1),
        ("the left setting again", [left, right, left] + rest, 2),
        ("the right setting again at the end", records + [right], 8),
        ("a zero record at the end", records + [bytes(64)], 8),
        ("two faults, the first is told", [left, right, bytes(64), right] + rest, 2),
    )
    cases = [
        Case(f"23: {name}", b"".join(order), no(23, LEFT, record))
        for name, order, record in orders
    ]
    cases.append(Case("23: 65,536 zero bytes", bytes(65536), no(23)))
    last = longest().data()[:-1] + b"\1"
    return cases + [Case("23: the last of 1,024 records", last, no(23, LEFT, 1023))]


def payload_edge_cases(records: list) -> list:
    """The last byte of each payload belongs to the payload's own question."""
    return [
        Case("left 4: byte 6 of record 0", with_byte(records, 0, 6, 9), no(4)),
        Case("right 4: byte 6 of record 1", with_byte(records, 1, 6, 9), no(4, RIGHT)),
        Case("left 7: byte 17 of record 2", with_byte(records, 2, 17, 1), no(7)),
        Case("right 7: byte 17 of record 3", with_byte(records, 3, 17, 1), no(7, RIGHT)),
        Case("left 3: byte 4 of record 4", with_byte(records, 4, 4, 6), no(3)),
        Case("right 3: byte 4 of record 5", with_byte(records, 5, 4, 6), no(3, RIGHT)),
        Case("left 12: byte 25 of record 6", with_byte(records, 6, 25, 1), no(12)),
        Case("right 13: byte 49 of record 6", with_byte(records, 6, 49, 1), no(13, RIGHT)),
    ]


def layout_cases() -> list:
    return (
        length_cases()
        + frame_cases()
        + range_cases()
        + link_cases()
        + limit_cases()
        + unit_count_cases()
        + row_cases()
        + same_range_cases()
    )
