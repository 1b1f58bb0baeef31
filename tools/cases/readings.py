"""Relations that a wrong reading of the steps or of the replies would take the other way."""

from reference import LEFT, RIGHT

from .misses import each_landing_left_out
from .parts import HEAR, SEND, Job, Side, accepted, case, no, running, state
from .relations import FORGET, image, itself, same


def twice(*states: str) -> tuple:
    """Each state with itself."""
    return tuple((each, each) for each in states)


# ---------------------------------------------------------------- the reply comes before the value


def value_dependent_replies() -> list:
    """For each value one of two receives fits, but none fits for all values."""
    lands_low = "at 0 receive first to 1 -1 keep"
    lands_high = "at 0 receive first to 1 0 keep"
    lands_by_value = "at 0 receive first to 1 keep keep"
    told = "at 1 if first < 0 broadcast -1 to 2 0 0"
    narrow = running(lands_low, lands_high, told, lo=-1, hi=0)
    wide = running(lands_low, lands_high, lands_by_value, told, lo=-1, hi=0)
    pairs = twice("(0,0,0,{0})", "(1,-1,0,{0})", "(1,0,0,{0})", "(2,0,0,{0})")
    untold = [side._replace(rows=side.rows[:-1]) for side in (wide, narrow)]
    ends = ("(1,-1,0,{0})", "(1,0,0,{0})")
    all_ends = pairs[:1] + tuple((one, other) for one in ends for other in ends)
    return [
        case("15: a reply by the value", Job(wide, narrow, pairs), no(15, LEFT, 0, 2)),
        case("16: a reply by the value", Job(narrow, wide, pairs), no(16, RIGHT, 0, 2)),
        case("the ends are alike", Job(*untold, all_ends), accepted(5)),
        case("both land by value", Job(wide, wide, pairs), accepted(4)),
        case("15: an end is missing", Job(wide, wide, pairs[:2] + pairs[3:]), no(15, LEFT, 0, 1)),
    ]


def values_one_by_one() -> list:
    """Both landings are taken for the same value, lowest and highest included."""
    side = running("at 0 receive first to 1 keep keep", lo=-128, hi=-125)
    start = "(0,-128,-128,{0})"
    ends = [f"(1,{value},-128,{{0}})" for value in range(-128, -124)]
    cases = [case("every value", Job(side, side, twice(start, *ends)), accepted(5))]
    for missing in range(4):
        kept = ends[:missing] + ends[missing + 1 :]
        job = Job(side, side, twice(start, *kept))
        cases.append(case(f"15: value {missing - 128} is missing", job, no(15)))
    crossed = twice(start) + tuple(zip(ends, reversed(ends)))
    return cases + [case("15: values crossed", Job(side, side, crossed), no(15))]


# ---------------------------------------------------------------- labels


def label_cases() -> list:
    """What a label carries: the sender's free part, and the value if there is one."""
    silent = running("at 0 silent to 1 keep keep")
    other_value = running("at 0 broadcast 2 to 1 keep keep")
    receives = running("at 0 receive first to 1 0 keep")
    both = running(*Side().rows, *receives.rows)
    none = Side(limit=0)
    nowhere = twice("(0,0,0,{})", "(1,0,0,{})")
    return [
        case("15: another value", Job(Side(), other_value), no(15)),
        case("15: silent for a broadcast", Job(Side(), silent), no(15)),
        case("15: receive for a broadcast", Job(Side(), receives), no(15)),
        case("16: a receive more", Job(Side(), both), no(16, RIGHT, 0, 1)),
        case("15: movement for silent", movement_for_silent(), no(15)),
        case("silent on no group", Job(none, silent._replace(limit=0), nowhere), accepted(2)),
        case("values on no group", Job(none, other_value._replace(limit=0), nowhere), accepted(2)),
    ]


def set_label_cases() -> list:
    """Both states show the same set, but the units that act are on different sets."""
    cases = []
    for name, row in (("broadcasts", SEND), ("receives", "at 0 receive first to 1 0 keep")):
        for one, other in (("{0}", "{1}"), ("{0,1}", "{0}"), ("{2}", "{0,1,2}")):
            side = running(row, free=255, units=2, limit=3)
            rest = "(9,0,0,{0,1,2})"
            pairs = tuple(
                (f"({at},0,0,{one}) {rest}", f"({at},0,0,{other}) {rest}") for at in (0, 1)
            )
            cases.append(case(f"15: {name} on {one} and {other}", Job(side, side, pairs), no(15)))
    return cases


def movement_for_silent() -> Job:
    """The right moves where the left is silent, and lands on a record."""
    left = running("at 0 silent to 1 keep keep", free=255)
    pairs = (("(0,0,0,{})", "(1,0,0,{})"), ("(1,0,0,{})", "(1,0,0,{7})"))
    return Job(left, running(free=0x7F), pairs)


def hidden_label_cases() -> list:
    """Hidden groups are taken out of labels; a receive on hidden groups alone is no step."""
    hears, quiet = running(HEAR, free=0x7F), running(free=0x7F)
    on_hidden = twice("(2,0,0,{7})", "(2,0,0,{})")
    sends = running(SEND, free=0x7F, limit=2)
    receives = running("at 0 receive first to 1 0 keep", free=0x7F, limit=2)
    sets = ("{0}", "{0,7}")
    pairs = tuple(
        (f"({at},0,0,{one})", f"({at},0,0,{other})")
        for at in (0, 1)
        for one in sets
        for other in sets
    )
    return [
        case("no receive on hidden groups", Job(hears, quiet, on_hidden), accepted(2)),
        case("a broadcast beside a hidden group", Job(sends, sends, pairs), accepted(8)),
        case("a receive beside a hidden group", Job(receives, receives, pairs), accepted(8)),
    ]


# ---------------------------------------------------------------- movements


def movement_cases() -> list:
    """Movements count as steps, and the whole placement is asked about."""
    still, moving = Side(), Side(limit=2)
    loose = running(free=0x3F, units=2)
    joined = loose._replace(links=("joined 0 1",))
    together = twice("(0,0,0,{6}) (0,0,0,{6})")
    return [
        case("16: movements must be answered", Job(still, moving), no(16, RIGHT)),
        case("15: movements must be answered", Job(moving, still), no(15)),
        case("joined units stay where they are", Job(joined, joined, together), accepted(1)),
        case("16: without the link they move", Job(joined, loose, together), no(16, RIGHT)),
        case("15: without the link they move", Job(loose, joined, together), no(15)),
        case("15: 255 movements", many_movements(), no(15, LEFT, 0, 199)),
    ]


def many_movements() -> Job:
    """Every group is hidden on the left. The movement to the set 200 has no record."""
    here, there = state((0, 0, 0, 0)), state((0, 0, 0, 128))
    moved = [(state((0, 0, 0, groups)), there) for groups in range(1, 256) if groups != 200]
    return Job(running(free=0, limit=8), running(free=0x7F), ((here, here), *moved))


def order_of_lists() -> list:
    """Each landing left out in turn tells the number of each step."""
    three = running(SEND, FORGET, "at 2 if second = 1 receive first to 4 0 keep", units=3)
    two = running(SEND, "at 0 silent to 2 keep keep", free=0x3F, units=2)
    four = running(FORGET, SEND, units=4)
    listener = (2, 0, 0, 1)
    shapes = (
        ("six choices", same(three, state((2, 0, 1, 1), (0, 0, 0, 1), listener))),
        ("seven movements", same(Side(limit=2), state((0, 0, 0, 1)))),
        ("two units move", same(two, state((0, 0, 0, 64), (0, 0, 0, 0)))),
        ("the last unit sends", same(four, state(listener, listener, listener, (0, 0, 0, 1)))),
    )
    return [each for name, job in shapes for each in each_landing_left_out(name, job)]


# ---------------------------------------------------------------- rows


def row_cases() -> list:
    """Guards are tried before the fill; new registers are read together after it."""
    start = state((4, 1, 2, 1))
    exchange = same(running("at 4 receive first to 5 second first"), start)
    in_turn = running("at 4 receive first to 5 second second")
    unfilled = same(running("at 4 silent to 5 second first"), start)
    filled = running("at 4 receive first to 5 first first")
    filled_second = running("at 4 receive second to 5 second second")
    guarded, quiet = running("at 4 if first = 0 receive first to 5 0 keep"), running()
    before, true = twice("(4,1,0,{0})"), twice("(4,0,0,{0})")
    return [
        case("an exchange after a fill", exchange, accepted(6)),
        case("15: read one after the other", exchange._replace(right=in_turn), no(15)),
        case("an exchange without a fill", unfilled, accepted(2)),
        case("a fill of either register", image(filled, filled_second, itself, start), accepted(6)),
        case("the guard is false before the fill", Job(guarded, quiet, before), accepted(1)),
        case("15: the guard is true before the fill", Job(guarded, quiet, true), no(15)),
    ]


def sign_cases() -> list:
    """A row for values below 0, against one for values above 0 and against none."""
    below = running("at 0 if first < 0 silent to 0 keep keep")
    above = running("at 0 if 0 < first silent to 0 keep keep")
    cases = []
    for value in range(-2, 3):
        pairs = twice(f"(0,{value},0,{{0}})")
        to_none = no(15) if value < 0 else accepted(1)
        to_above = no(16, RIGHT) if value > 0 else to_none
        cases.append(case(f"{value} below 0, or nothing", Job(below, running(), pairs), to_none))
        cases.append(case(f"{value} below 0, or above", Job(below, above, pairs), to_above))
    return cases


def choice_cases() -> list:
    """The moment of a choice counts: one side chooses at once, the other a step later."""
    later = running(
        "at 0 broadcast 0 to 1 keep keep",
        "at 1 broadcast 1 to 3 keep keep",
        "at 1 broadcast 2 to 3 keep keep",
    )
    at_once = running(
        "at 0 broadcast 0 to 1 keep keep",
        "at 0 broadcast 0 to 2 keep keep",
        "at 1 broadcast 1 to 3 keep keep",
        "at 2 broadcast 2 to 3 keep keep",
    )
    places = ((0, 0), (1, 1), (1, 2), (3, 3))
    pairs = tuple((f"({one},0,0,{{0}})", f"({other},0,0,{{0}})") for one, other in places)
    swapped = tuple((right, left) for left, right in pairs)
    return [
        case("15: chosen at once", Job(later, at_once, pairs), no(15, LEFT, 1, 1)),
        case("16: chosen at once", Job(at_once, later, swapped), no(16, RIGHT, 1, 1)),
    ]


# ---------------------------------------------------------------- long lists


def long_lists() -> list:
    """Step numbers of two and of three bytes."""
    return [
        case("15: step 625", long_list(LEFT, 4, 4, 4), no(15, LEFT, 0, 625)),
        case("16: step 1280", long_list(RIGHT, 5, 3, 4), no(16, RIGHT, 0, 1280)),
        case("15: step 65610", long_list(LEFT, 5, 8, 9), no(15, LEFT, 0, 65610)),
    ]


def long_list(side: int, listeners: int, rows: int, last_rows: int) -> Job:
    """A sender among listeners who hear in many ways and yet stay as they are.

    The last listener has its own count of receive rows. After all ways to hear
    comes a silent step, which has no reply.
    """
    places = (2,) * rows + (3,) * last_rows
    hears = tuple(f"at {at} receive second to {at} keep 0" for at in places)
    many = running(*hears, SEND, "at 0 silent to 1 keep keep", units=listeners + 1)
    waiting = [(2, 0, 0, 1)] * (listeners - 1) + [(3, 0, 0, 1)]
    states = [
        (state((at, 0, 0, 1), *waiting), state((at, 0, 0, 1))) for at in (0, 1)
    ]
    if side == LEFT:
        return Job(many, Side(), tuple(states))
    return Job(Side(), many, tuple((few, crowd) for crowd, few in states))


def reading_cases() -> list:
    return (
        value_dependent_replies()
        + values_one_by_one()
        + label_cases()
        + set_label_cases()
        + hidden_label_cases()
        + movement_cases()
        + order_of_lists()
        + row_cases()
        + sign_cases()
        + choice_cases()
        + long_lists()
    )
