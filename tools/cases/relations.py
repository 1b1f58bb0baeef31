"""Accepted relations of many shapes, each with its systems.

A shape is a name and a job that must be accepted.
"""

from typing import Callable

from reference import SPARE, Unit, largest_bisimulation, list_steps, reached

from .parts import HEAR, SEND, Job, Side, running, state

MOST_PAIRS = 300
FORGET = "at 2 receive first to 3 0 keep"


class TooMany(Exception):
    """There are more pairs than a case should have."""


# ---------------------------------------------------------------- ways to make a relation


def states_reached(side: Side, *starts: tuple) -> list:
    """The start states and all that steps reach from them."""
    network = side.network()
    known = dict.fromkeys(starts)
    waiting = list(known)
    while waiting:
        for _, landings in list_steps(network, waiting.pop(0)):
            for landing in landings:
                if landing not in known:
                    known[landing] = None
                    waiting.append(landing)
        if len(known) > MOST_PAIRS:
            raise TooMany
    return list(known)


def image(left: Side, right: Side, of: Callable, *starts: tuple) -> Job:
    """Each state of the left with its image on the right."""
    states = states_reached(left, *starts)
    return Job(left, right, tuple((each, of(each)) for each in states))


def itself(each: tuple) -> tuple:
    return each


def same(side: Side, *starts: tuple) -> Job:
    """Each state with itself, both sides being the same network."""
    return image(side, side, itself, *starts)


def found(left: Side, right: Side, *starts: tuple) -> Job:
    """The largest bisimulation among the pairs that are reached from the start pairs."""
    networks = left.network(), right.network()
    candidates = reached(*networks, list(starts), MOST_PAIRS)
    if candidates is None:
        raise TooMany
    pairs = largest_bisimulation(*networks, candidates)
    if not set(starts) <= set(pairs):
        raise ValueError("the start pairs are not alike")
    return Job(left, right, tuple(pairs))


# ---------------------------------------------------------------- units and listeners


def sending_units() -> list:
    """One to six units, each of which sends once."""
    return [
        (f"{units} units send", same(Side(units=units), state(*[(0, 0, 0, 1)] * units)))
        for units in range(1, 7)
    ]


def listeners() -> list:
    """A sender among units that may hear it or lose it; the value heard is forgotten or kept."""
    shapes = []
    for count in range(1, 6):
        start = [(2, 0, 0, 1)] * count
        start.insert(count // 2, (0, 0, 0, 1))
        side = running(SEND, FORGET, units=count + 1)
        shapes.append((f"{count} listeners forget", same(side, state(*start))))
    for count in (1, 2, 3):
        start = state((0, 0, 0, 1), *[(2, 0, 0, 1)] * count)
        side = running("at 0 broadcast -1 to 1 keep keep", HEAR, lo=-1, hi=0, units=count + 1)
        shapes.append((f"{count} listeners keep the value", same(side, start)))
    return shapes + [six_choices(), either_listener()]


def six_choices() -> tuple:
    """Unit 0 has two receive rows, unit 2 has one, and unit 1 sends."""
    side = running(
        SEND,
        FORGET,
        "at 5 silent to 5 keep keep",
        "at 2 if second = 1 receive first to 4 0 keep",
        units=3,
    )
    start = state((2, 0, 1, 1), (0, 0, 0, 1), (2, 0, 0, 1))
    return "six choices at a broadcast", same(side, start)


def either_listener() -> tuple:
    """One listener may stand for the other."""
    side = running(SEND, FORGET, units=3)
    start = state((0, 0, 0, 1), (2, 0, 0, 1), (2, 0, 0, 1))
    return "either of two listeners", found(side, side, (start, start))


def several_senders() -> list:
    """Units that send what they have heard, in a ring of locations."""
    ring = running(
        "at 0 broadcast first to 1 keep keep", "at 1 receive first to 0 keep keep", lo=-1, hi=0
    )
    two = state((0, -1, 0, 1), (1, 0, 0, 1))
    three = state((0, -1, 0, 1), (1, 0, 0, 1), (1, -1, 0, 1))
    return [
        ("two units in turn", same(ring._replace(units=2), two)),
        ("three units in turn", same(ring._replace(units=3), three)),
    ]


def not_linked() -> list:
    """Listeners on another free group, on both, and on none."""
    four = running(SEND, FORGET, units=4, free=255, limit=2)
    start = state((0, 0, 0, 1), (2, 0, 0, 2), (2, 0, 0, 3), (2, 0, 0, 0))
    two = four._replace(units=2)
    return [
        ("listeners on several groups", same(four, start)),
        ("a sender on two groups", same(two, state((0, 0, 0, 3), (2, 0, 0, 2)))),
    ]


# ---------------------------------------------------------------- hidden groups


def hidden_groups() -> list:
    """Groups outside F: movements, silent broadcasts, and hearing over a hidden group."""
    one = running(SEND, FORGET, free=0x7F)
    two = running(SEND, free=0x3F)
    pair = one._replace(units=2)
    starts = (
        ("a unit on a hidden group", one, [(0, 0, 0, 128)]),
        ("a unit beside a hidden group", one._replace(limit=2), [(0, 0, 0, 129)]),
        ("two hidden groups, limit 2", two._replace(limit=2), [(0, 0, 0, 64)]),
        ("two hidden groups, limit 3", two._replace(limit=3), [(0, 0, 0, 1)]),
        ("hearing over a hidden group", pair, [(0, 0, 0, 128), (2, 0, 0, 128)]),
        ("a hidden and a free group", pair._replace(limit=2), [(0, 0, 0, 129), (2, 0, 0, 128)]),
        ("three units on a hidden group", one._replace(units=3), hidden_crowd()),
        ("nothing is free", Side(free=0), [(0, 0, 0, 0)]),
        ("seven hidden groups", Side(limit=2), [(0, 0, 0, 1)]),
    )
    return [(name, same(side, state(*units))) for name, side, units in starts]


def hidden_crowd() -> list:
    return [(0, 0, 0, 128), (2, 0, 0, 128), (2, 0, 0, 0)]


def hidden_names() -> list:
    """Any hidden set with any other: the name of a hidden group does not count."""
    hidden = (0, 2, 4, 8, 16, 32, 64, 128)
    pairs = tuple(
        (state((at, 0, 0, one)), state((at, 0, 0, other)))
        for at in (0, 1)
        for one in hidden
        for other in hidden
    )
    sends_2 = running("at 0 broadcast 2 to 1 keep keep")
    fewer = Side(free=0x3F)
    start = (state((0, 0, 0, 64)), state((0, 0, 0, 0)))
    # Group 7 is hidden on the left, and group 0 on the right.
    names = (state((0, 0, 0, 128)), state((0, 0, 0, 1)))
    return [
        ("all pairs of hidden sets", Job(Side(), Side(), pairs)),
        ("a hidden value changed", Job(Side(), sends_2, pairs)),
        ("one hidden group for another", found(fewer, fewer, start)),
        ("another group is hidden", found(Side(free=0x7F), Side(free=0xFE), names)),
        ("a silent row for a hidden broadcast", silent_for_hidden()),
        ("a hidden value changed and heard", hidden_value_heard()),
    ]


def silent_for_hidden() -> Job:
    right = running("at 0 silent to 1 keep keep", free=0x7F)
    return image(Side(free=0x7F), right, itself, state((0, 0, 0, 128)))


def hidden_value_heard() -> Job:
    """Another value is heard over the hidden group, and forgotten."""
    left = running(SEND, FORGET, free=0x7F, units=2)
    right = left._replace(rows=("at 0 broadcast 2 to 1 keep keep", FORGET))
    return image(left, right, itself, state((0, 0, 0, 128), (2, 0, 0, 128)))


def other_limits() -> list:
    """Different limits that make no difference."""
    three, four = Side(free=0x3F, limit=2), Side(free=0x3F, limit=3)
    start = state((0, 0, 0, 1))
    all_free = Side(free=255)
    return [
        ("three sets for four", found(three, four, (start, start))),
        ("limit 3 for limit 8", image(four, four._replace(limit=8), itself, start)),
        ("no hidden groups", image(all_free, all_free._replace(limit=8), itself, start)),
    ]


# ---------------------------------------------------------------- links


def linked_units() -> list:
    """Links that hold movements back, with two hidden groups."""
    two = running(SEND, FORGET, free=0x3F, units=2)
    wide = running(SEND, free=0x3F, units=2, limit=2)
    together = [(0, 0, 0, 64), (2, 0, 0, 64)]
    apart = [(0, 0, 0, 64), (2, 0, 0, 128)]
    three = two._replace(units=3)
    starts = (
        ("joined units stay", two, ("joined 0 1",), together),
        ("joined units may move", wide, ("joined 0 1",), together),
        ("units kept apart", two, ("apart 0 1",), apart),
        ("a unit on some group", two, ("joined 1 1",), apart),
        ("a unit on no group", two, ("apart 0 0",), [(0, 0, 0, 0), (2, 0, 0, 64)]),
        ("both kinds of links", three, ("joined 0 1", "apart 0 2"), together + [(1, 0, 0, 128)]),
    )
    mirror = two._replace(links=("apart 1 0", "apart 0 1"))
    shapes = [
        (name, same(side._replace(links=links), state(*units)))
        for name, side, links, units in starts
    ]
    left = two._replace(links=("apart 0 1",))
    return shapes + [("a link and its mirror", image(left, mirror, itself, state(*apart)))]


# ---------------------------------------------------------------- guards and registers

TAKE = "at 0 receive first to 1 keep keep"
TAKE_BOTH = (TAKE, "at 1 receive second to 2 keep keep")

# Two tables of rows at location 1 that mean the same in the range -2 to 2.
SAME_GUARDS = (
    (
        "below 0",
        ["at 1 if first < 0 broadcast -1 to 3 0 0"],
        ["at 1 if first = -2 broadcast -1 to 3 0 0", "at 1 if -1 = first broadcast -1 to 3 0 0"],
    ),
    (
        "not 0",
        ["at 1 if first != 0 broadcast 2 to 3 0 0"],
        ["at 1 if first < 0 broadcast 2 to 3 0 0", "at 1 if 0 < first broadcast 2 to 3 0 0"],
    ),
    (
        "always",
        ["at 1 broadcast first to 3 0 0"],
        ["at 1 if first < -1 broadcast -2 to 3 0 0", "at 1 if -2 < first broadcast first to 3 0 0"],
    ),
    ("true constants", ["at 1 silent to 3 0 0"], ["at 1 if -1 < 1 silent to 3 0 0"]),
    (
        "false constants",
        [],
        ["at 1 if 1 < -1 silent to 3 0 0", "at 1 if -2 = 2 silent to 3 0 0"],
    ),
    (
        "differs from -1",
        ["at 1 if first != -1 receive first to 1 0 0"],
        ["at 1 if first = -2 receive first to 1 0 0", "at 1 if -1 < first receive first to 1 0 0"],
    ),
    (
        "a constant for a register",
        ["at 1 if first = -2 broadcast -2 to 3 0 0"],
        ["at 1 if -2 = first broadcast first to 3 0 0"],
    ),
)

# The same, of both registers, at location 2 in the range -1 to 0.
SAME_REGISTERS = (
    (
        "equal registers",
        ["at 2 if first = second broadcast first to 3 0 0"],
        ["at 2 if second = first broadcast second to 3 0 0"],
    ),
    (
        "differing registers",
        ["at 2 if first != second silent to 3 0 0"],
        ["at 2 if first < second silent to 3 0 0", "at 2 if second < first silent to 3 0 0"],
    ),
    (
        "the lower register",
        ["at 2 if first < second broadcast first to 3 0 0"],
        ["at 2 if first < second broadcast -1 to 3 0 0"],
    ),
)


def guards() -> list:
    start = state((0, 0, 0, 1))
    shapes = []
    for name, left, right in SAME_GUARDS:
        sides = running(TAKE, *left), running(TAKE, *right)
        shapes.append((f"guards: {name}", image(*sides, itself, start)))
    for name, left, right in SAME_REGISTERS:
        sides = [running(*TAKE_BOTH, *rows, lo=-1, hi=0) for rows in (left, right)]
        shapes.append((f"guards: {name}", image(*sides, itself, start)))
    return shapes


def exchanged(given: tuple) -> tuple:
    """The state with the two registers of each unit exchanged."""
    return tuple(Unit(u.location, u.second, u.first, u.groups) for u in given)


def registers() -> list:
    """Fills, exchanges and constants; one side uses the other register throughout."""
    first = running(TAKE, "at 1 broadcast first to 0 -1 keep", lo=-1, hi=1)
    second = running(
        "at 0 receive second to 1 keep keep", "at 1 broadcast second to 0 keep -1", lo=-1, hi=1
    )
    swap = running(
        "at 0 receive first to 1 second first", "at 1 silent to 0 second first", lo=-1, hi=0
    )
    queue = running(
        "at 0 receive second to 0 second first",
        "at 0 if first < second broadcast second to 0 keep keep",
        lo=-1,
        hi=1,
    )
    lowest = running(
        TAKE, "at 1 if first = -128 broadcast -128 to 0 -128 keep", lo=-128, hi=-127
    )
    highest = running(TAKE, "at 1 if 126 < first broadcast 127 to 0 126 keep", lo=126, hi=127)
    return [
        ("the other register", image(first, second, exchanged, state((0, 0, 1, 1)))),
        ("an exchange", same(swap, state((0, -1, 0, 1)))),
        ("a queue of two values", same(queue, state((0, -1, 1, 1)))),
        ("the lowest values", same(lowest, state((0, -127, -128, 1)))),
        ("the highest values", same(highest, state((0, 126, 127, 1)))),
    ]


# ---------------------------------------------------------------- programs of another form


def renamed(given: tuple) -> tuple:
    """Every unit at the location 63 minus its own; spare slots stay."""
    return tuple(u if u == SPARE else u._replace(location=63 - u.location) for u in given)


def backwards(units: int) -> Callable:
    """The units in the other order."""
    return lambda given: tuple(reversed(given[:units])) + given[units:]


def other_programs() -> list:
    far = running(
        "at 63 broadcast -2 to 62 keep keep", "at 61 receive first to 60 0 keep", units=2
    )
    two, three = running(SEND, FORGET, units=2), running(SEND, FORGET, units=3)
    start = state((0, 0, 0, 1), (2, 0, 0, 1))
    idle = state((0, 0, 0, 1), (2, 0, 0, 1), (1, 0, 0, 1))
    one, crowd = state((0, 0, 0, 1)), state((0, 0, 0, 1), *[(9, 0, 0, 1)] * 4)
    return [
        ("locations renamed", image(two, far, renamed, start)),
        ("units in the other order", image(two, two, backwards(2), start)),
        ("three units in the other order", image(three, three, backwards(3), idle)),
        ("a unit that does nothing", found(two, three, (start, idle))),
        ("five units for one", found(Side(), Side(units=5), (one, crowd))),
    ]


def loops() -> list:
    """Loops of different length, and choices that come to the same."""
    loop = running("at 0 broadcast -2 to 0 keep keep")
    longer = running(
        "at 0 broadcast -2 to 1 keep keep",
        "at 1 broadcast -2 to 2 keep keep",
        "at 2 broadcast -2 to 0 keep keep",
    )
    silent = running("at 0 silent to 0 keep keep")
    longer_silent = running("at 0 silent to 1 keep keep", "at 1 silent to 0 keep keep")
    choice = running(
        "at 0 silent to 1 keep keep",
        "at 0 silent to 2 keep keep",
        "at 1 broadcast 1 to 3 keep keep",
        "at 2 broadcast 1 to 4 keep keep",
    )
    single = running("at 0 silent to 1 keep keep", "at 1 broadcast 1 to 3 keep keep")
    start = (state((0, 0, 0, 1)), state((0, 0, 0, 1)))
    return [
        ("a loop of one for a loop of three", found(loop, longer, start)),
        ("a silent loop", found(silent, longer_silent, start)),
        ("two ways for one", found(choice, single, start)),
    ]


# ---------------------------------------------------------------- the reply and the value


def late_replies() -> list:
    """Replies to a receive that are good for every value."""
    tells = "at 1 if first < 0 broadcast first to 2 0 0"
    side = running(TAKE, tells, lo=-2, hi=1)
    second_way = running(TAKE, tells, "at 0 receive second to 1 second 0", lo=-2, hi=1)
    forgets = running("at 0 receive first to 1 -1 keep", "at 0 receive second to 1 -2 0")
    one_way = running("at 0 receive first to 1 1 keep")
    # The value is forgotten, so that the greatest range has two states only.
    whole = running(
        "at 0 receive first to 1 -128 keep",
        "at 1 if first = -128 broadcast 127 to 0 127 keep",
        lo=-128,
        hi=127,
    )
    start = state((0, 0, 0, 1))
    return [
        ("a receive of a value", same(side, start)),
        ("a receive by the other register", found(side, second_way, (start, start))),
        ("two receives for one", found(forgets, one_way, (start, start))),
        ("all 256 values", same(whole, state((0, 127, 0, 1)))),
    ]


def empty_and_small() -> list:
    """No pairs, states without steps, and one pair again and again."""
    quiet = (state((1, 0, 0, 1)), state((1, 0, 0, 1)))
    return [
        ("no pairs", Job(pairs=())),
        ("one pair without steps", Job(pairs=(quiet,))),
        ("one pair five times", Job(pairs=(quiet,) * 5)),
        ("no rows", Job(running(), running(), (quiet,))),
    ]


def shapes() -> list:
    return (
        sending_units()
        + listeners()
        + several_senders()
        + not_linked()
        + hidden_groups()
        + hidden_names()
        + other_limits()
        + linked_units()
        + guards()
        + registers()
        + other_programs()
        + loops()
        + late_replies()
        + empty_and_small()
    )
