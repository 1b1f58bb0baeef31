"""Cases of the questions about states: 12, 13 and 14."""

from reference import LEFT, RIGHT

from .parts import S1, Job, accepted, case, no, side_name, state_record

BASE = Job()


def on_side(name: str, job: Job, good: str, bad, number: int = 0) -> list:
    """A bad state on either side, with a good one beside it and so many good pairs before it."""
    cases = []
    for side, question in ((LEFT, 12), (RIGHT, 13)):
        pair = (bad, good) if side == LEFT else (good, bad)
        bad_job = job._replace(pairs=((good, good),) * number + (pair,))
        expected = no(question, side, number)
        cases.append(case(f"{side_name(side)} {question}: {name}", bad_job, expected))
    return cases


def unit_cases() -> list:
    """A location or a register out of bounds, in the first unit or in the last."""
    cases = []
    for location in (64, 255):
        cases += on_side(f"location {location}", BASE, S1, f"({location},0,0,{{0}})")
    for value in (3, -3, 127, -128):
        cases += on_side(f"first register {value}", BASE, S1, f"(1,{value},0,{{0}})")
        cases += on_side(f"second register {value}", BASE, S1, f"(1,0,{value},{{0}})")
    three = BASE.on_both(units=3)
    good = " ".join([S1] * 3)
    for number, unit in enumerate(("(64,0,0,{0})", "(1,-3,0,{0})", "(1,0,3,{0})")):
        bad = " ".join([S1] * number + [unit] + [S1] * (2 - number))
        cases += on_side(f"unit {number} of three is {unit}", three, good, bad, number)
    edges = (("(63,-2,2,{0})",) * 2, ("(63,2,-2,{0})",) * 2)
    return cases + [case("states at the edge", BASE._replace(pairs=edges), accepted(2))]


def spare_cases() -> list:
    """Slots past the last unit must be zero bytes."""
    cases = []
    for units in range(1, 6):
        job = BASE.on_both(units=units)
        good = " ".join([S1] * units)
        record = bytearray(state_record(good))
        place = 4 * units + units % 4
        record[place] = 1
        cases += on_side(f"{units} units, byte {place}", job, good, bytes(record))
        record = bytearray(state_record(good))
        record[23] = 128
        cases += on_side(f"{units} units, byte 23", job, good, bytes(record), 1)
    return cases + zero_registers()


def zero_registers() -> list:
    """Spare slots are zero where 0 is out of range; a unit's registers must not be."""
    above = BASE.on_both(lo=1, hi=5, rows=("at 0 broadcast 1 to 1 keep keep",), units=2)
    good = "(0,1,5,{0}) (2,5,1,{0})"
    sent = "(1,1,5,{0}) (2,5,1,{0})"
    accepted_job = above._replace(pairs=((good, good), (sent, sent)))
    cases = [case("spare slots in the range 1 to 5", accepted_job, accepted(2))]
    quiet = above.on_both(rows=())
    return cases + on_side("a zero unit in the range 1 to 5", quiet, good, "(0,1,5,{0})")


# ---------------------------------------------------------------- states and the rule


def rule_cases() -> list:
    """States whose placement the rule does not allow."""
    two = BASE.on_both(units=2, limit=2, free=255)
    together, separate = "(1,0,0,{0}) (1,0,0,{0,1})", "(1,0,0,{0}) (1,0,0,{1})"
    nowhere = "(1,0,0,{0}) (1,0,0,{})"
    tables = (
        ("joined 0 1", two, together, separate),
        ("joined 1 0", two, together, separate),
        ("apart 0 1", two, separate, together),
        ("apart 1 0", two, separate, together),
        ("joined 1 1", two, together, nowhere),
        ("apart 1 1", two, nowhere, separate),
        ("joined 0 0", two, together, "(1,0,0,{}) (1,0,0,{0})"),
    )
    cases = []
    for link, job, good, bad in tables:
        linked = job.on_both(links=(link,))
        cases += on_side(f"{link} is not met", linked, good, bad)
        met = linked._replace(pairs=((good, good),))
        cases.append(case(f"{link} is met", met, accepted(1)))
    linked = two.on_both(links=("joined 0 0", "joined 0 1"))
    cases += on_side("the second link is not met", linked, together, separate)
    cases += on_side("three groups, limit 2", two, together, "(1,0,0,{0}) (1,0,0,{0,1,2})")
    return cases + absent_units() + hidden_limit()


def absent_units() -> list:
    """A link to a unit that the network lacks is as laid out and never met, apart too."""
    cases = []
    for link in ("apart 0 5", "joined 0 5", "apart 5 5", "joined 1 0", "apart 1 1"):
        for side, question in ((LEFT, 12), (RIGHT, 13)):
            job = BASE.on(side, links=(link,))
            name = f"{side_name(side)} {question}: one unit, link {link}"
            cases.append(case(name, job, no(question, side)))
            empty = job._replace(pairs=())
            cases.append(case(f"{name}, no pairs", empty, accepted(0)))
    six = BASE.on_both(units=6, free=255, links=("joined 0 5", "apart 0 4"))
    state = " ".join([S1] * 4 + ["(1,0,0,{})", S1])
    six = six._replace(pairs=((state, state),))
    return cases + [case("six units, links to the last ones", six, accepted(1))]


def hidden_limit() -> list:
    """Hidden groups count for the tuner limit and for links."""
    job = BASE.on_both(limit=2, free=0x3F)
    cases = on_side("hidden groups over the limit", job, S1, "(1,0,0,{0,6,7})")
    linked = BASE.on_both(free=0x7F, units=2, links=("apart 0 1",))
    good, bad = "(1,0,0,{0}) (1,0,0,{7})", "(1,0,0,{7}) (1,0,0,{7})"
    return cases + on_side("a hidden group shared", linked, good, bad)


# ---------------------------------------------------------------- 14


def shown_cases() -> list:
    """The union of the units' sets within F is shown, and nothing hidden."""
    two = BASE.on_both(units=2, limit=8, free=0x0F)
    quiet = two.on_both(rows=(), free=255)
    shows = (
        ("free groups differ", two, "(1,0,0,{0}) (1,0,0,{1})", "(1,0,0,{0}) (1,0,0,{2})"),
        ("one group more", quiet, "(1,0,0,{0}) (1,0,0,{1})", "(1,0,0,{0}) (1,0,0,{1,7})"),
        ("nothing shown on the left", quiet, "(1,0,0,{}) (1,0,0,{})", "(1,0,0,{3}) (1,0,0,{})"),
    )
    cases = [
        case(f"14: {name}", job._replace(pairs=((left, right),)), no(14))
        for name, job, left, right in shows
    ]
    swapped = ("(1,0,0,{0}) (1,0,0,{1})", "(1,0,0,{1}) (1,0,0,{0})")
    spread = ("(1,0,0,{0,1}) (1,0,0,{})", "(1,0,0,{1}) (1,0,0,{0,1})")
    for name, pair in (("swapped", swapped), ("spread in another way", spread)):
        job = quiet._replace(pairs=(pair,))
        cases.append(case(f"the same set, {name}", job, accepted(1)))
    return cases + free_set_cases()


def free_set_cases() -> list:
    """Each side has its own free set."""
    pair = (S1, "(1,0,0,{0,7})")
    wide = BASE.on_both(limit=1).on(RIGHT, limit=2, free=0xFF)
    hidden = BASE.on(RIGHT, limit=2, free=0x7F)
    other = (S1, "(1,0,0,{7})")
    return [
        case("14: free on the right only", wide._replace(pairs=(pair,)), no(14)),
        case("16: hidden, so shown alike", hidden._replace(pairs=(pair,)), no(16, RIGHT)),
        case("14: shown on the left only", BASE._replace(pairs=(other,)), no(14)),
        case("14 of pair 1", BASE._replace(pairs=((S1, S1), other)), no(14, LEFT, 1)),
    ]


def state_cases() -> list:
    return unit_cases() + spare_cases() + rule_cases() + shown_cases()
