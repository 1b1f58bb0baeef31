"""Cases with two faults: the question that is put first decides."""

from reference import LEFT, RIGHT

from .parts import HEAR, S0, S1, SEND, Case, Job, case, no

BASE = Job()


def fault_on(side: int, **changes):
    return lambda job: job.on(side, **changes)


def more_links(side: int, *links):
    return lambda job: job.on(side, links=job.side(side).links + links)


def more_rows(side: int, *rows):
    return lambda job: job.on(side, rows=job.side(side).rows + rows)


def pair_in_front(left: str, right: str):
    """A pair that gets the no of its own question, before all others of the relation."""
    return lambda job: job._replace(pairs=((left, right),) + job.pairs)


def side_faults(side: int) -> list:
    """One fault for each question about a side, in the order of the questions."""
    return [
        (f"1 of side {side}", fault_on(side, lo=3, hi=2), no(1, side)),
        (f"2 of side {side}", more_links(side, *["joined 0 0"] * 17), no(2, side)),
        (f"3 of side {side}", more_links(side, b"\3\0\0"), no(3, side)),
        (f"4 of side {side}", fault_on(side, limit=9), no(4, side)),
        (f"5 of side {side}", fault_on(side, units=0), no(5, side)),
        (f"6 of side {side}", more_rows(side, *[HEAR] * 64), no(6, side)),
        (f"7 of side {side}", more_rows(side, b"\0" * 14 + b"\1\0"), no(7, side, 1)),
    ]


def faults() -> list:
    """A fault for each question of a job after 22 and 23, in the order of the questions."""
    silent = "at 1 silent to 1 keep keep"
    return (
        side_faults(LEFT)
        + side_faults(RIGHT)
        + [
            ("10", fault_on(RIGHT, lo=-3), no(10)),
            ("12", pair_in_front("(64,0,0,{0})", S0), no(12)),
            ("13", pair_in_front(S0, "(0,3,0,{0})"), no(13, RIGHT)),
            ("14", pair_in_front(S1, "(1,0,0,{1})"), no(14)),
            ("15", lambda job: job._replace(pairs=job.pairs[:1]), no(15)),
            ("16", more_rows(RIGHT, silent), no(16, RIGHT, 1)),
        ]
    )


def two_faults() -> list:
    """Neighbours in the order, next but one, and the same question of both sides."""
    listed = faults()
    cases = []
    for apart in (1, 2, 7):
        for (name, fault, expected), (later, behind, _) in zip(listed, listed[apart:]):
            if expected[0] in (12, 13, 14, 15):
                continue  # these meet in one relation, in pair_orders
            job = fault(behind(BASE))
            cases.append(case(f"{name} before {later}", job, with_rows(expected, job)))
    return cases


def with_rows(expected: bytes, job: Job) -> bytes:
    """The number of the bad row, which another fault may have moved."""
    if expected[0] != 7:
        return expected
    rows = job.side(expected[1]).rows
    bad = next(k for k, row in enumerate(rows) if isinstance(row, bytes))
    return no(7, expected[1], bad)


def frames_first() -> list:
    """22 comes before 23, and 23 before every question about what a record holds."""
    cases = []
    for name, fault, _ in faults()[::3]:
        data = fault(BASE).data()
        count = len(data) // 64
        bad = data + bytes(64)
        cases.append(Case(f"23 before {name}", bad, no(23, LEFT, count)))
        cases.append(Case(f"22 before 23 and {name}", bad + b"\0", no(22)))
    return cases


def pair_orders() -> list:
    """All of one record comes before anything of the next, 12 to 16 in each."""
    far, outside, hidden = "(64,0,0,{0})", "(0,3,0,{0})", "(1,0,0,{1})"
    good = [(S0, S0), (S1, S1)]
    relations = (
        ("12 before 13", [(far, outside)], no(12)),
        ("12 before 14", [(far, hidden)], no(12)),
        ("13 before 14", [(hidden, outside)], no(13, RIGHT)),
        ("14 before 15", [(S0, hidden)], no(14)),
        ("14 before 16", [(hidden, S0)], no(14)),
        ("15 before 16", [(S0, S0)], no(15)),
        ("16 of pair 0 before 12 of pair 1", [(S1, S0), (far, S0)], no(16, RIGHT)),
        ("15 of pair 0 before 12 of pair 1", [(S0, S0), (far, S0)], no(15)),
        ("14 of pair 0 before 13 of pair 1", [(S1, hidden), (S0, outside)], no(14)),
        ("12 of pair 1", [(S1, S1), (far, S1)], no(12, LEFT, 1)),
        ("13 of pair 2 before 12 of pair 3", good + [(S1, outside), (far, S1)], no(13, RIGHT, 2)),
        ("14 of pair 2", good + [(S1, hidden)], no(14, LEFT, 2)),
        ("15 of pair 1", [(S1, S1), (S0, S1)], no(15, LEFT, 1)),
        ("16 of pair 2", good + [(S1, S0)], no(16, RIGHT, 2)),
    )
    cases = [
        case(name, BASE._replace(pairs=tuple(relation)), expected)
        for name, relation, expected in relations
    ]
    longer = BASE.on_both(rows=(SEND, "at 1 broadcast -2 to 2 keep keep"))
    cases.append(case("a reply lands on a later bad pair", longer, no(15, LEFT, 1)))
    return cases + [many_pairs()]


def many_pairs() -> Case:
    """A pair number of two bytes."""
    pairs = ((S1, S1),) * 300 + ((S0, S1),)
    return case("15 of pair 300", BASE._replace(pairs=pairs), no(15, LEFT, 300))


def order_cases() -> list:
    return two_faults() + frames_first() + pair_orders()
