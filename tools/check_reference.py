#!/usr/bin/env python3
"""Holds the reference judge to the examples of docs/, and examples/ to their verdicts.

Stops at the first difference; otherwise prints how many checks there were.
"""

import re
from pathlib import Path
from typing import NamedTuple

from make_cases import all_cases
from reference import (
    LEFT,
    MOVEMENT,
    RIGHT,
    SILENT,
    Link,
    Network,
    No,
    Range,
    Step,
    Unit,
    broadcast,
    enabled,
    judge,
    link_is_laid_out,
    list_steps,
    read_row,
    read_state,
    receive,
    row_is_laid_out,
    signed,
    step_to,
    verdict,
    verdict_bytes,
)
from text_to_job import BadText, job_bytes, job_text, row_bytes, state_bytes

ROOT = Path(__file__).resolve().parent.parent

ROW_0 = "at 0 broadcast -2 to 1 keep keep"
ROW_1 = "at 2 receive first to 3 keep keep"
HIDDEN = [2, 4, 8, 16, 32, 64, 128]
S0 = (0, 0, 0, 1)
S1 = (1, 0, 0, 1)

checks = 0


def check(what: str, got, expected) -> None:
    global checks
    checks += 1
    if got != expected:
        raise AssertionError(f"{what}: expected {expected}, got {got}")


def network(rows=(ROW_0, ROW_1), units=1, free=1, limit=1, links=(), lo=-2, hi=2) -> Network:
    """The network of the worked examples, unless said otherwise."""
    table = tuple(read_row(row_bytes(row)) for row in rows)
    return Network(Range(lo, hi), free, units, table, tuple(links), limit)


def state(*units: tuple) -> tuple:
    return tuple(Unit(*unit) for unit in units) + (Unit(0, 0, 0, 0),) * (6 - len(units))


def answer(left, right, relation: list) -> tuple:
    """What the judge answers: the numbers of a no, or 0 and the count."""
    pairs = [(state(*one), state(*other)) for one, other in relation]
    try:
        return (0, judge(left, right, pairs))
    except No as no:
        return (no.question, no.side, no.item, no.step)


def check_steps(what: str, system: Network, units: list, expected: list) -> None:
    """Holds the whole list of a state to labels and landings, each landing a list of units."""
    expected = [(label, [state(*units) for units in landings]) for label, landings in expected]
    check(what, list_steps(system, state(*units)), expected)


# ---------------------------------------------------------------- docs/formats.md


def check_layouts() -> None:
    for byte, value in ((0x00, 0), (0x02, 2), (0x7F, 127), (0x80, -128), (0xFE, -2), (0xFF, -1)):
        check("a value", signed(byte), value)
    two_units = bytes.fromhex("00000001 03FE0001").ljust(24, b"\0")
    check("a state record", read_state(two_units), state(S0, (3, -2, 0, 1)))
    check("a state in text", state_bytes("(0,0,0,{0}) (3,-2,0,{0})"), two_units)
    taken_apart = "05 03 00 00 02 00 02 01 00 06 01 00 02 FF 00 00"
    row = "at 5 if first < 0 receive second to 6 second -1"
    check("a row taken apart", row_bytes(row), bytes.fromhex(taken_apart))
    for link in ("010001", "020002", "020005"):
        check("a link " + link, link_is_laid_out(bytes.fromhex(link)), True)
    for link in ("000000", "030000", "010006"):
        check("a link " + link, link_is_laid_out(bytes.fromhex(link)), False)


def check_rows_of_formats() -> None:
    """The two tables of rows: one of good rows, one of refused rows with their ranges."""
    text = (ROOT / "docs" / "formats.md").read_text(encoding="utf-8").partition("## Verdict")[0]
    rows = re.findall(r"^\| (?:\d \| )?`((?:[0-9A-F]{2} ?){16})` \|([^|]*)\|", text, re.M)
    check("rows in the tables", len(rows), 9)
    for row, note in rows:
        bounds = re.fullmatch(r" (−?\d) to (−?\d) ", note)
        refused = bounds is not None
        lo, hi = (int(n.replace("−", "-")) for n in bounds.groups()) if refused else (-2, 2)
        check("row " + row, row_is_laid_out(bytes.fromhex(row), Range(lo, hi)), not refused)


def job_of_formats() -> bytes:
    """The accepted job, read from its dump in docs/formats.md."""
    text = (ROOT / "docs" / "formats.md").read_text(encoding="utf-8")
    lines = re.findall(r"^ *\d+: ((?:[0-9A-F]{2} ?){16})$", text, re.M)
    return bytes.fromhex("".join(lines))


def check_verdict_layout() -> None:
    for digits, told in (
        ("00000000000000000000000002000000", verdict_bytes(count=2)),
        ("0F000000000000000000000000000000", verdict_bytes(15)),
        ("10010000000000000000000000000000", verdict_bytes(16, RIGHT)),
        ("07010200000000000000000000000000", verdict_bytes(7, RIGHT, 2)),
        ("17000300000000000000000000000000", verdict_bytes(23, LEFT, 3)),
        ("16000000000000000000000000000000", verdict_bytes(22)),
        ("0F002C01050000000000000000000000", verdict_bytes(15, LEFT, 300, 5)),
    ):
        check("a verdict", told, bytes.fromhex(digits))


# ---------------------------------------------------------------- docs/questions.md


def changed(data: bytes, record: int, byte: int, new: int) -> bytes:
    at = 64 * record + byte
    return data[:at] + bytes([new]) + data[at + 1 :]


def check_questions() -> None:
    job = job_of_formats()
    check("length of the accepted job", len(job), 384)
    links = job_bytes("right link: joined 0 0\nrecord: 03 01 03 00 00")
    absent = job_bytes("right link: apart 0 5")
    s1_s0 = job_bytes("pair: (1,0,0,{0}) | (0,0,0,{0})")
    s1_hidden = job_bytes("pair: (1,0,0,{0}) | (1,0,0,{1})")
    for what, data, expected in (
        ("no change", job, verdict_bytes(count=2)),
        ("no input at all", b"", verdict_bytes(22)),
        ("the last byte is cut off", job[:-1], verdict_bytes(22)),
        ("byte 63 of record 3", changed(job, 3, 63, 1), verdict_bytes(23, LEFT, 3)),
        ("lo of the right is 3", changed(job, 1, 2, 3), verdict_bytes(1, RIGHT)),
        ("limit 9, no units", changed(changed(job, 0, 6, 9), 0, 5, 0), verdict_bytes(4)),
        ("hi of the right is 1", changed(job, 1, 3, 1), verdict_bytes(10)),
        ("the right row sends 3", changed(job, 3, 10, 3), verdict_bytes(7, RIGHT)),
        ("two right links", job + links, verdict_bytes(3, RIGHT, 1)),
        ("a right link to an absent unit", job + absent, verdict_bytes(13, RIGHT)),
        ("a spare slot of the right", changed(job, 4, 30, 1), verdict_bytes(13, RIGHT)),
        ("both pairs left out", job[:256], verdict_bytes()),
        ("pair 1 left out", job[:320], verdict_bytes(15)),
        ("the only pair is (s1, s0)", job[:256] + s1_s0, verdict_bytes(16, RIGHT)),
        ("the only pair shows other sets", job[:256] + s1_hidden, verdict_bytes(14)),
    ):
        check(what, verdict(data), expected)


# ---------------------------------------------------------------- docs/calculus.md: lists of steps

SENT = broadcast(1, -2)


def moves(unit: tuple, sets: list, before=(), behind=()) -> list:
    """Movements of one unit to each of the sets; the other units stay."""
    return [
        (MOVEMENT, [[*before, (*unit[:3], groups), *behind]]) for groups in sets
    ]


def check_worked_steps() -> None:
    one, two = network(), network(units=2)
    check_steps("a broadcast on a free group", one, [S0], [(SENT, [[S1]])])
    beside = [3, 5, 9, 17, 33, 65, 129]
    expected = moves(S0, beside) + [(SENT, [[S1]])]
    check_steps("movements keep the free part", network(limit=2), [S0], expected)
    expected = moves(S0, [0, 4, 8, 16, 32, 64, 128]) + [(SILENT, [[(1, 0, 0, 2)]])]
    check_steps("a hidden broadcast is silent", one, [(0, 0, 0, 2)], expected)
    listener = (2, 0, 0, 1)
    expected = [
        (SENT, [[S1, listener]]),
        (SENT, [[S1, (3, -2, 0, 1)]]),
        (receive(1), [[S0, (3, value, 0, 1)] for value in range(-2, 3)]),
    ]
    check_steps("lost or heard", two, [S0, listener], expected)
    apart = (2, 0, 0, 2)
    expected = moves(apart, [0, 4, 8, 16, 32, 64, 128], before=[S0])
    expected.append((SENT, [[S1, apart]]))
    check_steps("a unit that is not linked", two, [S0, apart], expected)


def check_order_of_choices() -> None:
    rows = (
        "at 0 broadcast -2 to 1 keep keep",
        "at 2 receive first to 3 keep keep",
        "at 5 silent to 5 keep keep",
        "at 2 if second = 1 receive first to 4 keep keep",
    )
    both_rows, sender, one_row = (2, 0, 1, 1), (0, 0, 0, 1), (2, 0, 0, 1)
    units = [both_rows, sender, one_row]
    steps = list_steps(network(rows, units=3), state(*units))
    sent = [landings[0] for label, landings in steps if label == SENT]
    expected = [
        state(zeroth, S1, second)
        for zeroth in (both_rows, (3, -2, 1, 1), (4, -2, 1, 1))
        for second in (one_row, (3, -2, 0, 1))
    ]
    check("order of choices at a broadcast", sent, expected)


def check_receives() -> None:
    two = network(units=2)
    labels = [label for label, _ in list_steps(two, state((2, 0, 0, 1), (2, 0, 0, 1)))]
    check("a receive is one unit's alone", labels, [receive(1), receive(1)])
    expected = moves((2, 0, 0, 2), [0, 4, 8, 16, 32, 64, 128])
    check_steps("no receive on hidden groups", network(), [(2, 0, 0, 2)], expected)
    guarded = network(["at 4 if first = 0 receive first to 4 keep keep"])
    check_steps("the guard comes before the fill", guarded, [(4, 1, 0, 1)], [])
    expected = [(receive(1), [[(4, value, 0, 1)] for value in range(-2, 3)])]
    check_steps("a landing for every value", guarded, [(4, 0, 0, 1)], expected)
    exchange = network(["at 4 receive first to 4 second first"])
    expected = [(receive(1), [[(4, 2, value, 1)] for value in range(-2, 3)])]
    check_steps("registers are read after the fill", exchange, [(4, 1, 2, 1)], expected)
    silent = network(["at 4 silent to 4 second first"])
    check_steps("registers are read together", silent, [(4, 1, 2, 1)], [(SILENT, [[(4, 2, 1, 1)]])])


def sets_moved_to(unit: tuple) -> set:
    """The sets that one unit can move to under limit 2."""
    steps = list_steps(network(limit=2), state(unit))
    return {landings[0][0].groups for label, landings in steps if label == MOVEMENT}


def check_hidden_groups() -> None:
    sender, hearer = (0, 0, 0, 2), (2, 0, 0, 2)
    steps = list_steps(network(units=2), state(sender, hearer))[-2:]
    after = [state((1, 0, 0, 2), hearer), state((1, 0, 0, 2), (3, -2, 0, 2))]
    check("hidden groups link units", steps, [(SILENT, [landing]) for landing in after])
    sender = (0, 0, 0, 3)
    steps = list_steps(network(units=2, limit=2), state(sender, hearer))
    sent = [step for step in steps if step[0] != MOVEMENT]
    after = [state((1, 0, 0, 3), hearer), state((1, 0, 0, 3), (3, -2, 0, 2))]
    check("nothing of the hearers in the label", sent, [(SENT, [landing]) for landing in after])
    nowhere = (0, 0, 0, 0)
    expected = moves(nowhere, HIDDEN) + [(SILENT, [[(1, 0, 0, 0)]])]
    check_steps("a broadcast on no group", network(), [nowhere], expected)
    check("free groups are not dropped", sets_moved_to(S0) & {0, 2, 6}, set())
    check("free groups are not taken up", sets_moved_to((0, 0, 0, 2)) & {1, 3}, set())
    twice = [(SENT, [[S1]]), (SENT, [[S1]])]
    check_steps("steps are not merged", network([ROW_0, ROW_0]), [S0], twice)


def check_guards_and_rules() -> None:
    less = read_row(row_bytes("at 0 if first < 0 silent to 0 keep keep"))
    for byte, true in ((0xFE, True), (0x00, False), (0x02, False)):
        check("less is signed", enabled(less, Unit(0, signed(byte), 0, 1)), true)
    absent = network(units=2, links=[Link(2, 0, 5)])
    check("a link to an absent unit", absent.lawful(state((0, 0, 0, 1), (0, 0, 0, 2))), False)
    check("joined to itself", Link(1, 0, 0).met([0]), False)
    check("apart from itself", Link(2, 0, 0).met([0]), True)
    narrow = network([], lo=1, hi=5)
    check("a spare slot where 0 is out of range", narrow.lawful(state((0, 1, 1, 1))), True)
    check("limit 0", [network(limit=0).allows([groups]) for groups in (0, 1)], [True, False])
    check("limit 8", network(limit=8).allows([255] * 6), True)


# ---------------------------------------------------------------- docs/calculus.md: relations


class Sheet(NamedTuple):
    """A service sheet, as far as the judge's example needs it: C is {0} in every state."""

    rows: list
    range: Range

    def lawful(self, record: tuple) -> bool:
        return not any(record[0][1:]) and not any(map(any, record[1:]))

    def shown(self, record: tuple) -> int:
        return 1 if self.lawful(record) else 0

    def steps(self, record: tuple):
        for row in self.rows:
            begin, kind, groups, value, to, other = row
            if begin == record[0].location:
                if kind == 2:
                    yield step_to(broadcast(groups, value), state((to, 0, 0, 0)))
                else:
                    yield Step(receive(groups), self.landing(value, to, other))

    def landing(self, value: int, to: int, other: int):
        return lambda received: state((to if received == value else other, 0, 0, 0))


def check_reply_before_value() -> None:
    rows = [(0, 3, 1, 0, 1, 1), (0, 3, 1, 0, 2, 2), (0, 3, 1, 0, 1, 2), (1, 2, 1, -2, 2, 2)]
    left = Sheet(rows, Range(-2, 2))
    right = Sheet(rows[:2] + rows[3:], Range(-2, 2))
    pairs = [([(k, 0, 0, 0)], [(k, 0, 0, 0)]) for k in range(3)]
    check("the reply comes before the value", answer(left, right, pairs), (15, LEFT, 0, 2))


def check_relations() -> None:
    one = network()
    alike = [([S0], [S0]), ([S1], [S1])]
    check("an accepted relation", answer(one, one, alike), (0, 2))
    check("a left step without a reply", answer(one, one, alike[:1]), (15, LEFT, 0, 0))
    check("a right step without a reply", answer(one, one, [([S1], [S0])]), (16, RIGHT, 0, 0))
    other_set = [([S1], [(1, 0, 0, 2)])]
    check("different sets shown", answer(one, one, other_set), (14, LEFT, 0, 0))
    longer = network([ROW_0, ROW_1, "at 1 broadcast -2 to 2 keep keep"])
    check("a reply may land on any record", answer(longer, longer, alike), (15, LEFT, 1, 0))
    check("movements must be answered", answer(one, network(limit=2), alike), (16, RIGHT, 0, 0))
    check("the empty relation", answer(one, one, []), (0, 0))


def check_hidden_relations() -> None:
    one, sends_2 = network(), network(["at 0 broadcast 2 to 1 keep keep"])
    hidden = [0] + HIDDEN
    pairs = [
        ([(at, 0, 0, a)], [(at, 0, 0, b)]) for at in (0, 1) for a in hidden for b in hidden
    ]
    check("all pairs of hidden sets", answer(one, one, pairs), (0, 128))
    check("no value in a hidden broadcast", answer(one, sends_2, pairs), (0, 128))
    free = [([S0], [S0]), ([S1], [S1])]
    check("a value in a free broadcast", answer(one, sends_2, free), (15, LEFT, 0, 0))


# ---------------------------------------------------------------- examples/ and the text form


def check_examples() -> None:
    text = (ROOT / "examples" / "README.md").read_text(encoding="utf-8")
    listed = dict(re.findall(r"^\| `([\w-]+)\.job` \|.*\| `([0-9a-f]{32})` \|$", text, re.M))
    jobs = sorted((ROOT / "examples").glob("*.job"))
    check("examples listed", sorted(listed), [job.stem for job in jobs])
    for job in jobs:
        data = job.read_bytes()
        check(f"text of {job.name}", job_bytes(job.with_suffix(".txt").read_text()), data)
        check(f"verdict of {job.name}", verdict(data).hex(), listed[job.stem])
        check(f"text of {job.name} and back", job_bytes(job_text(data)), data)
    replacement = (ROOT / "examples" / "replacement.job").read_bytes()
    check("the accepted job", replacement, job_of_formats())


def check_text_of_cases() -> None:
    changed = [each.name for each in all_cases() if job_bytes(job_text(each.data)) != each.data]
    check("cases that change in text and back", changed, [])


def check_refused_text() -> None:
    for text, line in (
        ("left: range -129 2, free {0}, units 1, limit 1", 1),
        ("left: range 0 128, free {0}, units 1, limit 1", 1),
        ("\n# a remark\nleft: range 0 1, free {8}, units 1, limit 1", 3),
        ("left: range 0 1, free {0}, units 256, limit 1", 1),
        ("left row: at 0 broadcast third to 1 keep keep", 1),
        ("left row: at 0 silent to 1 keep", 1),
        ("left row: at 0 silent to 1 keep keep keep", 1),
        ("middle row: at 0 silent to 1 keep keep", 1),
        ("left link: beside 0 1", 1),
        ("pair: " + "(0,0,0,{})" * 7 + " | (0,0,0,{})", 1),
        ("rest: 00\npair: (0,0,0,{}) | (0,0,0,{})", 2),
        ("record: 0g", 1),
        ("pair (0,0,0,{0})", 1),
    ):
        try:
            told = repr(job_bytes(text))
        except BadText as bad:
            told = str(bad)
        check(f"refused text {text!r}", told.startswith(f"line {line}: "), True)


def main() -> None:
    check_layouts()
    check_rows_of_formats()
    check_verdict_layout()
    check_questions()
    check_worked_steps()
    check_order_of_choices()
    check_receives()
    check_hidden_groups()
    check_guards_and_rules()
    check_reply_before_value()
    check_relations()
    check_hidden_relations()
    check_examples()
    check_text_of_cases()
    check_refused_text()
    print(f"{checks} checks passed")


if __name__ == "__main__":
    main()
