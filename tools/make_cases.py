#!/usr/bin/env python3
"""Writes the cases of the program cases: framed jobs in stdin, expected lines in stdout.

Each job is a length of four bytes, low byte first, and then the job. Each line
has the number of the job from 0, a space, and the reference judge's verdict in
hexadecimal digits. They go into crates/cases, without the changes of a job that
take the judge long; with --all every case goes into target/cases. With --list
the cases are only listed, with their names.
"""

import sys
from collections import Counter
from pathlib import Path

from cases.cost import Cost, cost
from cases.drawn import drawn_cases
from cases.layouts import layout_cases
from cases.misses import comes_near, stays_accepted
from cases.orders import order_cases
from cases.parts import Dice, accepted, case
from cases.readings import reading_cases
from cases.relations import shapes
from cases.states import state_cases
from reference import LEFT, RIGHT, verdict

ROOT = Path(__file__).resolve().parent.parent
KEPT = ROOT / "crates" / "cases"
ALL = ROOT / "target" / "cases"
SEED = 1

# Questions that tell a side, and all others; 0 stands for accepted.
SIDED = (1, 2, 3, 4, 5, 6, 7)
UNSIDED = (0, 10, 12, 13, 14, 15, 16, 22, 23)
FEWEST_CASES = 330
MOST_BYTES = 3_000_000
MOST_SECONDS = 20

# A change of an accepted job that takes longer than this is left out of crates/cases.
MOST_SECONDS_OF_A_CHANGE = 0.01


def shape_cases() -> list:
    """Every accepted shape, with changes that must be accepted and changes that come near."""
    dice = Dice(SEED)
    cases = []
    for name, job in shapes():
        cases.append(case(name, job, accepted(len(job.pairs))))
        cases += stays_accepted(dice, name, job, 2)
        cases += comes_near(dice, name, job, 3)
    return cases


def all_cases() -> list:
    """All cases in their order, each job once."""
    cases = (
        layout_cases()
        + order_cases()
        + state_cases()
        + reading_cases()
        + shape_cases()
        + drawn_cases()
    )
    first = {}
    for each in cases:
        first.setdefault(each.data, each)
    return list(first.values())


def judged(cases: list) -> list:
    """The verdicts of the reference judge, held to those that were known beforehand."""
    verdicts = []
    for name, data, expected in cases:
        told = verdict(data)
        if expected not in (None, told):
            raise AssertionError(f"{name}: expected {expected.hex()}, got {told.hex()}")
        verdicts.append(told)
    return verdicts


def require(condition: bool, what: str) -> None:
    if not condition:
        raise AssertionError(what)


def check(verdicts: list, stdin: bytes, total: Cost) -> None:
    """Holds the cases to what they must cover and to what they may cost."""
    counts = Counter((told[0], told[1]) for told in verdicts)
    for question in SIDED:
        both = min(counts[question, LEFT], counts[question, RIGHT])
        require(both >= 5, f"too few cases of question {question} on a side")
    for question in UNSIDED:
        either = counts[question, LEFT] + counts[question, RIGHT]
        require(either >= 5, f"too few cases of question {question}")
    require(len(verdicts) >= FEWEST_CASES, "too few cases")
    require(len(stdin) <= MOST_BYTES, "too many bytes")
    require(total.seconds() <= MOST_SECONDS, "too much work")


def framed(cases: list) -> bytes:
    return b"".join(len(each.data).to_bytes(4, "little") + each.data for each in cases)


def lines(verdicts: list) -> str:
    return "".join(f"{number} {told.hex()}\n" for number, told in enumerate(verdicts))


def report(verdicts: list, stdin: bytes, total: Cost) -> None:
    print(f"{len(verdicts)} cases, {len(stdin)} bytes")
    for (question, side), count in sorted(Counter((v[0], v[1]) for v in verdicts).items()):
        name = "accepted" if question == 0 else f"question {question}"
        print(f"  {name}{', right' if side else ''}: {count}")
    print(f"steps compared with steps, values of receives counted: {total.comparisons}")
    print(f"steps asked by number: {total.asked}, records compared: {total.compared}")
    print(f"estimated time of the proved judge: {total.seconds():.1f} s")


def is_kept(each, its_cost: Cost) -> bool:
    """Every shape is kept, and of its changes those that are judged soon."""
    is_change = "; " in each.name
    return not is_change or its_cost.seconds() <= MOST_SECONDS_OF_A_CHANGE


def write(folder: Path, cases: list, verdicts: list, costs: list) -> None:
    stdin = framed(cases)
    total = Cost()
    for its_cost in costs:
        total = total.plus(its_cost)
    check(verdicts, stdin, total)
    folder.mkdir(parents=True, exist_ok=True)
    (folder / "stdin").write_bytes(stdin)
    (folder / "stdout").write_text(lines(verdicts), encoding="ascii")
    report(verdicts, stdin, total)


def main(arguments: list) -> None:
    cases = all_cases()
    verdicts = judged(cases)
    if arguments == ["--list"]:
        for number, (each, told) in enumerate(zip(cases, verdicts)):
            print(number, told.hex(), each.name)
        return
    costs = [cost(each.data) for each in cases]
    if arguments == ["--all"]:
        write(ALL, cases, verdicts, costs)
        return
    kept = [row for row in zip(cases, verdicts, costs) if is_kept(row[0], row[2])]
    write(KEPT, *map(list, zip(*kept)))


if __name__ == "__main__":
    main(sys.argv[1:])
