"""Networks drawn by dice, with accepted relations and near misses of them."""

from typing import Callable, Optional

from reference import Network

from .cost import cost
from .misses import comes_near, in_bytes, stays_accepted
from .parts import Dice, Job, Side, accepted, case, state
from .relations import TooMany, backwards, found, image, same

SEED = 20
NETWORKS = 60
FEWEST_PAIRS = 3
MOST_SECONDS = 0.1

RANGES = ((-2, 2), (-1, 1), (-1, 0), (0, 1), (-3, -2), (5, 5), (-128, -127), (126, 127), (-1, -1))
FREE_SETS = (0x01, 0x03, 0x7F, 0x7E, 0x3F, 0xFF, 0xFD)
GROUP_SETS = (0x00, 0x01, 0x02, 0x03, 0x40, 0x80, 0x81, 0xC1, 0xFF)
LOCATIONS = 3


def draw_operand(dice: Dice, lo: int, hi: int) -> str:
    return dice.pick(("first", "second", str(lo), str(hi), str(lo + dice.below(hi - lo + 1))))


def draw_row(dice: Dice, lo: int, hi: int) -> str:
    guard = ""
    if dice.below(2):
        sign = dice.pick(("=", "!=", "<"))
        guard = f"if {draw_operand(dice, lo, hi)} {sign} {draw_operand(dice, lo, hi)} "
    action = dice.pick(("silent", "broadcast", "broadcast", "receive", "receive"))
    if action == "broadcast":
        action += " " + draw_operand(dice, lo, hi)
    if action == "receive":
        action += " " + dice.pick(("first", "second"))
    first = dice.pick(("keep", "keep", draw_operand(dice, lo, hi)))
    second = dice.pick(("keep", "keep", draw_operand(dice, lo, hi)))
    at, to = dice.below(LOCATIONS), dice.below(LOCATIONS)
    return f"at {at} {guard}{action} to {to} {first} {second}"


def draw_side(dice: Dice) -> Side:
    lo, hi = dice.pick(RANGES)
    units = 1 + dice.below(dice.pick((2, 3, 6)))
    rows = tuple(draw_row(dice, lo, hi) for _ in range(1 + dice.below(6)))
    kinds = [dice.pick(("joined", "apart")) for _ in range(dice.pick((0, 0, 1, 2)))]
    links = tuple(f"{kind} {dice.below(units)} {dice.below(units)}" for kind in kinds)
    return Side(rows, links, lo, hi, dice.pick(FREE_SETS), units, dice.pick((0, 1, 1, 2, 2, 3, 8)))


def draw_state(dice: Dice, network: Network) -> Optional[tuple]:
    """A lawful state, if one turns up in some draws."""
    values = list(network.range.values())
    for _ in range(40):
        units = [
            (dice.below(LOCATIONS), dice.pick(values), dice.pick(values), dice.pick(GROUP_SETS))
            for _ in range(network.count)
        ]
        if network.lawful(state(*units)):
            return state(*units)
    return None


# ---------------------------------------------------------------- a partner and a relation


def mirrored(side: Side) -> Side:
    """The side with its units in the other order."""
    links = []
    for link in side.links:
        kind, one, other = link.split()
        links.append(f"{kind} {side.units - 1 - int(one)} {side.units - 1 - int(other)}")
    return side._replace(links=tuple(links))


def with_rows_raised(side: Side) -> Side:
    """The side with every location raised by 60."""
    rows = []
    for row in map(bytearray, in_bytes(side.rows)):
        row[0] += 60
        row[9] += 60
        rows.append(bytes(row))
    return side._replace(rows=tuple(rows))


def raised(units: int) -> Callable:
    """The state with the location of every unit raised by 60."""

    def of(given: tuple) -> tuple:
        moved = [unit._replace(location=unit.location + 60) for unit in given[:units]]
        return tuple(moved) + given[units:]

    return of


def draw_relation(dice: Dice, side: Side, start: tuple) -> Job:
    """An accepted relation between the network and some partner of it."""
    form = dice.below(5)
    if form == 0:
        return same(side, start)
    if form == 1:
        return image(side, mirrored(side), backwards(side.units), start)
    if form == 2:
        return image(side, with_rows_raised(side), raised(side.units), start)
    if form == 3:
        partner = side._replace(rows=tuple(dice.shuffled(side.rows + side.rows[:1])))
        return found(side, partner, (start, start))
    return found(side, side, (start, start))


def draw_job(dice: Dice) -> Optional[Job]:
    """A job with some pairs and of small cost, or nothing."""
    side = draw_side(dice)
    start = draw_state(dice, side.network())
    if start is None:
        return None
    try:
        job = draw_relation(dice, side, start)
    except TooMany:
        return None
    if len(job.pairs) < FEWEST_PAIRS or cost(job.data()).seconds() > MOST_SECONDS:
        return None
    return job


def drawn_cases() -> list:
    dice = Dice(SEED)
    cases = []
    number = 0
    while number < NETWORKS:
        job = draw_job(dice)
        if job is None:
            continue
        name = f"drawn {number}"
        number += 1
        cases.append(case(name, job, accepted(len(job.pairs))))
        cases += stays_accepted(dice, name, job, 1)
        cases += comes_near(dice, name, job, 3)
    return cases
