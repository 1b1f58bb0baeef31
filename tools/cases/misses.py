"""Changes to an accepted job: some must leave it accepted, others come near to it."""

from typing import NamedTuple, Optional

from reference import LEFT, RIGHT, list_steps, verdict
from text_to_job import row_bytes

from .parts import Case, Dice, Job, accepted, as_bytes, case, no

UNREACHED = "at 40 broadcast first to 41 keep keep"


def in_bytes(rows: tuple) -> list:
    return [as_bytes(row, row_bytes) for row in rows]


# ---------------------------------------------------------------- changes that must be accepted


def exchanged_sides(dice: Dice, job: Job) -> Job:
    return Job(job.right, job.left, tuple((right, left) for left, right in job.pairs))


def other_row_order(dice: Dice, job: Job) -> Job:
    """Only the order of the lists changes."""
    return job.on(RIGHT, rows=tuple(reversed(job.right.rows)))


def row_doubled(dice: Dice, job: Job) -> Job:
    """A step more, which has the same label and landing as another."""
    side = dice.pick((LEFT, RIGHT))
    rows = job.side(side).rows
    return job.on(side, rows=rows + rows[:1])


def row_never_reached(dice: Dice, job: Job) -> Job:
    side = dice.pick((LEFT, RIGHT))
    return job.on(side, rows=(UNREACHED,) + job.side(side).rows)


def pairs_in_another_order(dice: Dice, job: Job) -> Job:
    return job._replace(pairs=tuple(dice.shuffled(job.pairs)))


def pairs_repeated(dice: Dice, job: Job) -> Job:
    return job._replace(pairs=job.pairs + tuple(dice.some(job.pairs, 3)))


STAYS = (
    exchanged_sides,
    other_row_order,
    row_doubled,
    row_never_reached,
    pairs_in_another_order,
    pairs_repeated,
)


def mixed(dice: Dice, job: Job) -> bytes:
    """The records of the job in another order, behind the settings."""
    records = job.records()
    return b"".join(records[:2] + dice.shuffled(records[2:]))


# ---------------------------------------------------------------- changes that come near


def pair_left_out(dice: Dice, job: Job) -> Optional[Job]:
    if not job.pairs:
        return None
    number = dice.below(len(job.pairs))
    return job._replace(pairs=job.pairs[:number] + job.pairs[number + 1 :])


class Constant(NamedTuple):
    row: int
    place: int
    value: int


def constants(rows: list) -> list:
    """The constants other than 0 in the rows, by row and by the place of their byte."""
    return [
        Constant(number, kind + 1, row[kind + 1])
        for number, row in enumerate(rows)
        for kind in (2, 4, 7, 10, 12)
        if row[kind] == 2 and row[kind + 1] not in (0, 128)
    ]


def sign_flipped(dice: Dice, job: Job) -> Optional[Job]:
    side = dice.pick((LEFT, RIGHT))
    rows = in_bytes(job.side(side).rows)
    choices = constants(rows)
    if not choices:
        return None
    chosen = dice.pick(choices)
    row = bytearray(rows[chosen.row])
    row[chosen.place] = -chosen.value & 0xFF
    rows[chosen.row] = bytes(row)
    return job.on(side, rows=tuple(rows))


def limit_lowered(dice: Dice, job: Job) -> Optional[Job]:
    """States or movements of one side go missing."""
    side = dice.pick((LEFT, RIGHT))
    limit = job.side(side).limit
    return job.on(side, limit=limit - 1) if limit else None


def limit_raised(dice: Dice, job: Job) -> Optional[Job]:
    """One side has more movements, if a group is hidden."""
    side = dice.pick((LEFT, RIGHT))
    limit = job.side(side).limit
    return job.on(side, limit=limit + 1) if limit < 8 else None


def link_added(dice: Dice, job: Job) -> Job:
    side = dice.pick((LEFT, RIGHT))
    units = job.side(side).units
    kind = dice.pick(("joined", "apart"))
    link = f"{kind} {dice.below(units)} {dice.below(units)}"
    return job.on(side, links=job.side(side).links + (link,))


def networks_exchanged(dice: Dice, job: Job) -> Job:
    """Left and right change places, while the pairs stay."""
    return Job(job.right, job.left, job.pairs)


def row_added(dice: Dice, job: Job) -> Job:
    side = dice.pick((LEFT, RIGHT))
    at, to = dice.below(4), dice.below(4)
    action = dice.pick(("silent", "broadcast first", "broadcast second", "receive first"))
    row = f"at {at} {action} to {to} keep keep"
    return job.on(side, rows=job.side(side).rows + (row,))


def row_left_out(dice: Dice, job: Job) -> Optional[Job]:
    side = dice.pick((LEFT, RIGHT))
    rows = job.side(side).rows
    if not rows:
        return None
    number = dice.below(len(rows))
    return job.on(side, rows=rows[:number] + rows[number + 1 :])


def group_hidden(dice: Dice, job: Job) -> Job:
    """A group changes between free and hidden on one side."""
    side = dice.pick((LEFT, RIGHT))
    group = dice.pick((0, 6, 7))
    return job.on(side, free=job.side(side).free ^ 1 << group)


def unit_changed(dice: Dice, job: Job) -> Optional[Job]:
    """A location, a register or a set of one unit in one pair."""
    if not job.pairs:
        return None
    number, side = dice.below(len(job.pairs)), dice.pick((LEFT, RIGHT))
    pair = list(job.pairs[number])
    state = list(pair[side])
    unit = dice.below(job.side(side).units)
    field, by = dice.pick((("location", 1), ("first", 1), ("second", 1), ("groups", 128)))
    state[unit] = state[unit]._replace(**{field: getattr(state[unit], field) ^ by})
    pair[side] = tuple(state)
    return job._replace(pairs=job.pairs[:number] + (tuple(pair),) + job.pairs[number + 1 :])


MISSES = (
    pair_left_out,
    sign_flipped,
    limit_lowered,
    limit_raised,
    link_added,
    networks_exchanged,
    row_added,
    row_left_out,
    group_hidden,
    unit_changed,
)


# ---------------------------------------------------------------- cases from a shape


def title(change) -> str:
    return change.__name__.replace("_", " ")


def fits(job: Job) -> bool:
    """Is the job within the greatest length?"""
    return len(job.records()) <= 1024


def stays_accepted(dice: Dice, name: str, job: Job, most: int) -> list:
    """Some changes that must be accepted; mixing the records is always among them."""
    cases = [Case(f"{name}; records mixed", mixed(dice, job), accepted(len(job.pairs)))]
    for change in dice.some(STAYS, most):
        changed = change(dice, job)
        if fits(changed):
            expected = accepted(len(changed.pairs))
            cases.append(case(f"{name}; {title(change)}", changed, expected))
    return cases


def comes_near(dice: Dice, name: str, job: Job, most: int) -> list:
    """Some changes that may be refused; those that lack a reply come before others.

    The reference judge decides what becomes of them.
    """
    cases = []
    for change in dice.shuffled(MISSES):
        changed = change(dice, job)
        if changed is not None and fits(changed):
            cases.append(case(f"{name}; {title(change)}", changed))
    return sorted(cases, key=lambda each: verdict(each.data)[0] not in (15, 16))[:most]


def each_landing_left_out(name: str, job: Job) -> list:
    """Leaves out, one by one, the pairs that the first pair's left steps land on.

    This tells the number of every step, and so the order of the list.
    """
    start = job.pairs[0]
    cases = []
    for number, (_, landings) in enumerate(list_steps(job.left.network(), start[0])):
        pairs = tuple(pair for pair in job.pairs if pair[0] != landings[-1] or pair == start)
        if len(pairs) < len(job.pairs):
            expected = no(15, LEFT, 0, number)
            changed = job._replace(pairs=pairs)
            cases.append(case(f"{name}; landing of step {number} left out", changed, expected))
    return cases
