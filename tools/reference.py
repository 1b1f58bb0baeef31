#!/usr/bin/env python3
"""Reference judge of a job, a second implementation beside the proved one.

It is written from docs/formats.md, docs/questions.md and docs/calculus.md and
favours plainness over speed. As a program it reads a job on standard input and
prints the verdict as 32 hexadecimal digits.
"""

import sys
from functools import cache
from itertools import product
from typing import Callable, Iterable, Iterator, NamedTuple

LEFT, RIGHT = 0, 1
SETTING, ROW, LINK, PAIR = 1, 2, 3, 4
NO_GUARD, EQUAL, DIFFERS, LESS = 0, 1, 2, 3
SILENT_ROW, BROADCAST_ROW, RECEIVE_ROW = 0, 1, 2
FIRST, SECOND, CONSTANT = 0, 1, 2
JOINED, APART = 1, 2

RECORD_BYTES = 64
STATE_BYTES = 24
UNIT_BYTES = 4
SLOTS = 6
HIGHEST_LOCATION = 63
MOST_LINKS = 16
MOST_ROWS = 64
MOST_PAIRS = 4096


class No(Exception):
    """The answer no to a question, with the numbers that go with it."""

    def __init__(self, question: int, side: int = LEFT, item: int = 0, step: int = 0):
        super().__init__(question, side, item, step)
        self.question, self.side, self.item, self.step = question, side, item, step


# ---------------------------------------------------------------- values and states


def signed(byte: int) -> int:
    """The value of a byte in two's complement."""
    return byte - 256 if byte >= 128 else byte


class Range(NamedTuple):
    lo: int
    hi: int

    def holds(self, value: int) -> bool:
        return self.lo <= value <= self.hi

    def values(self) -> Iterable[int]:
        return range(self.lo, self.hi + 1)


class Unit(NamedTuple):
    location: int
    first: int
    second: int
    groups: int


SPARE = Unit(0, 0, 0, 0)

State = tuple  # of six units; the slots past the last unit are SPARE in a lawful state


def read_unit(data: bytes) -> Unit:
    return Unit(data[0], signed(data[1]), signed(data[2]), data[3])


def read_state(data: bytes) -> State:
    return tuple(
        read_unit(data[begin : begin + UNIT_BYTES])
        for begin in range(0, STATE_BYTES, UNIT_BYTES)
    )


def replaced(state: State, number: int, unit: Unit) -> State:
    """The state with one unit put in the place of another."""
    return state[:number] + (unit,) + state[number + 1 :]


# ---------------------------------------------------------------- rows


class Operand(NamedTuple):
    kind: int
    value: int

    def read(self, unit: Unit) -> int:
        if self.kind == FIRST:
            return unit.first
        if self.kind == SECOND:
            return unit.second
        return self.value


class Row(NamedTuple):
    at: int
    guard: int
    compared: Operand
    against: Operand
    action: int
    operand: Operand
    to: int
    new_first: Operand
    new_second: Operand


def operand_is_laid_out(data: bytes, bounds: Range) -> bool:
    kind, byte = data
    if kind == CONSTANT:
        return bounds.holds(signed(byte))
    return kind in (FIRST, SECOND) and byte == 0


def guard_is_laid_out(data: bytes, bounds: Range) -> bool:
    if data[0] == NO_GUARD:
        return data[1:5] == bytes(4)
    return (
        data[0] in (EQUAL, DIFFERS, LESS)
        and operand_is_laid_out(data[1:3], bounds)
        and operand_is_laid_out(data[3:5], bounds)
    )


def action_is_laid_out(data: bytes, bounds: Range) -> bool:
    action, operand = data[0], data[1:3]
    if action == SILENT_ROW:
        return operand == bytes(2)
    if action == BROADCAST_ROW:
        return operand_is_laid_out(operand, bounds)
    # A receive names the register that it fills, and a constant is none.
    return action == RECEIVE_ROW and operand in (bytes([FIRST, 0]), bytes([SECOND, 0]))


def row_is_laid_out(data: bytes, bounds: Range) -> bool:
    return (
        data[0] <= HIGHEST_LOCATION
        and guard_is_laid_out(data[1:6], bounds)
        and action_is_laid_out(data[6:9], bounds)
        and data[9] <= HIGHEST_LOCATION
        and operand_is_laid_out(data[10:12], bounds)
        and operand_is_laid_out(data[12:14], bounds)
        and data[14:16] == bytes(2)
    )


def read_row(data: bytes) -> Row:
    """The row in 16 bytes that are as laid out."""

    def operand(begin: int) -> Operand:
        return Operand(data[begin], signed(data[begin + 1]))

    return Row(
        at=data[0],
        guard=data[1],
        compared=operand(2),
        against=operand(4),
        action=data[6],
        operand=operand(7),
        to=data[9],
        new_first=operand(10),
        new_second=operand(12),
    )


def enabled(row: Row, unit: Unit) -> bool:
    """Is the unit at the row's location, with the guard true of its registers?"""
    if unit.location != row.at:
        return False
    compared, against = row.compared.read(unit), row.against.read(unit)
    if row.guard == EQUAL:
        return compared == against
    if row.guard == DIFFERS:
        return compared != against
    if row.guard == LESS:
        return compared < against
    return True


def filled(row: Row, unit: Unit, value: int) -> Unit:
    """The unit after a receive row has put the value into its register."""
    if row.operand.kind == FIRST:
        return unit._replace(first=value)
    return unit._replace(second=value)


def after(row: Row, unit: Unit) -> Unit:
    """The unit after the row, with both new registers read from the unit as given."""
    return Unit(row.to, row.new_first.read(unit), row.new_second.read(unit), unit.groups)


def after_receive(row: Row, unit: Unit, value: int) -> Unit:
    return after(row, filled(row, unit, value))


# ---------------------------------------------------------------- mobility rules


class Link(NamedTuple):
    kind: int
    one: int
    other: int

    def met(self, placement: list) -> bool:
        if self.one >= len(placement) or self.other >= len(placement):
            return False
        share = placement[self.one] & placement[self.other] != 0
        return share if self.kind == JOINED else not share


def link_is_laid_out(data: bytes) -> bool:
    return data[0] in (JOINED, APART) and data[1] < SLOTS and data[2] < SLOTS


# ---------------------------------------------------------------- steps


SILENT = ("silent",)
MOVEMENT = ("movement",)


def broadcast(groups: int, value: int) -> tuple:
    return ("broadcast", groups, value)


def receive(groups: int) -> tuple:
    return ("receive", groups)


def is_receive(label: tuple) -> bool:
    return label[0] == "receive"


class Step(NamedTuple):
    label: tuple
    landing: Callable[[int], State]


def step_to(label: tuple, state: State) -> Step:
    """A step that lands in the same state for every value."""
    return Step(label, lambda value: state)


# ---------------------------------------------------------------- networks


@cache
def other_sets(present: int, free: int) -> list:
    """The sets that differ from the present one and have the same free part, by number."""
    return [
        groups
        for groups in range(256)
        if groups != present and groups & free == present & free
    ]


class Network(NamedTuple):
    """A network under Both of its links and its tuner limit."""

    range: Range
    free: int
    count: int
    rows: tuple
    links: tuple
    limit: int

    def allows(self, placement: list) -> bool:
        within_limit = all(groups.bit_count() <= self.limit for groups in placement)
        return within_limit and all(link.met(placement) for link in self.links)

    def placement(self, state: State) -> list:
        return [unit.groups for unit in state[: self.count]]

    def lawful(self, state: State) -> bool:
        units, spare = state[: self.count], state[self.count :]
        return (
            all(self.unit_is_lawful(unit) for unit in units)
            and all(unit == SPARE for unit in spare)
            and self.allows(self.placement(state))
        )

    def unit_is_lawful(self, unit: Unit) -> bool:
        return (
            unit.location <= HIGHEST_LOCATION
            and self.range.holds(unit.first)
            and self.range.holds(unit.second)
        )

    def shown(self, state: State) -> int:
        if not self.lawful(state):
            return 0
        union = 0
        for groups in self.placement(state):
            union |= groups
        return union & self.free

    def steps(self, state: State) -> Iterator[Step]:
        """The steps of a state, in list order."""
        if self.lawful(state):
            yield from self.movements(state)
            yield from self.row_steps(state)

    def movements(self, state: State) -> Iterator[Step]:
        placement = self.placement(state)
        for number, present in enumerate(placement):
            for groups in other_sets(present, self.free):
                if self.allows(placement[:number] + [groups] + placement[number + 1 :]):
                    moved = state[number]._replace(groups=groups)
                    yield step_to(MOVEMENT, replaced(state, number, moved))

    def row_steps(self, state: State) -> Iterator[Step]:
        for number in range(self.count):
            for row in self.rows:
                if enabled(row, state[number]):
                    yield from self.steps_by_row(state, number, row)

    def steps_by_row(self, state: State, number: int, row: Row) -> Iterator[Step]:
        unit = state[number]
        free_part = unit.groups & self.free
        if row.action == SILENT_ROW:
            yield step_to(SILENT, replaced(state, number, after(row, unit)))
        elif row.action == BROADCAST_ROW:
            yield from self.broadcasts(state, number, row)
        elif free_part:
            yield Step(
                receive(free_part),
                lambda value: replaced(state, number, after_receive(row, unit, value)),
            )

    def broadcasts(self, state: State, sender: int, row: Row) -> Iterator[Step]:
        """One step for each combination of what the other units do."""
        unit = state[sender]
        value = row.operand.read(unit)
        free_part = unit.groups & self.free
        label = broadcast(free_part, value) if free_part else SILENT
        outcomes = [
            [after(row, unit)]
            if number == sender
            else self.outcomes(state[number], unit.groups, value)
            for number in range(self.count)
        ]
        # product runs with the last unit fastest, so the lowest is the slowest.
        for units in product(*outcomes):
            yield step_to(label, units + state[self.count :])

    def outcomes(self, unit: Unit, sender_groups: int, value: int) -> list:
        """What may become of another unit at a broadcast; staying comes first."""
        stays = [unit]
        if not unit.groups & sender_groups:
            return stays
        return stays + [
            after_receive(row, unit, value)
            for row in self.rows
            if row.action == RECEIVE_ROW and enabled(row, unit)
        ]


def list_steps(system, state: State) -> list:
    """The steps of a state as a list of labels and landings; a receive has all its landings."""
    listed = []
    for label, landing in system.steps(state):
        values = system.range.values() if is_receive(label) else [system.range.lo]
        listed.append((label, [landing(value) for value in values]))
    return listed


# ---------------------------------------------------------------- judge


class Listed:
    """The steps of a state, made no further than they are read.

    A state may have more steps than memory holds, yet get its no at an early one.
    """

    def __init__(self, steps: Iterator[Step]):
        self.made, self.to_come = [], steps

    def __iter__(self) -> Iterator[Step]:
        yield from self.made
        for step in self.to_come:
            self.made.append(step)
            yield step


def agree(left_step: Step, right_step: Step, bounds: Range, records) -> bool:
    """Are the labels equal, and the two landings a record for every value?"""
    if left_step.label != right_step.label:
        return False
    # Only a receive lands by value, so that one value is enough for the others.
    values = bounds.values() if is_receive(left_step.label) else [bounds.lo]
    return all(
        (left_step.landing(value), right_step.landing(value)) in records
        for value in values
    )


def first_without_reply(steps: Iterable[Step], has_reply: Callable[[Step], bool]):
    """The number of the first step without a reply, or None."""
    return next((k for k, step in enumerate(steps) if not has_reply(step)), None)


def judge_pair(left, right, records, number: int, pair: tuple) -> None:
    """Puts questions 12 to 16 to one record of the relation."""
    left_state, right_state = pair
    if not left.lawful(left_state):
        raise No(12, LEFT, number)
    if not right.lawful(right_state):
        raise No(13, RIGHT, number)
    if left.shown(left_state) != right.shown(right_state):
        raise No(14, LEFT, number)
    left_steps = Listed(left.steps(left_state))
    right_steps = Listed(right.steps(right_state))
    bounds = left.range
    unanswered = first_without_reply(
        left_steps,
        lambda step: any(agree(step, reply, bounds, records) for reply in right_steps),
    )
    if unanswered is not None:
        raise No(15, LEFT, number, unanswered)
    unanswered = first_without_reply(
        right_steps,
        lambda step: any(agree(reply, step, bounds, records) for reply in left_steps),
    )
    if unanswered is not None:
        raise No(16, RIGHT, number, unanswered)


def judge(left, right, relation: list) -> int:
    """The count of records of an accepted relation."""
    if left.range != right.range:
        raise No(10)
    if len(relation) > MOST_PAIRS:
        raise No(11)
    records = set(relation)
    for number, pair in enumerate(relation):
        judge_pair(left, right, records, number, pair)
    return len(relation)


# ---------------------------------------------------------------- job

# Where the zero bytes after the payload begin, by the kind of a record.
PAYLOAD_END = {SETTING: 7, ROW: 18, LINK: 5, PAIR: 50}


def frame_is_kept(number: int, record: bytes) -> bool:
    """Has the record its kind, side, position and zero bytes?"""
    kind, side = record[0], record[1]
    if kind not in PAYLOAD_END or any(record[PAYLOAD_END[kind] :]):
        return False
    if number in (LEFT, RIGHT):
        return kind == SETTING and side == number
    if kind == PAIR:
        return side == LEFT
    return kind in (ROW, LINK) and side in (LEFT, RIGHT)


def split(data: bytes) -> list:
    """The records of a job whose length and frames are in order."""
    if len(data) % RECORD_BYTES or not 128 <= len(data) <= 65536:
        raise No(22)
    records = [
        data[begin : begin + RECORD_BYTES] for begin in range(0, len(data), RECORD_BYTES)
    ]
    for number, record in enumerate(records):
        if not frame_is_kept(number, record):
            raise No(23, LEFT, number)
    return records


def payloads(records: list, kind: int, side: int) -> list:
    """The payloads of one kind and side, in input order."""
    return [
        record[2 : PAYLOAD_END[kind]]
        for record in records
        if record[0] == kind and record[1] == side
    ]


def load_range(lo: int, hi: int, side: int) -> Range:
    if lo > hi:
        raise No(1, side)
    return Range(lo, hi)


def load_links(links: list, side: int) -> tuple:
    if len(links) > MOST_LINKS:
        raise No(2, side)
    for number, data in enumerate(links):
        if not link_is_laid_out(data):
            raise No(3, side, number)
    return tuple(Link(*data) for data in links)


def load_limit(limit: int, side: int) -> int:
    if limit > 8:
        raise No(4, side)
    return limit


def load_rows(rows: list, bounds: Range, side: int) -> tuple:
    if len(rows) > MOST_ROWS:
        raise No(6, side)
    for number, data in enumerate(rows):
        if not row_is_laid_out(data, bounds):
            raise No(7, side, number)
    return tuple(read_row(data) for data in rows)


def load_side(records: list, side: int) -> Network:
    """The network of one side: its range first, then its rule, then the rest."""
    lo, hi, free, count, limit = payloads(records, SETTING, side)[0]
    bounds = load_range(signed(lo), signed(hi), side)
    links = load_links(payloads(records, LINK, side), side)
    limit = load_limit(limit, side)
    if not 1 <= count <= SLOTS:
        raise No(5, side)
    rows = load_rows(payloads(records, ROW, side), bounds, side)
    return Network(bounds, free, count, rows, links, limit)


def load_relation(records: list) -> list:
    return [
        (read_state(data[:STATE_BYTES]), read_state(data[STATE_BYTES:]))
        for data in payloads(records, PAIR, LEFT)
    ]


def load_job(data: bytes) -> tuple:
    """The left network, the right network and the relation of a job."""
    records = split(data)
    return load_side(records, LEFT), load_side(records, RIGHT), load_relation(records)


def verdict_bytes(question=0, side=LEFT, item=0, step=0, count=0) -> bytes:
    return (
        bytes([question, side])
        + item.to_bytes(2, "little")
        + step.to_bytes(8, "little")
        + count.to_bytes(4, "little")
    )


def verdict(data: bytes) -> bytes:
    """The 16 bytes for any input."""
    try:
        return verdict_bytes(count=judge(*load_job(data)))
    except No as no:
        return verdict_bytes(no.question, no.side, no.item, no.step)


# ---------------------------------------------------------------- aid for case generators
#
# The verdict never looks for a relation. These two functions do, so that accepted
# relations can be made; nothing above uses them.


def reached(left, right, starts: list, most: int) -> list:
    """The start pairs and all that steps with equal labels reach from them.

    Stops short with None when there are more than `most` pairs.
    """
    found = dict.fromkeys(starts)
    waiting = list(found)
    while waiting:
        left_state, right_state = waiting.pop()
        right_steps = list_steps(right, right_state)
        for label, left_landings in list_steps(left, left_state):
            for other, right_landings in right_steps:
                if label != other:
                    continue
                for pair in zip(left_landings, right_landings):
                    if pair not in found:
                        found[pair] = None
                        waiting.append(pair)
        if len(found) > most:
            return None
    return list(found)


def largest_bisimulation(left, right, pairs: list) -> list:
    """The pairs that remain when every pair that gets a no is left out, again and again."""
    kept = list(pairs)
    while True:
        records = set(kept)
        remaining = [pair for pair in kept if holds(left, right, records, pair)]
        if len(remaining) == len(kept):
            return kept
        kept = remaining


def holds(left, right, records, pair: tuple) -> bool:
    try:
        judge_pair(left, right, records, 0, pair)
    except No:
        return False
    return True


if __name__ == "__main__":
    print(verdict(sys.stdin.buffer.read()).hex())
