"""Jobs as they are built by the case writers."""

import random
from typing import NamedTuple, Optional

from reference import LEFT, RIGHT, SPARE, Network, Unit, load_side, verdict_bytes
from text_to_job import link_bytes, row_bytes, state_bytes

SEND = "at 0 broadcast -2 to 1 keep keep"
HEAR = "at 2 receive first to 3 keep keep"
S0 = "(0,0,0,{0})"
S1 = "(1,0,0,{0})"


class Case(NamedTuple):
    """A job, and its verdict where the writer of the case knows it beforehand."""

    name: str
    data: bytes
    expected: Optional[bytes] = None


def accepted(count: int) -> bytes:
    return verdict_bytes(count=count)


def no(question: int, side: int = LEFT, item: int = 0, step: int = 0) -> bytes:
    return verdict_bytes(question, side, item, step)


def framed(kind: int, side: int, payload: bytes) -> bytes:
    return (bytes([kind, side]) + payload).ljust(64, b"\0")


class Side(NamedTuple):
    """One side of a job. Rows and links are in the text form, or raw bytes."""

    rows: tuple = (SEND,)
    links: tuple = ()
    lo: int = -2
    hi: int = 2
    free: int = 1
    units: int = 1
    limit: int = 1

    def setting(self, side: int) -> bytes:
        bounds = bytes([self.lo & 0xFF, self.hi & 0xFF])
        return framed(1, side, bounds + bytes([self.free, self.units, self.limit]))

    def row_records(self, side: int) -> list:
        return [framed(2, side, as_bytes(row, row_bytes)) for row in self.rows]

    def link_records(self, side: int) -> list:
        return [framed(3, side, as_bytes(link, link_bytes)) for link in self.links]

    def network(self) -> Network:
        """The reference's network, for a side that is in order."""
        records = [self.setting(LEFT), *self.row_records(LEFT), *self.link_records(LEFT)]
        return load_side(records, LEFT)


class Job(NamedTuple):
    """Both sides and the relation. A state is in the text form, raw bytes or the reference's."""

    left: Side = Side()
    right: Side = Side()
    pairs: tuple = ((S0, S0), (S1, S1))

    def records(self) -> list:
        sides = ((self.left, LEFT), (self.right, RIGHT))
        settings = [each.setting(side) for each, side in sides]
        rows = [row for each, side in sides for row in each.row_records(side)]
        links = [link for each, side in sides for link in each.link_records(side)]
        return settings + rows + links + [pair_record(pair) for pair in self.pairs]

    def data(self) -> bytes:
        return b"".join(self.records())

    def on(self, side: int, **changes) -> "Job":
        """The job with changes on one side."""
        if side == LEFT:
            return self._replace(left=self.left._replace(**changes))
        return self._replace(right=self.right._replace(**changes))

    def on_both(self, **changes) -> "Job":
        return self.on(LEFT, **changes).on(RIGHT, **changes)

    def side(self, side: int) -> Side:
        return self.left if side == LEFT else self.right


def case(name: str, job: Job, expected: Optional[bytes] = None) -> Case:
    return Case(name, job.data(), expected)


def running(*rows: str, **settings) -> Side:
    """A side with these rows."""
    return Side(rows=rows, **settings)


def as_bytes(item, read) -> bytes:
    return item if isinstance(item, bytes) else read(item)


def pair_record(pair: tuple) -> bytes:
    return framed(4, LEFT, state_record(pair[0]) + state_record(pair[1]))


def state_record(given) -> bytes:
    """The 24 bytes of a state in any of its forms."""
    if isinstance(given, tuple):
        return b"".join(
            bytes([u.location, u.first & 0xFF, u.second & 0xFF, u.groups]) for u in given
        )
    return as_bytes(given, state_bytes)


def state(*units: tuple) -> tuple:
    """The reference's state of some units, the rest spare."""
    return tuple(Unit(*unit) for unit in units) + (SPARE,) * (6 - len(units))


def side_name(side: int) -> str:
    return "left" if side == LEFT else "right"


class Dice:
    """Draws that stay the same with every version of Python.

    Only random() itself is promised to stay, so that everything is made from it.
    """

    def __init__(self, seed: int):
        self.source = random.Random(seed)

    def below(self, bound: int) -> int:
        return int(self.source.random() * bound)

    def pick(self, items):
        return items[self.below(len(items))]

    def shuffled(self, items) -> list:
        items = list(items)
        for last in range(len(items) - 1, 0, -1):
            other = self.below(last + 1)
            items[last], items[other] = items[other], items[last]
        return items

    def some(self, items, most: int) -> list:
        """At most so many of the items, in their order."""
        chosen = sorted(self.shuffled(range(len(items)))[:most])
        return [items[k] for k in chosen]
