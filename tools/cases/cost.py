"""What a judge does that compares step by step and walks the relation at each look-up: more than the proved judge does, which
goes so only where memory is wanting, or a state has too many steps to hold. The cases are chosen so that it could."""

from typing import NamedTuple

from reference import LEFT, RIGHT, No, Network, is_receive, judge_pair, list_steps, load_job

# Rough times of such a judge, in microseconds.
ASKING = 10
COMPARING = 1


class Cost(NamedTuple):
    comparisons: int = 0  # steps of one side times steps of the other, times values of receives
    asked: int = 0  # labels and landings asked by the number of a step
    compared: int = 0  # records compared in look-ups

    def plus(self, other: "Cost") -> "Cost":
        return Cost(*(mine + others for mine, others in zip(self, other)))

    def seconds(self) -> float:
        return (self.asked * ASKING + self.compared * COMPARING) / 1_000_000


class LookUps:
    """The relation, with how many records a look-up walks over."""

    def __init__(self, relation: list):
        self.count = len(relation)
        self.first = {}
        for number, pair in enumerate(relation):
            self.first.setdefault(pair, number)

    def walked(self, pair: tuple) -> int:
        return self.first.get(pair, self.count - 1) + 1


def cost_of_reply(step: tuple, replies: list, side: int, look_ups: LookUps) -> Cost:
    """Asks one reply after the other until one fits."""
    asked = compared = 0
    label, landings = step
    for other, other_landings in replies:
        asked += 1
        if other != label:
            continue
        fits = True
        for one, reply in zip(landings, other_landings):
            pair = (one, reply) if side == LEFT else (reply, one)
            asked += 2
            compared += look_ups.walked(pair)
            if pair not in look_ups.first:
                fits = False
                break
        if fits:
            break
    return Cost(0, asked, compared)


def cost_of_pair(left: Network, right: Network, pair: tuple, look_ups: LookUps) -> Cost:
    left_steps, right_steps = list_steps(left, pair[0]), list_steps(right, pair[1])
    values = left.range.hi - left.range.lo + 1
    receives = [sum(is_receive(label) for label, _ in steps) for steps in (left_steps, right_steps)]
    comparisons = len(left_steps) * len(right_steps) + receives[0] * receives[1] * (values - 1)
    total = Cost(comparisons, len(left_steps) + len(right_steps), 0)
    for step in left_steps:
        total = total.plus(cost_of_reply(step, right_steps, LEFT, look_ups))
    for step in right_steps:
        total = total.plus(cost_of_reply(step, left_steps, RIGHT, look_ups))
    return total


def cost(data: bytes) -> Cost:
    """The cost of a job up to the pair that decides it."""
    try:
        left, right, relation = load_job(data)
    except No:
        return Cost()
    total, look_ups = Cost(), LookUps(relation)
    if left.range != right.range:
        return total
    for number, pair in enumerate(relation):
        total = total.plus(cost_of_pair(left, right, pair, look_ups))
        try:
            judge_pair(left, right, look_ups.first, number, pair)
        except No:
            break
    return total
