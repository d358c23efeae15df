"""The least capacities of the channels of a graph, and what more room gains."""
from __future__ import annotations

import math
from fractions import Fraction
from typing import TYPE_CHECKING, Any, Dict, List, NamedTuple, Set, Tuple, Union

from ..errors import KpnError
from .order import stuck
from .pictures import pareto_svg
from .plan import Plan, model
from .search import Found, Judgement, curve, least_number, search
from .timed import Periodic, periodic

if TYPE_CHECKING:
    from .graph import Graph

Rate = Union[Fraction, float]


class Sizes(NamedTuple):
    """Capacities in tokens by the names of channels, their sum, and the throughput with them in iterations per unit of
    time. If they are not `exact`, there may be some with a smaller sum, but not below `at_least`."""

    capacities: Dict[str, int]
    total: int
    throughput: Rate
    exact: bool
    at_least: int


class Pareto(NamedTuple):
    """The least sums of capacities for each throughput, with the smallest first. If it is not `exact`, the time was up
    before the points after the last one were found. `most` is the largest throughput that there is."""

    points: List[Sizes]
    most: Rate
    exact: bool

    def svg(self) -> str:
        """The curve as a picture in SVG: sums of capacities to the right, throughput upwards."""
        return pareto_svg([(it.total, it.throughput) for it in self.points])

    def _repr_svg_(self) -> str:
        return self.svg()


class Judge:
    """Says how fast a graph is with given capacities, and which have to be larger for more."""

    def __init__(self, graph: Graph, by: str, is_timed: bool):
        self.plan, self.is_timed = Plan(model(graph.without_capacities(), by), bounded=True), is_timed
        self.rooms = list(self.plan.room)
        self.parts = self.plan.parts()
        self.start = tuple(max(it.tokens, *it.puts, *it.gets) for it in self.plan.channels)

    def __call__(self, sizes: Tuple[int, ...]) -> Judgement:
        """The throughput, or 1 if times do not count, and 0 of a deadlock."""
        for place, size in enumerate(sizes):
            self.set_size(place, size)
        return min((self.judged(self.plan, part) for part in self.parts), key=lambda it: it.value,
                   default=Judgement(math.inf, {}))

    def set_size(self, place: int, size: int) -> None:
        """Sets the room on a channel at the beginning."""
        self.plan.tokens[self.rooms[place]] = size - self.plan.channels[place].tokens

    def judged(self, plan: Plan, part: Set[int]) -> Judgement:
        """How fast a strongly connected part is."""
        is_timed = self.is_timed and any(time for it in part for time in plan.times[it])
        seen = periodic(plan, part, keep=True) if is_timed else None
        if seen is None:
            ring = stuck(plan, part, [0] * len(plan.tokens))
            value = 0 if ring else math.inf if self.is_timed else 1
            return Judgement(value, self.steps([(channel, lack) for _, channel, lack in ring]))
        pace = min(part)
        rate = Fraction(seen.after[pace] - seen.before[pace], plan.repetition[pace] * (seen.end - seen.begin))
        return Judgement(rate, self.steps(critical(seen)))

    def steps(self, lacks: List[Tuple[int, int]]) -> Dict[int, int]:
        """The channels whose room lacks, and by how much at least."""
        found: Dict[int, int] = {}
        for channel, lack in lacks:
            if channel in self.plan.room:
                place = channel - self.rooms[0]
                found[place] = min(lack, found.get(place, lack))
        return found

    def floor(self, wanted: Any) -> Tuple[int, ...]:
        """For each channel the least capacity with which its two ends alone are as good as wanted: the whole graph,
        which has more to wait for, needs as much."""
        return tuple(self.alone(place, wanted) for place in range(len(self.start)))

    def alone(self, place: int, wanted: Any) -> int:
        """The least capacity of a channel if there were no others."""
        ends = {self.plan.writers[place], self.plan.readers[place]}
        plan = self.plan.part(ends, {place, self.rooms[place]})

        def is_enough(size: int) -> bool:
            self.set_size(place, size)
            return bool(self.judged(plan, ends).value >= wanted)

        return least_number(self.start[place], is_enough)


def critical(seen: Periodic) -> List[Tuple[int, int]]:
    """The channels of a critical cycle, each with how many tokens lacked: firings of the period, each of which started
    when the one before it in the cycle ended."""
    starts = seen.run.starts
    turns = [after - before for before, after in zip(seen.before, seen.after)]
    actor = next(it for it, turn in enumerate(turns) if turn)
    number = len(starts[actor]) - 1
    path: Dict[Tuple[int, int], Tuple[int, int]] = {}
    while (actor, number) not in path:
        cause = starts[actor][number][1]
        assert cause
        path[actor, number] = cause[2:]
        actor, number = cause[:2]
        while number < len(starts[actor]) - turns[actor]:
            number += turns[actor]
    return list(path.values())[list(path).index((actor, number)):]


def sizes_of(graph: Graph, by: str, found: Found) -> Sizes:
    """What a search has found."""
    capacities = dict(zip(graph.channels, found.sizes))
    rate = graph.without_capacities().throughput(capacities, by).rate
    return Sizes(capacities, sum(found.sizes), rate, found.exact, found.at_least)


def most_of(graph: Graph, by: str) -> Rate:
    """The largest throughput that any capacities give. Raises KpnError if each one deadlocks."""
    free = graph.without_capacities()
    ring = free.deadlock()
    if ring:
        raise KpnError(f'no capacities are enough: {ring}')
    return free.throughput(by=by).rate


def least_capacities(graph: Graph, throughput: Any, by: str, limit: float) -> Sizes:
    """The least capacities for a throughput, or without a deadlock."""
    most = most_of(graph, by)
    wanted = most if throughput == 'most' else wanted_of(throughput) if throughput is not None else Fraction(0)
    if wanted > most:
        raise KpnError(f'no capacities give a throughput of {wanted}: the most is {most} iterations per unit of time')
    judge = Judge(graph, by, is_timed=throughput is not None)
    return sizes_of(graph, by, search(judge.floor(wanted or 1), judge, wanted or 1, limit))


def wanted_of(throughput: Any) -> Fraction:
    """A throughput that was given."""
    try:
        found = Fraction(throughput)
    except (TypeError, ValueError, ZeroDivisionError, OverflowError):
        found = Fraction(0)
    if found <= 0:
        raise KpnError(f"the throughput is {throughput!r}: it has to be a number above 0, as 1/4, or 'most'")
    return found


def pareto(graph: Graph, by: str, limit: float) -> Pareto:
    """The curve of the least capacities for each throughput."""
    most = most_of(graph, by)
    judge = Judge(graph, by, is_timed=True)
    points, exact = curve(judge.start, judge, most, limit)
    return Pareto([sizes_of(graph, by, it) for it in points], most, exact)
