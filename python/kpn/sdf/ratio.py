"""The homogeneous graph, a node for each firing of an iteration, and its maximum cycle ratio."""
from __future__ import annotations

import bisect
import collections
import itertools
import math
from fractions import Fraction
from typing import TYPE_CHECKING, Dict, List, NamedTuple, Sequence, Set, Tuple, Union

from ..errors import KpnError
from .plan import Plan

if TYPE_CHECKING:
    from .graph import Graph

MOST_FIRINGS = 20_000


class Edge(NamedTuple):
    """A firing that has to end before another one starts, which is a number of iterations later."""

    before: int
    after: int
    delay: int


class Cycle(NamedTuple):
    """The most units of time per iteration of any cycle of firings: 0 if nothing takes time, infinite of a deadlock.

    `firings` is such a cycle, each as an actor and its number in the iteration.
    """

    time: Union[Fraction, float]
    firings: List[Tuple[str, int]]


class Homogeneous(NamedTuple):
    """The firings of an iteration, as an actor and a number, with their times, and what they wait for."""

    firings: List[Tuple[str, int]]
    times: List[int]
    edges: List[Edge]


def homogeneous(graph: Graph) -> Homogeneous:
    """The homogeneous graph. A firing waits for the last one that puts a token that it gets."""
    plan = Plan(graph)
    count = sum(plan.repetition)
    if count > MOST_FIRINGS:
        raise KpnError(f'the homogeneous graph has {count} firings: more than {MOST_FIRINGS}. `graph.throughput()` '
                       'does without it')
    starts = list(itertools.accumulate(plan.repetition, initial=0))
    firings = [(name, k) for name, turns in zip(plan.names, plan.repetition) for k in range(turns)]
    times = [plan.times[actor][k % len(plan.times[actor])]
             for actor, turns in enumerate(plan.repetition) for k in range(turns)]
    edges = [Edge(start + k, start + (k + 1) % turns, int(k + 1 == turns))
             for start, turns in zip(starts, plan.repetition) for k in range(turns)]
    for channel, (writer, reader) in enumerate(zip(plan.writers, plan.readers)):
        puts = totals(plan.gives[writer], channel, plan.repetition[writer])
        gets = totals(plan.needs[reader], channel, plan.repetition[reader])
        for k, (before, needed) in enumerate(zip([0, *gets], gets)):
            if needed > before:
                iteration, rest = divmod(needed - plan.tokens[channel] - 1, puts[-1])
                edges.append(Edge(starts[writer] + bisect.bisect_left(puts, rest + 1), starts[reader] + k, -iteration))
    return Homogeneous(firings, times, edges)


def totals(phases: Sequence[Sequence[Tuple[int, int]]], channel: int, turns: int) -> List[int]:
    """How many tokens of a channel the first firings of an iteration move, for each number of them."""
    rates = [sum(count for number, count in phase if number == channel) for phase in phases]
    return list(itertools.accumulate(rates[k % len(rates)] for k in range(turns)))


def cycle_ratio(graph: Graph) -> Cycle:
    """The maximum cycle ratio."""
    made = homogeneous(graph)
    order = in_order(made)
    if len(order) < len(made.firings):
        return Cycle(math.inf, names_of(made, waiting_cycle(made, set(order))))
    ahead: List[List[Edge]] = [[] for _ in made.firings]
    for edge in made.edges:
        ahead[edge.before].append(edge)
    return Search(made, [edge for node in reversed(order) for edge in ahead[node]]).result() if order else \
        Cycle(Fraction(0), [])


def names_of(made: Homogeneous, cycle: Sequence[Edge]) -> List[Tuple[str, int]]:
    """The firings of a cycle."""
    return [made.firings[it.before] for it in cycle]


def in_order(made: Homogeneous) -> List[int]:
    """The firings of an iteration in an order in which each one has its tokens; those of a deadlock are left out."""
    waits = collections.Counter(it.after for it in made.edges if not it.delay)
    ahead: Dict[int, List[int]] = collections.defaultdict(list)
    for edge in made.edges:
        if not edge.delay:
            ahead[edge.before].append(edge.after)
    order = [it for it in range(len(made.firings)) if not waits[it]]
    for node in order:
        for after in ahead[node]:
            waits[after] -= 1
            if not waits[after]:
                order.append(after)
    return order


def waiting_cycle(made: Homogeneous, ordered: Set[int]) -> List[Edge]:
    """A cycle of firings that wait for one another in the same iteration: each has one before it that waits too."""
    before = {it.after: it for it in made.edges if not it.delay and it.before not in ordered}
    node = next(it for it in before if it not in ordered)
    path: List[Edge] = []
    while node not in {it.after for it in path[-1:]} and all(it.after != node for it in path):
        path.append(before[node])
        node = before[node].before
    return path[[it.after for it in path].index(node):][::-1]


class Search:
    """Howard's search: each firing chooses one edge, and the best cycle of these choices binds the others.

    `longest` is how long the way from a firing to that cycle is, where an edge counts its time less the ratio for each
    iteration of its delay, all times the denominator of the ratio. If no edge makes it longer, then no cycle has a
    larger ratio, whatever was chosen before.
    """

    def __init__(self, made: Homogeneous, edges: Sequence[Edge]):
        self.made, self.edges, self.ratio = made, edges, Fraction(-1)
        self.choice = {it.before: it for it in edges}
        self.longest = [0] * len(made.firings)
        self.cycle: List[Edge] = []

    def result(self) -> Cycle:
        """The maximum cycle ratio."""
        improves = True
        while improves:
            self.look()
            self.evaluate()
            improves = False
            for edge in self.edges:
                length = self.weight(edge) + self.longest[edge.after]
                if length > self.longest[edge.before]:
                    self.longest[edge.before], self.choice[edge.before], improves = length, edge, True
        return Cycle(self.ratio, names_of(self.made, self.cycle))

    def weight(self, edge: Edge) -> int:
        """How long an edge is at the ratio."""
        return self.made.times[edge.before] * self.ratio.denominator - edge.delay * self.ratio.numerator

    def look(self) -> None:
        """Finds the cycle with the largest ratio among the choices."""
        met: Dict[int, int] = {}
        before = self.ratio
        for start in self.choice:
            node, path = start, []
            while node not in met:
                met[node] = start
                path.append(node)
                node = self.choice[node].after
            if met[node] == start and path:
                cycle = [self.choice[it] for it in path[path.index(node):]]
                ratio = Fraction(sum(self.made.times[it.before] for it in cycle), sum(it.delay for it in cycle))
                if ratio > self.ratio:
                    self.ratio, self.cycle = ratio, cycle
        self.longest = [it * self.ratio.denominator // before.denominator for it in self.longest]

    def evaluate(self) -> None:
        """Sets how long the chosen ways to the cycle are."""
        behind: Dict[int, List[Edge]] = collections.defaultdict(list)
        for edge in self.choice.values():
            behind[edge.after].append(edge)
        left, root = [self.cycle[0].before], self.cycle[0].before
        while left:
            node = left.pop()
            for edge in behind[node]:
                if edge.before != root:
                    self.longest[edge.before] = self.weight(edge) + self.longest[node]
                    left.append(edge.before)
