"""Self-timed execution of a graph, until a state comes again."""
from __future__ import annotations

import heapq
import math
from fractions import Fraction
from typing import TYPE_CHECKING, Dict, List, Mapping, NamedTuple, Optional, Sequence, Set, Tuple, Union

from ..errors import KpnError
from .order import stuck
from .plan import Plan

if TYPE_CHECKING:
    from .graph import Graph

# The most instants of an execution before a state has come again.
MOST_INSTANTS = 20_000_000


# The end of a firing that let another one start: its actor and number, the channel whose tokens lacked until then (-1
# if the actor was busy itself), and how many lacked. None at the beginning.
Cause = Optional[Tuple[int, int, int, int]]


class Run:
    """A self-timed execution, one instant after the other. An idle actor watches the first channel that lacks tokens.
    With `keep`, the times and causes of all starts are kept."""

    def __init__(self, plan: Plan, actors: Sequence[int], keep: bool = False):
        self.plan, self.keep, self.now = plan, keep, 0
        self.tokens = list(plan.tokens)
        count = len(plan.names)
        self.phase, self.fired, self.ends, self.lacks = [0] * count, [0] * count, [-1] * count, [0] * count
        self.watched = [-1] * count
        self.busy: List[Tuple[int, int]] = []
        self.starts: List[List[Tuple[int, Cause]]] = [[] for _ in range(count)]
        for actor in actors:
            self.look(actor, None)

    def look(self, actor: int, cause: Cause) -> None:
        """Starts an idle actor, or finds what it lacks."""
        phase = self.phase[actor]
        needs = self.plan.needs[actor][phase]
        for channel, count in needs:
            if self.tokens[channel] < count:
                self.watched[actor], self.lacks[actor] = channel, count
                return
        for channel, count in needs:
            self.tokens[channel] -= count
        self.watched[actor] = -1
        if self.keep:
            self.starts[actor].append((self.now, cause))
        self.ends[actor] = self.now + self.plan.times[actor][phase]
        heapq.heappush(self.busy, (self.ends[actor], actor))

    def step(self) -> bool:
        """Makes all that happens at the next instant; False if nothing happens any more."""
        if not self.busy:
            return False
        self.now = self.busy[0][0]
        while self.busy and self.busy[0][0] == self.now:
            self.end(heapq.heappop(self.busy)[1])
        return True

    def end(self, actor: int) -> None:
        """Ends a firing, and starts what waited for it."""
        plan, phase, number = self.plan, self.phase[actor], self.fired[actor]
        self.fired[actor] += 1
        self.phase[actor] = (phase + 1) % len(plan.times[actor])
        self.ends[actor] = -1
        for channel, count in plan.gives[actor][phase]:
            lack = self.lacks[plan.readers[channel]] - self.tokens[channel]
            self.tokens[channel] += count
            if self.watched[plan.readers[channel]] == channel and lack <= count:
                self.look(plan.readers[channel], (actor, number, channel, lack))
        self.look(actor, (actor, number, -1, 0))

    def state(self) -> Tuple[int, ...]:
        """Tokens, phases and remaining times, from which all else follows."""
        return (*self.tokens, *self.phase, *(max(end - self.now, -1) for end in self.ends))


class Periodic(NamedTuple):
    """An execution whose state at the instant `begin` comes again at `end`: the firings of each actor ended at both."""

    run: Run
    begin: int
    end: int
    before: List[int]
    after: List[int]


def periodic(plan: Plan, actors: Set[int], keep: bool = False) -> Optional[Periodic]:
    """Executes a strongly connected part until a state comes again; None if it deadlocks."""
    run = Run(plan, sorted(actors), keep)
    pace = min(actors, key=lambda it: plan.repetition[it])
    met: Dict[Tuple[int, ...], Tuple[int, List[int]]] = {}
    rounds, instants = -1, 0
    while True:
        if run.fired[pace] // plan.repetition[pace] > rounds:
            rounds = run.fired[pace] // plan.repetition[pace]
            begin, before = met.setdefault(run.state(), (run.now, run.fired[:]))
            if before[pace] < run.fired[pace]:
                return Periodic(run, begin, run.now, before, run.fired[:])
        if not run.step():
            return None
        instants += 1
        if instants > MOST_INSTANTS:
            raise KpnError(f'no state has come again in {MOST_INSTANTS:,} instants: smaller times, with the same '
                           'ratios, may help')


class Throughput(NamedTuple):
    """A throughput. `rate` is in iterations per unit of time; 0 of a deadlock, infinite if all takes no time.

    From the time `transient` on, the actors of `part` repeat what they do in each `period` units of time, which is
    `iterations` iterations (a fraction if the part alone has smaller ones). `part` has all actors if each channel has a
    capacity, and else the slowest strongly connected part.
    """

    rate: Union[Fraction, float]
    transient: int
    period: int
    iterations: Fraction
    part: Tuple[str, ...]
    repetition: Mapping[str, int]

    def of(self, actor: str) -> Union[Fraction, float]:
        """The firings of an actor per unit of time. If the graph has parts that nothing binds, those may be faster."""
        if actor not in self.repetition:
            raise KpnError(f'the graph has no actor `{actor}`: it has {", ".join(self.repetition)}')
        return self.rate * self.repetition[actor]


def throughput(graph: Graph, repetition: Mapping[str, int]) -> Throughput:
    """The throughput of a graph; the repetition vector is that of the graph before a change of model."""
    plan = Plan(graph)
    found = Throughput(math.inf, 0, 0, Fraction(0), (), repetition)
    for part in plan.parts():
        names = tuple(plan.names[it] for it in sorted(part))
        alone = plan.part(part)
        if stuck(alone, part, [0] * len(plan.tokens)):
            return Throughput(Fraction(0), 0, 0, Fraction(0), names, repetition)
        if not any(time for it in part for time in plan.times[it]):
            continue
        seen = periodic(alone, part)
        assert seen
        pace = min(part)
        iterations = Fraction(seen.after[pace] - seen.before[pace], plan.repetition[pace])
        rate = iterations / (seen.end - seen.begin)
        if rate < found.rate:
            found = Throughput(rate, seen.begin, seen.end - seen.begin, iterations, names, repetition)
    return found
