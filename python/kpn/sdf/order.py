"""One iteration of a graph without times: an order of its firings, or who waits for whom."""
from __future__ import annotations

from typing import TYPE_CHECKING, Dict, List, NamedTuple, Optional, Sequence, Set, Tuple

from ..errors import KpnError
from .plan import Plan
from .search import Judgement, search

if TYPE_CHECKING:
    from .graph import Channel, Graph


class Lack(NamedTuple):
    """An actor that waits on a channel for tokens, or for room, and how many it lacks."""

    actor: str
    channel: str
    for_room: bool
    lacks: int


class Deadlock(NamedTuple):
    """Actors that wait for one another: each for what the next one has to put or to free.

    `tokens` has the least initial tokens, besides those that there are, with which the graph without capacities makes
    an iteration; it is empty if only capacities are too small. `exact` is False if there may be fewer.
    """

    ring: List[Lack]
    tokens: Dict[str, int]
    exact: bool = True

    def __str__(self) -> str:
        waits = ', '.join(f'{it.actor} lacks {"room for " * it.for_room}{it.lacks} token{"s" * (it.lacks > 1)} '
                          f'on {it.channel}' for it in self.ring)
        remedy = ', '.join(f'{count} on {name}' for name, count in self.tokens.items())
        more = f'these more initial tokens free the graph: {remedy}' if remedy else 'larger capacities free it'
        return f'deadlock: {waits}; {more}'


def schedule(graph: Graph) -> List[Tuple[str, int]]:
    """One iteration, each actor firing as often in a row as it can."""
    plan = Plan(graph)
    order: List[Tuple[int, int]] = []
    if stuck(plan, set(range(len(plan.names))), [0] * len(plan.tokens), order):
        raise KpnError(str(deadlock(graph)))
    return [(plan.names[actor], count) for actor, count in order]


def stuck(plan: Plan, actors: Set[int], more: Sequence[int], order: Optional[List[Tuple[int, int]]] = None
          ) -> List[Tuple[int, int, int]]:
    """A ring of what an iteration waits for with more tokens, as (actor, channel, how many lack); nothing if it can be
    made. The order that was found goes to a list."""
    tokens = [count + add for count, add in zip(plan.tokens, more)]
    left = {it: plan.repetition[it] for it in sorted(actors)}
    phase, lacking, moved = [0] * len(plan.names), {}, True
    while moved:
        moved = False
        for actor in [it for it, count in left.items() if count]:
            fired, lack = fire(plan, actor, left[actor], phase, tokens)
            left[actor] -= fired
            lacking[actor] = lack
            moved = moved or fired > 0
            if fired and order is not None:
                order.append((actor, fired))
    actor = next((it for it, count in left.items() if count), -1)
    path: List[int] = []
    while actor >= 0 and actor not in path:
        path.append(actor)
        actor = plan.writers[lacking[actor][0]]
    return [(it, *lacking[it]) for it in path[path.index(actor):]] if path else []


def fire(plan: Plan, actor: int, most: int, phase: List[int], tokens: List[int]) -> Tuple[int, Tuple[int, int]]:
    """Lets an actor fire as often in a row as it can; how often it did, and what it lacks then."""
    for fired in range(most):
        for channel, count in plan.needs[actor][phase[actor]]:
            if tokens[channel] < count:
                return fired, (channel, count - tokens[channel])
        for channel, count in plan.needs[actor][phase[actor]]:
            tokens[channel] -= count
        for channel, count in plan.gives[actor][phase[actor]]:
            tokens[channel] += count
        phase[actor] = (phase[actor] + 1) % len(plan.times[actor])
    return most, (-1, 0)


def deadlock(graph: Graph, limit: float = 60) -> Optional[Deadlock]:
    """Who waits for whom, and which initial tokens free them."""
    plan = Plan(graph)
    ring = stuck(plan, set(range(len(plan.names))), [0] * len(plan.tokens))
    if not ring:
        return None
    free = Plan(graph.without_capacities())
    everyone = set(range(len(free.names)))

    def judge(more: Tuple[int, ...]) -> Judgement:
        found = stuck(free, everyone, more)
        return Judgement(int(not found), {channel: lack for _, channel, lack in found})

    found = search(tuple([0] * len(free.tokens)), judge, 1, limit)
    lacks = [Lack(plan.names[actor], channel_at(plan, channel).name, channel in plan.room, lack)
             for actor, channel, lack in ring]
    more = {it.name: count for it, count in zip(free.channels, found.sizes) if count}
    return Deadlock(lacks, more, found.exact)


def channel_at(plan: Plan, number: int) -> Channel:
    """The channel with this number, or the one whose room it is."""
    return plan.room[number] if number in plan.room else plan.channels[number]
