"""Pictures of graphs, of self-timed schedules and of Pareto curves."""
from __future__ import annotations

from typing import TYPE_CHECKING, List, NamedTuple, Optional, Sequence, Tuple, Union

from ..errors import KpnError, whole
from ..figures import Bar, bars_svg, curve_svg
from .plan import Plan
from .timed import Run, throughput

if TYPE_CHECKING:
    from fractions import Fraction

    from .graph import Graph

MOST_FIRINGS = 1_000_000


class Firing(NamedTuple):
    """A firing: its actor, its number from 0, and when it starts and ends, in units of time."""

    actor: str
    number: int
    start: int
    end: int


class Gantt(NamedTuple):
    """A self-timed schedule up to a time: its firings in the order of their starts. From `transient` on it repeats
    itself each `period` units of time, if its throughput has one."""

    actors: List[str]
    firings: List[Firing]
    time: int
    transient: int
    period: int

    def svg(self) -> str:
        """The schedule as a picture in SVG: a row for each actor, and lines where the period begins and ends."""
        rows = {name: number for number, name in enumerate(self.actors)}
        bars = [Bar(rows[it.actor], it.start, it.end, 'even' if it.number % 2 == 0 else 'odd', str(it.number),
                    f'{it.actor}, firing {it.number}: {it.start} to {it.end}') for it in self.firings]
        marks = [self.transient, self.transient + self.period] if self.period else []
        return bars_svg(self.actors, bars, self.time, marks=marks)

    def _repr_svg_(self) -> str:
        return self.svg()


def gantt_of(graph: Graph, time: Optional[int]) -> Gantt:
    """The self-timed schedule of a graph."""
    found = throughput(graph, graph.repetition)
    if not found.part and graph.actors:
        raise KpnError('nothing in the graph takes time, so there is no schedule to draw')
    last = whole('the time', time, 1) if time is not None else found.transient + 2 * found.period
    plan = Plan(graph)
    run = Run(plan, range(len(plan.names)), keep=True)
    while run.busy and run.busy[0][0] < (last or run.busy[0][0] + 1):
        run.step()
        if sum(run.fired) > MOST_FIRINGS:
            raise KpnError(f'there are more than {MOST_FIRINGS:,} firings up to {last}: give a smaller time')
    firings = [Firing(name, number, start, start + plan.times[actor][number % len(plan.times[actor])])
               for actor, name in enumerate(plan.names) for number, (start, _) in enumerate(run.starts[actor])]
    shown = sorted((it for it in firings if it.start < (last or run.now + 1)), key=lambda it: (it.start, it.end))
    return Gantt(plan.names, shown, last or run.now, found.transient, found.period)


def pareto_svg(points: Sequence[Tuple[int, Union[Fraction, float]]]) -> str:
    """A Pareto curve."""
    return curve_svg([(total, float(rate), f'{total} tokens: {rate}') for total, rate in points],
                     'sum of capacities, in tokens', 'iterations per unit of time')


def dot_of(graph: Graph) -> str:
    """A graph in the language of Graphviz."""
    lines = [f'digraph {quoted(graph.name)} {{', '  rankdir=LR;', '  node [shape=circle];']
    for actor in graph.actors.values():
        lines.append(f'  {quoted(actor.name)} [label={quoted(actor.name, listed(actor.times))}];')
    for it in graph.channels.values():
        tokens = [f'● {it.tokens}'] * bool(it.tokens)
        room = [f'≤ {it.capacity}'] * (it.capacity is not None)
        words = [f'label={quoted(it.name, *tokens, *room)}', f'taillabel={quoted(listed(it.puts))}',
                 f'headlabel={quoted(listed(it.gets))}']
        lines.append(f'  {quoted(it.writer)} -> {quoted(it.reader)} [{", ".join(words)}];')
    return '\n'.join([*lines, '}', ''])


def listed(numbers: Sequence[int]) -> str:
    """The numbers of phases, or the one of all; of many, some."""
    some = numbers if len(numbers) <= 8 else numbers[:7]
    return ','.join(map(str, some)) + ',..' * (len(some) < len(numbers))


def quoted(*lines: str) -> str:
    """Lines as a text of Graphviz."""
    escaped = [it.replace('\\', '\\\\').replace('"', '\\"') for it in lines]
    return '"' + '\\n'.join(escaped) + '"'
