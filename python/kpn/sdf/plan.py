"""Graphs by numbers, for what is computed of them, and their two models."""
from __future__ import annotations

from typing import TYPE_CHECKING, Dict, List, Optional, Sequence, Set, Tuple

from ..errors import KpnError

if TYPE_CHECKING:
    from .graph import Channel, Graph


class Plan:
    """A graph by numbers: for each phase of each actor its time, and the tokens that it gets and puts on channels.

    A channel with a capacity has a second one that leads back, whose tokens are room: `room` has the channel that each
    of these belongs to. With `bounded`, all channels have one.
    """

    def __init__(self, graph: Graph, bounded: bool = False):
        self.names, self.repetition = list(graph.actors), list(graph.repetition.values())
        place = {name: number for number, name in enumerate(self.names)}
        phases = [graph.phases(name) for name in self.names]
        self.times = [[actor.times[k % len(actor.times)] for k in range(count)]
                      for actor, count in zip(graph.actors.values(), phases)]
        self.channels = list(graph.channels.values())
        self.tokens: List[int] = []
        self.writers: List[int] = []
        self.readers: List[int] = []
        self.room: Dict[int, Channel] = {}
        self.needs: List[List[List[Tuple[int, int]]]] = [[[] for _ in range(count)] for count in phases]
        self.gives: List[List[List[Tuple[int, int]]]] = [[[] for _ in range(count)] for count in phases]
        for it in self.channels:
            self.add(place[it.writer], place[it.reader], it.puts, it.gets, it.tokens)
        for it in self.channels:
            if it.capacity is not None or bounded:
                self.room[len(self.tokens)] = it
                self.add(place[it.reader], place[it.writer], it.gets, it.puts, (it.capacity or it.tokens) - it.tokens)

    def add(self, writer: int, reader: int, puts: Sequence[int], gets: Sequence[int], tokens: int) -> None:
        """Adds a channel."""
        number = len(self.tokens)
        for end, rates, sides in ((writer, puts, self.gives), (reader, gets, self.needs)):
            for phase, side in enumerate(sides[end]):
                if rates[phase % len(rates)]:
                    side.append((number, rates[phase % len(rates)]))
        self.tokens.append(tokens)
        self.writers.append(writer)
        self.readers.append(reader)

    def part(self, actors: Set[int], channels: Optional[Set[int]] = None) -> Plan:
        """The plan of some of the actors alone, with some of the channels between them, or all of those."""
        made = Plan.__new__(Plan)
        vars(made).update(vars(self))
        inside = {c for c, (writer, reader) in enumerate(zip(self.writers, self.readers))
                  if {writer, reader} <= actors and (channels is None or c in channels)}
        made.needs, made.gives = ([[[it for it in phase if it[0] in inside] for phase in phases] for phases in sides]
                                  for sides in (self.needs, self.gives))
        return made

    def parts(self) -> List[Set[int]]:
        """The strongly connected parts, each after those that it depends on."""
        ahead: List[List[int]] = [[] for _ in self.names]
        back: List[List[int]] = [[] for _ in self.names]
        for writer, reader in zip(self.writers, self.readers):
            ahead[writer].append(reader)
            back[reader].append(writer)
        order: List[int] = []
        met: Set[int] = set()
        for actor in range(len(self.names)):
            order += walked(actor, ahead, met)
        found, met = [], set()
        for actor in reversed(order):
            part = walked(actor, back, met)
            found += [set(part)] if part else []
        return found


def walked(start: int, ahead: Sequence[Sequence[int]], met: Set[int]) -> List[int]:
    """What can be reached and was not met, each after what was reached from it."""
    found: List[int] = []
    left = [(start, iter(ahead[start]))] if start not in met else []
    met.add(start)
    while left:
        actor, others = left[-1]
        for other in others:
            if other not in met:
                met.add(other)
                left.append((other, iter(ahead[other])))
                break
        else:
            found.append(left.pop()[0])
    return found


def model(graph: Graph, by: str) -> Graph:
    """The graph of one of the two models of a firing."""
    if by not in ('firing', 'item'):
        raise KpnError(f"`by` is {by!r}: it has to be 'firing' or 'item'")
    return graph if by == 'firing' else by_items(graph)


def by_items(graph: Graph) -> Graph:
    """The graph in which each token is got, and put, in a phase of its own."""
    made = type(graph)(graph.name)
    puts: Dict[str, List[int]] = {name: [] for name in graph.channels}
    gets: Dict[str, List[int]] = {name: [] for name in graph.channels}
    for actor in graph.actors.values():
        talks: List[Tuple[int, Optional[List[int]]]] = []
        for phase in range(graph.phases(actor.name)):
            for it in graph.channels.values():
                if it.reader == actor.name:
                    talks += [(0, gets[it.name])] * it.gets[phase % len(it.gets)]
            talks.append((actor.times[phase % len(actor.times)], None))
            for it in graph.channels.values():
                if it.writer == actor.name:
                    talks += [(0, puts[it.name])] * it.puts[phase % len(it.puts)]
        made.actor(actor.name, [time for time, _ in talks])
        for it in graph.channels.values():
            for end, rates in ((it.reader, gets[it.name]), (it.writer, puts[it.name])):
                if end == actor.name:
                    rates += [int(side is rates) for _, side in talks]
    for it in graph.channels.values():
        made.channel(it.writer, it.reader, puts[it.name], gets[it.name], it.tokens, it.capacity, it.name)
    return made
