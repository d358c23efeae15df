"""Synchronous and cyclo-static dataflow graphs, as they are described."""
from __future__ import annotations

import importlib
import math
from typing import TYPE_CHECKING, Any, Dict, Iterable, List, Mapping, NamedTuple, Optional, Sequence, Tuple, Union

from ..balance import Link, Unbalanced, rounds_of
from ..errors import KpnError, whole
from ..program import draw_svg
from . import files, order, periods, pictures, plan, ratio, runs, sizes, timed

if TYPE_CHECKING:
    from os import PathLike

    from ..network import Network
    from ..result import Result

# A number for all firings, or one for each phase in turn.
Numbers = Union[int, Sequence[int]]
# Capacities in tokens by the names of channels, or what a search has found.
Capacities = Union[None, Mapping[str, Optional[int]], 'sizes.Sizes']


class Actor(NamedTuple):
    """An actor: its name, and how long each of its phases takes, in units of time."""

    name: str
    times: Tuple[int, ...]


class Channel(NamedTuple):
    """A channel: how many tokens each phase of its writer puts and each phase of its reader gets, how many lie there at
    the beginning, and how many it holds; None if that has no bound."""

    name: str
    writer: str
    reader: str
    puts: Tuple[int, ...]
    gets: Tuple[int, ...]
    tokens: int = 0
    capacity: Optional[int] = None


class Inconsistent(KpnError):
    """A graph whose channels contradict one another: no number of firings leaves each one as it was. `channels` are
    those of a cycle, whichever way they lead."""

    def __init__(self, message: str, channels: Sequence[Channel] = ()):
        super().__init__(message)
        self.channels = list(channels)


class Graph:
    """A dataflow graph. An actor fires again and again: a firing gets tokens, takes its time, and puts tokens.

    Rates and times are one number each (synchronous dataflow: Lee and Messerschmitt, "Synchronous data flow", 1987), or
    a list of those of the phases that the firings go through in turn (cyclo-static dataflow: Bilsen, Engels, Lauwereins
    and Peperstraete, "Cyclo-static dataflow", 1996). Lists of unequal lengths are gone through side by side. An actor
    has one firing at a time, as a process has: an SDF3 graph has a channel from the actor to itself for that.

    A firing may start if its tokens are there, and, on channels with a capacity, room for what it puts. It gets the
    tokens and claims the room when it starts. It puts what it makes, and frees the room of what it got, when it ends.

    Wrong names, rates, times and capacities raise KpnError, and numbers that are not whole TypeError.
    """

    def __init__(self, name: str = 'graph'):
        check_name(name)
        self.name = name
        self.actors: Dict[str, Actor] = {}
        self.channels: Dict[str, Channel] = {}

    def __repr__(self) -> str:
        return f'<Graph {self.name} of {len(self.actors)} actors and {len(self.channels)} channels>'

    # ---- building

    def actor(self, name: str, time: Numbers = 1) -> Actor:
        """Adds an actor whose firings, or whose phases in turn, take these numbers of units of time, 0 or more."""
        check_name(name)
        if name in self.actors:
            raise KpnError(f'the graph has an actor `{name}` already')
        self.actors[name] = Actor(name, numbers(f'the time of `{name}`', time))
        return self.actors[name]

    def channel(self, writer: str, reader: str, put: Numbers = 1, get: Numbers = 1, tokens: int = 0,
                capacity: Optional[int] = None, name: Optional[str] = None) -> Channel:
        """Adds a channel. Each firing of the writer puts `put` tokens, or each of its phases in turn, and the reader
        gets `get`. `tokens` lie there at the beginning. Without a name it has one made of those of its ends."""
        for end in (writer, reader):
            if end not in self.actors:
                raise KpnError(f'the graph has no actor `{end}`: add it by `graph.actor({end!r})` first')
        if name is None:
            number = sum((it.writer, it.reader) == (writer, reader) for it in self.channels.values())
            name = f'{writer}_{reader}' + f'_{number + 1}' * bool(number)
        check_name(name)
        if name in self.channels:
            raise KpnError(f'the graph has a channel `{name}` already: give another `name`')
        rates = numbers(f'the put of `{name}`', put), numbers(f'the get of `{name}`', get)
        for what, rate in zip(('puts', 'gets'), rates):
            if not any(rate):
                raise KpnError(f'nobody {what} a token on `{name}`: a phase at least has to have a rate of 1 or more')
        tokens = whole(f'the number of initial tokens of `{name}`', tokens)
        if capacity is not None:
            capacity = whole(f'the capacity of `{name}`', capacity, max(tokens, 1))
        self.channels[name] = Channel(name, writer, reader, *rates, tokens, capacity)
        return self.channels[name]

    @classmethod
    def read(cls, path: Union[str, PathLike[str]], processor: Optional[str] = None) -> Graph:
        """Reads a graph from an XML file of SDF3, of type `sdf` or `csdf`.

        Actors take the times of their default processor, or of that of this type. Raises KpnError with the file and
        the place, and OSError for a file that can't be read.
        """
        return files.read(cls, path, processor)

    def write(self, path: Union[str, PathLike[str]]) -> None:
        """Writes an XML file of SDF3, which `Graph.read` and SDF3 read. Raises OSError if that can't be written; then
        an old file stays as it is, if its folder takes another one."""
        files.write(self, path)

    @classmethod
    def of(cls, net: Network) -> Graph:
        """The graph of a network whose processes have constant rates, without its sources and sinks.

        Each get and each put is a phase that takes one tick, so the throughput is that of `result.ticks_per_item`, and
        a capacity is one of the network. First items are initial tokens. Raises KpnError if a process gets before its
        loop begins, if its gets and puts depend on items, or if they have no period.
        """
        return periods.graph_of(cls, net)

    def with_capacities(self, capacities: Capacities) -> Graph:
        """A copy of the graph with these capacities, in tokens by the names of channels; the others stay as they are.

        A capacity of None takes one away.
        """
        given = capacities.capacities if isinstance(capacities, sizes.Sizes) else capacities or {}
        for name in given:
            if name not in self.channels:
                raise KpnError(f'the graph has no channel `{name}`: it has {", ".join(self.channels) or "none"}')
        made = Graph(self.name)
        made.actors = dict(self.actors)
        for it in self.channels.values():
            capacity = given.get(it.name, it.capacity)
            made.channel(it.writer, it.reader, it.puts, it.gets, it.tokens, capacity, it.name)
        return made

    def without_capacities(self) -> Graph:
        """A copy of the graph whose channels hold any number of tokens."""
        made = Graph(self.name)
        made.actors = dict(self.actors)
        made.channels = {name: it._replace(capacity=None) for name, it in self.channels.items()}
        return made

    def lumped(self) -> Graph:
        """The synchronous graph in which a firing is all phases of an actor in a row."""
        made = Graph(self.name)
        for actor in self.actors.values():
            made.actor(actor.name, sum(actor.times) * (self.phases(actor.name) // len(actor.times)))
        for it in self.channels.values():
            put, got = (sum(rates) * (self.phases(end) // len(rates))
                        for rates, end in ((it.puts, it.writer), (it.gets, it.reader)))
            made.channel(it.writer, it.reader, put, got, it.tokens, it.capacity, it.name)
        return made

    def by_items(self) -> Graph:
        """The cyclo-static graph in which a token is got or put at a time, as a process of the language does.

        A phase for each token that a firing gets, in the order of the channels, frees its room and takes no time. Then
        one takes the time of the firing, and one for each token that it puts claims room for it.
        """
        return plan.by_items(self)

    # ---- what follows from rates

    def phases(self, actor: str) -> int:
        """How many phases an actor goes through until it is at its first one again."""
        lengths = [len(self.actors[actor].times)]
        lengths += [len(it.puts) for it in self.channels.values() if it.writer == actor]
        lengths += [len(it.gets) for it in self.channels.values() if it.reader == actor]
        return math.lcm(*lengths)

    @property
    def repetition(self) -> Dict[str, int]:
        """The repetition vector: how many firings of each actor make an iteration, after which each channel has as many
        tokens as before. Parts that no channel connects have iterations of their own.

        Raises `Inconsistent`, a KpnError, that names a cycle of channels that contradict one another.
        """
        phases = {name: self.phases(name) for name in self.actors}
        links = [Link(it.name, it.writer, it.reader, sum(it.puts) * (phases[it.writer] // len(it.puts)),
                      sum(it.gets) * (phases[it.reader] // len(it.gets))) for it in self.channels.values()]
        try:
            rounds = rounds_of(self.actors, links)
        except Unbalanced as error:
            raise self.inconsistent(error.cycle, phases) from None
        return {name: rounds[name] * phases[name] for name in self.actors}

    def inconsistent(self, cycle: Sequence[Link], phases: Mapping[str, int]) -> Inconsistent:
        """The error that tells of a cycle of channels that contradict one another."""
        said = [f'`{it.name}` needs {it.got} x {it.reader} = {it.put} x {it.writer}'
                for it in (link._replace(put=link.put // math.gcd(link.put, link.got),
                                         got=link.got // math.gcd(link.put, link.got)) for link in cycle)]
        unit = 'cycles of phases' if any(phases[str(end)] > 1 for it in cycle for end in it[1:3]) else 'firings'
        return Inconsistent(f'the rates of {len(cycle)} channel{"s" * (len(cycle) > 1)} contradict one another, so '
                            f'there is no repetition vector: in {unit}, {", ".join(said)}. Change one of these rates',
                            [self.channels[it.name] for it in cycle])

    # ---- what is computed of it

    def schedule(self) -> List[Tuple[str, int]]:
        """A periodic schedule of one firing after the other: an iteration as pairs of an actor and how often it fires
        in a row. Raises KpnError that tells who waits for whom if there is none."""
        return order.schedule(self)

    def deadlock(self) -> Optional[order.Deadlock]:
        """None if the graph can make an iteration, and so any number of them; or else which actors wait for one
        another, and the least initial tokens that free all of them."""
        return order.deadlock(self)

    def throughput(self, capacities: Capacities = None, by: str = 'firing') -> timed.Throughput:
        """The exact throughput if each actor fires as soon as it can (self-timed execution), with these capacities
        besides those of the graph. It is found by the states that the graph goes through until one comes again.

        `by='item'` has room claimed and freed token by token (`graph.by_items()`), in place of firing by firing.
        Without a capacity, no channel fills: strongly connected parts then go on by themselves, and the slowest one
        binds the graph. Ghamarian et al., "Throughput analysis of synchronous data flow graphs", 2006.
        """
        return timed.throughput(plan.model(self.with_capacities(capacities), by), self.repetition)

    def cycle_ratio(self, capacities: Capacities = None, by: str = 'firing') -> ratio.Cycle:
        """How many units of time an iteration takes, as the maximum cycle ratio of the homogeneous graph: this is the
        throughput found in another way. The result has a critical cycle.

        Raises KpnError if the homogeneous graph has more than 20,000 firings. Sriram and Bhattacharyya, "Embedded
        Multiprocessors: Scheduling and Synchronization", 2000, tell of this graph.
        """
        return ratio.cycle_ratio(plan.model(self.with_capacities(capacities), by))

    def least_capacities(self, throughput: Any = None, by: str = 'firing', limit: float = 60) -> sizes.Sizes:
        """Capacities with the least sum, in tokens, without a deadlock, or for a throughput in iterations per unit of
        time; `throughput='most'` stands for the largest one that any capacities give.

        It searches as Stuijk, Geilen and Basten do ("Exploring trade-offs in buffer requirements and throughput
        constraints for synchronous dataflow graphs", 2006). `by` is as of `throughput`. After `limit` seconds it gives
        what is enough but perhaps not least: then `exact` is False, and `at_least` says which sum is not yet excluded.
        The graph's own capacities don't count. Raises KpnError if no capacities are enough.
        """
        return sizes.least_capacities(self, throughput, by, limit)

    def pareto(self, by: str = 'firing', limit: float = 60) -> sizes.Pareto:
        """The least sum of capacities for each throughput that there is: the curve of Stuijk, Geilen and Basten.

        After `limit` seconds it has the points so far, and `exact` is False.
        """
        return sizes.pareto(self, by, limit)

    def network(self, iterations: int = 1, body: Union[str, Mapping[str, str]] = 'count', by: str = 'firing',
                inputs: Iterable[str] = (), outputs: Iterable[str] = ()) -> Network:
        """A network whose processes fire as the actors do, for this number of iterations.

        Channels with a capacity have a second one for credits that leads back. With `by='firing'` a firing first gets a
        credit for each token that it will put, and puts a credit for each token that it got when all is done. With
        `by='item'` a credit goes with each token. Without a capacity there are no credits.

        `body` says what is computed. `'count'` numbers the tokens of each channel from 0. `'sum'` puts the sum of all
        that the firing got plus 1, modulo 2^32. A dict has statements of the language (2) for actors: in them
        `c[0]`, `c[1]` .. are the tokens that the firing got from a channel `c`, and are to be set to what it puts on
        `c`; `firing` and `phase` count from 0. The actors of `inputs` get an item of a source of their name in each
        firing, as `item`, and those of `outputs` put one on a sink, as `result`.
        """
        return runs.network(self, iterations, body, by, inputs, outputs)

    def check(self, result: Result, by: str = 'firing') -> runs.Audit:
        """Audits a run of `graph.network()` with a trace: `kpn audit` has to find it legal, each process has to fire as
        its actor, and no channel may hold more than its capacity. Raises KpnError with the event that is wrong."""
        return runs.check(self, result, by)

    def confirm(self, capacities: Capacities, by: str = 'firing') -> str:
        """Runs the graph's network by `kpn` with these capacities, where it has to end after an iteration, and with one
        token less on each channel in turn, where it has to deadlock. Gives a sentence of it, and raises KpnError if a
        run ends otherwise."""
        return runs.confirm(self, capacities, by)

    # ---- pictures

    def dot(self) -> str:
        """The graph with its rates, initial tokens (a dot and their number) and capacities, for Graphviz."""
        return pictures.dot_of(self)

    def gantt(self, time: Optional[int] = None, capacities: Capacities = None, by: str = 'firing') -> pictures.Gantt:
        """The self-timed schedule, for this many units of time, or else for two periods after the transient."""
        return pictures.gantt_of(plan.model(self.with_capacities(capacities), by), time)

    def _repr_svg_(self) -> Optional[str]:
        """The picture that a notebook shows, if Graphviz is there."""
        return draw_svg(self.dot())

    def networkx(self) -> Any:
        """The graph as a `MultiDiGraph` of networkx, with the fields of actors and channels. Raises KpnError if that
        is not there."""
        try:
            networkx = importlib.import_module('networkx')
        except ImportError:
            raise KpnError('networkx is not there: install it by `pip install networkx`') from None
        made = networkx.MultiDiGraph(name=self.name)
        for actor in self.actors.values():
            made.add_node(actor.name, times=actor.times)
        for it in self.channels.values():
            made.add_edge(it.writer, it.reader, key=it.name, puts=it.puts, gets=it.gets, tokens=it.tokens,
                          capacity=it.capacity)
        return made


def check_name(name: str) -> None:
    """Refuses what files and pictures can't show as a name."""
    if not isinstance(name, str) or not name.strip() or not name.isprintable():
        raise KpnError(f'{name!r} is no name of a graph, an actor or a channel: give a text that can be printed')


def numbers(what: str, given: Numbers) -> Tuple[int, ...]:
    """The numbers of the phases, each 0 or more."""
    found = tuple(given) if isinstance(given, (list, tuple)) else (given,)
    if not found:
        raise KpnError(f'{what} is an empty list: give a number for each phase')
    return tuple(whole(what, it) for it in found)
