"""Graphs as networks of processes that fire atomically, by credits, and what runs of them show."""
from __future__ import annotations

import itertools
import re
from typing import TYPE_CHECKING, Dict, Iterable, Iterator, List, Mapping, NamedTuple, Optional, Sequence, Tuple, Union

from ..errors import LARGEST, KpnError, whole
from ..language import LONGEST_NAME, Reader
from ..network import Names, Network
from ..process import Process

if TYPE_CHECKING:
    from ..result import Result, Wait
    from .graph import Capacities, Channel, Graph

# The names of a process that statements of a user may use, and its own.
WORDS = ('firing', 'phase', 'item', 'result')
OWN_WORDS = ('firings', 'total', 'x', 'k')
# What the process of an actor does: gets or puts an item on a channel of the network.
Talk = Tuple[str, str]
# What is expected of an actor without channels.
SILENCE: Tuple[Talk, int] = ('end', 'done'), LARGEST


class Audit(NamedTuple):
    """What an audited run did: the firings of each actor that are over, the most tokens that each channel had room
    claimed for, the rings of processes that wait for one another, and what `kpn audit` said of its trace."""

    firings: Dict[str, int]
    most: Dict[str, int]
    rings: List[List[Wait]]
    audited: str


class Naming:
    """The names of actors and channels in a network. What the language takes for no name is changed."""

    def __init__(self, graph: Graph):
        table = Names(2)
        self.actors = {name: table.give(spelt(name)) for name in graph.actors}
        table = Names(2, self.actors.values())
        self.channels = {name: table.give(spelt(name)) for name in graph.channels}
        self.rooms = {name: table.give(f'{spelt(name)[:LONGEST_NAME - 5]}_room') for name, it in graph.channels.items()
                      if it.capacity is not None}


def spelt(name: str) -> str:
    """A name of letters, digits and `_`."""
    found = re.sub(r'[^A-Za-z0-9_]', '_', name)
    return f'_{found}' if found[0].isdigit() else found


class Writer:
    """Writes the process of an actor."""

    def __init__(self, graph: Graph, actor: str, body: Union[str, Mapping[str, str]], by: str):
        self.phases, self.by = graph.phases(actor), by
        self.ins = [it for it in graph.channels.values() if it.reader == actor]
        self.outs = [it for it in graph.channels.values() if it.writer == actor]
        self.own = None if isinstance(body, str) else body.get(actor)
        self.counts = body == 'count'
        table = Names(2, (*WORDS, *OWN_WORDS))
        names = [it.name for it in (*self.ins, *self.outs)]
        self.arrays = {name: table.give(spelt(name)) for name in dict.fromkeys(names)}
        ports = {side: {it.name: table.give(f'{side}{k}') for k, it in enumerate(them)} for side, them in
                 (('get', self.ins), ('put', self.outs), ('free', self.ins), ('claim', self.outs), ('n', self.outs))}
        self.port, self.table = ports, table
        rates = [(it.name, max(it.gets)) for it in self.ins] + [(it.name, max(it.puts)) for it in self.outs]
        self.declared = [f'array {self.arrays[name]}[{max(most for other, most in rates if other == name)}];'
                         for name in self.arrays if self.own is not None]

    def text(self, name: str, has_input: bool, has_output: bool) -> str:
        """The text of the process."""
        source, sink = self.table.give('source_port'), self.table.give('sink_port')
        firing = list(self.firing(source if has_input else '', sink if has_output else ''))
        ins = [*self.port['get'].values(), *self.rooms('claim', self.outs), *[source] * has_input]
        outs = [*self.port['put'].values(), *self.rooms('free', self.ins), *[sink] * has_output]
        head = '; '.join([*[f'in {", ".join(ins)}'] * bool(ins), *[f'out {", ".join(outs)}'] * bool(outs),
                          'par firings'])
        lines = [*self.declared, *self.first(), 'firing = 0;', 'phase = 0;', 'while firing < firings {', *firing,
                 'firing = firing + 1;', f'phase = firing % {self.phases};', '}']
        return '\n'.join(['language 2;', f'process {name}({head}) {{', *lines, '}'])

    def rooms(self, side: str, channels: Sequence[Channel]) -> List[str]:
        """The ports for the credits of channels."""
        return [self.port[side][it.name] for it in channels if it.capacity is not None]

    def first(self) -> Iterator[str]:
        """The lines for the initial tokens and the initial room."""
        for it in self.outs:
            port, number = self.port['put'][it.name], self.port['n'][it.name]
            yield f'{number} = 0;' * self.counts
            yield from repeat(str(it.tokens), f'write {port} {number}; {number} = {number} + 1;' if self.counts else
                              f'write {port} 0;')
        for it in self.ins:
            if it.capacity is not None:
                yield from repeat(str(it.capacity - it.tokens), f'write {self.port["free"][it.name]} 0;')

    def firing(self, source: str, sink: str) -> Iterator[str]:
        """The lines of a firing."""
        is_atomic = self.by == 'firing'
        gets = {it.name: self.rate(it.name, 'gets', it.gets) for it in self.ins}
        puts = {it.name: self.rate(it.name, 'puts', it.puts) for it in self.outs}
        claims = {it.name: f'read {self.port["claim"][it.name]} x;' for it in self.outs if it.capacity is not None}
        frees = {it.name: f'write {self.port["free"][it.name]} 0;' for it in self.ins if it.capacity is not None}
        if is_atomic:
            for name, line in claims.items():
                yield from repeat(puts[name], line)
        yield 'total = 0;'
        for name, rate in gets.items():
            kept = f'{self.arrays[name]}[k] = x;' if self.own is not None else 'total = total + x;'
            free = '' if is_atomic else frees.get(name, '')
            yield from repeat(rate, f'read {self.port["get"][name]} x; {kept} {free}')
        yield f'read {source} item;' if source else 'item = 0;'
        yield 'result = firing;' if self.counts else 'result = (total + item + 1) & 4294967295;'
        yield self.own or ''
        for name, rate in puts.items():
            number = self.port['n'][name]
            what = f'{self.arrays[name]}[k]' if self.own is not None else number if self.counts else 'result'
            claim, count = '' if is_atomic else claims.get(name, ''), f'{number} = {number} + 1;' * self.counts
            yield from repeat(rate, f'{claim} write {self.port["put"][name]} {what}; {count}')
        yield f'write {sink} result;' if sink else ''
        if is_atomic:
            for name, line in frees.items():
                yield from repeat(gets[name], line)

    def rate(self, name: str, side: str, rates: Sequence[int]) -> str:
        """The expression of a rate in a phase. It needs a table if the rate changes."""
        if len(set(rates)) == 1:
            return str(rates[0])
        table = self.table.give(f'{side}_{spelt(name)}')
        self.declared.append(f'table {table} = {", ".join(map(str, rates))};')
        return f'{table}[phase % {len(rates)}]'


def repeat(count: str, line: str) -> List[str]:
    """Lines that do something a number of times; `k` counts it."""
    return [] if count == '0' else ['k = 0;', f'while k < {count} {{', line, 'k = k + 1;', '}']


def network(graph: Graph, iterations: int, body: Union[str, Mapping[str, str]], by: str, inputs: Iterable[str],
            outputs: Iterable[str]) -> Network:
    """The network of a graph."""
    inputs, outputs, repetition = set(inputs), set(outputs), graph.repetition
    check_words(graph, body, by, {*inputs, *outputs, *(() if isinstance(body, str) else body)})
    times, net, naming = whole('the number of iterations', iterations, 1), Network(), Naming(graph)
    data = {name: net.channel(naming.channels[name], capacity_of(it)) for name, it in graph.channels.items()}
    rooms = {name: net.channel(room, graph.channels[name].capacity) for name, room in naming.rooms.items()}
    for actor, name in naming.actors.items():
        writer = Writer(graph, actor, body, by)
        process = Process.from_text(writer.text(name, actor in inputs, actor in outputs))
        streams = [data[it.name] for it in writer.ins]
        streams += [rooms[it.name] for it in writer.outs if it.name in rooms]
        if actor in inputs:
            streams.append(net.source(name))
        made = net.add(process, *streams, repetition[actor] * times, name=name)
        outs = [data[it.name] for it in writer.outs] + [rooms[it.name] for it in writer.ins if it.name in rooms]
        results = list(made if isinstance(made, tuple) else [made][:len(process.outs)])
        for channel, stream in zip(outs, results):
            channel.connect(stream)
        if actor in outputs:
            net.sink(f'{name}' if actor not in inputs else f'{name}_out', results[-1])
    return net


def capacity_of(channel: Channel) -> int:
    """The capacity of a channel of the network. Without one in the graph, it is what lets both ends go on."""
    return channel.capacity or channel.tokens + max(channel.puts) + max(channel.gets)


def check_words(graph: Graph, body: Union[str, Mapping[str, str]], by: str, actors: Iterable[str]) -> None:
    """Refuses wrong words of a call."""
    if by not in ('firing', 'item'):
        raise KpnError(f"`by` is {by!r}: it has to be 'firing' or 'item'")
    if isinstance(body, str) and body not in ('count', 'sum'):
        raise KpnError(f"`body` is {body!r}: it has to be 'count', 'sum' or a dict of statements by actors")
    for actor in actors:
        if actor not in graph.actors:
            raise KpnError(f'the graph has no actor `{actor}`: it has {", ".join(graph.actors) or "none"}')


# ---- what a run shows


class Follower:
    """Follows what a process does, talk by talk. Each talk goes with the number of its firing, -1 before the first."""

    def __init__(self, graph: Graph, naming: Naming, actor: str, by: str, has_input: str, has_output: str):
        self.ins = [it for it in graph.channels.values() if it.reader == actor]
        self.outs = [it for it in graph.channels.values() if it.writer == actor]
        self.naming, self.by, self.last = naming, by, -1
        self.source, self.sink = [('get', has_input)] * bool(has_input), [('put', has_output)] * bool(has_output)
        self.phases = graph.phases(actor)
        self.talks = self.all_talks()
        self.expected = next(self.talks, SILENCE)

    def all_talks(self) -> Iterator[Tuple[Talk, int]]:
        """What an actor's process does, from its first puts on."""
        for it in self.outs:
            yield from [(('put', self.naming.channels[it.name]), -1)] * it.tokens
        for it in self.ins:
            if it.capacity is not None:
                yield from [(('put', self.naming.rooms[it.name]), -1)] * (it.capacity - it.tokens)
        phases = [list(self.firing(phase)) for phase in range(self.phases)]
        for number in itertools.count() if any(phases) else ():
            for talk in phases[number % self.phases]:
                yield talk, number

    def firing(self, phase: int) -> Iterator[Talk]:
        """What a firing does."""
        gets = [(it, it.gets[phase % len(it.gets)]) for it in self.ins]
        puts = [(it, it.puts[phase % len(it.puts)]) for it in self.outs]
        is_atomic = self.by == 'firing'
        for it, count in puts if is_atomic else ():
            yield from self.room('get', it) * count
        for it, count in gets:
            yield from [('get', self.naming.channels[it.name]), *([] if is_atomic else self.room('put', it))] * count
        yield from self.source
        for it, count in puts:
            yield from [*([] if is_atomic else self.room('get', it)), ('put', self.naming.channels[it.name])] * count
        yield from self.sink
        for it, count in gets if is_atomic else ():
            yield from self.room('put', it) * count

    def room(self, kind: str, channel: Channel) -> List[Talk]:
        """A get or put of a credit, if the channel has a capacity."""
        return [(kind, self.naming.rooms[channel.name])] if channel.capacity is not None else []

    def follow(self, talk: Talk, event: int, process: str) -> None:
        """Goes past a talk, which has to be the expected one."""
        wanted, number = self.expected
        if talk != wanted:
            raise KpnError(f'event {event} of the run: `{process}` has a {" on ".join(talk)}, and firing {number} of '
                           f'its actor has a {" on ".join(wanted)} there')
        self.last, self.expected = number, next(self.talks, SILENCE)

    def fired(self, said: Optional[int], process: str) -> int:
        """How many firings are over. Of a process that has ended this is said, since a firing may be silent."""
        least = self.last + (self.expected[1] > self.last)
        if said is not None and not least <= said <= self.expected[1]:
            raise KpnError(f'`{process}` has ended after {said} firings, but has made {least}')
        return least if said is None else said


def check(graph: Graph, result: Result, by: str) -> Audit:
    """Audits a run."""
    check_words(graph, 'count', by, ())
    naming, layout = Naming(graph), result.layout
    names = [*naming.channels.values(), *naming.rooms.values()]
    if sorted(layout.instances) != sorted(naming.actors.values()) or not set(names) <= set(layout.channels):
        raise KpnError('the result is of another network than this graph\'s: run `graph.network()` of the graph with '
                       'the same capacities')
    ends = {(layout.readers[it], 'get'): it for it in layout.sources}
    ends.update({(layout.writers[it], 'put'): it for it in layout.sinks})
    followers = {name: Follower(graph, naming, actor, by, ends.get((name, 'get'), ''), ends.get((name, 'put'), ''))
                 for actor, name in naming.actors.items()}
    audited = result.audit()
    held = Held(graph, naming)
    said = {name: entry.values[0] for name, entry in Reader(layout.text).description().instances}
    ended: Dict[str, int] = {}
    for number, event in enumerate(result.trace()):
        process, talk = str(event.process), (event.kind, str(event.channel))
        if event.kind in ('get', 'put'):
            followers[process].follow(talk, number, process)
            held.count(talk)
        elif event.kind == 'end' and event.value == 'done':
            ended[process] = said[process]
        elif event.kind in ('end', 'grow'):
            raise KpnError(f'event {number} of the run: `{process}` ends by a fault, or a channel grows: '
                           f'{event.value}')
    firings = {actor: followers[name].fired(ended.get(name), name) for actor, name in naming.actors.items()}
    return Audit(firings, held.most, result.deadlock, audited)


class Held:
    """Counts the tokens that channels have room claimed for; without a capacity, those that lie there."""

    def __init__(self, graph: Graph, naming: Naming):
        self.now = {name: it.tokens if it.capacity is not None else 0 for name, it in graph.channels.items()}
        self.most = {name: it.tokens for name, it in graph.channels.items()}
        self.first = {name: it.capacity - it.tokens for name, it in graph.channels.items() if it.capacity is not None}
        self.steps: Dict[Talk, Tuple[str, int]] = {}
        for name, channel in naming.channels.items():
            room = naming.rooms.get(name)
            claim, free = (('get', room), ('put', room)) if room else (('put', channel), ('get', channel))
            self.steps[claim], self.steps[free] = (name, 1), (name, -1)

    def count(self, talk: Talk) -> None:
        """Counts a get or put."""
        name, step = self.steps.get(talk, ('', 0))
        if step < 0 and self.first.get(name):
            self.first[name] -= 1
        elif step:
            self.now[name] += step
            self.most[name] = max(self.most[name], self.now[name])


def confirm(graph: Graph, capacities: Capacities, by: str) -> str:
    """Confirms capacities by runs."""
    sized, wanted = graph.with_capacities(capacities), graph.repetition
    found = sized.check(sized.network(by=by).run(trace=True), by)
    if found.rings or any(wanted[actor] != count for actor, count in found.firings.items()):
        raise KpnError(f'a run with these capacities deadlocks after the firings {found.firings}')
    smaller = 0
    for name, channel in sized.channels.items():
        if channel.capacity is None or channel.capacity == max(channel.tokens, 1):
            continue
        less = sized.with_capacities({name: channel.capacity - 1})
        if not less.check(less.network(by=by).run(trace=True), by).rings:
            raise KpnError(f'a run with {channel.capacity - 1} on `{name}` ends as well: the capacities are not the '
                           'least ones without a deadlock')
        smaller += 1
    total = sum(it.capacity or 0 for it in sized.channels.values())
    return (f'{graph.name}: with capacities of {total} in all a run of `kpn` made {sum(found.firings.values())} '
            f'firings and ended ({found.audited}); {smaller} runs with one token less on a channel deadlocked')
