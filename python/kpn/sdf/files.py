"""Files of SDF3 ("SDF For Free", Stuijk, Geilen and Basten, 2006): graphs as XML of type `sdf` or `csdf`."""
from __future__ import annotations

import os
import xml.etree.ElementTree as ElementTree
from typing import TYPE_CHECKING, Dict, Iterator, NoReturn, Optional, Tuple, Type, Union

from ..errors import KpnError
from ..wav import store

if TYPE_CHECKING:
    from .graph import Graph

Element = ElementTree.Element
KINDS = ('sdf', 'csdf')
PROCESSOR = 'p'


class Reading:
    """A file that is read. The names of its elements stand in errors."""

    def __init__(self, path: Union[str, os.PathLike[str]], processor: Optional[str]):
        self.path, self.processor = os.fspath(path), processor
        try:
            self.root = ElementTree.parse(self.path).getroot()
        except ElementTree.ParseError as error:
            line, column = error.position
            self.fail(f'line {line}, column {column + 1} is no XML: {error.msg}')
        if self.root.tag != 'sdf3':
            self.fail(f'it begins with <{self.root.tag}>, and a file of SDF3 with <sdf3>')
        self.kind = self.root.get('type', '')
        if self.kind not in KINDS:
            self.fail(f'it is of type `{self.kind}`: only `sdf` and `csdf` are read')
        self.graph_element = self.one(self.root, f'applicationGraph/{self.kind}')
        self.properties = self.root.find(f'applicationGraph/{self.kind}Properties')

    def fail(self, what: str) -> NoReturn:
        """Refuses the file."""
        raise KpnError(f'{self.path}: {what}') from None

    def one(self, element: Element, path: str) -> Element:
        """The element at a path."""
        found = element.find(path)
        if found is None:
            self.fail(f'{shown(element)} has no <{path.split("/")[-1]}>')
        return found

    def get(self, element: Element, name: str) -> str:
        """An attribute that has to be there."""
        found = element.get(name)
        if found is None:
            self.fail(f'{shown(element)} has no `{name}`')
        return found

    def numbers(self, element: Element, name: str, default: Optional[str] = None) -> Tuple[int, ...]:
        """The numbers of an attribute, with commas between."""
        given = self.get(element, name) if default is None else element.get(name, default)
        words = [it.strip() for it in given.split(',')]
        if not all(it.isascii() and it.isdigit() for it in words):
            self.fail(f'`{name}` of {shown(element)} is `{given}`: it has to be a whole number of 0 or more, or in '
                      'a `csdf` several with commas between')
        if len(words) > 1 and self.kind == 'sdf':
            self.fail(f'`{name}` of {shown(element)} is a list: the graph has to be of type `csdf` then')
        return tuple(map(int, words))

    def about(self, kind: str) -> Iterator[Tuple[str, Element]]:
        """The properties of actors or of channels."""
        for it in () if self.properties is None else self.properties.iter(f'{kind}Properties'):
            yield self.get(it, kind), it

    def times(self, actor: str, element: Element) -> Tuple[int, ...]:
        """The execution times of an actor on its processor."""
        found = element.findall('processor')
        chosen = [it for it in found if (it.get('default') == 'true' if self.processor is None else
                                         it.get('type') == self.processor)]
        if not chosen and self.processor is not None:
            self.fail(f'the actor `{actor}` has no processor `{self.processor}`')
        chosen = chosen or found
        return self.numbers(self.one(chosen[0], 'executionTime'), 'time') if chosen else (1,)


def shown(element: Element) -> str:
    """An element as an error names it."""
    name = next((element.get(it) for it in ('name', 'actor', 'channel') if element.get(it)), None)
    return f'<{element.tag}>' + f' `{name}`' * (name is not None)


def read(make: Type[Graph], path: Union[str, os.PathLike[str]], processor: Optional[str]) -> Graph:
    """Reads a graph."""
    reading = Reading(path, processor)
    graph = make(reading.graph_element.get('name') or reading.kind)
    times = {actor: reading.times(actor, element) for actor, element in reading.about('actor')}
    sizes = {channel: reading.numbers(it, 'sz')[0] for channel, element in reading.about('channel')
             for it in element.findall('bufferSize') if it.get('sz')}
    ports: Dict[Tuple[str, str], Tuple[int, ...]] = {}
    try:
        for it in reading.graph_element.findall('actor'):
            actor = reading.get(it, 'name')
            graph.actor(actor, times.get(actor, (1,)))
            ports.update({(actor, reading.get(port, 'name')): reading.numbers(port, 'rate')
                          for port in it.findall('port')})
        for it in reading.graph_element.findall('channel'):
            name, ends = reading.get(it, 'name'), []
            for end in ('src', 'dst'):
                actor, port = reading.get(it, f'{end}Actor'), reading.get(it, f'{end}Port')
                if (actor, port) not in ports:
                    reading.fail(f'the channel `{name}` is at the port `{port}` of the actor `{actor}`, which is not '
                                 'there')
                ends.append((actor, ports[actor, port]))
            tokens = reading.numbers(it, 'initialTokens', '0')[0]
            (writer, puts), (reader, gets) = ends
            graph.channel(writer, reader, puts, gets, tokens, sizes.get(name), name)
    except KpnError as error:
        if str(error).startswith(f'{reading.path}: '):
            raise
        reading.fail(str(error))
    return graph


def write(graph: Graph, path: Union[str, os.PathLike[str]]) -> None:
    """Stores a graph as a file of SDF3."""
    store(path, memoryview(text_of(graph).encode()))


def text_of(graph: Graph) -> str:
    """A graph as a file of SDF3. In a `csdf` all lists of an actor have a number for each of its phases."""
    phases = {name: graph.phases(name) for name in graph.actors}
    kind = KINDS[any(it > 1 for it in phases.values())]

    def listed(actor: str, rates: Tuple[int, ...]) -> str:
        return ','.join(map(str, rates * (phases[actor] // len(rates))))

    root = Element('sdf3', {'type': kind, 'version': '1.0'})
    application = ElementTree.SubElement(root, 'applicationGraph', name=graph.name)
    described = ElementTree.SubElement(application, kind, name=graph.name, type=graph.name)
    properties = ElementTree.SubElement(application, f'{kind}Properties')
    actors = {name: ElementTree.SubElement(described, 'actor', name=name, type=name) for name in graph.actors}
    for it in graph.channels.values():
        for end, port, rates in ((it.writer, 'out', it.puts), (it.reader, 'in', it.gets)):
            ElementTree.SubElement(actors[end], 'port', name=f'{it.name}_{port}', type=port, rate=listed(end, rates))
        words = {'name': it.name, 'srcActor': it.writer, 'srcPort': f'{it.name}_out', 'dstActor': it.reader,
                 'dstPort': f'{it.name}_in'}
        ElementTree.SubElement(described, 'channel', {**words, 'initialTokens': str(it.tokens)} if it.tokens else words)
    for actor in graph.actors.values():
        about = ElementTree.SubElement(properties, 'actorProperties', actor=actor.name)
        processor = ElementTree.SubElement(about, 'processor', type=PROCESSOR, default='true')
        ElementTree.SubElement(processor, 'executionTime', time=listed(actor.name, actor.times))
    for it in graph.channels.values():
        if it.capacity is not None:
            about = ElementTree.SubElement(properties, 'channelProperties', channel=it.name)
            ElementTree.SubElement(about, 'bufferSize', sz=str(it.capacity))
    ElementTree.indent(root)
    return f'<?xml version="1.0" encoding="UTF-8"?>\n{ElementTree.tostring(root, encoding="unicode")}\n'
