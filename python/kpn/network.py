"""Networks: built by calls, written as texts of the language."""
from __future__ import annotations

import collections
import contextlib
import copy
from typing import AbstractSet, Any, Dict, Iterable, Iterator, List, Mapping, NamedTuple, Optional, Sequence, Set
from typing import SupportsIndex, Tuple, Union

from . import compiled, running
from .errors import LARGEST, KpnError, Spot, whole
from .forms import FullReader
from .language import LARGEST_CAPACITY, LONGEST_NAME, LONGEST_TEXT, Description, Table, in_language
from .language import is_name, tokens_of
from .live import Live
from .process import MOST_PORTS, Capacities, Instance, Outputs, Process, Stream, forking
from .program import Program, answer, as_bytes, draw_svg, explain
from .rates import Rate, rates_of
from .result import Result

ADVICE = {
    'NoWriter': 'Nothing flows into this stream: `connect` it to what shall flow there, or make it by `net.source`.',
    'NoReader': 'Nobody reads this stream: give it to a process, or to `net.sink`.',
}
# The most processes, instances and channels of a network, by its language.
LIMITS = {1: (256, 256, 1_024), 2: (256, 4_096, 16_384)}
COPY = Process('copy', ('i',), ('o',), (), ('  while 1 {', '    read i x;', '    write o x;', '  }'))


class Names:
    """Gives each thing a name of the language that no other one of its table has."""

    def __init__(self, language: int, taken: Iterable[str] = ()):
        self.language, self.taken = language, set(taken)
        self.last: Dict[str, int] = {}

    def give(self, wanted: str) -> str:
        """The wanted name, or that with a number after it."""
        name, number = wanted[:LONGEST_NAME], self.last.get(wanted, 1)
        while name in self.taken or not is_name(name, self.language):
            number += 1
            name = f'{wanted[:LONGEST_NAME - len(str(number)) - 1]}_{number}'
        self.taken.add(name)
        self.last[wanted] = number
        return name


class Layout(NamedTuple):
    """The text of a network, the names in it, its policy and its limit. `begins` has where its processes begin,
    `writers` and `readers` the instance at each end of a channel, and `processes` the process of each instance."""

    text: str
    begins: List[Tuple[int, Process]]
    instances: List[str]
    channels: List[str]
    sources: List[str]
    sinks: List[str]
    writers: Dict[str, str]
    readers: Dict[str, str]
    processes: Dict[str, Process]
    policy: str
    limit: int

    def error(self, program: Program = None, timeout: Optional[float] = None) -> Optional[KpnError]:
        """What `kpn explain` says of the text, with places and advice in terms of what the user wrote."""
        return explain(self.text, self.spot_of, program, ADVICE, timeout)

    def spot_of(self, offset: int) -> Spot:
        """The place in the source of a process that stands at this place of the text, or else the place itself."""
        for start, process in self.begins:
            text = str(process)
            if process.places and start <= offset < start + len(text):
                number = sum(it.start < offset - start for it in tokens_of(text))
                place = process.places[min(number, len(process.places) - 1)]
                return Spot(f'process `{process.name}`', process.source, place)
        return Spot('the network', self.text, offset)


class Network:
    """A network that is being built. Its text is `str(net)`, the one that `kpn print` gives.

    `limit`, 1 to 1,048,576, is the largest capacity that a channel may grow to, `policy` is `cycles` or `all`, and
    `grow` is `one` or `double`: Combrieks' docs/RUNS.md tells which to choose. `cap` is the capacity of channels and
    sinks for which none is given. A stream that is used again is an error; with `auto_fork` it is forked. `language` is
    1 or 2, in which a network may be larger; one with a process of language 2 is of that language by itself. A copy or
    a pickle is a network of its own, with streams of its own.

    Other settings raise KpnError, and a limit that is no whole number TypeError. So do names, capacities and streams in
    the calls below that build.
    """

    def __init__(self, limit: int = LARGEST_CAPACITY, policy: str = 'cycles', grow: str = 'one', *,
                 auto_fork: bool = False, cap: int = 1, language: int = 1):
        for what, given, choices in (('policy', policy, ('cycles', 'all')), ('grow', grow, ('one', 'double'))):
            if given not in choices:
                raise KpnError(f'{what} is {given!r}: it has to be {choices[0]!r} or {choices[1]!r}')
        self.limit = whole('the limit', limit, 1, LARGEST_CAPACITY)
        self.policy, self.grow, self.auto_fork, self.cap = policy, grow, auto_fork, self._capacity(cap) or 1
        self._language = whole('the language', language, 1, 2)
        self._tables: Tuple[Table, ...] = ()
        self._processes: List[Process] = []
        # The channels in order of number, and the instances, with the names that were given to each.
        self._channels: Dict[Stream, None] = {}
        self._instances: List[Instance] = []
        self._channel_names: Set[str] = set()
        self._instance_names: Set[str] = set()
        self._scope = ''
        self._layout: Optional[Layout] = None
        self._names: Dict[Union[Instance, Stream], str] = {}

    @classmethod
    def from_text(cls, text: str) -> Network:
        """Reads a description, such as a file that somebody has written, and gives the network that it says.

        Raises KpnError in the words of `kpn explain` for a text that says none. Names within processes, and whether
        each channel has a reader and a writer, are looked at by `check` and before a run.
        """
        try:
            if len(as_bytes(text)) > LONGEST_TEXT:
                raise KpnError(f'the text is too long: it has to have at most {LONGEST_TEXT} bytes')
            found = FullReader(text, 'the network').description()
            settings = found.settings
            net = cls(int(settings.get('limit', LARGEST_CAPACITY)), settings.get('policy', 'cycles'),
                      settings.get('grow', 'one'))
            return net._filled(found)
        except KpnError as error:
            raise explain(text, lambda offset: Spot('the network', text, offset)) or error from None

    def _filled(self, found: Description) -> Network:
        """This network with what a text says."""
        self._language, self._tables, self._processes = found.language, found.tables, found.processes
        processes = {it.name: it for it in found.processes}
        if len(processes) < len(found.processes):
            raise KpnError('two processes of the text have one name')
        streams = {name: self._declare(kind, name, cap) for kind, name, cap in found.channels}
        for name, (process, ins, outs, values) in found.instances:
            unknown = [it for it in (*ins, *outs) if it not in streams] + [process] * (process not in processes)
            if unknown:
                raise KpnError(f'`{name}` names `{unknown[0]}`, which the text does not have')
            used = processes[process]
            if (len(ins), len(outs), len(values)) != (len(used.ins), len(used.outs), len(used.pars)):
                raise KpnError(f'`{name}` has not as many ports or parameters as `{process}`')
            self.add(used, *(streams[it] for it in ins), *values, name=name)
            for out, stream in zip(outs, list(self._instances[-1].outs)):
                streams[out].connect(stream)
        return self

    # ---- copies

    def __getstate__(self) -> Dict[str, Any]:
        """The network by numbers. Its streams and instances, which lead from one to the next, would make it deep."""
        place = {stream: number for number, stream in enumerate(self._channels)}
        instances = [(it.process, it.given_name, it.prefix, it.values, it.is_automatic,
                      [place[stream] for stream in it.ins], [place[stream] for stream in it.outs])
                     for it in self._instances]
        channels = [(it.kind, it.given_name, it.given_cap) for it in self._channels]
        return {**vars(self), '_instances': instances, '_channels': channels, '_layout': None, '_names': {}}

    def __setstate__(self, state: Dict[str, Any]) -> None:
        vars(self).update(state)
        self._processes = list(self._processes)
        channels = [Stream(self, *it) for it in state['_channels']]
        self._channels, self._instances = dict.fromkeys(channels), []
        self._channel_names, self._instance_names = set(self._channel_names), set(self._instance_names)
        for *given, ins, outs in state['_instances']:
            instance = Instance(*given)
            instance.ins, instance.outs = [channels[it] for it in ins], [channels[it] for it in outs]
            for stream in instance.ins:
                stream.reader = instance
            for stream in instance.outs:
                stream.writer = instance
            self._instances.append(instance)

    def place_of(self, channel: Stream) -> int:
        """The number of a channel."""
        return list(self._channels).index(channel)

    def stream_at(self, place: int) -> Stream:
        """The stream of the channel with this number."""
        return list(self._channels)[place]

    # ---- building

    def source(self, name: str) -> Stream:
        """A stream that the outside feeds by this name."""
        return self._declare('source', name, None)

    def sink(self, name: str, stream: Optional[Stream] = None, cap: Optional[int] = None) -> Stream:
        """Lets the outside take `stream` by this name, and gives the stream of the sink.

        Without a stream, `connect` the sink to one later.
        """
        if stream is not None:
            self._check_written(stream)
        sink = self._declare('sink', name, cap)
        if stream is not None:
            sink.connect(stream)
        return sink

    def channel(self, name: Optional[str] = None, cap: Optional[int] = None) -> Stream:
        """A stream for a loop: read it first, and `connect` it later to the stream that flows into it."""
        return self._declare('channel', name, cap)

    def add(self, process: Process, *args: Any, name: Optional[str] = None, cap: Capacities = None,
            **named: Any) -> Outputs:
        """Adds an instance of a process, and gives and raises what the call of the process does."""
        streams, values = process.bind(args, named)
        caps = {port: self._capacity(given) for port, given in capacities_of(process, cap).items()}
        self._check_unread(streams, process.name)
        instance = Instance(process, self._own(name, self._instance_names), self._scope, values)
        for stream in streams:
            instance.ins.append(self._unread(stream.channel))
            instance.ins[-1].reader = instance
        self._instances.append(instance)
        self._instance_names.update([name] if name else [])
        for port in process.outs:
            self._write(instance, caps.get(port))
        outs = tuple(instance.outs)
        return outs if len(outs) > 1 else outs[0] if outs else None

    @contextlib.contextmanager
    def scope(self, name: str) -> Iterator[None]:
        """Within `with net.scope("left"):` the names of new instances begin with `left_`."""
        before, self._scope = self._scope, f'{self._scope}{self._own(name, set())}_'
        try:
            yield
        finally:
            self._scope = before

    def join(self, channel: Stream, stream: Stream) -> None:
        """Lets a stream flow into a channel that nobody writes yet, and raises what `channel.connect(stream)` does."""
        if channel.writer or channel.kind == 'source':
            raise KpnError(f'`{channel.name}` has a writer already')
        self._check_written(stream)
        stream = self._unread(stream)
        if stream.kind == 'source':
            stream = COPY(stream)
        self._move_writer(stream, channel)
        if channel.given_name and stream.given_name:
            self._channel_names.remove(stream.given_name)
        channel.given_name = channel.given_name or stream.given_name
        channel.given_cap = channel.given_cap or stream.given_cap
        stream.joined = channel
        del self._channels[stream]
        self._layout = None

    def _own(self, name: Optional[str], taken: AbstractSet[str]) -> Optional[str]:
        """The name that was given for a new thing, if it may have it."""
        if name is not None and not is_name(name):
            raise KpnError(f'{name!r} is no name: a name has at most {LONGEST_NAME} letters, digits and `_`, begins '
                           'with no digit, and is no word of the language')
        if name in taken:
            raise KpnError(f'there is another `{name}` already')
        self._layout = None
        return name

    def _declare(self, kind: str, name: Optional[str], cap: Optional[int]) -> Stream:
        stream = Stream(self, kind, self._own(name, self._channel_names), self._capacity(cap))
        self._channels[stream] = None
        self._channel_names.update([name] if name else [])
        return stream

    def _capacity(self, cap: Optional[int]) -> Optional[int]:
        """A capacity that was given, if it may be."""
        if cap is not None and whole('the capacity', cap, -LARGEST) not in range(1, self.limit + 1):
            raise KpnError(f'a capacity of {cap} is given: it has to be from 1 to the limit, {self.limit}')
        return None if cap is None else int(cap)

    def _write(self, instance: Instance, cap: Optional[int] = None) -> Stream:
        """A new stream after the last out port of an instance."""
        stream = self._declare('channel', None, cap)
        stream.writer = instance
        instance.outs.append(stream)
        return stream

    def _move_writer(self, stream: Stream, channel: Stream) -> None:
        """Lets what writes a stream write the channel instead."""
        writer = stream.writer
        if writer:
            writer.outs[writer.outs.index(stream)] = channel
        stream.writer, channel.writer = None, writer

    def _check_written(self, stream: Stream) -> None:
        """Refuses a stream that may not flow into a channel: one that has a reader, or no writer."""
        self._check_unread([stream])
        if stream.channel.writer is None and stream.channel.kind != 'source':
            raise KpnError(f'`{stream.name}` has no writer yet: connect it first')

    def _check_unread(self, streams: Sequence[Stream], reader: str = '') -> None:
        """Refuses a stream of another network, and one that has a reader already unless it is forked then."""
        for number, stream in enumerate(it.channel for it in streams):
            if stream.net is not self:
                raise KpnError(f'the stream `{stream.name}` is of another network')
            if stream.kind == 'sink' and stream.writer is None:
                raise KpnError(f'the sink `{stream.name}` has no writer yet: connect it first')
            is_again = stream in [it.channel for it in streams[:number]]
            if (is_again or stream.is_read) and not self.auto_fork:
                by = f'the outside, as the sink `{stream.name}`,' if stream.kind == 'sink' else \
                    f'`{self.name_of(stream.reader) if stream.reader else reader}`'
                raise KpnError(f'the stream `{stream.name}` is used twice: {by} reads it already, and a stream has '
                               'one reader. Make several of it by `kpn.parts.fork`, or set `net.auto_fork = True`')

    def _unread(self, stream: Stream) -> Stream:
        """The stream, if nobody reads it yet, or else a fork of it."""
        while stream.is_read:
            fork = stream.reader
            if fork is None or not fork.is_automatic:
                fork = self._forked(stream)
            if len(fork.outs) < MOST_PORTS:
                fork.process = forking(len(fork.outs) + 1)
                return self._write(fork)
            stream = fork.outs[-1]
        return stream

    def _forked(self, stream: Stream) -> Instance:
        """A new fork with one out port, between a stream and its reader."""
        fork = Instance(forking(1), None, self._scope, [])
        fork.is_automatic = True
        self._instances.append(fork)
        if stream.reader:
            after, reader = self._write(fork), stream.reader
            reader.ins[reader.ins.index(stream)], after.reader = after, reader
            fork.ins, stream.reader = [stream], fork
        else:
            before = self._declare('channel', None, None)
            self._move_writer(stream, before)
            stream.writer, before.reader = fork, fork
            fork.ins, fork.outs = [before], [stream]
        return fork

    # ---- the text

    def layout(self) -> Layout:
        """The text and the names in it, as the network is now: a `Layout`."""
        if self._layout is None:
            self._layout = self._laid_out()
        return self._layout

    @property
    def language(self) -> int:
        """The language of its text: 2 if it was made so, or one of its processes was read from such a text; else 1."""
        return max([self._language, *(it.language for it in self._processes),
                    *(it.process.language for it in self._instances)])

    def name_of(self, thing: Union[Instance, Stream]) -> str:
        """The name of an instance or a channel in the text."""
        self.layout()
        return self._names[thing]

    def _laid_out(self) -> Layout:
        processes = dict.fromkeys([*self._processes, *(it.process for it in self._instances)])
        language = self.language
        called, table = {}, Names(language)
        for process in processes:
            called[process] = table.give(process.name)
        names: Dict[Union[Instance, Stream], str] = {}
        table = Names(language, (it.given_name for it in self._instances if it.given_name))
        for instance in self._instances:
            names[instance] = instance.given_name or table.give(instance.prefix + instance.process.name)
        table = Names(language, (it.given_name for it in self._channels if it.given_name))
        for stream in self._channels:
            names[stream] = stream.given_name or table.give(stream.wanted_name(names))
        self._names, begins = names, []
        text = ''.join(f'{line}\n' for line in ['language 2;'] * (language == 2) + [*map(str, self._tables)])
        for process, name in called.items():
            begins.append((len(text), in_language(process, language).renamed(name)))
            text += str(begins[-1][1])
        text += ''.join(f'{line}\n' for line in self._lines(names, called))
        of_kind = {kind: [names[it] for it in self._channels if it.kind == kind] for kind in ('source', 'sink')}
        return Layout(text, begins, [names[it] for it in self._instances], [names[it] for it in self._channels],
                      of_kind['source'], of_kind['sink'],
                      {names[it]: names[it.writer] for it in self._channels if it.writer},
                      {names[it]: names[it.reader] for it in self._channels if it.reader},
                      {names[it]: it.process for it in self._instances}, self.policy, self.limit)

    def _lines(self, names: Mapping[Union[Instance, Stream], str], called: Mapping[Process, str]) -> Iterator[str]:
        """The lines of the network itself, after its processes."""
        yield 'network {'
        yield from self._settings()
        for stream in self._channels:
            cap = '' if stream.kind == 'source' else f' cap {stream.cap}'
            yield f'  {stream.kind} {names[stream]}{cap};'
        for it in self._instances:
            ins, outs = (', '.join(names[stream] for stream in streams) for streams in (it.ins, it.outs))
            values = ', '.join(map(str, it.values))
            yield f'  {names[it]} = {called[it.process]}({ins};{outs and " " + outs}{values and "; " + values});'
        yield '}'

    def _settings(self) -> List[str]:
        """The lines of the text for what is not as it is by default."""
        return ([f'  limit {self.limit};'] * (self.limit < LARGEST_CAPACITY)
                + [f'  policy {self.policy};'] * (self.policy != 'cycles')
                + [f'  grow {self.grow};'] * (self.grow != 'one'))

    def __str__(self) -> str:
        return self.layout().text

    def __repr__(self) -> str:
        return f'<Network of {len(self._instances)} instances and {len(self._channels)} channels>'

    # ---- what `kpn` does with it

    def check_limits(self) -> None:
        """Raises KpnError if the network has more of something than the language allows."""
        counts = (len(self.layout().begins), len(self._instances), len(self._channels))
        limits, others = LIMITS[self.language], LIMITS[2]
        for what, most, larger, count in zip(('processes', 'instances', 'channels'), limits, others, counts):
            if count > most:
                common = collections.Counter(it.process.name for it in self._instances).most_common(3)
                of_these = ', '.join(f'{number} of `{name}`' for name, number in common)
                advice = f'. `kpn.Network(language=2)` may have {larger}' if larger > most else ''
                raise KpnError(f'the network has {count} {what}: {count - most} more than the {most} that it may have. '
                               f'Most of its instances are {of_these}{advice}', error='10 TooMany')

    def check(self, program: Program = None) -> None:
        """Raises KpnError with the words of `kpn explain` if the network is not right."""
        self.check_limits()
        error = self.layout().error(program)
        if error:
            raise error

    def dot(self, program: Program = None) -> str:
        """The network by `kpn draw`, as a text in the language of Graphviz. Raises KpnError if it is not right."""
        self.check(program)
        return answer('draw', str(self), program=program)

    def _repr_svg_(self) -> Optional[str]:
        """The picture that a notebook shows, if the network is right and Graphviz is there."""
        try:
            return draw_svg(self.dot())
        except KpnError:
            return None

    def run(self, inputs: running.Inputs = None, **options: Any) -> Result:
        """Runs the network on these items of its sources. It gives a `Result` and raises what `kpn.run` does."""
        return running.run(self, inputs, **options)

    def tuned(self, given: Union[Result, Mapping[str, int]]) -> Network:
        """A copy of the network with the capacities `result.least` of this run, which has a trace.

        In place of a result it takes a dict of capacities by the names of channels, as `result.fast` and as
        `kpn.least_capacities` gives.
        What is above the limit is cut to it. Raises KpnError for a result of another network, or without a trace, and
        for a channel that is not there or is a source.
        """
        if isinstance(given, Result) and given.layout.channels != self.layout().channels:
            raise KpnError('the result is of another network')
        wanted = given.least if isinstance(given, Result) else given
        made = copy.deepcopy(self)
        channels = {made.name_of(it): it for it in made._channels if it.kind != 'source'}
        for name, cap in wanted.items():
            if name not in channels:
                raise KpnError(f'there is no channel `{name}` with a capacity: there are {", ".join(channels)}')
            channels[name].given_cap = made._capacity(min(whole('the capacity', cap, 1), self.limit))
        made._layout = None
        return made

    def rates(self, result: Result) -> List[Rate]:
        """A `Rate` for each channel: how many items its ends put and got in this run, which has a trace.

        Raises KpnError for a result of another network, or without a trace.
        """
        if result.layout.channels != self.layout().channels:
            raise KpnError('the result is of another network')
        return rates_of(result)

    def compile(self, **options: Any) -> compiled.Compiled:
        """Compiles the network to a program, as `kpn.compiled.compile_network(net, ..)` does."""
        return compiled.compile_network(self, **options)

    def stream(self, **options: Any) -> Live:
        """A `Live` run by `kpn stream`, which is fed and read while it goes on.

        Its words are `take=`, `max_commits=`, `timeout=`, `program=` and `stats=`. Raises KpnError for a wrong one, and
        for a network with more of something than the language allows. What else is wrong is told by the calls of the
        run.
        """
        self.check_limits()
        return Live(self.layout(), **options)


def capacities_of(process: Process, cap: Capacities) -> Mapping[str, Any]:
    """The capacity at each out port that the word `cap=` of a call gives."""
    if cap is None or isinstance(cap, SupportsIndex):
        return dict.fromkeys(process.outs, cap)
    found = dict(cap) if isinstance(cap, Mapping) else dict(zip(process.outs, cap))
    if not set(found) <= set(process.outs) or len(found) < len(cap):
        raise TypeError(f'`cap` of `{process.name}` gives more than its out ports {", ".join(process.outs)}')
    return found
