"""Processes, and the streams that join them."""
from __future__ import annotations

import operator
from dataclasses import dataclass, field, replace
from typing import TYPE_CHECKING, Any, List, Mapping, Optional, Sequence, Tuple, Union

from .errors import KpnError

if TYPE_CHECKING:
    from .network import Network

MOST_PORTS = 16
# A parameter is at most this, with or without a sign.
LARGEST_VALUE = 2**63 - 1
# The capacities of the channels at the out ports: of all, by place, or by the name of the port.
Capacities = Union[None, int, Sequence[int], Mapping[str, int]]
# What a call of a process gives: nothing, a stream, or one for each out port.
Outputs = Any


@dataclass(frozen=True)
class Process:
    """A process of the language. Call it with streams and numbers, and it adds an instance to their network.

    The ports and parameters are given by place, in ports first, or by name. The call gives the stream of the only out
    port, a tuple of streams if there are several, and None if there is none. `net=` names the network of a process
    without in ports, `name=` the instance, and `cap=` the capacities at the out ports: one for all, a sequence by
    place, or a dict by port. A port or a parameter that is itself called `net` or `name` is given by place.

    A call with other ports or parameters, or with something else in their place, raises TypeError. A stream with a
    reader, a number out of range and a name that may not be raise KpnError.
    """

    name: str
    ins: Tuple[str, ...]
    outs: Tuple[str, ...]
    pars: Tuple[str, ...]
    body: Tuple[str, ...]
    source: str = field(default='', compare=False, repr=False)
    # The language of the text that it stands in, 1 or 2.
    language: int = field(default=1, compare=False, repr=False)
    # Where in the source each token of its lines stands.
    places: Tuple[int, ...] = field(default=(), compare=False, repr=False)

    def __post_init__(self) -> None:
        for ports, what in ((self.ins, 'in'), (self.outs, 'out')):
            if len(ports) > MOST_PORTS:
                raise KpnError(f'`{self.name}` has {len(ports)} {what} ports: {len(ports) - MOST_PORTS} more than the '
                               f'{MOST_PORTS} that a process may have')

    @classmethod
    def from_text(cls, text: str) -> Process:
        """Reads a process, as in `Process.from_text("process gain(in i; out o; par k) { .. }")`.

        One of language 2 stands after `language 2;`, and after constants and shared tables, which become its own.

        Raises KpnError with the place if no text of the language goes on so; a wrong name is found when it runs.
        """
        from .forms import read_process  # it gives processes, so it needs this class first
        return read_process(text)

    def renamed(self, name: str) -> Process:
        """A process that differs in its name only."""
        return replace(self, name=name)

    def __str__(self) -> str:
        parts = [f'{word} {", ".join(names)}'
                 for word, names in (('in', self.ins), ('out', self.outs), ('par', self.pars)) if names]
        return ''.join(f'{line}\n' for line in [f'process {self.name}({"; ".join(parts)}) {{', *self.body, '}'])

    def __call__(self, *args: Union[Stream, int], net: Optional[Network] = None, name: Optional[str] = None,
                 cap: Capacities = None, **named: Union[Stream, int]) -> Outputs:
        nets = [it.net for it in (*args, *named.values()) if isinstance(it, Stream)]
        if net is None and not nets:
            raise KpnError(f'`{self.name}` is given no stream: name its network by `net=`')
        return (net or nets[0]).add(self, *args, name=name, cap=cap, **named)

    def bind(self, args: Sequence[Any], named: Mapping[str, Any]) -> Tuple[List[Stream], List[int]]:
        """The streams at the in ports and the values of the parameters that the words of a call give."""
        slots = [*self.ins, *self.pars]
        given = dict(zip(slots, args))
        if len(args) > len(slots):
            raise TypeError(f'`{self.name}` takes {len(slots)} streams and numbers, and {len(args)} are given')
        for slot, value in named.items():
            if slot not in slots:
                raise TypeError(f'`{self.name}` has no in port or parameter `{slot}`: it has {", ".join(slots)}')
            if slot in given:
                raise TypeError(f'`{slot}` of `{self.name}` is given twice')
            given[slot] = value
        lacking = [slot for slot in slots if slot not in given]
        if lacking:
            raise TypeError(f'`{self.name}` lacks {", ".join(lacking)}')
        return [self.as_stream(port, given[port]) for port in self.ins], [self.as_value(par, given[par])
                                                                          for par in self.pars]

    def as_stream(self, port: str, given: Any) -> Stream:
        """What is given for an in port."""
        if not isinstance(given, Stream):
            raise TypeError(f'the in port `{port}` of `{self.name}` takes a stream, and not {given!r}')
        return given

    def as_value(self, par: str, given: Any) -> int:
        """What is given for a parameter."""
        try:
            value = int(operator.index(given))
        except TypeError:
            raise TypeError(f'the parameter `{par}` of `{self.name}` takes a whole number, not {given!r}') from None
        if abs(value) > LARGEST_VALUE:
            raise KpnError(f'the parameter `{par}` of `{self.name}` is {value}: it has to be from -{LARGEST_VALUE} '
                           f'to {LARGEST_VALUE}')
        return value


class Instance:
    """A process in a network, with the streams at its ports and the values of its parameters."""

    def __init__(self, process: Process, name: Optional[str], prefix: str, values: Sequence[int],
                 is_automatic: bool = False):
        self.process, self.given_name, self.prefix = process, name, prefix
        self.values = values
        # Whether it is a fork that the network has made by itself.
        self.is_automatic = is_automatic
        self.ins: List[Stream] = []
        self.outs: List[Stream] = []


class Stream:
    """What flows over one channel: from a source or an out port, to one in port or a sink.

    Give it to a process or a part to connect it. It has one reader: `kpn.parts.fork` makes several streams of it.
    """

    def __init__(self, net: Network, kind: str, name: Optional[str], cap: Optional[int]):
        self.net, self.kind, self.given_name, self.given_cap = net, kind, name, cap
        self.writer: Optional[Instance] = None
        self.reader: Optional[Instance] = None
        # The stream that this one was joined to.
        self.joined: Optional[Stream] = None

    def __reduce__(self) -> Tuple[Any, ...]:
        return type(self.net).stream_at, (self.net, self.net.place_of(self.channel))

    @property
    def name(self) -> str:
        """Its name in the text that the network has now."""
        return self.net.name_of(self.channel)

    @property
    def cap(self) -> int:
        """The capacity of its channel, that of the network by default."""
        return self.channel.given_cap or self.net.cap

    @property
    def is_read(self) -> bool:
        """Whether an in port or the outside reads it."""
        return self.reader is not None or self.kind == 'sink'

    @property
    def channel(self) -> Stream:
        """The stream that stands for the channel: this one, or the one that it was joined to."""
        return self.joined.channel if self.joined else self

    def wanted_name(self, names: Mapping[Any, str]) -> str:
        """What it is called if it was given no name: as its writer, with the port if that has several."""
        if self.writer is None:
            return self.kind
        outs = self.writer.outs
        port = f'_{self.writer.process.outs[outs.index(self)]}' if len(outs) > 1 else ''
        return names[self.writer] + port

    def connect(self, stream: Stream) -> None:
        """Lets `stream` flow into this channel, which `net.channel()` or `net.sink(name)` has made.

        Raises KpnError if the channel has a writer, or if the stream has a reader or no writer.
        """
        self.net.join(self.channel, stream.channel)

    def __repr__(self) -> str:
        return f'<Stream {self.name}>'


def forking(outs: int) -> Process:
    """A process that writes each item that it reads on each of its out ports."""
    ports = tuple(f'o{number}' for number in range(1, outs + 1))
    body = ('  while 1 {', '    read i x;', *(f'    write {port} x;' for port in ports), '  }')
    return Process('fork' if outs == 2 else f'fork{outs}', ('i',), ports, (), body)
