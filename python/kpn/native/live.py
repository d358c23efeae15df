"""Compiled networks inside this process that are fed and read while they go on."""
from __future__ import annotations

import array
import ctypes
import importlib
from typing import TYPE_CHECKING, Any, Dict, List, Mapping, Optional

from ..errors import KpnError, whole
from ..result import Result, report_of
from ..running import Items, lines_of
from .loaded import COMMITS, ITEMS_TO_FAULT, LINE, memory_of

if TYPE_CHECKING:
    from ..network import Layout

# What `go` tells if memory was refused.
LACKS_MEMORY = 42


class CompiledLive:
    """A run of a compiled network: `with program.stream() as live:`. The end of the block drops it.

    It goes on in this process, and in calls of `read`, `process` and `finish` only. Arrays of 64 bits (`array`, NumPy)
    are read where they lie. What is read comes in a list, or as what was fed last: an array, or one of NumPy. A source
    or a sink that is the only one need not be named.
    """

    def __init__(self, library: ctypes.CDLL, layout: Layout):
        self._library, self._layout, self._kind = library, layout, ''
        self._run: Optional[int] = None
        self._closed: List[str] = []
        self._left: List[str] = []
        # The first items that each source was fed.
        self._fed = {name: array.array('q') for name in layout.sources}
        pointer, size, number = ctypes.c_void_p, ctypes.c_size_t, ctypes.c_uint32
        for name, kinds, answer in (('begin', (), pointer), ('end', (pointer,), None),
                                    ('feed', (pointer, size, pointer, size), number), ('close', (pointer, size), None),
                                    ('leave', (pointer, size), None), ('go', (pointer, ctypes.c_uint64), number),
                                    ('came', (pointer, size), size), ('is_complete', (pointer, size), number),
                                    ('read', (pointer, size, pointer, size), None),
                                    ('report', (pointer, pointer, size), size)):
            function = getattr(library, f'kpn_live_{name}')
            function.argtypes, function.restype = kinds, answer

    def __enter__(self) -> CompiledLive:
        self._run = self._library.kpn_live_begin()
        if not self._run:
            raise KpnError('the run lacks memory', error='42 NoMemory')
        return self

    def __exit__(self, *error: object) -> None:
        self._library.kpn_live_end(self._run)
        self._run = None

    def _channel(self, given: Optional[str], names: List[str], kind: str) -> int:
        """The number of the channel of a name, which may be left out if there is only one."""
        if self._run is None:
            raise KpnError('the run is over or has not begun: write `with program.stream() as live:`')
        if given is None and len(names) != 1:
            raise KpnError(f'the network has {len(names)} {kind}s: name one of {", ".join(names)}')
        if given is not None and given not in names:
            raise KpnError(f'the network has no {kind} `{given}`')
        return self._layout.channels.index(names[0] if given is None else given)

    def feed(self, items: Items, source: Optional[str] = None) -> None:
        """Gives items, whole numbers as in `net.run`, to a source; raises KpnError if that is closed."""
        number = self._channel(source, list(self._layout.sources), 'source')
        name = self._layout.channels[number]
        if name in self._closed:
            raise KpnError(f'the source `{name}` is closed already')
        address, count, owner = memory_of(name, items)
        self._kind = 'numpy' if hasattr(items, '__array_interface__') else \
            'array' if isinstance(items, array.array) else ''
        if not self._library.kpn_live_feed(self._run, number, address, count):
            raise KpnError('the run lacks memory', error='28 NoMemory')
        fed = self._fed[name]
        fed.frombytes(ctypes.string_at(address, fed.itemsize * min(count, ITEMS_TO_FAULT - len(fed))))
        del owner

    def close(self, source: Optional[str] = None) -> None:
        """Tells that a source has no more items."""
        number = self._channel(source, list(self._layout.sources), 'source')
        if self._layout.channels[number] not in self._closed:
            self._closed.append(self._layout.channels[number])
            self._library.kpn_live_close(self._run, number)

    def leave(self, sink: Optional[str] = None) -> None:
        """Tells that nobody reads a sink any more."""
        number = self._channel(sink, list(self._layout.sinks), 'sink')
        if self._layout.channels[number] not in self._left:
            self._left.append(self._layout.channels[number])
            self._library.kpn_live_leave(self._run, number)

    def _go(self, number: int, most: Optional[int]) -> int:
        """Lets processes go on until this many items of a sink are there, or none is ready; gives how many are. Python
        looks for an interrupt in between."""
        outcome = 0
        while outcome == 0 and (most is None or self._library.kpn_live_came(self._run, number) < most):
            outcome = self._library.kpn_live_go(self._run, COMMITS)
            if outcome == LACKS_MEMORY:
                raise KpnError('the run lacks memory', error='42 NoMemory')
        return int(self._library.kpn_live_came(self._run, number))

    def read(self, count: Optional[int] = None, sink: Optional[str] = None) -> Any:
        """Gives this many items of a sink; fewer if the sink ends before. Without a count it gives all that follow from
        what was fed.

        Raises TimeoutError if they do not follow from what was fed: nothing else comes while this call waits.
        """
        number = self._channel(sink, list(self._layout.sinks), 'sink')
        most = None if count is None else whole('the number of items', count)
        came = self._go(number, most)
        name = self._layout.channels[number]
        if most is not None and came < most and name not in self._left \
                and not self._library.kpn_live_is_complete(self._run, number):
            raise TimeoutError(f'the sink `{name}` has {came} items, and not {most}: feed more')
        return self._taken(number, came if most is None else min(came, most))

    def process(self, block: Items, source: Optional[str] = None, sink: Optional[str] = None) -> Any:
        """Feeds a block to a source, and gives all that has come to a sink then, as the block is: a list, an array, or
        one of NumPy."""
        self.feed(block, source)
        return self.read(None, sink)

    def finish(self) -> Result:
        """Closes all sources, and gives the result of the run with the items that were not read before."""
        for name in self._layout.sources:
            self.close(name)
        sinks: Dict[str, Any] = {}
        for name in self._layout.sinks:
            number = self._layout.channels.index(name)
            sinks[name] = self._taken(number, self._go(number, None))
        text = ctypes.create_string_buffer(LINE * (len(self._layout.instances) + 1))
        length = self._library.kpn_live_report(self._run, text, len(text))
        complete: Mapping[str, bool] = {name: bool(self._library.kpn_live_is_complete(
            self._run, self._layout.channels.index(name))) for name in self._layout.sinks}
        report = report_of(text.raw[:length].decode())
        result = Result(self._layout, report, sinks, complete=dict(complete), left=self._left)
        result.keep_fed({name: lines_of(name, items) for name, items in self._fed.items()} if result.faults else {})
        return result

    def _taken(self, number: int, count: int) -> Any:
        """This many items of a sink, in the form of what was fed last."""
        block = (ctypes.c_int64 * count)()
        self._library.kpn_live_read(self._run, number, block, count)
        if self._kind == 'numpy':
            numpy: Any = importlib.import_module('numpy')
            return numpy.frombuffer(block, dtype=numpy.int64)
        if self._kind == 'array':
            found = array.array('q')
            found.frombytes(bytes(block))
            return found
        return block[:]
