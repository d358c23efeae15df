"""Compiled networks inside this process: runs on arrays, which are read where they lie."""
from __future__ import annotations

import array
import ctypes
import importlib
import weakref
from typing import TYPE_CHECKING, Any, Dict, Iterable, Mapping, Optional, Sequence, cast

from ..errors import LARGEST, KpnError
from ..result import Result, report_of
from ..running import Items, lines_of, numbers_of

if TYPE_CHECKING:
    from ..network import Layout

# How many commits a call makes before Python looks for an interrupt.
COMMITS = 1_000_000
# The outcome `stopped`, and the most bytes of a line of a report.
STOPPED, LINE = 5, 256
# The first items of each source of which the places of faults are found.
ITEMS_TO_FAULT = 500_000


class Array(ctypes.Structure):
    """`struct kpn_array`."""

    _fields_ = [('items', ctypes.c_void_p), ('count', ctypes.c_size_t)]


class Loaded:
    """The shared object of a network with these names."""

    def __init__(self, path: str, layout: Layout):
        self.path, self.layout = path, layout
        self.library = library = ctypes.CDLL(path)
        pointer, number = ctypes.c_void_p, ctypes.c_uint64
        for name, kinds, answer in (('begin', (pointer, number), pointer), ('go', (pointer, number), ctypes.c_uint32),
                                    ('report', (pointer, pointer, ctypes.c_size_t), ctypes.c_size_t),
                                    ('take', (pointer, pointer), None), ('free', (pointer,), None),
                                    ('end', (pointer,), None)):
            function = getattr(library, f'kpn_arrays_{name}')
            function.argtypes, function.restype = kinds, answer

    def run(self, given: Mapping[str, Items], take: int = 0, most: int = LARGEST) -> Result:
        """Runs on the items of each source, up to this many commits."""
        arrays = (Array * (len(self.layout.channels) + 1))()
        kept: Dict[str, Any] = {}
        for name, items in given.items():
            address, count, kept[name] = memory_of(name, items)
            arrays[self.layout.channels.index(name)] = Array(address, count)
        run = self.library.kpn_arrays_begin(arrays, take)
        try:
            outcome, made = STOPPED if run else 0, 0
            while outcome == STOPPED and made < most:
                made = min(most, made + COMMITS)
                outcome = self.library.kpn_arrays_go(run, made)
            if not outcome:
                raise KpnError('the run lacks memory', error='42 NoMemory')
            result = self.result(run, given)
        finally:
            self.library.kpn_arrays_end(run)
        if result.faults:
            result.keep_fed({name: lines_of(name, items[:ITEMS_TO_FAULT]) for name, items in kept.items()})
        return result

    def result(self, run: int, given: Mapping[str, Items]) -> Result:
        """What came of a run."""
        text = ctypes.create_string_buffer(LINE * (len(self.layout.instances) + 1))
        length = self.library.kpn_arrays_report(run, text, len(text))
        arrays = (Array * (len(self.layout.channels) + 1))()
        self.library.kpn_arrays_take(run, arrays)
        blocks = {name: self.block(arrays[self.layout.channels.index(name)]) for name in self.layout.sinks}
        sinks: Dict[str, Any] = {name: as_given(block, list(given.values())) for name, block in blocks.items()}
        return Result(self.layout, report_of(text.raw[:length].decode()), sinks)

    def block(self, taken: Array) -> Any:
        """The memory of a sink, which is freed when nobody has it."""
        if not taken.count:
            self.library.kpn_arrays_free(taken.items)
            return (ctypes.c_int64 * 0)()
        block = (ctypes.c_int64 * taken.count).from_address(taken.items)
        weakref.finalize(block, self.library.kpn_arrays_free, taken.items).atexit = False
        return block


def memory_of(name: str, items: Items) -> Any:
    """Where the items of a source lie, how many there are, and what has to live as long. Arrays of 64 bits in one piece
    stay where they are."""
    told: Optional[Mapping[str, Any]] = getattr(items, '__array_interface__', None)
    if told and told['typestr'] == '<i8' and len(told['shape']) == 1 and told.get('strides') is None:
        return told['data'][0], told['shape'][0], items
    is_ready = isinstance(items, array.array) and items.typecode == 'q'
    numbers = cast('array.array[int]', items) if is_ready else numbers_of(name, cast('Iterable[int]', items))
    # while this view is there the array keeps its place
    return (*numbers.buffer_info(), memoryview(numbers))


def as_given(block: Any, given: Sequence[Items]) -> Any:
    """The items of a sink: a NumPy array of the same memory or an array if one was given, and else a list."""
    for items in given:
        if isinstance(items, array.array):
            found = array.array('q')
            found.frombytes((ctypes.c_char * ctypes.sizeof(block)).from_buffer(block))
            return found
        if hasattr(items, '__array_interface__'):
            numpy: Any = importlib.import_module('numpy')
            return numpy.frombuffer(block, dtype=numpy.int64)
    return block[:]
