"""The code, the memory and the stack of an object."""
from __future__ import annotations

import functools
import pathlib
import re
import struct
from typing import Dict, Iterable, List, Set

# Of gcc: each function with the bytes of its frame, and the calls. A call by a pointer goes to one of these.
GRAPH = '-fcallgraph-info=su'
NODE = re.compile(r'node: \{ title: "([^"]*)" label: "[^"]*?(\d+) bytes \(')
EDGE = re.compile(r'edge: \{ sourcename: "([^"]*)" targetname: "([^"]*)"')
POINTED = re.compile(r'plain_(?:turn|region)_\d+$|lock_step$')
INDIRECT = '__indirect_call'
# Of a section of ELF: it has no bytes in the file; it is in memory; it may be written.
NO_BITS, WRITE, ALLOC = 8, 1, 2


def sections_of(data: bytes) -> Dict[str, int]:
    """The bytes of an object of ELF: code and constants, and memory that is written."""
    is_wide, order = data[4] == 2, '<' if data[5] == 1 else '>'
    start, entry, count = struct.unpack_from(f'{order}Q10xHH' if is_wide else f'{order}I10xHH', data,
                                             40 if is_wide else 32)
    found = {'code': 0, 'memory': 0}
    for k in range(count):
        if is_wide:
            kind, flags, size = struct.unpack_from(f'{order}4xIQ16xQ', data, start + k * entry)
        else:
            kind, flags, size = struct.unpack_from(f'{order}4xII8xI', data, start + k * entry)
        if flags & ALLOC and (flags & WRITE or kind != NO_BITS):
            found['memory' if flags & WRITE else 'code'] += size
    return found


def stack_of(graphs: Iterable[pathlib.Path]) -> int:
    """The most bytes of stack that a call takes, by the graphs of all files; 0 if functions call themselves."""
    frames: Dict[str, int] = {}
    calls: Dict[str, Set[str]] = {}
    for graph in graphs:
        text = graph.read_text()
        frames.update({name: int(size) for name, size in NODE.findall(text)})
        for caller, called in EDGE.findall(text):
            calls.setdefault(caller, set()).add(called)
    pointed = [name for name in frames if POINTED.search(name)]
    met: List[str] = []

    @functools.lru_cache(maxsize=None)
    def depth(name: str) -> int:
        if name in met:
            raise RecursionError
        met.append(name)
        below = [it for called in calls.get(name, ()) for it in (pointed if called == INDIRECT else [called])]
        found = frames.get(name, 0) + max(map(depth, below), default=0)
        met.pop()
        return found

    try:
        return max(map(depth, frames), default=0)
    except RecursionError:
        return 0
