"""Rings: cycles of processes, each of which waits for an item that the next one has to write."""
from __future__ import annotations

import re
from typing import TYPE_CHECKING, List, Sequence

from .errors import Deadlock
from .process import Process

if TYPE_CHECKING:
    from .network import Layout
    from .result import Wait

FIRST = re.compile(r'\b(read|write)\b')


def rings_of(waits: Sequence[Wait], layout: Layout) -> List[List[Wait]]:
    """The rings among these waits. Each begins with the process that comes first, and so does the list of them."""
    left = {it.instance: it for it in waits if not it.is_full}
    found = []
    for start in list(left):
        path: List[Wait] = []
        at = start
        while at in left:
            path.append(left.pop(at))
            at = layout.writers.get(path[-1].channel, '')
        names = [it.instance for it in path]
        if at in names:
            ring = path[names.index(at):]
            first = min(ring, key=lambda it: layout.instances.index(it.instance))
            found.append(ring[ring.index(first):] + ring[:ring.index(first)])
    return sorted(found, key=lambda ring: layout.instances.index(ring[0].instance))


def deadlock_of(rings: List[List[Wait]], layout: Layout, reasons: str = '') -> Deadlock:
    """The error that tells of rings, and of what else is wrong."""
    lines = [f'deadlock: {", ".join(f"{it.instance} waits on {it.channel} for {writer}" for it, writer in pairs)}; '
             'one of them has to write before it reads (a first item before its loop)'
             for pairs in ([(it, layout.writers[it.channel]) for it in ring] for ring in rings)]
    if not all(any(begins_with_a_write(layout.processes[it.instance]) for it in ring) for ring in rings):
        lines.append('a loop needs a `delay`: `kpn.parts.delay` writes its first items before it reads')
    return Deadlock('\n'.join([*lines, *filter(None, [reasons])]), rings)


def begins_with_a_write(process: Process) -> bool:
    """Whether a write stands before each read in the text of a process, as in that of a delay."""
    found = FIRST.search('\n'.join(process.body))
    return found is not None and found[1] == 'write'
