"""How many items the ends of channels put and get, and which channels hold ever more of them."""
from __future__ import annotations

import itertools
from typing import TYPE_CHECKING, Dict, Iterator, List, Mapping, NamedTuple, Optional, Set, Tuple

from .timing import ENDS

if TYPE_CHECKING:
    from .network import Layout
    from .result import Result

# A channel with fewer items left is not looked at.
LEAST_LEFT = 16


class Rate(NamedTuple):
    """How many items the writer of a channel put and its reader got; None stands for the outside.

    `left` items are unread at the end. `grows` says that there were ever more of them, and that the reader goes on: a
    longer run leaves more.
    """

    channel: str
    writer: Optional[str]
    reader: Optional[str]
    put: int
    got: int
    left: int
    grows: bool


def rates_of(result: Result) -> List[Rate]:
    """A `Rate` for each channel of a run with a trace."""
    layout, growing = result.layout, growing_of(result)
    return [Rate(name, layout.writers.get(name), layout.readers.get(name), int(row['put']), int(row['read']),
                 int(row['left']), name in growing)
            for name, row in ((str(row['channel']), row) for row in result.stats.channels)]


def growing_of(result: Result) -> List[str]:
    """The channels on which the unread items pile up through the whole run, of those that may grow and begin below the
    limit.

    At the end nearly as many are unread as ever, and in the first half of the gets and puts there were far fewer. The
    items of a delay and those of a block, which come and go, are none of these.
    """
    stats, layout = result.stats, result.layout
    able = growable(layout)
    ended = {row['process'] for row in stats.processes if row['end'] in ENDS}
    left = {str(row['channel']): int(row['left']) for row in stats.channels
            if int(row['left']) >= LEAST_LEFT and 4 * int(row['left']) >= 3 * int(row['most'])
            and row['channel'] in able and int(row['cap_first']) < layout.limit
            and layout.readers[str(row['channel'])] not in ended}
    if not left:
        return []
    moves = sum(int(row['gets']) + int(row['puts']) for row in stats.processes)
    before = most_unread(result, list(left), moves // 2)
    return [name for name in left if 4 * before[name] <= 3 * left[name]]


def most_unread(result: Result, channels: List[str], moves: int) -> Dict[str, int]:
    """The most items that lay unread on these channels during this many of the first gets and puts."""
    layout, steps = result.layout, {}
    for name in channels:
        for kind, end, change in (('put', layout.writers, 1), ('get', layout.readers, -1)):
            head = f'{kind} {layout.instances.index(end[name])} {layout.channels.index(name)}'
            steps[head.encode()] = name, change
    unread, most = dict.fromkeys(channels, 0), dict.fromkeys(channels, 0)
    with open(result.trace().path, 'rb') as lines:
        for line in itertools.islice((it for it in lines if it.startswith((b'get ', b'put '))), moves):
            name, change = steps.get(line.rpartition(b' ')[0], ('', 0))
            if name:
                unread[name] += change
                most[name] = max(most[name], unread[name])
    return most


def growable(layout: Layout) -> Set[str]:
    """The channels that may grow at all: those that lie on a cycle, whichever way its channels lead, or with
    `policy all` each one between processes."""
    ends = {name: (layout.writers[name], layout.readers[name]) for name in layout.channels
            if name in layout.writers and name in layout.readers}
    if layout.policy == 'all':
        return set(ends)
    near: Dict[str, List[str]] = {name: [] for name in layout.instances}
    for name, pair in ends.items():
        for end in pair:
            near[end].append(name)
    # The channels of trees that reach each process, and how far it is from the root.
    up: Dict[str, str] = {}
    depth: Dict[str, int] = {}
    for root in layout.instances:
        queue = [] if root in depth else [root]
        depth.setdefault(root, 0)
        for at in queue:
            for name in near[at]:
                to = other(ends[name], at)
                if to not in depth:
                    up[to], depth[to] = name, depth[at] + 1
                    queue.append(to)
    found: Set[str] = set()
    for name, (one, two) in ends.items():
        if name not in (up.get(one), up.get(two)):
            found |= {name, *ways_to_meet(one, two, up, depth, ends)}
    return found


def other(ends: Tuple[str, str], end: str) -> str:
    """The other one of two ends."""
    return ends[1] if ends[0] == end else ends[0]


def ways_to_meet(one: str, two: str, up: Mapping[str, str], depth: Mapping[str, int],
                 ends: Mapping[str, Tuple[str, str]]) -> Iterator[str]:
    """The channels of a tree on the way between two processes."""
    while one != two:
        lower = one if depth[one] >= depth[two] else two
        yield up[lower]
        above = other(ends[up[lower]], lower)
        one, two = (above, two) if lower == one else (one, above)
