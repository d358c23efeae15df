"""A second implementation of `kpn join`, for the traces of a run over ranks: it makes the text of each part from the
description and the cut, lets `kpn audit` judge each trace, and looks for one order of all events in which no item comes
out of a cut channel before it was put there.
"""
from __future__ import annotations

import pathlib
import tempfile
from typing import Dict, List, NamedTuple, Optional, Tuple

from kpn.errors import KpnError
from kpn.forms import FullReader
from kpn.language import Description
from kpn.mpi import Audit, rank_count
from kpn.program import Program, call
from kpn.trace import Event, Trace

# The status of an audit whose steps were used up.
BUDGET = 5


# ---- parts

class Part(NamedTuple):
    """The part of a rank as a description, with the numbers that its channels and instances have there."""

    description: Description
    channels: List[str]
    sources: List[str]
    sinks: List[str]

    def text(self) -> str:
        """The part in the language."""
        made = self.description
        lines = ['language 2;\n'] * (made.language == 2) + [f'{line}\n' for line in made.tables]
        lines += [*map(str, made.processes), 'network {\n']
        lines += [f'{word} {it};\n' for word, it in made.settings.items()]
        for kind, name, capacity in made.channels:
            lines.append(f'{kind} {name}{"" if capacity is None else f" cap {capacity}"};\n')
        for name, it in made.instances:
            values = f'; {", ".join(map(str, it.values))}' if it.values else ''
            lines.append(f'{name} = {it.process}({", ".join(it.ins)}; {", ".join(it.outs)}{values});\n')
        return ''.join([*lines, '}\n'])


def read_description(path: pathlib.Path) -> Description:
    """The description in a file."""
    return FullReader(path.read_bytes().decode('utf-8', 'replace'), str(path)).description()


def read_cut(path: pathlib.Path, whole_text: Description) -> Dict[str, int]:
    """The rank of each instance, from lines INSTANCE=RANK."""
    ranks = {}
    for line in path.read_text(encoding='ascii', errors='replace').splitlines():
        name, _, rank = line.partition('=')
        if not rank.isdecimal() or name in ranks:
            raise KpnError(f'{path} has a line that is no INSTANCE=RANK: {line}')
        ranks[name] = int(rank)
    if set(ranks) != {name for name, _ in whole_text.instances}:
        raise KpnError(f'{path} has not a line for each instance of the network')
    return ranks


def part_of(net: Description, ranks: Dict[str, int], rank: int, is_alone: bool) -> Part:
    """The part of a rank: a cut channel is a sink of the part of its writer, and a source of that of its reader."""
    instances = [(name, it) for name, it in net.instances if ranks[name] == rank]
    read = {channel for _, it in instances for channel in it.ins}
    written = {channel for _, it in instances for channel in it.outs}
    channels: List[Tuple[str, str, Optional[int]]] = []
    for _, name, capacity in net.channels:
        if name in written:
            channels.append(('channel' if name in read else 'sink', name, capacity))
        elif name in read:
            channels.append(('source', name, None))
    used = {it.process for _, it in instances}
    settings = {word: it for word, it in net.settings.items() if word != 'policy' or is_alone}
    made = Description(net.language, [it for it in net.processes if it.name in used], settings, channels, instances,
                       net.tables)
    of_kind = {kind: [name for it, name, _ in channels if it == kind] for kind in ('source', 'sink')}
    return Part(made, [name for _, name, _ in channels], of_kind['source'], of_kind['sink'])


def with_stored_capacities(part: Part, stored: Description, limit: int) -> Part:
    """The part at the capacities of a stored text, which are at least those of the description."""
    found = {name: capacity for _, name, capacity in stored.channels}
    channels = []
    for kind, name, capacity in part.description.channels:
        now = found.get(name)
        if capacity is not None and not (now and capacity <= now <= limit):
            raise KpnError(f'the channel `{name}` has the capacity {now}: it has to be from {capacity} to {limit}')
        channels.append((kind, name, now if capacity is not None else None))
    return part._replace(description=part.description._replace(channels=channels))


# ---- the join

class Join:
    """Joins the traces of parts: goes on in any trace whose next event may come.

    A feed of a cut source may come once its item was put on the sink. What may come may come later too, so it makes no
    difference in which trace this goes on first.
    """

    def __init__(self, traces: List[List[Event]], writers: Dict[str, int], readers: Dict[str, int]):
        self.traces, self.readers = traces, readers
        # The cut channels, each with what was put there, and how much of that was fed to its reader.
        cut = [name for name, rank in writers.items() if readers.get(name, rank) != rank]
        self.put: Dict[str, List[int]] = {name: [] for name in cut}
        self.fed = dict.fromkeys(self.put, 0)
        self.writers = writers
        self.places = [0] * len(traces)

    def may_come(self, rank: int, event: Event) -> bool:
        """Whether an event may be the next one of all."""
        name = str(event.channel)
        if event.kind != 'feed' or name not in self.put:
            return True
        number = self.fed[name]
        return number < len(self.put[name]) and self.put[name][number] == event.value

    def go_on(self, rank: int) -> bool:
        """Takes the events of a rank that may come, and returns whether there was one."""
        trace, start = self.traces[rank], self.places[rank]
        while self.places[rank] < len(trace) and self.may_come(rank, trace[self.places[rank]]):
            event = trace[self.places[rank]]
            name = str(event.channel)
            if event.kind == 'put' and name in self.put:
                self.put[name].append(int(str(event.value)))
            elif event.kind == 'feed' and name in self.put:
                self.fed[name] += 1
            self.places[rank] += 1
        return self.places[rank] > start

    def all_used(self) -> bool:
        """Joins, and returns whether each event has its place."""
        while any([self.go_on(rank) for rank in range(len(self.traces))]):
            pass
        return self.stuck() is None

    def stuck(self) -> Optional[Tuple[int, int]]:
        """A rank and its event that may not come; None if all have come."""
        for rank, place in enumerate(self.places):
            if place < len(self.traces[rank]):
                return rank, place
        return None


# ---- the audit

def judge_part(part: Part, trace: pathlib.Path, steps: Optional[int], program: Program) -> List[str]:
    """The first lines that `kpn audit` writes of the trace of a part."""
    with tempfile.TemporaryDirectory(prefix='kpn-') as folder:
        pathlib.Path(folder, 'part.kpn').write_text(part.text(), encoding='utf-8')
        more = [] if steps is None else ['--steps', str(steps)]
        done = call(['audit', 'part.kpn', str(trace.resolve()), *more], program, folder)
    return (done.stdout or done.stderr or 'no answer').splitlines()[:2]


def events_of(trace: pathlib.Path, part: Part) -> List[Event]:
    """The events of a part with the names of its channels."""
    instances = [name for name, _ in part.description.instances]
    return list(Trace(trace, instances, part.channels))


def parts_in(net: Description, folder: pathlib.Path) -> List[Part]:
    """The parts whose traces lie in a folder: those of all ranks of the run, and no other."""
    ranks = read_cut(folder / 'cut', net)
    count = rank_count(folder)
    if any(rank >= count for rank in ranks.values()):
        raise KpnError(f'the run had {count} ranks, and {folder / "cut"} has more')
    limit = int(net.settings.get('limit', '1048576'))
    made = []
    for rank in range(count):
        stored = read_description(folder / f'rank-{rank}.kpn')
        made.append(with_stored_capacities(part_of(net, ranks, rank, count == 1), stored, limit))
    return made


def has_all(join: Join, is_ended: Dict[str, bool]) -> bool:
    """Whether nothing is on the way: each cut channel was fed all that was put there, or its reader has ended."""
    return all(join.fed[name] == len(items) or is_ended[name] for name, items in join.put.items())


def audit(file: pathlib.Path, folder: pathlib.Path, steps: Optional[int] = None, program: Program = None) -> Audit:
    """Audits the traces of a run over ranks."""
    net = read_description(file)
    parts = parts_in(net, folder)
    lines, is_exact, traces = [], True, []
    for rank, part in enumerate(parts):
        trace = folder / f'rank-{rank}.trace'
        said = judge_part(part, trace, steps, program)
        lines.append(f'rank {rank}: {", ".join(said)}')
        if said[0] != 'legal':
            return Audit(lines, False, BUDGET if said[0].startswith('budget') else 1)
        is_exact &= said[1:] == ['exact yes']
        traces.append(events_of(trace, part))
    writers = {name: rank for rank, part in enumerate(parts) for name in (*part.sinks, *written_in(part))}
    readers = {name: rank for rank, part in enumerate(parts) for name in (*part.sources, *written_in(part))}
    join = Join(traces, writers, {name: rank for name, rank in readers.items() if name in writers})
    if not join.all_used():
        return Audit([*lines, refusal_of(join)], False, 1)
    is_exact &= has_all(join, ended_readers(net, traces))
    lines += [f'joined: {sum(map(len, traces))} events', f'exact {"yes" if is_exact else "no"}']
    return Audit(lines, is_exact, 0)


def written_in(part: Part) -> List[str]:
    """The channels with both ends in a part."""
    return [name for kind, name, _ in part.description.channels if kind == 'channel']


def ended_readers(net: Description, traces: List[List[Event]]) -> Dict[str, bool]:
    """For each channel with a reader whether that has ended."""
    ended = {str(event.process) for trace in traces for event in trace if event.kind == 'end'}
    return {channel: name in ended for name, it in net.instances for channel in it.ins}


def refusal_of(join: Join) -> str:
    """Why traces don't join."""
    rank, place = join.stuck() or (0, 0)
    event = join.traces[rank][place]
    name = str(event.channel)
    number, put = join.fed[name], join.put[name]
    why = f'{put[number]} was put there' if number < len(put) else 'nothing more was put there before'
    return f'not joined: event {place} of rank {rank} is `feed {name} {event.value}`, and {why}'

