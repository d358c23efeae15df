"""A network as C: the functions of its processes and its regions, and its tables."""
from __future__ import annotations

from typing import Dict, Iterator, List

from ..language import LARGEST_CAPACITY, Description, Entry
from .c_text import WAYS, Function, Kind, turn_of
from .lock_text import lock_of
from .paths import rows_of
from .region_text import RegionText
from .regions import Finder


class NetworkText:
    """A whole network as C."""

    def __init__(self, text: str, given: bytes, description: Description, schedule: str, fixed: int = 0,
                 is_session: bool = False):
        self.text, self.given, self.description, self.is_one_talk = text, given, description, schedule == 'kpn'
        # The most items that wait at a source in static memory; 0 if memory is taken as it is needed.
        self.fixed = fixed
        # Static memory has no trace.
        self.ways = WAYS[:1] if fixed else WAYS
        self.rows = {it.name: rows_of(it, number, description.tables)
                     for number, it in enumerate(description.processes)}
        self.kinds: Dict[Kind, int] = {}
        self.numbers = {name: number for number, (_, name, _) in enumerate(description.channels)}
        self.of_instance = [self.kind_of(entry) for _, entry in description.instances]
        self.starts = [0]
        for _, entry in description.instances:
            self.starts.append(self.starts[-1] + self.rows[entry.process].places)
        finder = Finder(description, self.rows)
        self.periods = {} if fixed or is_session else finder.periods()
        kinds = {name: kind for kind, name, _ in description.channels}
        # Only a session goes in lock step with its caller.
        self.lock = lock_of(finder, kinds, self.starts) if is_session and schedule == 'fuse' else None
        # In static memory little waits at a source: there long runs of periods are rare, and lock step is all.
        found = list(finder.regions()) if schedule == 'fuse' and not (fixed and self.lock) else []
        self.variable_count = self.starts[-1] + (self.lock.token_count() if self.lock else 0)
        self.heads = {self.of_instance[p]: finder.loops[p].head for region in found for p in region.laps}
        self.regions = [RegionText(number, region, finder, self.starts, self.numbers, fixed > 0)
                        for number, region in enumerate(found)]

    def kind_of(self, entry: Entry) -> Kind:
        """The kind of an instance."""
        process = self.rows[entry.process].process
        joined = tuple((i, o) for i, c in zip(process.ins, entry.ins) for o, d in zip(process.outs, entry.outs)
                       if c == d)
        kind = Kind(entry.process, joined)
        self.kinds.setdefault(kind, len(self.kinds))
        return kind

    def lines(self) -> Iterator[str]:
        """The lines of the C."""
        yield '/* Made by `kpn compile`. Nothing is proved of it. */'
        if self.fixed and self.lock:
            yield '#define KPN_SMALL_TURNS'
        if self.fixed:
            yield from ('#ifndef KPN_FIXED', '#define KPN_FIXED', '#endif', '#include "fixed.h"')
        yield '#include "network.h"'
        yield '#pragma GCC diagnostic ignored "-Wtautological-compare"'
        yield '#pragma GCC diagnostic ignored "-Wunused-but-set-variable"'
        yield ''
        yield from self.constants()
        for kind, number in self.kinds.items():
            rows, head = self.rows[kind.name], self.heads.get(kind)
            yield from Function(number, kind, rows, head, self.is_one_talk, self.ways).text()
        for region in self.regions:
            yield from region.lines()
        if self.lock:
            yield from self.lock.lines()
        yield from self.tables()
        yield from self.plan()
        if self.fixed:
            yield from self.memory()

    def constants(self) -> Iterator[str]:
        """The tables of the text that its processes name."""
        for cells in dict.fromkeys(it for kind in self.kinds for it in self.rows[kind.name].cells.values()):
            if cells.values:
                yield f'static const int64_t {cells.name}[] = {{{", ".join(map(str, cells.values))}}};'

    def tables(self) -> Iterator[str]:
        """The tables of channels and processes."""
        entries = [entry for _, entry in self.description.instances]
        writers = {c: p for p, entry in enumerate(entries) for c in entry.outs}
        readers = {c: p for p, entry in enumerate(entries) for c in entry.ins}
        if self.numbers:
            yield 'static const struct kpn_channel_plan channels[] = {'
            for kind, name, capacity in self.description.channels:
                ends = f'{writers.get(name, "KPN_OUTSIDE")}, {readers.get(name, "KPN_OUTSIDE")}'
                yield f'  {{"{name}", KPN_{kind.upper()}, {capacity or 0}, {ends}}},'
            yield '};'
        for p, entry in enumerate(entries):
            if entry.ins or entry.outs:
                ports = ', '.join(str(self.numbers[c]) for c in (*entry.ins, *entry.outs))
                yield f'static const uint16_t ports_{p}[] = {{{ports}}};'
        yield from self.process_tables()

    def process_tables(self) -> Iterator[str]:
        """The tables of processes and of the first values of their variables."""
        values: List[str] = []
        rows = []
        for p, (name, entry) in enumerate(self.description.instances):
            turn = turn_of(self.kinds[self.of_instance[p]], entry.process)
            ports = f'ports_{p}' if entry.ins or entry.outs else 'NULL'
            turns = ', '.join(f'{self.ways[it][0]}_{turn}' for it in (0, -1))
            rows.append(f'  {{"{name}", {turns}, {ports}, {len(entry.ins)}, {len(entry.outs)}, {self.starts[p]}}},')
            values += [f'[{self.starts[p] + place}] = {it}' for place, it in enumerate(entry.values) if it]
        if rows:
            yield '\n'.join(['static const struct kpn_process_plan processes[] = {', *rows, '};'])
        if self.variable_count:
            yield f'static const int64_t variables[{self.variable_count}] = {{{", ".join(values) or "0"}}};'
        if self.regions:
            plans = [it.plan() for it in self.regions]
            yield '\n'.join(['static const struct kpn_region_plan regions[] = {', *plans, '};'])

    def memory(self) -> Iterator[str]:
        """The static memory."""
        limit, rings = int(self.description.settings['limit']), []
        for number, (kind, _, capacity) in enumerate(self.description.channels):
            least = self.fixed if kind == 'source' else max(capacity or 0, limit)
            rings.append(f'{{ring_{number}, {1 << (least - 1).bit_length()}}}')
            yield f'static int64_t ring_{number}[{1 << (least - 1).bit_length()}];'
        yield f'static const struct kpn_fixed_ring rings[] = {{{", ".join(rings or ["{0}"])}}};'
        processes, regions = len(self.description.instances), len(self.regions)
        arrays = (('struct kpn_channel', 'channels', len(rings)), ('struct kpn_process', 'processes', processes),
                  ('struct kpn_region', 'regions', regions), ('int64_t', 'variables', self.variable_count),
                  ('uint16_t', 'numbers', 2 * processes + regions))
        for kind, name, count in arrays:
            yield f'static {kind} own_{name}[{max(1, count)}];'
        yield ('const struct kpn_fixed kpn_fixed = {own_channels, own_processes, own_variables, own_regions, '
               'own_numbers, rings};')

    def plan(self) -> Iterator[str]:
        """The plan of the network."""
        settings, description = self.description.settings, self.description
        if not self.fixed:
            yield 'static const char text[] ='
            yield from (f'    "{line}\\n"' for line in self.text.splitlines())
            yield '    "";'
        if self.periods:
            items = ', '.join(str(self.periods.get(name, 0)) for name in self.numbers)
            yield f'static const uint32_t periods[] = {{{items}}};'
        yield 'extern const struct kpn_plan kpn_plan;'
        yield 'const struct kpn_plan kpn_plan = {'
        tables = (('channels', len(self.numbers)), ('processes', len(description.instances)),
                  ('variables', self.variable_count), ('regions', len(self.regions)))
        names = ', '.join([*(name if count else 'NULL' for name, count in tables),
                           '&lock_plan' if self.lock else 'NULL'])
        counts = ', '.join(str(count) for _, count in tables)
        texts = ', '.join(f'{{{len(it)}, {hash_of(it)}ULL}}' for it in (self.text.encode(), self.given))
        yield f'  {"NULL" if self.fixed else "text"}, {{{texts}}},'
        yield f'  {names}, {counts}, {settings.get("limit", LARGEST_CAPACITY)},'
        flags = (settings.get('policy') == 'all', settings.get('grow') == 'double', self.is_one_talk)
        yield f'  {", ".join("true" if it else "false" for it in flags)}, {"periods" if self.periods else "NULL"}'
        yield '};'


def hash_of(text: bytes) -> int:
    """The hash of a text, as network.h has it."""
    found = 14695981039346656037
    for byte in text:
        found = (found ^ byte) * 1099511628211 % 2**64
    return found
