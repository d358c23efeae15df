"""Regions as C: a function that makes whole periods.

What a period sets is a copy. It is kept once the whole period is made; a period with a fault, or whose inner loops run
out of fuel, leaves no trace. The members make it again as processes, up to the exact place of the fault.
"""
from __future__ import annotations

from typing import Dict, Iterator, List, Tuple

from ..language import Assign, Read, Write
from .c_text import WAYS, Values
from .paths import Leave, Rows, Test
from .regions import Finder, Region, variables_of
from .vectors import State, vectors_of


def ring_place(number: int, count: int) -> str:
    """The place of a ring that many items after its position."""
    at = f'(at_{number} + {count}U)' if count else f'at_{number}'
    return f'ring_{number}[{at} & mask_{number}]'


def inside_place(number: int, count: int) -> str:
    """The same of the ring of a channel inside, which has no locals."""
    at = f'(c_{number}->got + {count}U)' if count else f'c_{number}->got'
    return f'c_{number}->ring[{at} & c_{number}->mask]'


class RegionText:
    """The function and the tables of a region."""

    def __init__(self, number: int, region: Region, finder: Finder, starts: List[int], channels: Dict[str, int],
                 is_fixed: bool = False):
        self.number, self.region, self.finder, self.starts, self.channels = number, region, finder, starts, channels
        self.live: Dict[int, List[str]] = {}
        self.assigned: Dict[int, List[str]] = {}
        self.numbers: Dict[int, Dict[str, int]] = {}
        self.constants: Dict[int, Dict[str, str]] = {}
        for p in region.laps:
            self.live[p], self.assigned[p] = variables_of(self.rows(p), finder.loops[p])
            self.numbers[p] = self.numbers_of(p)
            self.constants[p] = {name: f'INT64_C({value})' for name, value in self.numbers[p].items()}
            self.live[p] = [name for name in self.live[p] if name not in self.constants[p]]
        self.put_count = dict.fromkeys(region.inside, 0)
        self.got_count = {c: 0 for c in (*region.inside, *region.gets, *region.puts)}
        self.body: List[str] = []
        for p, lap, place in region.order:
            self.body += self.row(p, lap, place)
        self.vectors = None if is_fixed else vectors_of(self)
        self.ways = WAYS[:1] if is_fixed else WAYS

    def rows(self, p: int) -> Rows:
        """The rows of a member."""
        return self.finder.rows[self.finder.entries[p].process]

    def numbers_of(self, p: int) -> Dict[str, int]:
        """The parameters that a member never sets."""
        rows, entry = self.rows(p), self.finder.entries[p]
        changed = {row.target for row in rows.rows if isinstance(row, (Assign, Read))}
        values = zip(rows.process.pars, entry.values)
        return {name: value for name, value in values if name not in changed}

    def carried(self) -> Iterator[Tuple[int, str]]:
        """The variables that one period leaves to the next."""
        for p in self.region.laps:
            yield from ((p, name) for name in self.live[p] if name in self.assigned[p])

    def row(self, p: int, lap: int, place: int) -> Iterator[str]:
        """A row of a period, and the mark of the one after it: the rows of other members may come in between."""
        row, label = self.rows(p).rows[place], f'm{p}_{lap}_'
        values = Values('      ', self.rows(p).cells, f'm{p}_', self.constants[p])
        if place == self.finder.loops[p].head + 1 and place in self.targets(p):
            yield f'    {label}{place}:;'
        yield '    {'
        if isinstance(row, Assign):
            value = values.value(row.value)
            if value != f'm{p}_{row.target}':
                values.add(f'm{p}_{row.target} = {value};')
        elif isinstance(row, Test):
            if row.is_loop:
                values.add_goto('fuel == 0U', 'starved')
                values.add('fuel--;')
            value = values.value(row.condition)
            values.add_goto(f'{value} == 0', f'{label}{row.otherwise}')
        elif isinstance(row, Leave):
            values.add(f'goto {label}{row.to};')
        elif isinstance(row, Read):
            self.read(values, p, row)
        elif isinstance(row, Write):
            self.write(values, p, row)
        yield from values.lines
        yield '    }'
        if place + 1 in self.targets(p):
            yield f'    {label}{place + 1}:;'

    def targets(self, p: int) -> List[int]:
        """The rows of a lap to which another row goes."""
        loop, rows = self.finder.loops[p], self.rows(p).rows
        inner = rows[loop.head + 1:loop.end]
        return [*(row.to for row in inner if isinstance(row, Leave)),
                *(row.otherwise for row in inner if isinstance(row, Test))]

    def read(self, values: Values, p: int, row: Read) -> None:
        """A read of a channel inside, or of a ring."""
        c = self.finder.channel_at(p, row.port)
        number, count = self.channels[c], self.got_count[c]
        self.got_count[c] += 1
        if c not in self.region.inside:
            values.add(f'm{p}_{row.target} = {ring_place(number, count)};')
        else:
            first = self.region.inside[c]
            item = f'first_{number}_{count}' if count < first else f'item_{number}_{count - first}'
            values.add(f'm{p}_{row.target} = {item};')
        values.add(f'if (is_traced) {{ kpn_record(network, KPN_GET, {p}, {number}, m{p}_{row.target}); }}')

    def write(self, values: Values, p: int, row: Write) -> None:
        """A write to a channel inside, or to a ring."""
        c, value = self.finder.channel_at(p, row.port), values.value(row.value)
        number = self.channels[c]
        if c not in self.region.inside:
            count = self.got_count[c]
            self.got_count[c] += 1
            values.add(f'{ring_place(number, count)} = {value};')
        else:
            values.add(f'item_{number}_{self.put_count[c]} = {value};')
            self.put_count[c] += 1
        values.add(f'if (is_traced) {{ kpn_record_put(network, {p}, {number}, {value}); }}')

    def lines(self) -> Iterator[str]:
        """The function, and its tables."""
        head = f'region_{self.number}(struct kpn_network *network, unsigned self'
        names = ', '.join(self.finder.names[p] for p in self.region.laps)
        yield f'/* {names} */'
        if self.vectors:
            yield from self.vectors.lines(f'vectors_{self.number}')
        yield f'KPN_INLINE enum kpn_stop any_{head}, const bool is_traced) {{'
        yield from self.beginning()
        yield '  while (made < periods) {'
        yield from self.period()
        yield '  }'
        yield from self.behind_vectors()
        yield from self.ending()
        yield '}'
        for word, value in self.ways:
            yield f'static enum kpn_stop {word}_{head}) {{ return any_region_{self.number}(network, self, {value}); }}'
        yield from self.tables()

    def beginning(self) -> Iterator[str]:
        """The locals: how many periods can be made, rings, first items, variables."""
        yield '  int64_t *const kept = network->variables;'
        yield '  size_t made = 0;'
        yield '  size_t periods = KPN_MOST_ITEMS;'
        yield '  enum kpn_stop stop = KPN_PAUSED;'
        yield '  unsigned fuel = KPN_FUEL;'
        yield '  struct kpn_history_mark mark = {0};'
        for needs, side, call in ((self.region.gets, 'got', 'kpn_unread'), (self.region.puts, 'put', 'kpn_free_room')):
            for c, count in needs.items():
                number = self.channels[c]
                yield f'  struct kpn_channel *const c_{number} = &network->channels[{number}];'
                yield f'  int64_t *const ring_{number} = c_{number}->ring;'
                yield f'  const size_t mask_{number} = c_{number}->mask;'
                yield f'  size_t at_{number} = c_{number}->{side};'
                yield f'  periods = kpn_periods(periods, {call}(c_{number}), {count});'
        yield '  if (periods == 0U) { stop = KPN_EMPTY; goto empty; }'
        yield from self.before_vectors()
        for c, count in self.region.inside.items():
            number = self.channels[c]
            if count:
                yield f'  struct kpn_channel *const c_{number} = &network->channels[{number}];'
            for k in range(count):
                yield f'  int64_t first_{number}_{k} = {inside_place(number, k)};'
        for p, live in self.live.items():
            for name in live:
                word = 'k' if name in self.assigned[p] else 'm'
                yield f'  int64_t {word}{p}_{name} = kept[{self.place_of(p, name)}];'
        yield '  (void)kept; (void)fuel; (void)mark; (void)is_traced;'

    def before_vectors(self) -> Iterator[str]:
        """Copies what is got if it is small. Then only the first periods are made one by one, or all for a trace."""
        if not self.vectors:
            return
        for c in (*self.region.gets, *self.region.puts):
            yield f'  int32_t {"x" if c in self.region.gets else "y"}_{self.channels[c]}[KPN_MOST_ITEMS];'
        yield '  const size_t whole = periods;'
        yield f'  const size_t first = {self.vectors.depth};'
        yield '  bool is_small = whole >= (first + KPN_LEAST_VECTORS);'
        for c, count in self.region.gets.items():
            n = self.channels[c]
            yield f'  is_small = is_small && kpn_copy_small(x_{n}, ring_{n}, at_{n}, mask_{n}, whole * {count}U);'
        for p, name in self.vectors.held():
            yield f'  const int32_t h{p}_{name} = (int32_t)kept[{self.place_of(p, name)}];'
            yield f'  is_small = is_small && (((uint64_t)kept[{self.place_of(p, name)}] + 32768U) < 65536U);'
        yield '  if (is_small && !is_traced) { periods = first; }'

    def behind_vectors(self) -> Iterator[str]:
        """The other periods at once; for a trace what they would have given is compared."""
        if not self.vectors:
            return
        arrays = ''.join([*(f', x_{self.channels[c]}' for c in self.region.gets),
                          *(f', y_{self.channels[c]}' for c in self.region.puts),
                          *(f', h{p}_{name}' for p, name in self.vectors.held())])
        yield '  if (is_small && (made == periods)) {'
        yield '    const size_t last = whole - 1U;'
        yield f'    vectors_{self.number}(first, whole{arrays});'
        body, left = self.vectors.behind()
        yield from (f'    {line}' for line in body)
        yield '    (void)last;'
        yield '    if (is_traced) {'
        for c, count in self.region.puts.items():
            n = self.channels[c]
            yield f'      if (!kpn_are_same(y_{n}, ring_{n}, at_{n} - (whole * {count}U), mask_{n}, ' \
                  f'first * {count}U, whole * {count}U)) {{ network->has_differed = true; }}'
        yield from (f'      if ({self.kept(state)} != {name}) {{ network->has_differed = true; }}'
                    for state, name in left.items())
        yield '    } else {'
        for c, count in self.region.puts.items():
            n = self.channels[c]
            yield f'      kpn_widen(y_{n}, ring_{n}, at_{n} - (first * {count}U), mask_{n}, first * {count}U, ' \
                  f'whole * {count}U);'
        yield from (f'      at_{self.channels[c]} += (whole - first) * {count}U;'
                    for c, count in (*self.region.gets.items(), *self.region.puts.items()))
        yield from (f'      {self.kept(state)} = {name};' for state, name in left.items())
        yield '      made = whole;'
        yield '    }'
        yield '  }'

    def kept(self, state: State) -> str:
        """The local of what a period leaves to the next."""
        return f'k{state[0]}_{state[1]}' if isinstance(state[0], int) else f'first_{self.channels[state[0]]}_{state[1]}'

    def place_of(self, p: int, name: str) -> int:
        """Where a variable is among those of the network."""
        return self.starts[p] + self.rows(p).variables.index(name)

    def period(self) -> Iterator[str]:
        """A period, which is kept at its end."""
        for p in self.region.laps:
            for name in self.assigned[p]:
                start = f' = k{p}_{name}' if name in self.live[p] else ' = 0'
                yield f'    int64_t m{p}_{name}{start};'
        for c, count in self.put_count.items():
            for k in range(count):
                yield f'    int64_t item_{self.channels[c]}_{k};'
        yield '    if (is_traced) { mark = kpn_history_mark(network->history); }'
        yield from self.body
        yield from self.keeping()
        yield '    made++;'
        yield '    continue;'
        text = '\n'.join(self.body)
        stops = {'overflow': 'KPN_OVERFLOW', 'zero_divisor': 'KPN_ZERO_DIVISOR', 'index': 'KPN_INDEX',
                 'shift': 'KPN_SHIFT', 'starved': '(made > 0U) ? KPN_PAUSED : KPN_LAPPED'}
        ways = [label for label in stops if f'goto {label};' in text]
        for label in ways:
            yield f'  {label}: stop = {stops[label]}; goto dropped;'
        if ways:
            yield '  dropped:'
            yield '    if (is_traced) { kpn_drop_events(network, mark); }'
            yield '    break;'

    def keeping(self) -> Iterator[str]:
        """What keeps a period."""
        for p, name in self.carried():
            yield f'    k{p}_{name} = m{p}_{name};'
        for c, count in self.region.inside.items():
            number, put = self.channels[c], self.put_count[c]
            for k in range(count):
                item = f'first_{number}_{k + put}' if k + put < count else f'item_{number}_{k + put - count}'
                yield f'    first_{number}_{k} = {item};'
        for c, count in (*self.region.gets.items(), *self.region.puts.items()):
            yield f'    at_{self.channels[c]} += {count}U;'

    def ending(self) -> Iterator[str]:
        """What a turn of a region puts back."""
        for p, name in self.carried():
            yield f'  kept[{self.place_of(p, name)}] = k{p}_{name};'
        for c, count in self.region.inside.items():
            number = self.channels[c]
            for k in range(count):
                yield f'  {inside_place(number, k)} = first_{number}_{k};'
        yield '  network->regions[self].periods += made;'
        yield f'  network->commits += made * {2 * sum(self.put_count.values())}U;'
        for needs, side in ((self.region.gets, 'got'), (self.region.puts, 'put')):
            for c in needs:
                yield f'  kpn_publish_{side}(network, c_{self.channels[c]}, at_{self.channels[c]});'
        yield 'empty:'
        yield '  return stop;'

    def tables(self) -> Iterator[str]:
        """The tables of the members and of what a period needs."""
        members = ', '.join(f'{{{p}, {laps}}}' for p, laps in self.region.laps.items())
        yield f'static const struct kpn_member members_{self.number}[] = {{{members}}};'
        inside = ', '.join(f'{{{self.channels[c]}, {count}, {self.region.most[c]}}}'
                           for c, count in self.put_count.items())
        if inside:
            yield f'static const struct kpn_inside inside_{self.number}[] = {{{inside}}};'
        needs = [f'{{{self.channels[c]}, {word}, {count}}}' for of, word in
                 ((self.region.gets, 'false'), (self.region.puts, 'true')) for c, count in of.items()]
        if needs:
            yield f'static const struct kpn_need needs_{self.number}[] = {{{", ".join(needs)}}};'
        yield ''

    def plan(self) -> str:
        """The region in the table of regions."""
        needs, inside = len(self.region.gets) + len(self.region.puts), len(self.put_count)
        tables = ', '.join(f'{name}_{self.number}' if count else 'NULL'
                           for name, count in (('needs', needs), ('inside', inside)))
        plain, traced = (f'{self.ways[it][0]}_region_{self.number}' for it in (0, -1))
        return f'  {{{plain}, {traced}, members_{self.number}, {tables}, ' \
               f'{len(self.region.laps)}, {needs}, {inside}}},'
