"""Lock step as C: one function that makes what follows one more item of each source.

If each source gets one item at a time, all processes come to wait for items again, at rows that do not depend on the
items, and after some such steps, the phases, they wait where they waited before. The function makes one phase, in one
piece: the items that processes hand on are locals. As a period of a region a phase is whole or nothing: with a fault,
or without an item or room, nothing of it is kept, and the processes go on by their turns (lock.c).
"""
from __future__ import annotations

import difflib
from typing import Dict, Iterator, List, NamedTuple, Optional, Set, Tuple

from ..language import Assign, Read, Write
from .c_text import Values
from .paths import End, Leave, Row, Rows, Test
from .region_text import ring_place
from .regions import Finder, used_in

# The most phases, unread items of a channel at the end of one, rows of a phase, and lines of the function.
MOST_PHASES, MOST_UNREAD, MOST_ROWS, MOST_LINES = 16, 16, 1000, 5000


class State(NamedTuple):
    """Where each process waits, and how many items are unread on each channel but the sinks."""

    at: Tuple[int, ...]
    unread: Tuple[int, ...]


class Piece(NamedTuple):
    """What a process does from one wait to the next: the place of each row."""

    process: int
    places: List[int]


class Phase(NamedTuple):
    """The state at its beginning, and what is done with one more item of each source."""

    start: State
    pieces: List[Piece]


class Finding:
    """Finds the phases of a network, if it has them."""

    def __init__(self, finder: Finder, kinds: Dict[str, str]):
        self.finder, self.kinds, self.channels = finder, kinds, list(finder.capacities)
        self.at = [0] * len(finder.entries)
        self.unread = dict.fromkeys(self.channels, 0)

    def state(self) -> State:
        """The state now."""
        unread = (0 if self.kinds[c] == 'sink' else self.unread[c] for c in self.channels)
        return State(tuple(self.at), tuple(unread))

    def row(self, p: int) -> Row:
        """The row at which a process is."""
        return self.finder.rows[self.finder.entries[p].process].rows[self.at[p]]

    def may_step(self, p: int) -> bool:
        """Whether a process may go on past its row; counts the items. Sinks always have room."""
        row = self.row(p)
        if not isinstance(row, (Read, Write)):
            return True
        c = self.finder.channel_at(p, row.port)
        if isinstance(row, Read):
            self.unread[c] -= self.unread[c] > 0 or 1
            return self.unread[c] >= 0 or self.undo(c)
        if self.kinds[c] == 'channel' and self.unread[c] == self.finder.capacities[c]:
            return False
        self.unread[c] += 1
        return True

    def undo(self, c: str) -> bool:
        """There is no item."""
        self.unread[c] = 0
        return False

    def settle(self) -> List[Piece]:
        """Lets each process go as far as it can, again and again until none can."""
        pieces, moved = [], True
        while moved and sum(len(it.places) for it in pieces) < MOST_ROWS:
            moved = False
            for p in range(len(self.at)):
                places, loop = [], self.finder.loops[p]
                while len(places) < MOST_ROWS and self.may_step(p):
                    places.append(self.at[p])
                    self.at[p] = loop.head if self.at[p] + 1 == loop.end else self.at[p] + 1
                if places:
                    pieces.append(Piece(p, places))
                    moved = True
        return pieces

    def phases(self) -> Optional[List[Phase]]:
        """The phases; none if processes come to wait for room, or the states do not recur soon."""
        count = len(self.finder.entries)
        if 'source' not in self.kinds.values() or len(self.finder.loops) < count or not self.can_begin():
            return None
        self.settle()
        found: List[Phase] = []
        while len(found) <= 2 * MOST_PHASES and max(self.state().unread) <= MOST_UNREAD:
            start = self.state()
            if not all(isinstance(self.row(p), Read) for p in range(count)):
                return None
            before = [number for number, it in enumerate(found) if it.start == start]
            if before:
                cycle = found[before[0]:]
                return cycle if len(cycle) <= MOST_PHASES else None
            for c in self.channels:
                self.unread[c] += self.kinds[c] == 'source'
            found.append(Phase(start, self.settle()))
        return None

    def can_begin(self) -> bool:
        """Whether each process reads somewhere in its loop, so that it comes to wait."""
        rows = self.finder.rows
        return all(any(isinstance(it, Read) for it in rows[self.finder.entries[p].process].rows)
                   for p in self.finder.loops)


def live_at(rows: Rows) -> List[Set[str]]:
    """The variables at each row that may be read before they are set."""
    found: List[Set[str]] = [set() for _ in rows.rows]
    moved = True
    while moved:
        moved = False
        for place in reversed(range(len(rows.rows))):
            row = rows.rows[place]
            behind = [] if isinstance(row, End) else [row.to] if isinstance(row, Leave) else [place + 1]
            behind += [row.otherwise] if isinstance(row, Test) else []
            live = set().union(*(found[it] for it in behind))
            live -= {row.target} if isinstance(row, (Assign, Read)) else set()
            live |= {it for it in used_in(row) if it in rows.variables}
            moved = moved or live != found[place]
            found[place] = live
    return found


class LockText:
    """The function of the phases, and its tables."""

    def __init__(self, phases: List[Phase], finder: Finder, kinds: Dict[str, str], starts: List[int]):
        self.phases, self.finder, self.kinds, self.starts = phases, finder, kinds, starts
        self.channels = {c: number for number, c in enumerate(finder.capacities)}
        self.inside = [c for c in self.channels if kinds[c] == 'channel']
        self.slots: Dict[str, int] = {}
        for c in self.inside:
            most = max(it.start.unread[self.channels[c]] for it in phases)
            if most:
                self.slots[c] = sum(self.most_unread(it) for it in self.slots)
        self.base = starts[-1]
        self.constants = [self.constants_of(p) for p in range(len(finder.entries))]
        self.names: Dict[str, str] = {}
        self.blocks: List[Tuple[str, int]] = []
        self.gots = [dict.fromkeys(self.channels, 0) for _ in phases]
        self.puts = [dict.fromkeys(self.channels, 0) for _ in phases]
        for number in range(len(phases)):
            self.merge(list(self.phase(number)), 1 << number)

    def most_unread(self, c: str) -> int:
        """The most items that lie on a channel between phases."""
        return max(it.start.unread[self.channels[c]] for it in self.phases)

    def token_count(self) -> int:
        """How many items lie inside between phases, at most: each has a place after the variables."""
        return sum(map(self.most_unread, self.slots))

    def rows(self, p: int) -> Rows:
        """The rows of a process."""
        return self.finder.rows[self.finder.entries[p].process]

    def constants_of(self, p: int) -> Dict[str, str]:
        """The parameters that a process never sets."""
        rows, values = self.rows(p), self.finder.entries[p].values
        changed = {row.target for row in rows.rows if isinstance(row, (Assign, Read))}
        return {name: f'INT64_C({value})' for name, value in zip(rows.process.pars, values) if name not in changed}

    # ---- phases as blocks, each with the phases that have it

    def merge(self, blocks: List[str], phase: int) -> None:
        """Adds the blocks of a phase; those that another one has too stand there once."""
        matcher = difflib.SequenceMatcher(None, [text for text, _ in self.blocks], blocks, False)
        merged: List[Tuple[str, int]] = []
        for kind, first, last, begin, end in matcher.get_opcodes():
            merged += [(text, of | (phase if kind == 'equal' else 0)) for text, of in self.blocks[first:last]]
            merged += [(text, phase) for text in blocks[begin:end]] if kind != 'equal' else []
        self.blocks = merged

    def phase(self, number: int) -> Iterator[str]:
        """The blocks of a phase: whether it can be made, the rows, what is kept."""
        pieces = [(it, list(self.piece(number, it))) for it in self.phases[number].pieces]
        yield from self.conditions(number)
        for piece, lines in pieces:
            yield f'/* {self.finder.names[piece.process]} */\n' + '\n'.join(lines)
        yield from self.keeping(number)

    def conditions(self, number: int) -> Iterator[str]:
        """There has to be one more item of each source, and room in the sinks."""
        for c, n in self.channels.items():
            if self.kinds[c] == 'source':
                yield f'if ((c_{n}->put - c_{n}->got) < {self.phases[number].start.unread[n] + 1}U) {{ goto dropped; }}'
            elif self.kinds[c] == 'sink' and self.puts[number][c]:
                yield f'if (kpn_room_now(c_{n}) < {self.puts[number][c]}U) {{ goto dropped; }}'

    def piece(self, number: int, piece: Piece) -> Iterator[str]:
        """The rows of a process up to its next wait. Labels have the process, the lap and the row, and after the
        blocks are merged a mark of their own."""
        p, rows, lap = piece.process, self.rows(piece.process).rows, 0
        passed = [rows[it] for it in piece.places if it != self.finder.loops[p].head]
        targets = {row.to for row in passed if isinstance(row, Leave)}
        targets |= {row.otherwise for row in passed if isinstance(row, Test)}
        for place in piece.places:
            label = f'l{p}_{lap}_LABEL_'
            if place == self.finder.loops[p].head:
                lap += 1
                continue
            if place == self.finder.loops[p].head + 1 and place in targets:
                yield f'{label}{place}:;'
            yield '{'
            yield from self.row(number, p, rows[place], label)
            yield '}'
            if place + 1 in targets:
                yield f'{label}{place + 1}:;'

    def row(self, number: int, p: int, row: Row, label: str) -> Iterator[str]:
        """A row as statements."""
        values = Values('  ', self.rows(p).cells, f'm{p}_', self.constants[p])
        if isinstance(row, Assign):
            value = values.value(row.value)
            values.add(f'{self.local(p, row.target)} = {value};')
        elif isinstance(row, Test):
            if row.is_loop:
                values.add_goto('fuel == 0U', 'dropped')
                values.add('fuel--;')
            value = values.value(row.condition)
            values.add_goto(f'{value} == 0', f'{label}{row.otherwise}')
        elif isinstance(row, Leave):
            values.add(f'goto {label}{row.to};')
        elif isinstance(row, Read):
            c = self.finder.channel_at(p, row.port)
            values.add(f'{self.local(p, row.target)} = {self.item(number, c, self.gots[number][c])};')
            self.gots[number][c] += 1
        elif isinstance(row, Write):
            c, value = self.finder.channel_at(p, row.port), values.value(row.value)
            place = self.puts[number][c] + self.phases[number].start.unread[self.channels[c]]
            values.add(f'{self.item(number, c, place)} = {value};')
            self.puts[number][c] += 1
        for name in used_in(row):
            if name in self.rows(p).variables:
                self.local(p, name)
        yield from values.lines

    def local(self, p: int, name: str) -> str:
        """The local of a variable."""
        if name not in self.constants[p]:
            self.names.setdefault(f'm{p}_{name}', '0')
        return f'm{p}_{name}'

    def item(self, number: int, c: str, place: int) -> str:
        """An item of a channel by its place after those that were got before: a local, or a place in a ring."""
        n = self.channels[c]
        if self.kinds[c] != 'channel':
            return ring_place(n, place)
        self.names.setdefault(f'q{n}_{place}', '0')
        return f'q{n}_{place}'

    def keeping(self, number: int) -> Iterator[str]:
        """What lies inside after a phase, and the positions outside."""
        behind = self.phases[(number + 1) % len(self.phases)].start
        for c, slot in self.slots.items():
            n, got = self.channels[c], self.gots[number][c]
            moves = [f'kept[{self.base + slot + k}] = {self.item(number, c, got + k)};'
                     for k in range(behind.unread[n]) if got or self.puts[number][c]]
            if moves:
                yield '\n'.join(moves)
        for c, n in self.channels.items():
            for kind, side, counts in (('source', 'got', self.gots), ('sink', 'put', self.puts)):
                if self.kinds[c] == kind and counts[number][c]:
                    yield f'c_{n}->{side} += {counts[number][c]}U;'
        yield f'network->commits += {sum(self.gots[number].values()) + sum(self.puts[number].values())}U;'

    # ---- C

    def lines(self) -> Iterator[str]:
        """The function and its tables."""
        yield '/* one more item of each source */'
        yield 'static bool lock_step(struct kpn_network *network, unsigned phase) {'
        yield '  int64_t *const kept = network->variables;'
        yield '  const unsigned bit = 1U << phase;'
        yield '  unsigned fuel = KPN_FUEL;'
        yield '  bool is_made = false;'
        for c, n in self.channels.items():
            if self.kinds[c] != 'channel':
                side = 'got' if self.kinds[c] == 'source' else 'put'
                yield f'  struct kpn_channel *const c_{n} = &network->channels[{n}];'
                yield f'  int64_t *const ring_{n} = c_{n}->ring;'
                yield f'  const size_t mask_{n} = c_{n}->mask;'
                yield f'  const size_t at_{n} = c_{n}->{side};'
        self.load()
        yield from (f'  int64_t {name} = {value};' for name, value in self.names.items())
        yield '  (void)bit; (void)fuel; (void)kept;'
        yield from self.body()
        yield from self.ending()
        yield from self.tables()

    def load(self) -> None:
        """Gives the locals of what is known between phases its values."""
        for p, _ in enumerate(self.finder.entries):
            for name in self.kept_of(p):
                self.names[f'm{p}_{name}'] = f'kept[{self.starts[p] + self.rows(p).variables.index(name)}]'
        for c, slot in self.slots.items():
            for k in range(self.most_unread(c)):
                self.names[f'q{self.channels[c]}_{k}'] = f'kept[{self.base + slot + k}]'

    def kept_of(self, p: int) -> List[str]:
        """The variables of a process whose values go from one phase to another."""
        live = live_at(self.rows(p))
        known = set().union(*(live[phase.start.at[p]] for phase in self.phases))
        return [it for it in self.rows(p).variables if it in known and it not in self.constants[p]]

    def body(self) -> Iterator[str]:
        """The blocks, each under the phases that have it."""
        for number, (text, phases) in enumerate(self.blocks):
            is_always = phases == (1 << len(self.phases)) - 1
            lines = text.replace('LABEL', str(number)).split('\n')
            yield from () if is_always else (f'  if ((bit & {phases}U) != 0U) {{',)
            yield from (f'  {"" if is_always else "  "}{line}' for line in lines)
            yield from () if is_always else ('  }',)

    def ending(self) -> Iterator[str]:
        """What is kept of the variables; and the ways out of a phase that is dropped."""
        for p, _ in enumerate(self.finder.entries):
            assigned = {row.target for row in self.rows(p).rows if isinstance(row, (Assign, Read))}
            for name in self.kept_of(p):
                if name in assigned:
                    yield f'  kept[{self.starts[p] + self.rows(p).variables.index(name)}] = m{p}_{name};'
        yield '  is_made = true;'
        text = '\n'.join(text for text, _ in self.blocks)
        ways = [it for it in ('overflow', 'zero_divisor', 'index', 'shift', 'dropped') if f'goto {it};' in text]
        yield from (f'{it}:' for it in ways)
        yield '  return is_made;'
        yield '}'

    def tables(self) -> Iterator[str]:
        """Where processes wait at the beginning of each phase, and what was done from the first phase to it."""
        processes, finder = range(len(self.finder.entries)), self.finder
        rows: List[int] = []
        waits: List[int] = []
        for phase in self.phases:
            rows += phase.start.at
            reads = [self.rows(p).rows[phase.start.at[p]] for p in processes]
            waits += [self.channels[finder.channel_at(p, row.port)] for p, row in zip(processes, reads)
                      if isinstance(row, Read)]
        unread = [it for phase in self.phases for it in phase.start.unread]
        laps, gots = [0] * len(processes), dict.fromkeys(self.channels, 0)
        all_laps, all_gots = list(laps), list(gots.values())
        for number, phase in enumerate(self.phases):
            for piece in phase.pieces:
                laps[piece.process] += piece.places.count(finder.loops[piece.process].head)
            gots = {c: count + self.gots[number][c] for c, count in gots.items()}
            all_laps += laps
            all_gots += gots.values()
        slots = [self.slots.get(c, 0) for c in self.channels]
        sources = [n for c, n in self.channels.items() if self.kinds[c] == 'source']
        for kind, name, values in (('uint16_t', 'rows', rows), ('uint16_t', 'waits', waits),
                                   ('uint16_t', 'unread', unread), ('uint16_t', 'laps', all_laps),
                                   ('uint16_t', 'gots', all_gots), ('uint16_t', 'slots', slots),
                                   ('uint16_t', 'sources', sources)):
            yield f'static const {kind} lock_{name}[] = {{{", ".join(map(str, values))}}};'
        yield 'static const struct kpn_lock_plan lock_plan = {'
        yield '  lock_step, lock_rows, lock_waits, lock_unread, lock_laps, lock_gots, lock_slots, lock_sources,'
        yield f'  {self.base}, {len(self.phases)}, {len(sources)}}};'


def lock_of(finder: Finder, kinds: Dict[str, str], starts: List[int]) -> Optional[LockText]:
    """The lock step of a network, if it has one of that size."""
    phases = Finding(finder, kinds).phases()
    found = LockText(phases, finder, kinds, starts) if phases else None
    return found if found and sum(text.count('\n') for text, _ in found.blocks) <= MOST_LINES else None
