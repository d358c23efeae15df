"""Regions: processes whose periods are made in one function.

A process may belong to one if it is a loop without end whose talks stand outside of inner blocks, after assignments
and writes of first items, and if it has no arrays. So it has the same talks in each turn of its loop, a lap. In a
period of a region each member makes a fixed number of laps, and each channel inside has at the end as many items as at
the beginning. The order of the rows in a period is found by stepping the members under the capacities of the channels.
So it is the order of a legal history.
"""
from __future__ import annotations

import collections
import math
from typing import Dict, Iterator, List, Mapping, NamedTuple, Optional, Sequence, Set, Tuple

from ..balance import Link, Unbalanced, rounds_of
from ..language import INDEX, Assign, Description, Read, Write
from .paths import Leave, Rows, Test

# The most rows of a period, and of those of all regions, for each of which gcc takes some 15 ms. What is larger than the
# first falls apart at its widest channel; regions beyond the second are left to turns.
MOST_ROWS, MOST_OF_ALL = 500, 2_000


class Loop(NamedTuple):
    """A process as first items and laps: the row at the head of its loop, the row after the last one of a lap, the
    talks of a lap at each port, and the first items at each port."""

    head: int
    end: int
    rates: Dict[str, int]
    first: Dict[str, int]


class Region(NamedTuple):
    """Its members with their laps in a period, the channels inside with the items that lie there at the beginning and
    at most, what a period gets and puts elsewhere, and the rows of a period as (member, lap, row)."""

    laps: Dict[int, int]
    inside: Dict[str, int]
    most: Dict[str, int]
    gets: Dict[str, int]
    puts: Dict[str, int]
    order: List[Tuple[int, int, int]]


class Part(NamedTuple):
    """Processes that channels connect: one, or two parts, apart at a channel that is at least as wide as those within.
    It has the least process, and how many rows and how many times its period the laps of the whole network make."""

    first: int
    rows: int
    periods: int
    halves: Tuple[Part, ...] = ()

    def members(self) -> Set[int]:
        """Its processes."""
        found, left = set(), [self]
        while left:
            part = left.pop()
            left += part.halves
            found.add(part.first)
        return found


def loop_of(rows: Rows) -> Optional[Loop]:
    """A process as first items and laps, if it has this form."""
    first: Dict[str, int] = collections.Counter()
    for head, row in enumerate(rows.rows):
        if isinstance(row, Test):
            break
        if not isinstance(row, (Assign, Write)):
            return None
        if isinstance(row, Write):
            first[row.port] += 1
    else:
        return None
    if not row.is_loop or not isinstance(row.condition, int) or row.condition == 0:
        return None
    end = row.otherwise - 1
    rates: Dict[str, int] = collections.Counter()
    for place in range(head + 1, end):
        inner = rows.rows[place]
        if isinstance(inner, (Read, Write)):
            rates[inner.port] += 1
        if isinstance(inner, Test):
            if any(isinstance(it, (Read, Write)) for it in rows.rows[place:end_of(rows, place)]):
                return None
    return Loop(head, end, rates, first) if rates else None


def end_of(rows: Rows, place: int) -> int:
    """The row after an `if` or a `while`."""
    row = rows.rows[place]
    assert isinstance(row, Test)
    before = rows.rows[row.otherwise - 1]
    assert isinstance(before, Leave)
    return row.otherwise if row.is_loop else before.to


def head_of(heads: Dict[int, int], p: int) -> int:
    """The least process that a process was joined with; the ways there become shorter."""
    while heads[p] != p:
        heads[p] = p = heads[heads[p]]
    return p


class Finder:
    """Finds the regions of a network."""

    def __init__(self, description: Description, rows: Dict[str, Rows]):
        self.rows, self.entries = rows, [entry for _, entry in description.instances]
        self.names = [name for name, _ in description.instances]
        self.capacities = {name: capacity or 0 for _, name, capacity in description.channels}
        loops = {name: loop_of(it) for name, it in rows.items()}
        self.rates = {p: loop.rates for p, entry in enumerate(self.entries) for loop in [loops[entry.process]] if loop}
        # An array would have to be copied in each period.
        self.loops = {p: loop for p, entry in enumerate(self.entries) for loop in [loops[entry.process]]
                      if loop and not rows[entry.process].arrays()}
        self.writers: Dict[str, Tuple[int, str]] = {}
        self.readers: Dict[str, Tuple[int, str]] = {}
        for p, entry in enumerate(self.entries):
            process = rows[entry.process].process
            self.readers.update({c: (p, port) for c, port in zip(entry.ins, process.ins)})
            self.writers.update({c: (p, port) for c, port in zip(entry.outs, process.outs)})
        self.links = {c for c in self.capacities if c in self.writers and c in self.readers
                      and self.writers[c][0] in self.loops and self.readers[c][0] in self.loops}

    def regions(self) -> Iterator[Region]:
        """The regions of two members and more, as many as may be."""
        room = MOST_OF_ALL
        for members in reversed(self.components(set(self.loops), self.links)):
            laps = self.balance(members, self.inside(members)) if len(members) > 1 else None
            left = [self.whole(laps)] if laps else []
            while left:
                part = left.pop()
                if part.rows // part.periods > MOST_ROWS:
                    left += [it for it in part.halves if it.halves]
                    continue
                found = part.members()
                region = self.period({p: laps[p] // part.periods for p in sorted(found)}, self.inside(found))
                if region and len(region.order) <= room:
                    room -= len(region.order)
                    yield region

    def inside(self, members: Set[int]) -> Set[str]:
        """The channels from one of these processes to another, both of which may belong to a region."""
        return {c for p in members for c in self.entries[p].outs if c in self.links and self.readers[c][0] in members}

    def whole(self, laps: Mapping[int, int]) -> Part:
        """All these processes as a part."""
        parts = {p: Part(p, count * (self.loops[p].end - self.loops[p].head), count) for p, count in laps.items()}
        heads = {p: p for p in laps}
        for c in sorted(self.inside(set(laps)), key=lambda c: (self.capacities[c], c)):
            first, second = sorted(head_of(heads, ends[c][0]) for ends in (self.writers, self.readers))
            if first != second:
                heads[second] = first
                one, other = parts[first], parts.pop(second)
                parts[first] = Part(first, one.rows + other.rows, math.gcd(one.periods, other.periods), (one, other))
        return parts[min(laps)]

    def periods(self) -> Dict[str, int]:
        """How many items each channel carries in a period of all that is connected with it, where that is known."""
        found: Dict[str, int] = {}
        links = {c for c in self.capacities if c in self.writers and c in self.readers}
        for members in self.components(set(range(len(self.entries))), links):
            inside = {c for p in members for c in self.entries[p].outs if c in links}
            laps = self.balance(members, inside) if members <= set(self.rates) else None
            for p, count in (laps or {}).items():
                entry, process = self.entries[p], self.rows[self.entries[p].process].process
                ports = zip((*entry.ins, *entry.outs), (*process.ins, *process.outs))
                found.update({c: count * self.rates[p].get(port, 0) for c, port in ports})
        return found

    def components(self, members: Set[int], links: Set[str]) -> List[Set[int]]:
        """The sets of processes that these channels connect."""
        heads = {p: p for p in sorted(members)}
        for c in links:
            first, second = sorted(head_of(heads, ends[c][0]) for ends in (self.writers, self.readers))
            heads[second] = first
        found: Dict[int, Set[int]] = {}
        for p in heads:
            found.setdefault(head_of(heads, p), set()).add(p)
        return list(found.values())

    def balance(self, members: Set[int], inside: Set[str]) -> Optional[Dict[int, int]]:
        """The least numbers of laps after which each channel has as many items as before, if there are any."""
        ends = [(c, *self.writers[c], *self.readers[c]) for c in inside]
        links = [Link(c, writer, reader, self.rates[writer].get(put, 0), self.rates[reader].get(got, 0))
                 for c, writer, put, reader, got in ends]
        if not all(it.put and it.got for it in links):
            return None
        try:
            return dict(sorted(rounds_of(members, links).items()))
        except Unbalanced:
            return None

    def period(self, laps: Dict[int, int], inside: Set[str]) -> Optional[Region]:
        """The region of these laps, if its members can make a period under the capacities."""
        first = {c: self.loops[self.writers[c][0]].first.get(self.writers[c][1], 0) for c in sorted(inside)}
        if any(count > self.capacities[c] for c, count in first.items()):
            return None
        region = Region(laps, first, dict(first), {}, {}, [])
        for p, count in laps.items():
            entry, process = self.entries[p], self.rows[self.entries[p].process].process
            sides = (entry.ins, process.ins, region.gets), (entry.outs, process.outs, region.puts)
            for channels, ports, needs in sides:
                for c, port in zip(channels, ports):
                    if c not in inside and self.loops[p].rates.get(port):
                        needs[c] = count * self.loops[p].rates[port]
        return region if self.step(region) else None

    def step(self, region: Region) -> bool:
        """Steps the members through a period, each as far as it can go, and notes the order."""
        unread, at, moved = dict(region.inside), {p: (0, self.loops[p].head + 1) for p in region.laps}, True
        while moved:
            moved = False
            for p, count in region.laps.items():
                lap, place = at[p]
                while lap < count and self.may_step(p, place, unread):
                    region.order.append((p, lap, place))
                    region.most.update((c, number) for c, number in unread.items() if number > region.most[c])
                    place, moved = place + 1, True
                    if place == self.loops[p].end:
                        lap, place = lap + 1, self.loops[p].head + 1
                at[p] = lap, place
        return all(at[p][0] == count for p, count in region.laps.items())

    def channel_at(self, p: int, port: str) -> str:
        """The channel at a port of a process."""
        entry, process = self.entries[p], self.rows[self.entries[p].process].process
        return dict(zip((*process.ins, *process.outs), (*entry.ins, *entry.outs)))[port]

    def may_step(self, p: int, place: int, unread: Dict[str, int]) -> bool:
        """Whether a member may go on past a row; counts the items of the channels inside."""
        row = self.rows[self.entries[p].process].rows[place]
        if not isinstance(row, (Read, Write)):
            return True
        c = self.channel_at(p, row.port)
        if c not in unread:
            return True
        if unread[c] == (0 if isinstance(row, Read) else self.capacities[c]):
            return False
        unread[c] += -1 if isinstance(row, Read) else 1
        return True


def variables_of(rows: Rows, loop: Loop) -> Tuple[List[str], List[str]]:
    """The variables that have to be known at the head of a loop, and those that laps set."""
    known: Set[str] = set()
    live: Dict[str, None] = {}
    assigned: Dict[str, None] = {}
    inner = loop.head
    for place in range(loop.head + 1, loop.end):
        row = rows.rows[place]
        live.update(dict.fromkeys(it for it in used_in(row) if it not in known))
        if isinstance(row, Test):
            inner = max(inner, end_of(rows, place))
        if isinstance(row, (Assign, Read)):
            assigned[row.target] = None
            if place >= inner:
                known.add(row.target)
    return list(live), list(assigned)


def used_in(row: object) -> Sequence[str]:
    """The variables in the expression of a row."""
    tree = row.condition if isinstance(row, Test) else row.value if isinstance(row, (Assign, Write)) else 0
    left, found = [tree], []
    while left:
        tree = left.pop()
        if isinstance(tree, str):
            found.append(tree)
        elif isinstance(tree, tuple):
            left += tree[2:] if tree[0] == INDEX else tree[1:]
    return found
