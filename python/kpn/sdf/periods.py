"""The graph of a network: for each process the period in which it gets and puts.

A process is stepped with the values of its parameters, while what it reads is unknown. Only the variables that its
tests depend on count: where they come again at the same place, a period is over.
"""
from __future__ import annotations

from typing import TYPE_CHECKING, Any, Dict, List, Mapping, NamedTuple, Optional, Sequence, Set, Tuple, Type

from ..errors import KpnError
from ..language import Assign, Entry, Read, Reader, Write
from ..native.paths import End, Leave, Rows, Test, rows_of
from ..native.regions import used_in
from ..values import Unknown, value_of, value_or_none

if TYPE_CHECKING:
    from ..network import Network
    from .graph import Graph

MOST_STEPS = 1_000_000


class Period(NamedTuple):
    """The ports of a process in the order of its gets and puts: those before the first period, and those of one."""

    before: List[Tuple[str, bool]]
    period: List[Tuple[str, bool]]


def deciding(rows: Rows) -> Set[str]:
    """The variables that the tests depend on."""
    found = {name for row in rows.rows if isinstance(row, Test) for name in used_in(row)}
    while True:
        more = {name for row in rows.rows if isinstance(row, Assign) and row.target in found for name in used_in(row)}
        if more <= found:
            return found
        found |= more


def period_of(rows: Rows, values: Sequence[int]) -> Period:
    """The period of a process with these parameters. Raises Unknown if there is none, or none is found."""
    names = deciding(rows)
    known: Dict[str, Optional[int]] = {name: 0 for name in names}
    known.update({name: value for name, value in zip(rows.process.pars, values) if name in names})
    tables = {name: cells.values for name, cells in rows.cells.items() if cells.values is not None}
    talks: List[Tuple[str, bool]] = []
    met: Dict[Tuple[Any, ...], int] = {}
    place = 0
    for _ in range(MOST_STEPS):
        row = rows.rows[place]
        if isinstance(row, End):
            break
        if isinstance(row, Test) and row.is_loop:
            first = met.setdefault((place, *known.values()), len(talks))
            if first < len(talks):
                return Period(talks[:first], shortest(talks[first:]))
        place += 1
        if isinstance(row, Test):
            place = place if value_of(row.condition, known, tables) else row.otherwise
        elif isinstance(row, Leave):
            place = row.to
        elif isinstance(row, (Read, Write)):
            talks.append((row.port, isinstance(row, Read)))
        if isinstance(row, Read) and row.target in names:
            known[row.target] = None
        elif isinstance(row, Assign) and row.target in names:
            known[row.target] = value_or_none(row.value, known, tables)
    raise Unknown


def shortest(period: List[Tuple[str, bool]]) -> List[Tuple[str, bool]]:
    """The shortest period of which this one is a multiple."""
    return next(period[:it] for it in range(1, len(period) + 1)
                if len(period) % it == 0 and period[:it] * (len(period) // it) == period)


def graph_of(make: Type[Graph], net: Network) -> Graph:
    """The graph of a network."""
    text = Reader(str(net)).description()
    rows = {it.name: rows_of(it, number, text.tables) for number, it in enumerate(text.processes)}
    capacities = {name: capacity or 0 for _, name, capacity in text.channels}
    graph = make('network')
    ends: Dict[Tuple[str, bool], Tuple[str, List[int]]] = {}
    first: Dict[str, int] = {}
    for name, entry in text.instances:
        process = rows[entry.process].process
        ports = {(port, is_get): channel for names, channels, is_get in
                 ((process.ins, entry.ins, True), (process.outs, entry.outs, False))
                 for port, channel in zip(names, channels)}
        found = period_at(name, entry, rows[entry.process], {it: capacities[channel] for it, channel in ports.items()})
        graph.actor(name, [1] * len(found.period))
        first.update({channel: found.before.count(it) for it, channel in ports.items() if not it[1]})
        ends.update({(channel, it[1]): (name, [int(talk == it) for talk in found.period])
                     for it, channel in ports.items()})
    for _, channel, capacity in text.channels:
        if (channel, False) in ends and (channel, True) in ends:
            (writer, puts), (reader, gets) = ends[channel, False], ends[channel, True]
            graph.channel(writer, reader, puts, gets, first[channel], capacity, channel)
    return graph


def period_at(name: str, entry: Entry, rows: Rows, capacities: Mapping[Tuple[str, bool], int]) -> Period:
    """The period of an instance. It begins as late as it can, but so that no get comes before it, and that first items
    have room. Raises KpnError if there is none."""
    try:
        before, period = period_of(rows, entry.values)
    except Unknown:
        raise KpnError(f'`{name}` has no constant rates: what it gets and puts has to be the same again and again '
                       'without an end, whatever its items are') from None
    while True:
        gets = [port for port, is_get in before if is_get]
        full = [it for it in before if not it[1] and before.count(it) > capacities[it]]
        if not gets and not full:
            return Period(before, period)
        if before[-1] != period[-1]:
            port, what = (gets or [full[0][0]])[0], 'gets from' if gets else 'puts more than fits on'
            raise KpnError(f'`{name}` {what} its port `{port}` before its period begins, which an actor can\'t')
        period = [before[-1], *period[:-1]]
        before = before[:-1]
