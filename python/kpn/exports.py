"""Runs for other programs: waveforms as VCD, events as CSV, and figures of any length."""
from __future__ import annotations

import csv
import io
import json
from typing import TYPE_CHECKING, Any, Dict, Iterator, List, Optional, Tuple

from .errors import KpnError
from .figures import Bar, bars_svg

if TYPE_CHECKING:
    from .result import Result

LEGEND = ('get', 'get'), ('put', 'put'), ('empty', 'waits for an item'), ('full', 'waits for room'), ('grow', 'grows')
VALUE_BITS, COUNT_BITS = 64, 32
# The marks of which VCD makes identifiers.
FIRST_MARK, MARKS = 33, 94


def marks_of(result: Result) -> List[Dict[str, Any]]:
    """The marks of the timeline of a run."""
    found: List[Dict[str, Any]] = json.loads(result.timeline())['traceEvents']
    return found


def csv_of(result: Result) -> str:
    """The events of a run as a table."""
    ticks = (mark['ts'] + 1 for mark in marks_of(result) if mark['name'].startswith(('get ', 'put ')))
    text = io.StringIO()
    table = csv.writer(text, lineterminator='\n')
    table.writerow(('event', 'kind', 'process', 'channel', 'value', 'tick'))
    for number, event in enumerate(result.trace()):
        table.writerow((number, *event, next(ticks) if event.kind in ('get', 'put') else None))
    return text.getvalue()


def identifier(number: int) -> str:
    """The identifier of a variable of VCD."""
    found = chr(FIRST_MARK + number % MARKS)
    return found if number < MARKS else identifier(number // MARKS - 1) + found


def bits(value: int, width: int) -> str:
    """A number in two's complement."""
    return f'b{value & ((1 << width) - 1):b}'


def changes(result: Result) -> Iterator[Tuple[int, int, str]]:
    """The ticks at which variables change: the tick, the number of the variable, its value."""
    place = {name: number for number, name in enumerate(result.layout.channels)}
    for mark in marks_of(result):
        word, _, channel = mark['name'].partition(' ')
        if mark['ph'] == 'C':
            yield mark['ts'], 2 * place[mark['name']] + 1, bits(mark['args']['unread'], COUNT_BITS)
        elif word == 'put' or word == 'get' and channel in result.layout.sources:
            yield mark['ts'] + 1, 2 * place[channel], bits(mark['args']['item'], VALUE_BITS)


def vcd_of(result: Result) -> str:
    """A run as a file of VCD."""
    lines = ['$comment a run of kpn: a tick is a nanosecond $end', '$timescale 1 ns $end', '$scope module kpn $end']
    count = 2 * len(result.layout.channels)
    for number, name in enumerate(result.layout.channels):
        lines += [f'$var wire {VALUE_BITS} {identifier(2 * number)} {name} $end',
                  f'$var wire {COUNT_BITS} {identifier(2 * number + 1)} {name}_unread $end']
    lines += ['$upscope $end', '$enddefinitions $end']
    at: Dict[int, Dict[int, str]] = {0: {it: 'b0' if it % 2 else 'bx' for it in range(count)}}
    for tick, number, value in changes(result):
        at.setdefault(tick, {})[number] = value
    for tick in sorted(at):
        lines += [f'#{tick}', *(f'{value} {identifier(number)}' for number, value in at[tick].items())]
    return '\n'.join([*lines, f'#{result.ticks + 1}', ''])


def figure_of(result: Result, first: Optional[int], last: Optional[int]) -> str:
    """A run in ticks as a picture of any length."""
    begin, end = 0 if first is None else first - 1, result.ticks if last is None else last
    if not 0 <= begin < max(end, 1):
        raise KpnError(f'the ticks are from {begin + 1} to {end}: they have to be from 1, and not empty')
    bars: List[Bar] = []
    for mark in marks_of(result):
        word, _, channel = mark['name'].partition(' ')
        if mark['ph'] == 'X':
            kind = word if word != 'waits' else 'full' if channel.endswith(' full') else 'empty'
            item = f": item {mark['args']['item']}" if word != 'waits' else ''
            start, stop = mark['ts'], mark['ts'] + mark['dur']
            when = f'tick {stop}' if stop == start + 1 else f'ticks {start + 1} to {stop}'
            title = f"{mark['name']}{item}, {when}"
            bars.append(Bar(mark['tid'] - 1, start, stop, kind, channel.split()[0], title))
        elif mark['ph'] == 'i':
            bars.append(Bar(mark['tid'] - 1, mark['ts'], mark['ts'], 'grow', '', mark['name']))
    order = ('empty', 'full', 'get', 'put', 'grow')
    bars.sort(key=lambda it: (it.row, order.index(it.kind), it.start))
    return bars_svg(result.layout.instances, bars, end, begin, legend=LEGEND)
