"""Where a fault has ended a process, and with which values, as `kpn` tells it of a run and of a trace."""
from __future__ import annotations

import re
from typing import TYPE_CHECKING, Dict, NamedTuple, Tuple

from .errors import Place

if TYPE_CHECKING:
    from .network import Layout

TOLD = re.compile(r'[^:]*:(\d+):(\d+): `(\w+)` ended at `([^`]*)`(?:, where (.*))?')
CELLS = re.compile(r'(\w+) has (\d+) cells')


class Fault(NamedTuple):
    """A fault: its word, where it stands in the text of its process, the expression there, and the values in that: of
    names, and of cells and indices as they stand there."""

    word: str
    place: Place
    expression: str
    values: Dict[str, int]

    def __str__(self) -> str:
        values = ', '.join(f'{name} = {value}' for name, value in self.values.items())
        return f'{self.word} in `{self.expression}` ({self.place}){", with " * bool(values)}{values}'


def faults_of(faults: Dict[str, str], layout: Layout, told: str) -> Dict[str, Fault]:
    """The faults of a run by their instances, with what is told of their places."""
    made = {}
    for found in map(TOLD.fullmatch, told.splitlines()):
        if found and found[3] in faults:
            line, column, name, expression, values = found.groups()
            before = layout.text.splitlines(keepends=True)[:int(line) - 1]
            place = layout.spot_of(sum(map(len, before)) + int(column) - 1).place()
            known = dict(map(value_in, values.split(', '))) if values else {}
            made[name] = Fault(faults[name], place, expression, known)
    return made


def value_in(told: str) -> Tuple[str, int]:
    """The name and the value in `x = 7` or `a has 3 cells`."""
    cells = CELLS.fullmatch(told)
    name, _, value = (f'cells of {cells[1]}', '', cells[2]) if cells else told.rpartition(' = ')
    return name, int(value)
