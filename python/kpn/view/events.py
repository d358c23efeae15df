"""The events of a trace in few bytes: a code for each event, a table of the codes, and the items of each channel."""
from __future__ import annotations

import array
import base64
import operator
import os
import zlib
from typing import Any, Callable, Dict, List, Optional, Sequence, Tuple, Union

from ..errors import KpnError
from ..trace import Trace, forms_of

# What a code stands for: a kind, a process and a channel, by numbers, or -1, and the reason of an end.
Code = Tuple[str, int, int, str]
Keep = Optional[Callable[[int], None]]
# Items below this are exact as numbers of JavaScript, and differences of 32 bits are kept in place of them.
EXACT = 2**53


class Events:
    """The events of a trace that is legal. An item is kept where it is put or fed, and not where it is got again."""

    def __init__(self, path: Union[str, 'os.PathLike[str]'], capacities: Sequence[Optional[int]]):
        head = Trace(path)
        self.path, self.version, self.policy, self.grow = path, head.version, head.policy, head.grow
        self.table: List[Code] = []
        self.codes = array.array('H')
        self.items = [array.array('q') for _ in capacities]
        self.grown = array.array('q')
        self.capacities = list(capacities)
        self.forms = forms_of(self.version)
        self._read()

    def _read(self) -> None:
        """Reads the lines. A line is known by its words but the last one, or by all of them."""
        known: Dict[bytes, Tuple[int, Keep]] = {}
        append = self.codes.append
        with open(self.path, 'rb') as lines:
            for _ in range(self.version):
                next(lines)
            for line in lines:
                head, _, last = line.rpartition(b' ')
                found = known.get(head) or known.get(line)
                if found is None:
                    found = self._learn(line, known)
                append(found[0])
                if found[1]:
                    found[1](int(last))

    def _learn(self, line: bytes, known: Dict[bytes, Tuple[int, Keep]]) -> Tuple[int, Keep]:
        """Gives a new kind of line a code, and says what to keep of its last word."""
        text = line.decode('ascii', 'replace')
        kind = text.partition(' ')[0]
        form, has_process, has_channel, _ = self.forms.get(kind, (None, False, False, False))
        words = form.fullmatch(text) if form else None
        if not words:
            raise KpnError(f'{os.fspath(self.path)} has a line that is no event: {text.rstrip()}', error='30 BadEvent')
        process = int(words[1]) if has_process else -1
        channel = int(words[1 + has_process]) if has_channel else -1
        self.table.append((kind, process, channel, str(words[2]) if kind == 'end' else ''))
        keep = self._keep(kind, channel)
        is_head = kind in ('get', 'put', 'feed', 'take') or (kind == 'grow' and self.version == 2)
        found = len(self.table) - 1, keep
        known[line.rpartition(b' ')[0] if is_head else line] = found
        return found

    def _keep(self, kind: str, channel: int) -> Keep:
        """What keeps the last word of a line of this kind; None if nothing does."""
        if kind in ('put', 'feed'):
            return self.items[channel].append
        if kind != 'grow':
            return None
        if self.version == 2:
            return self.grown.append

        def one_more(_: int) -> None:
            self.capacities[channel] = (self.capacities[channel] or 0) + 1
            self.grown.append(self.capacities[channel] or 0)
        return one_more

    def data(self) -> Dict[str, Any]:
        """All of it for the page: what JSON can hold, and bytes that were packed."""
        forms, packed = [], b''
        for items in self.items:
            form, data = encoded(items)
            forms.append(form)
            # Each list begins at a multiple of 8 bytes, as arrays of JavaScript have to.
            packed += data + bytes(-len(data) % 8)
        return {'count': len(self.codes), 'table': self.table, 'policy': self.policy, 'grow': self.grow,
                'grown': self.grown.tolist(), 'forms': forms,
                'codes': pack(planes(self.codes)), 'items': pack(packed)}


def encoded(items: array.array[int]) -> Tuple[Dict[str, Any], bytes]:
    """Items as differences in the smallest type that has them, little end first; else as they are, in 64 bits."""
    types = (('b', 2**7), ('h', 2**15), ('i', 2**31))
    least, most = min(items, default=0), max(items, default=0)
    if -EXACT < least and most < EXACT:
        steps = list(map(operator.sub, items, [0, *items[:-1]]))
        reach = max(max(steps, default=0), -min(steps, default=0))
        for name, end in types:
            if reach < end:
                return {'type': name, 'count': len(items)}, little(array.array(name, steps))
    return {'type': 'q', 'count': len(items)}, little(items)


def little(numbers: array.array[int]) -> bytes:
    """The bytes of an array, the little end first."""
    if array.array('H', [1]).tobytes() != b'\1\0':
        numbers = numbers[:]
        numbers.byteswap()
    return numbers.tobytes()


def planes(codes: array.array[int]) -> bytes:
    """The low bytes of all codes, then the high ones: they pack better so."""
    data = little(codes)
    return data[::2] + data[1::2]


def pack(data: bytes) -> str:
    """Bytes packed by zlib, as letters."""
    return base64.b64encode(zlib.compress(data, 6)).decode()
