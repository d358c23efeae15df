"""Traces: the events of a run, read one after the other."""
from __future__ import annotations

import os
import re
from typing import TYPE_CHECKING, Dict, Iterator, NamedTuple, Optional, Sequence, Tuple, Union

from .errors import KpnError

if TYPE_CHECKING:
    from .network import Network

# The words of the faults that end a process.
FAULTS = ('overflow', 'zero-divisor', 'index', 'shift')
# What a line has after its kind: a process P, a channel C, an item V, a capacity N, the reason R of an end.
FORMS = {'get': 'P C V', 'put': 'P C V', 'wait-empty': 'P C', 'wait-full': 'P C', 'end': 'P R', 'feed': 'C V',
         'close': 'C', 'take': 'C V', 'leave': 'C', 'grow': 'P C N'}
PARTS = {'P': '(0|[1-9][0-9]{0,4})', 'C': '(0|[1-9][0-9]{0,4})', 'V': '(0|-?[1-9][0-9]{0,18})', 'N': '([1-9][0-9]*)',
         'R': f'(done|{"|".join(FAULTS)})'}
RULES = re.compile('policy (cycles|all) grow (one|double)\n')


class Event(NamedTuple):
    """An event. Its process and its channel have names if the trace is read with its network, and else numbers.

    `value` is the item of a `get`, `put`, `feed` or `take`, the new capacity of a `grow`, and the reason of an `end`:
    `done` or the word of a fault. What an event does not have is None.
    """

    kind: str
    process: Union[None, int, str]
    channel: Union[None, int, str]
    value: Union[None, int, str]


class Trace:
    """The events of a stored trace, of version 1 or 2, to loop over. Each loop reads the file anew, line by line.

    `keeper` is what the file goes with. A line that is no event raises KpnError, as does a file that is no trace.
    """

    def __init__(self, path: Union[str, os.PathLike[str]], instances: Sequence[str] = (),
                 channels: Sequence[str] = (), keeper: object = None):
        self.path, self.instances, self.channels, self.keeper = path, instances, channels, keeper
        self.version, self.policy, self.grow = self._head()

    def _head(self) -> Tuple[int, str, str]:
        """The version, the policy and the growth, as the first lines tell."""
        with open(self.path, encoding='ascii', errors='replace', newline='\n') as lines:
            first = lines.readline()
            rules = RULES.fullmatch(lines.readline()) if first == 'kpn-trace 2\n' else None
        if rules:
            return 2, rules[1], rules[2]
        if first != 'kpn-trace 1\n':
            raise KpnError(f'{self.path} does not begin as a trace does', error='31 BadHead')
        return 1, 'cycles', 'one'

    def __iter__(self) -> Iterator[Event]:
        forms = forms_of(self.version)
        with open(self.path, encoding='ascii', errors='replace', newline='\n') as lines:
            for number, line in enumerate(lines, 1):
                if number <= self.version:
                    continue
                kind = line.partition(' ')[0]
                form, has_process, has_channel, is_number = forms.get(kind, NOTHING)
                found = form.fullmatch(line)
                if not found:
                    raise KpnError(f'line {number} of {self.path} is no event: {line.rstrip()}',
                                   error=f'30 BadEvent at {number}')
                words = list(found.groups())
                process = named(self.instances, words.pop(0)) if has_process else None
                channel = named(self.channels, words.pop(0)) if has_channel else None
                value = (int(words[0]) if is_number else words[0]) if words else None
                yield Event(kind, process, channel, value)

    def __repr__(self) -> str:
        return f'<Trace {self.path}, version {self.version}>'


Form = Tuple['re.Pattern[str]', bool, bool, bool]
NOTHING: Form = (re.compile('(?!)'), False, False, False)


def forms_of(version: int) -> Dict[str, Form]:
    """For each kind of event the form of its line, and whether it has a process, a channel and a number as value."""
    found = {}
    for kind, form in {**FORMS, 'grow': 'P C' if version == 1 else 'P C N'}.items():
        line = re.compile(' '.join([kind, *(PARTS[part] for part in form.split())]) + '\n')
        found[kind] = line, 'P' in form, 'C' in form, 'R' not in form
    return found


def named(names: Sequence[str], number: str) -> Union[int, str]:
    """The name with this number; without one, the number."""
    place = int(number)
    return names[place] if place < len(names) else place


def read_trace(path: Union[str, os.PathLike[str]], net: Optional[Network] = None) -> Trace:
    """A `Trace` that `kpn run --trace` has stored in a file; with its network, events have names.

    Raises OSError if the file cannot be opened, and KpnError if it does not begin as a trace does.
    """
    layout = net.layout() if net else None
    return Trace(path, layout.instances, layout.channels) if layout else Trace(path)
