"""The errors of the package, how they show a place, and how a number of a call is looked at."""
from __future__ import annotations

import operator
from typing import TYPE_CHECKING, Any, List, NamedTuple, Optional, Tuple

if TYPE_CHECKING:
    from .result import Wait

LARGEST = 2**63 - 1
# The most seconds of a timeout, some 30 years.
LONGEST_WAIT = 1e9


class Place(NamedTuple):
    """A place in the text of a part or of a network. Lines and columns count from 1."""

    what: str
    line: int
    column: int

    def __str__(self) -> str:
        return f'{self.what}, line {self.line}, column {self.column}'


class KpnError(Exception):
    """A network that cannot be built or run, or a program `kpn` that is not there or has failed.

    `place` is where the fault is in the source of a part or of a network, if it is anywhere there. `error` is what
    `kpn` writes after `kpn: `, such as `15 NoReader at 1`, if `kpn` refused an input.
    """

    def __init__(self, message: str, *, place: Optional[Place] = None, error: Optional[str] = None):
        super().__init__(message)
        self.place = place
        self.error = error


class Deadlock(KpnError):
    """A run in which processes wait for one another for ever, each for an item that the next one has to write.

    `rings` is the list of these rings, each a list of a `Wait` for each of its processes.
    """

    def __init__(self, message: str, rings: List[List[Wait]]):
        super().__init__(message)
        self.rings = rings

    def __reduce__(self) -> Tuple[Any, ...]:
        return type(self), (str(self), self.rings)


class GrowthWarning(UserWarning):
    """A channel holds ever more items the longer the run goes on, since its ends have unequal rates."""


def whole(what: str, given: Any, least: int = 0, most: int = LARGEST) -> int:
    """A whole number that was given for something, if it is from `least` to `most`.

    Raises TypeError if it is no whole number, as 1.5 and True, and KpnError if it is out of range.
    """
    if isinstance(given, bool) or not hasattr(given, '__index__'):
        raise TypeError(f'{what} has to be a whole number, and not {given!r}')
    number = int(operator.index(given))
    if not least <= number <= most:
        raise KpnError(f'{what} is {number}: it has to be '
                       + (f'at least {least}' if most == LARGEST else f'from {least} to {most}'))
    return number


def seconds(timeout: Optional[float]) -> Optional[float]:
    """The timeout of a call; None if it is longer than any wait. Raises KpnError if it is negative or no number."""
    if timeout is not None and not timeout >= 0:
        raise KpnError(f'the timeout is {timeout}: it has to be a number of seconds, 0 or more')
    return timeout if timeout is None or timeout < LONGEST_WAIT else None


class Spot(NamedTuple):
    """A character of a text, and what the text is."""

    what: str
    text: str
    offset: int

    def place(self) -> Place:
        """Its line and its column."""
        before = self.text[:self.offset]
        return Place(self.what, before.count('\n') + 1, self.offset - before.rfind('\n'))

    def show(self, sentence: str) -> Tuple[str, str, str]:
        """The place with a sentence, the line, and a caret under the place."""
        place = self.place()
        line = self.text.split('\n')[place.line - 1]
        margin = ''.join('\t' if it == '\t' else ' ' for it in line[:place.column - 1])
        return f'{place}: {sentence}', line, f'{margin}^'
