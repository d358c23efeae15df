"""Numbers with a point in a language of whole numbers."""
from __future__ import annotations

import fractions
import operator
from typing import Any, List, NamedTuple, Sequence

from .errors import LARGEST, KpnError, whole

MOST_BITS = 62
# A sum of a filter is right as long as it is in these.
LOWEST = -LARGEST
# A filter with feedback is followed until its answer to one item is this small, and for at most this many items.
SILENCE, MOST_ITEMS = 1e-12, 1_000_000


class Range(NamedTuple):
    """The least and the largest value of a sum of a filter."""

    name: str
    low: int
    high: int

    @property
    def may_overflow(self) -> bool:
        """Whether a value of it is no number of the language."""
        return self.low < LOWEST or self.high > LARGEST


class Q:
    """Numbers with `bits` bits after the point, 0 to 62: `Q(15)(0.5)` is the whole number 16384.

    A call takes a number, or a list of numbers or of lists, NumPy's arrays too, and gives the nearest whole numbers of
    the language; a half goes away from 0. Raises KpnError for a number that is too large, or is none.
    """

    def __init__(self, bits: int):
        self.bits = whole('the number of bits', bits, 0, MOST_BITS)
        self.one = 1 << self.bits

    def __repr__(self) -> str:
        return f'Q({self.bits})'

    def __call__(self, given: Any) -> Any:
        given = plain(given)
        if isinstance(given, list):
            return [self(it) for it in given]
        try:
            exact = abs(fractions.Fraction(given)) * self.one
        except (ValueError, OverflowError):
            raise KpnError(f'{given!r} is no number') from None
        number = int(exact + fractions.Fraction(1, 2)) * (1 if given > 0 else -1)
        if abs(number) > LARGEST:
            raise KpnError(f'{given!r} with {self.bits} bits after the point is too large: '
                           'it has to be less than 2^63')
        return number

    def real(self, given: Any) -> Any:
        """The number that a whole number stands for, or the list of those of a list."""
        given = plain(given)
        return [self.real(it) for it in given] if isinstance(given, list) else given / self.one

    def error(self, given: Any) -> float:
        """How far the number that is made is from the given one; of a list, of the number that is farthest."""
        given = plain(given)
        if isinstance(given, list):
            return max(map(self.error, given), default=0.0)
        return float(abs(fractions.Fraction(given) - fractions.Fraction(self(given), self.one)))

    def sums(self, b: Sequence[float], low: int, high: int, a: Sequence[float] = ()) -> List[Range]:
        """The ranges of the sums of a filter with these coefficients, if its items are from `low` to `high`.

        `b` weighs the items and `a`, without its first 1, what came out before, as for `parts.iir`; without `a` it is a
        FIR. There is a `Range` for the sum after each coefficient. The last one bounds the sum of any of the products;
        to round it adds half of the divisor. For a filter with feedback the ranges are a little too wide. Raises
        KpnError if its answer to one item does not fade.
        """
        low, high = min(low, 0), max(high, 0)
        given = [*self.ranges('b', self(b), low, high)]
        if len(plain(a)):
            out = self.answer(b, a) * max(abs(low), abs(high))
            bound = min(int(out) + 1, 1 << 100)
            given += self.ranges('a', [-it for it in self(a)], -bound, bound, given[-1])
        return given

    def ranges(self, name: str, numbers: List[int], low: int, high: int, before: Range = Range('', 0, 0)
               ) -> List[Range]:
        """The ranges of the sums of products by these numbers, one after the other."""
        found = []
        for place, number in enumerate(numbers):
            ends = number * low, number * high
            before = Range(f'{name}[{place}]', before.low + min(ends), before.high + max(ends))
            found.append(before)
        return found

    def overflowing(self, b: Sequence[float], low: int, high: int, a: Sequence[float] = ()) -> List[str]:
        """The names of the sums that may overflow, such as `b[3]` for the one after that product."""
        return [it.name for it in self.sums(b, low, high, a) if it.may_overflow]

    def answer(self, b: Sequence[float], a: Sequence[float]) -> float:
        """The sum of the absolute values of what comes out for one item 1, of the coefficients as they are made."""
        made_b, made_a = self.real(self(b)), self.real(self(a))
        before, total, quiet = [0.0] * len(made_a), 0.0, 0
        for place in range(MOST_ITEMS):
            item = (made_b[place] if place < len(made_b) else 0.0) - sum(map(operator.mul, made_a, before))
            before = [item, *before[:-1]]
            total += abs(item)
            quiet = quiet + 1 if abs(item) < SILENCE else 0
            if quiet > len(made_a) + len(made_b):
                return total * (1 + 1e-6)
            if total > LARGEST:
                break
        raise KpnError('the filter does not fade: with its coefficients as they are made it is hardly stable')


def plain(given: Any) -> Any:
    """A list in place of an array or another sequence, and a number as it is."""
    if hasattr(given, 'tolist'):
        given = given.tolist()
    return list(given) if isinstance(given, (list, tuple, range)) else given
