"""Pieces of the texts of processes that parts write."""
from __future__ import annotations

from typing import Any, Iterable, List, Sequence

from ..errors import LARGEST, whole

# The most variables of a process, parameters included, the most nodes, and the most cells of its arrays and tables.
MOST_VARIABLES, MOST_NODES, MOST_CELLS = 64, 4_096, 65_536


def whole_numbers(what: str, given: Any) -> List[int]:
    """Whole numbers that were given for constants."""
    if any(isinstance(it, float) for it in given):
        raise TypeError(f'{what} has to be a whole number, and is a float: kpn.Q(15)(..) makes whole numbers of floats')
    return [whole(what, it, -LARGEST) for it in given]


def total(terms: Sequence[str]) -> str:
    """The sum of some terms, as a tree that is not deep."""
    rest = list(terms) or ['0']
    while len(rest) > 1:
        rest = [f'({rest[it]} + {rest[it + 1]})' if it + 1 < len(rest) else rest[it] for it in range(0, len(rest), 2)]
    return rest[0]


def weighted(numbers: Sequence[int], names: Iterable[str]) -> str:
    """The sum of names, each times its number: those with numbers above 0 less the others."""
    plus: List[str] = []
    minus: List[str] = []
    for number, name in zip(numbers, names):
        if number:
            (plus if number > 0 else minus).append(name if abs(number) == 1 else f'({abs(number)} * {name})')
    if not minus:
        return total(plus)
    return f'({total(plus)} - {total(minus)})' if plus else f'-{total(minus)}'


def folded(numbers: Sequence[int], names: Sequence[str]) -> str:
    """`weighted`; if the numbers are the same from both ends, each two names of one number are added first."""
    count = len(numbers)
    if count < 3 or list(numbers) != list(reversed(numbers)):
        return weighted(numbers, names)
    pairs = [f'({names[it]} + {names[count - 1 - it]})' for it in range(count // 2)]
    return weighted(numbers[:(count + 1) // 2], [*pairs, *names[count // 2:(count + 1) // 2]])


def nearest(name: str, divisor: int) -> str:
    """Statements that divide a variable and round to nearest; a half goes away from 0."""
    half = divisor // 2
    return (f'if ({name} < 0) {{ {name} = (({name} - {half}) / {divisor}); }} '
            f'else {{ {name} = (({name} + {half}) / {divisor}); }}') if divisor > 1 else ''


def zeros(names: Iterable[str]) -> str:
    """Statements that begin variables."""
    return ' '.join(f'{name} = 0;' for name in names)


def slide(name: str, count: int, first: int = 0) -> str:
    """Statements that move each of the variables NAME0, NAME1 and so on into the next."""
    return ' '.join(f'{name}{it} = {name}{it - 1};' for it in range(first + count - 1, first, -1))


def times(count: int, statements: str) -> str:
    """Statements of language 2 that do these `count` times; `n` counts."""
    return statements * count if count < 2 else f'n = 0; while n < {count} {{ {statements} n = n + 1; }}'
