"""Periods of small items as loops that C compilers make vectors of.

If no value of a region depends on itself, each one is a function of what the last periods got, but for the first ones,
which depend on what was there before. If all items that are got have 16 bits, intervals show how large each value may
become. If none leaves 32 bits, the values of many periods come from one loop without checks.
"""
from __future__ import annotations

from typing import Any, Dict, Iterator, List, NamedTuple, Optional, Tuple

from ..language import CALLED, INDEX, Assign, Expression, Read, Write

# What an item of 16 bits may be, and what a value of 32 bits may be.
SMALL, WIDE = (-2**15, 2**15 - 1), (-2**31, 2**31 - 1)
# The most values, channels of a region, and periods that have to come before the loop.
MOST_VALUES, MOST_ENDS, MOST_DEPTH = 1000, 8, 256
COMPARED = ('<', '<=', '>', '>=', '==', '!=')
# The operators of which no interval is known, or that may leave an operand out; and cells.
NOT_IN_VECTORS = ('&&', '||', '?', '~', '&', '|', '^', '<<', '>>', INDEX)

# What a period leaves to the next: a variable of a member, or the place of a first item in a channel.
State = Tuple[Any, ...]


class NoVectors(Exception):
    """The values of a region are no functions of the last items, or may be too large."""


class Interval(NamedTuple):
    """The least and the greatest that a value may be."""

    least: int
    greatest: int


class Values:
    """Values by number, each once: ('number', n), ('got', channel, place in the period, periods ago), ('state', state),
    ('held', member, variable) if no period sets it, or an operator with the numbers of its operands."""

    def __init__(self) -> None:
        self.all: List[Tuple[Any, ...]] = []
        self.numbers: Dict[Tuple[Any, ...], int] = {}

    def add(self, *value: Any) -> int:
        """The number of a value."""
        if value not in self.numbers:
            if len(self.all) == MOST_VALUES:
                raise NoVectors
            self.numbers[value] = len(self.all)
            self.all.append(value)
        return self.numbers[value]


class Period:
    """A period of a region by symbols: what it leaves in each state, and what it puts."""

    def __init__(self, text: Any):
        self.text, self.region, self.finder, self.values = text, text.region, text.finder, Values()
        self.known: Dict[State, int] = {}
        self.queues = {c: [self.values.add('state', (c, k)) for k in range(count)]
                       for c, count in self.region.inside.items()}
        self.carried = set(text.carried())
        self.gets = dict.fromkeys(self.region.gets, 0)
        self.puts: Dict[str, List[int]] = {c: [] for c in self.region.puts}
        for p, _, place in self.region.order:
            self.step(p, text.rows(p).rows[place])
        self.left = {state: self.known[state] for state in sorted(self.carried)}
        self.left.update({(c, k): it for c, queue in self.queues.items() for k, it in enumerate(queue)})
        self.met: Dict[Tuple[int, int], int] = {}
        self.depth = 0

    def step(self, p: int, row: Any) -> None:
        """Does a row."""
        if isinstance(row, Assign):
            self.known[p, row.target] = self.value(p, row.value)
        elif isinstance(row, Read):
            c = self.finder.channel_at(p, row.port)
            if c in self.queues:
                self.known[p, row.target] = self.queues[c].pop(0)
            else:
                self.known[p, row.target] = self.values.add('got', c, self.gets[c], 0)
                self.gets[c] += 1
        elif isinstance(row, Write):
            c = self.finder.channel_at(p, row.port)
            (self.queues[c] if c in self.queues else self.puts[c]).append(self.value(p, row.value))
        else:
            raise NoVectors

    def value(self, p: int, tree: Expression) -> int:
        """An expression over what is known."""
        if isinstance(tree, str):
            tree = self.text.numbers[p].get(tree, tree)
        if isinstance(tree, int):
            return self.values.add('number', tree)
        if isinstance(tree, str):
            found = self.known.get((p, tree))
            if found is None and (p, tree) not in self.carried:
                return self.values.add('held', p, tree)
            return self.values.add('state', (p, tree)) if found is None else found
        if tree[0] in NOT_IN_VECTORS:
            raise NoVectors
        return self.values.add(tree[0], *(self.value(p, it) for it in tree[1:]))

    def at(self, number: int, ago: int, path: Tuple[State, ...] = ()) -> int:
        """A value of this many periods ago as a function of what was got."""
        if (number, ago) not in self.met:
            self.met[number, ago] = self.found(self.values.all[number], ago, path)
        return self.met[number, ago]

    def found(self, value: Tuple[Any, ...], ago: int, path: Tuple[State, ...]) -> int:
        """Such a value that was not asked for before. A state that depends on itself has none."""
        self.depth = max(self.depth, ago)
        if ago > MOST_DEPTH:
            raise NoVectors
        if value[0] in ('number', 'held'):
            return self.values.add(*value)
        if value[0] == 'got':
            return self.values.add('got', value[1], value[2], ago)
        if value[0] == 'state':
            state = value[1]
            if state in path:
                raise NoVectors
            return self.at(self.left[state], ago + 1, (*path, state))
        return self.values.add(value[0], *(self.at(it, ago, path) for it in value[1:]))


class Vectors:
    """The loop of a region, and the states after it; `depth` periods have to come before it."""

    def __init__(self, text: Any):
        self.text, self.gets = text, text.region.gets
        if not self.gets or len(self.gets) + len(text.region.puts) > MOST_ENDS:
            raise NoVectors
        period = Period(text)
        self.values = period.values.all
        self.puts = {c: [period.at(it, 0) for it in puts] for c, puts in period.puts.items()}
        self.states = {state: period.at(it, 0) for state, it in period.left.items()}
        self.depth = period.depth
        self.ranges: Dict[int, Interval] = {}
        for number in (*(it for puts in self.puts.values() for it in puts), *self.states.values()):
            self.range_of(number)

    def range_of(self, number: int) -> Interval:
        """What a value may be, if it has 32 bits."""
        if number not in self.ranges:
            value = self.values[number]
            if value[0] == 'number':
                found = Interval(value[1], value[1])
            elif value[0] in ('got', 'held'):
                found = Interval(*SMALL)
            else:
                found = interval(value[0], [self.range_of(it) for it in value[1:]])
            if found.least < WIDE[0] or found.greatest > WIDE[1]:
                raise NoVectors
            self.ranges[number] = found
        return self.ranges[number]

    def lines(self, name: str) -> Iterator[str]:
        """The function of the loop: what is got and put lies in arrays, from the first period of the turn on."""
        yield f'static KPN_VECTORS void {name}(size_t first, size_t end{self.parameters()}) {{'
        yield '  for (size_t t = first; t < end; t++) {'
        names: Dict[int, str] = {}
        body: List[str] = []
        for c, puts in self.puts.items():
            for k, number in enumerate(puts):
                value = self.named(number, names, body, 't')
                body.append(f'y_{self.text.channels[c]}[{place("t", len(puts), k)}] = {value};')
        yield from (f'    {line}' for line in body)
        yield '  }'
        yield '}'

    def parameters(self) -> str:
        """The arrays as parameters."""
        return ''.join([*(f', const int32_t *restrict x_{self.text.channels[c]}' for c in self.gets),
                        *(f', int32_t *restrict y_{self.text.channels[c]}' for c in self.puts),
                        *(f', int32_t h{p}_{name}' for p, name in self.held())])

    def held(self) -> List[Tuple[int, str]]:
        """The variables that no period sets, and that some value needs."""
        found = (self.values[number] for number in self.ranges)
        return [(it[1], it[2]) for it in found if it[0] == 'held']

    def named(self, number: int, names: Dict[int, str], body: List[str], time: str) -> str:
        """The name of a value in a period, which is computed once."""
        value = self.values[number]
        if value[0] == 'number':
            return f'INT32_C({value[1]})' if value[1] > WIDE[0] else 'INT32_MIN'
        if number not in names:
            if value[0] == 'held':
                return f'h{value[1]}_{value[2]}'
            if value[0] == 'got':
                _, c, k, ago = value
                text = f'x_{self.text.channels[c]}[{place(time, self.gets[c], k - ago * self.gets[c])}]'
            else:
                parts = [self.named(it, names, body, time) for it in value[1:]]
                text = of_operands(value[0], parts)
            names[number] = f'u{len(names)}'
            body.append(f'int32_t {names[number]} = {text};')
        return names[number]

    def behind(self) -> Tuple[List[str], Dict[State, str]]:
        """Statements for the period `last`, and the names of what it leaves."""
        names: Dict[int, str] = {}
        body: List[str] = []
        left = {state: self.named(number, names, body, 'last') for state, number in self.states.items()}
        return body, left


def place(time: str, rate: int, offset: int) -> str:
    """A place in an array that has this many items of each period."""
    scaled = time if rate == 1 else f'({time} * {rate}U)'
    return scaled if offset == 0 else f'{scaled} {"+" if offset > 0 else "-"} {abs(offset)}U'


def of_operands(mark: str, of: List[str]) -> str:
    """An operation as C, whose truth is 1 or 0."""
    if mark == '!' or mark in COMPARED:
        test = f'{of[0]} {mark} {of[1]}' if of[1:] else f'{of[0]} == 0'
        return f'({test}) ? INT32_C(1) : INT32_C(0)'
    if mark in CALLED:
        return f'({of[0]} {"<" if mark == "min" else ">"} {of[1]}) ? {of[0]} : {of[1]}'
    return f'{of[0]} {mark} {of[1]}' if of[1:] else f'{mark}{of[0]}'


def interval(mark: str, of: List[Interval]) -> Interval:
    """What an operation may give."""
    if mark == '!' or mark in COMPARED:
        return Interval(0, 1)
    if len(of) == 1:
        return Interval(-of[0].greatest, -of[0].least)
    a, b = of
    if mark in CALLED:
        least_or_greatest = min if mark == 'min' else max
        return Interval(*map(least_or_greatest, a, b))
    if mark == '+':
        return Interval(a.least + b.least, a.greatest + b.greatest)
    if mark == '-':
        return Interval(a.least - b.greatest, a.greatest - b.least)
    if mark == '*':
        ends = [x * y for x in a for y in b]
        return Interval(min(ends), max(ends))
    if b.least != b.greatest or b.least < 1:
        raise NoVectors
    most = max(abs(a.least), abs(a.greatest))
    most = most // b.least if mark == '/' else min(most, b.least - 1)
    return Interval(-most if a.least < 0 else 0, most if a.greatest > 0 else 0)


def vectors_of(text: Any) -> Optional[Vectors]:
    """The loop of a region, if there is one."""
    try:
        return Vectors(text)
    except (NoVectors, RecursionError):
        return None
