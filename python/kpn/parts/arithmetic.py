"""Parts that compute an item of one item of each stream."""
from __future__ import annotations

from typing import Optional, Sequence, Union, cast

from ..errors import whole
from ..process import Process, Stream
from .wiring import need

ROUNDINGS = {
    'nearest': 'if (x < 0) { x = (x - (divisor / 2)); } else { x = (x + (divisor / 2)); } y = (x / divisor);',
    'floor': 'y = (x / divisor); if ((x % divisor) < 0) { y = (y - 1); } else { }',
    'truncate': 'y = (x / divisor);',
}
SATURATE = Process.from_text('''
process saturate(in i; out o; par low, high) {
  while 1 {
    read i x;
    if (x < low) { x = low; } else { }
    if (x > high) { x = high; } else { }
    write o x;
  }
}''')
# Brings y into the numbers of two's complement with modulus m.
WRAPPED = '''
    y = (y % m);
    if (y >= (m / 2)) { y = (y - m); } else { }
    if (y < -(m / 2)) { y = (y + m); } else { }
'''
WRAP = Process.from_text(f'''
process wrap(in i; out o; par m) {{
  while 1 {{
    read i y;
    {WRAPPED}
    write o y;
  }}
}}''')
MOST_BITS = 62


def pointwise(expression: str, *, name: str = 'pointwise', cap: Optional[int] = None,
              **given: Union[Stream, int]) -> Stream:
    """Computes an expression of the language of one item of each stream, as in `pointwise('(a * k)', a=x, k=3)`.

    The other words of the call name the streams, 1 to 16, and the numbers of the expression. `name` is that of the
    process. What is wrong in the expression raises KpnError with the place in the text of the process.
    Rates: one out for one on each in. Faults: those of the expression, `overflow` and `zero-divisor`.
    """
    streams = {it: stream for it, stream in given.items() if isinstance(stream, Stream)}
    numbers = {it: number for it, number in given.items() if it not in streams}
    ports = [f'in_{it}' for it in streams]
    pars = f'; par {", ".join(numbers)}' if numbers else ''
    reads = ' '.join(f'read in_{it} {it};' for it in streams)
    process = Process.from_text(f'process {name}(in {", ".join(ports)}; out result{pars}) {{\n'
                                f'  while 1 {{ {reads} write result {expression}; }}\n}}')
    return cast(Stream, process(*streams.values(), *numbers.values(), cap=cap))


def gain(stream: Stream, k: int) -> Stream:
    """Multiplies each item by k.

    Rates: one out for one in. Faults: overflow.
    """
    return pointwise('(x * k)', name='gain', x=stream, k=k)


def offset(stream: Stream, k: int) -> Stream:
    """Adds k to each item.

    Rates: one out for one in. Faults: overflow.
    """
    return pointwise('(x + k)', name='offset', x=stream, k=k)


def add(a: Stream, b: Stream) -> Stream:
    """The sum of an item of each.

    Rates: one out for one on each in. Faults: overflow.
    """
    return pointwise('(a + b)', name='add', a=a, b=b)


def subtract(a: Stream, b: Stream) -> Stream:
    """An item of the first less one of the second.

    Rates: one out for one on each in. Faults: overflow.
    """
    return pointwise('(a - b)', name='subtract', a=a, b=b)


def multiply(a: Stream, b: Stream) -> Stream:
    """The product of an item of each.

    Rates: one out for one on each in. Faults: overflow.
    """
    return pointwise('(a * b)', name='multiply', a=a, b=b)


def sum_of(streams: Sequence[Stream]) -> Stream:
    """The sum of an item of each of one or more streams, by a tree of adders.

    Rates: one out for one on each in. Faults: overflow, also of a sum of some of them.
    """
    need(len(streams) > 0, 'a sum takes at least one stream')
    rest = list(streams)
    while len(rest) > 1:
        rest = [add(*rest[it:it + 2]) if it + 1 < len(rest) else rest[it] for it in range(0, len(rest), 2)]
    return rest[0]


def scale(stream: Stream, divisor: int, multiplier: int = 1, rounding: str = 'nearest') -> Stream:
    """Multiplies each item, divides it by a divisor of 1 or more, and rounds.

    `rounding` is `nearest` (a half goes away from 0), `floor` (down) or `truncate` (towards 0).
    Rates: one out for one in. Faults: overflow, of the product and with `nearest` of that and half the divisor.
    """
    divisor = whole('the divisor', divisor, 1)
    need(rounding in ROUNDINGS, f'rounding is {rounding!r}: it has to be one of {", ".join(ROUNDINGS)}')
    process = Process.from_text(f'process scale_{rounding}(in i; out o; par multiplier, divisor) {{ while 1 {{ '
                                f'read i x; x = (x * multiplier); {ROUNDINGS[rounding]} write o y; }} }}')
    return cast(Stream, process(stream, multiplier, divisor))


def saturate(stream: Stream, low: int, high: int) -> Stream:
    """Brings each item below `low` up to it, and each above `high`, not less than `low`, down to it.

    Rates: one out for one in. Faults: none.
    """
    need(low <= high, f'low is {low} and high is {high}: low may not be larger')
    return cast(Stream, SATURATE(stream, low, high))


def modulus(bits: int) -> int:
    """The modulus of numbers of this many bits."""
    return 1 << whole('the number of bits', bits, 1, MOST_BITS)


def wrap(stream: Stream, bits: int) -> Stream:
    """Keeps the lowest bits of each item, as a number of two's complement: from -2^(bits - 1) to 2^(bits - 1) - 1.

    Rates: one out for one in. Faults: none. `bits` is 1 to 62.
    """
    return cast(Stream, WRAP(stream, modulus(bits)))
