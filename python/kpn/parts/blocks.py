"""Parts for frames and blocks of items, such as those of pictures: other orders, transforms, sorts and products."""
from __future__ import annotations

import math
from typing import Any, List, Sequence, Tuple, cast

from ..errors import whole
from ..fixed import Q, plain
from ..process import Process, Stream
from .arithmetic import MOST_BITS
from .texts import MOST_VARIABLES, nearest, total, weighted, whole_numbers
from .wiring import need

SIZE = 8
# The bits of the cosines after the point, and those that the first of two transforms keeps for the second.
COSINE_BITS, KEPT_BITS = 20, 4
EXCHANGE = Process.from_text('''
process exchange(in a, b; out low, high) {
  while 1 {
    read a x; read b y;
    if (x > y) { write low y; write high x; } else { write low x; write high y; }
  }
}''')


def permute(stream: Stream, order: Sequence[int]) -> Stream:
    """Of each frame of len(order) items, 1 to 64, gives those at the places that `order` tells; it names each once.

    Rates: a frame out for a frame in; each item goes on as soon as those before it have. Faults: none. Source: the
    definition.
    """
    count = whole('the length of a frame', len(order), 1, MOST_VARIABLES)
    need(sorted(order) == list(range(count)), f'the order has to be the numbers from 0 to {count - 1}, each once')
    text, taken = '', 0
    for place in order:
        text += ''.join(f'read i x{it}; ' for it in range(taken, place + 1)) + f'write o x{place};\n'
        taken = max(taken, place + 1)
    return cast(Stream, Process.from_text(f'process permute(in i; out o) {{ while 1 {{ {text} }} }}')(stream))


def transpose(stream: Stream, rows: int = SIZE, columns: int = SIZE) -> Stream:
    """The transpose of each matrix of rows x columns items, at most 64; they come by rows, and go by rows.

    Rates: a matrix out for a matrix in. Faults: none. Source: `permute`.
    """
    rows, columns = whole('the number of rows', rows, 1), whole('the number of columns', columns, 1)
    return permute(stream, [row * columns + column for column in range(columns) for row in range(rows)])


def zigzag(stream: Stream, inverse: bool = False) -> Stream:
    """Of each block of 8 x 8 items, by rows, gives them along the diagonals, as JPEG does; or undoes that.

    Rates: a block out for a block in. Faults: none. Source: ITU-T T.81, 1992, by a sort of the diagonals.
    """
    order = sorted(range(SIZE**2), key=lambda it: (it // SIZE + it % SIZE,
                                                   (it // SIZE if (it // SIZE + it % SIZE) % 2 else it % SIZE)))
    return permute(stream, [order.index(it) for it in range(SIZE**2)] if inverse else order)


def to_blocks(stream: Stream, width: int, size: int = SIZE) -> Stream:
    """Of a picture of this width, by rows, gives blocks of size x size, 1 to 16, from left to right and down.

    The width is a multiple of the size. The rows wait in channels of that capacity.
    Rates: `size` rows out for `size` rows in. Faults: none. Source: a channel for each row.
    """
    return by_rows(stream, *of_picture(width, size), False)


def from_blocks(stream: Stream, width: int, size: int = SIZE) -> Stream:
    """Undoes `to_blocks`.

    Rates: `size` rows out for `size` rows in. Faults: none. Source: a channel for each row.
    """
    return by_rows(stream, *of_picture(width, size), True)


def of_picture(width: int, size: int) -> Tuple[int, int]:
    """The width of a picture and the size of its blocks."""
    size, width = whole('the size of a block', size, 1, 16), whole('the width', width, 1)
    need(width % size == 0, f'the width is {width}: it has to be a multiple of {size}')
    return width, size


def by_rows(stream: Stream, width: int, size: int, is_blocks: bool) -> Stream:
    """Deals rows to channels by pieces of one length, and takes them by pieces of another."""
    numbers = range(1, size + 1)
    given, taken = (size, width) if is_blocks else (width, size)
    deals = ' '.join(f'k = {given}; while (k > 0) {{ read i x; write o{it} x; k = (k - 1); }}' for it in numbers)
    takes = ' '.join(f'k = {taken}; while (k > 0) {{ read i{it} x; write o x; k = (k - 1); }}' for it in numbers)
    rows = Process.from_text(f'process deal_rows(in i; out {", ".join(f"o{it}" for it in numbers)}) '
                             f'{{ while 1 {{ {deals} }} }}')(stream, cap=min(width, stream.net.limit))
    return cast(Stream, Process.from_text(f'process take_rows(in {", ".join(f"i{it}" for it in numbers)}; out o) '
                                          f'{{ while 1 {{ {takes} }} }}')(*(rows if size > 1 else (rows,))))


def dct(stream: Stream, *, shift: int = 0, inverse: bool = False) -> Stream:
    """The cosine transform of each 8 items, times 2^-shift, -20 to 42, and rounded to nearest; or its inverse.

    It is orthonormal: item k is c(k) / 2 times the sum of x[n] cos((2n + 1) k pi / 16), with c(0) = sqrt(1/2), else 1.
    Rates: 8 out for 8 in. Faults: overflow, for items of 2^40 or more. The error is at most 4e-6 of the largest item,
    and a half. Source: N. Ahmed, T. Natarajan and K. R. Rao, "Discrete cosine transform", 1974, by its symmetry with
    half of the products.
    """
    divisor = 1 << COSINE_BITS + whole('the shift', shift, -COSINE_BITS, MOST_BITS - COSINE_BITS)
    cosines = [[(math.sqrt(0.5) if k == 0 else 1.0) / 2 * math.cos((2 * n + 1) * k * math.pi / 16)
                for n in range(SIZE)] for k in range(SIZE)]
    rows = Q(COSINE_BITS)(cosines)
    half = range(SIZE // 2)
    reads = ' '.join(f'read i x{it};' for it in range(SIZE))
    if inverse:
        sums = ' '.join(f'{name}{n} = {weighted([rows[k][n] for k in range(first, SIZE, 2)], names)};'
                        for name, first in (('e', 0), ('d', 1)) for n in half
                        for names in [[f'x{k}' for k in range(first, SIZE, 2)]])
        outs = [f'(e{n} + d{n})' for n in half] + [f'(e{n} - d{n})' for n in reversed(half)]
    else:
        sums = ' '.join(f'e{n} = (x{n} + x{SIZE - 1 - n}); d{n} = (x{n} - x{SIZE - 1 - n});' for n in half)
        outs = [weighted(rows[k][:SIZE // 2], [f'{"d" if k % 2 else "e"}{n}' for n in half]) for k in range(SIZE)]
    writes = '\n'.join(f'y = {it}; {nearest("y", divisor)} write o y;' for it in outs)
    return cast(Stream, Process.from_text(f'process {"idct" if inverse else "dct"}(in i; out o) '
                                          f'{{ while 1 {{ {reads} {sums} {writes} }} }}')(stream))


def dct_blocks(stream: Stream, inverse: bool = False) -> Stream:
    """The cosine transform of blocks of 8 x 8 items, by rows, or its inverse. It is orthonormal.

    Rates: 64 out for 64 in. Faults: overflow, for items of 2^36 or more. The error is less than 0.6 for items below
    2^11. Source: `dct` of the rows and then of the columns; between the two there are 4 bits after the point.
    """
    rows = transpose(dct(stream, shift=-KEPT_BITS, inverse=inverse))
    return transpose(dct(rows, shift=KEPT_BITS, inverse=inverse))


def quantize(stream: Stream, table: Sequence[int]) -> Stream:
    """Divides the items of each frame by the numbers of a table, 1 to 200 numbers from 1 on, and rounds to nearest.

    A half goes away from 0. Rates: one out for one in. Faults: overflow, for items near 2^63. Source: the definition.
    """
    divisors = [whole('a divisor', it, 1) for it in frame_table(table)]
    return cast(Stream, Process.from_text('process quantize(in i; out o) { while 1 { ' + ''.join(
        f'read i x; {nearest("x", it)} write o x;\n' for it in divisors) + '} }')(stream))


def dequantize(stream: Stream, table: Sequence[int]) -> Stream:
    """Multiplies the items of each frame by the numbers of a table, of 1 to 200 numbers.

    Rates: one out for one in. Faults: overflow. Source: the definition.
    """
    return cast(Stream, Process.from_text('process dequantize(in i; out o) { while 1 { ' + ''.join(
        f'read i x; write o {weighted([it], ["x"])};\n' for it in frame_table(table)) + '} }')(stream))


def frame_table(table: Sequence[int]) -> List[int]:
    """The numbers of a table for a frame."""
    numbers = whole_numbers('a number of the table', plain(table))
    whole('the length of the table', len(numbers), 1, 200)
    return numbers


def linear(stream: Stream, matrix: Any, *, shift: int = 0) -> Stream:
    """The product of a matrix of whole numbers and each vector of items, divided by 2^shift and rounded to nearest.

    A half goes away from 0. A vector has 1 to 63 items. The numbers of the matrix, and 5 for each row,
    are at most 1,000.
    Rates: a vector out for a vector in. Faults: overflow, also of a part of the sum. Source: the definition.
    """
    rows = [whole_numbers('a number of the matrix', row) for row in plain(matrix)]
    need(bool(rows) and all(len(row) == len(rows[0]) for row in rows), 'the rows have to be as long as each other')
    size, one = whole('the length of a vector', len(rows[0]), 1, 63), 1 << whole('the shift', shift, 0, MOST_BITS)
    whole('the numbers of the matrix and 5 for each row', (size + 5) * len(rows), 1, 1000)
    names = [f'x{it}' for it in range(size)]
    writes = '\n'.join(f'y = {weighted(row, names)}; {nearest("y", one)} write o y;' for row in rows)
    reads = ' '.join(f'read i {name};' for name in names)
    return cast(Stream, Process.from_text(f'process linear(in i; out o) {{ while 1 {{ {reads} {writes} }} }}')(stream))


def matrix_product(a: Stream, b: Stream, rows: int, inner: int, columns: int) -> Stream:
    """The products of matrices of rows x inner and inner x columns items, all by rows.

    inner x columns + inner is at most 64; `rows` is 1 or more.
    Rates: rows x columns out for rows x inner of `a` and inner x columns of `b`. Faults: overflow, also of a part of a
    sum. Source: the definition; a matrix of `b` stays in variables.
    """
    rows, inner = whole('the number of rows', rows, 1), whole('the inner size', inner, 1)
    columns = whole('the number of columns', columns, 1)
    whole('inner x columns + inner', inner * columns + inner + 1, 1, MOST_VARIABLES)
    reads_b = ' '.join(f'read b b{it};' for it in range(inner * columns))
    reads_a = ' '.join(f'read a a{it};' for it in range(inner))
    writes = ' '.join(f'write o {total([f"(a{it} * b{it * columns + column})" for it in range(inner)])};'
                      for column in range(columns))
    return cast(Stream, Process.from_text(f'''
        process matrix_product(in a, b; out o) {{
          while 1 {{
            {reads_b}
            k = {rows};
            while (k > 0) {{ {reads_a} {writes} k = (k - 1); }}
          }}
        }}''')(a, b))


def exchanges(count: int) -> List[Tuple[int, int]]:
    """The pairs of places that a bitonic sort compares; the smaller item goes to the first of a pair."""
    found, run = [], 2
    while run <= count:
        for start in range(0, count, run):
            found += [(start + it, start + run - 1 - it) for it in range(run // 2)]
        step = run // 4
        while step:
            found += [(it, it + step) for it in range(count) if it % (2 * step) < step]
            step //= 2
        run *= 2
    return found


def power_of_two(count: int, most: int) -> int:
    """A number of things to sort."""
    whole('the number of items to sort', count, 2, most)
    need(count & (count - 1) == 0, f'{count} items: they have to be a power of two')
    return count


def bitonic_sort(stream: Stream, n: int) -> Stream:
    """Sorts each frame of n items, a power of two from 2 to 32: the smallest comes first.

    Rates: n out for n in. Faults: none. Source: K. E. Batcher, "Sorting networks and their applications", 1968, in one
    process.
    """
    pairs = exchanges(power_of_two(n, 32))
    steps = '\n'.join(f'if (x{a} > x{b}) {{ t = x{a}; x{a} = x{b}; x{b} = t; }} else {{ }}' for a, b in pairs)
    reads, writes = (' '.join(f'{word} x{it};' for it in range(n)) for word in ('read i', 'write o'))
    return cast(Stream, Process.from_text(f'process bitonic_sort(in i; out o) {{ while 1 {{ '
                                          f'{reads} {steps} {writes} }} }}')(stream))


def sort_streams(streams: Sequence[Stream]) -> Tuple[Stream, ...]:
    """Sorts an item of each of 2, 4, 8 or 16 streams: the first stream that comes out has the smallest.

    There is a process for each of the 1, 6, 24 or 80 comparisons.
    Rates: one item on each out for one on each in. Faults: none. Source: that of `bitonic_sort`.
    """
    rest = list(streams)
    for a, b in exchanges(power_of_two(len(rest), 16)):
        rest[a], rest[b] = EXCHANGE(rest[a], rest[b])
    return tuple(rest)
