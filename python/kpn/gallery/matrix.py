"""A systolic array that multiplies matrices of 3 by 3: nine cells hand on items to the right and down."""
from typing import Dict, List

from .. import parts
from ..network import Network
from ..process import Process
from .signals import noise

SIZE = 3


def cell(hands_right: bool, hands_down: bool) -> Process:
    """A cell that adds up the products of three pairs. One at the edge hands nothing on."""
    outs = ['right'] * hands_right + ['down'] * hands_down + ['sum']
    return Process.from_text(f'''
        process cell(in a, b; out {', '.join(outs)}) {{
          while 1 {{
            total = 0;
            k = 0;
            while (k < {SIZE}) {{
              read a x;
              read b y;
              {'write right x;' if hands_right else ''}
              {'write down y;' if hands_down else ''}
              total = (total + (x * y));
              k = (k + 1);
            }}
            write sum total;
          }}
        }}''')


def build() -> Network:
    """The products of the matrices of the sources `a`, by columns, and `b`, by rows; the sink `c` has them by rows."""
    net = Network()
    rows, columns = list(parts.deal(net.source('a'), SIZE)), list(parts.deal(net.source('b'), SIZE))
    sums = []
    for i in range(SIZE):
        for j in range(SIZE):
            right, down = j + 1 < SIZE, i + 1 < SIZE
            made = cell(right, down)(rows[i], columns[j], name=f'cell_{i}_{j}')
            *handed, total = made if isinstance(made, tuple) else (made,)
            rows[i] = handed.pop(0) if right else rows[i]
            columns[j] = handed.pop(0) if down else columns[j]
            sums.append(total)
    net.sink('c', parts.merge(sums))
    return net


def inputs(count: int) -> Dict[str, List[int]]:
    """The items of random matrices, by whole matrices."""
    count -= count % SIZE**2
    return {'a': noise(count, 1_000, 8), 'b': noise(count, 1_000, 9)}


def expected(given: Dict[str, List[int]]) -> Dict[str, List[int]]:
    """The sums of the products of rows and columns."""
    found = []
    for start in range(0, len(given['a']), SIZE**2):
        a, b = given['a'][start:start + SIZE**2], given['b'][start:start + SIZE**2]
        found += [sum(a[k * SIZE + i] * b[k * SIZE + j] for k in range(SIZE))
                  for i in range(SIZE) for j in range(SIZE)]
    return {'c': found}
