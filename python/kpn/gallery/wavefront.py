"""A wavefront: square rows of cells compute the edit distances of words, which come from the left and from above."""
from typing import Dict, List

from .. import parts
from ..network import Network
from ..process import Process
from .signals import noise

SIZE = 6
LETTERS = 2
LEFT = Process.from_text('''
language 2;
process left(in word; out o; par distance) { while 1 { read word x; write o x; write o distance; } }''')
ABOVE = Process.from_text('''
language 2;
process above(in word; out o; par distance) {
  while 1 { read word y; write o y; write o distance; write o distance - 1; }
}''')


def cell(hands_right: bool, hands_down: bool) -> Process:
    """A cell that computes the distance of the words up to its two letters from those up to its neighbours'."""
    right, down = 'write right x; write right d;', 'write down y; write down d; write down beside;'
    outs = ['right'] * hands_right + ['down'] * hands_down or ['last']
    return Process.from_text(f'''
        language 2;
        process cell(in left, above; out {', '.join(outs)}) {{
          while 1 {{
            read left x; read left beside; read above y; read above d; read above corner;
            d = (beside < d ? beside : d) + 1;
            corner = corner + (x != y);
            if corner < d {{ d = corner; }}
            {right if hands_right else ''} {down if hands_down else ''} {'write last d;' if 'last' in outs else ''}
          }}
        }}''')


def build(size: int = SIZE) -> Network:
    """The distances of each word of `size` letters of the source `a` from the word of the source `b` beside it.

    60 is the largest size whose cells, borders and deals are no more than a network may have."""
    net = Network()
    rows = [LEFT(word, number + 1) for number, word in enumerate(parts.deal(net.source('a'), size))]
    columns = [ABOVE(word, number + 1) for number, word in enumerate(parts.deal(net.source('b'), size))]
    cells = {(right, down): cell(right, down) for right in (False, True) for down in (False, True)}
    for i in range(size):
        for j in range(size):
            right, down = j + 1 < size, i + 1 < size
            made = cells[right, down](rows[i], columns[j], name=f'cell_{i}_{j}')
            handed = list(made) if isinstance(made, tuple) else [made]
            rows[i] = handed.pop(0) if right else rows[i]
            columns[j] = handed.pop(0) if down else columns[j]
    net.sink('distances', handed[0])
    return net


def inputs(count: int, size: int = SIZE) -> Dict[str, List[int]]:
    """The letters of random words, by whole words."""
    count -= count % size
    return {'a': noise(count, LETTERS, 10), 'b': noise(count, LETTERS, 11)}


def expected(given: Dict[str, List[int]], size: int = SIZE) -> Dict[str, List[int]]:
    """The distances by rows of the table of R. A. Wagner and M. J. Fischer."""
    found = []
    for start in range(0, len(given['a']), size):
        row = list(range(size + 1))
        for x in given['a'][start:start + size]:
            corner, row[0] = row[0], row[0] + 1
            for j, y in enumerate(given['b'][start:start + size], 1):
                corner, row[j] = row[j], min(row[j] + 1, row[j - 1] + 1, corner + (x != y))
        found.append(row[-1])
    return {'distances': found}
