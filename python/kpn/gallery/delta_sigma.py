"""A delta-sigma modulator of order 2, a loop over a quantizer, with a CIC filter that makes numbers of its bits."""
from typing import Dict, List

from .. import parts
from ..network import Network
from ..process import Process
from .signals import tone

FULL = 2**15
ACCUMULATE = Process.from_text('''
process accumulate(in x, back; out o) {
  total = 0;
  while 1 { read x a; read back b; total = (total + (a - b)); write o total; }
}''')


def build() -> Network:
    """The modulator of the source `x`: its sink `bits` has 2^15 or -2^15, and `y` their means over 32, of order 2."""
    net = Network(auto_fork=True)
    bits = net.channel()
    before = parts.delay(bits)
    total = ACCUMULATE(ACCUMULATE(net.source('x'), before), before)
    bits.connect(parts.pointwise('(((2 * (total >= 0)) - 1) * full)', name='quantize', total=total, full=FULL))
    net.sink('bits', bits)
    net.sink('y', parts.scale(parts.cic(bits, 2, 32), 32**2))
    return net


def inputs(count: int) -> Dict[str, List[int]]:
    """A slow tone at half of the full height."""
    return {'x': tone(count, 2_000, FULL // 2)}


def expected(given: Dict[str, List[int]]) -> Dict[str, List[int]]:
    """The modulator step by step, and the means by running sums."""
    first = second = 0
    bits = [0]
    for item in given['x']:
        first += item - bits[-1]
        second += first - bits[-1]
        bits.append(FULL if second >= 0 else -FULL)
    items = bits[1:]
    for _ in range(2):
        padded = [0] * 31 + items
        items = [sum(padded[it:it + 32]) for it in range(len(items))]
    return {'bits': bits[1:], 'y': [(abs(it) + 512) // 1024 * (1 if it > 0 else -1) for it in items[31::32]]}
