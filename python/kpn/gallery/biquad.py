"""Two biquads in a row: a low pass of order 4 with coefficients of 14 bits after the point."""
from typing import Dict, List

from .. import parts
from ..network import Network
from .signals import noise, tone

SHIFT = 14
SECTIONS = (((318, 636, 318), (-23_742, 8_630)), ((318, 636, 318), (-27_560, 12_449)))


def build() -> Network:
    """The filter of the source `x` with the sink `y`."""
    net = Network()
    stream = net.source('x')
    for b, a in SECTIONS:
        stream = parts.biquad(stream, b, a, SHIFT)
    net.sink('y', stream)
    return net


def inputs(count: int) -> Dict[str, List[int]]:
    """A slow tone with noise."""
    return {'x': [a + b for a, b in zip(tone(count, 200, 20_000), noise(count, 5_000, 3))]}


def expected(given: Dict[str, List[int]]) -> Dict[str, List[int]]:
    """The difference equation over whole lists."""
    items = given['x']
    for b, a in SECTIONS:
        x, y = [0, 0, *items], [0, 0]
        for n in range(2, len(x)):
            total = sum(b[k] * x[n - k] for k in range(3)) - sum(a[k] * y[n - 1 - k] for k in range(2))
            y.append((abs(total) + 2 ** (SHIFT - 1)) // 2**SHIFT * (1 if total > 0 else -1))
        items = y[2:]
    return {'y': items}
