"""A CIC filter of order 3 that lowers the rate by 8. Its registers of 26 bits wrap."""
from typing import Dict, List

from .. import parts
from ..network import Network
from .signals import noise

ORDER, FACTOR, BITS = 3, 8, 26


def build() -> Network:
    """The filter of the source `x` with the sink `y`."""
    net = Network()
    net.sink('y', parts.cic(net.source('x'), ORDER, FACTOR, BITS))
    return net


def inputs(count: int) -> Dict[str, List[int]]:
    """Noise of 16 bits above a level, so that the integrators wrap soon."""
    return {'x': [it + 20_000 for it in noise(count, 12_000, 2)]}


def expected(given: Dict[str, List[int]]) -> Dict[str, List[int]]:
    """Three running sums over 8 items, without any wrap, of which each eighth item is kept."""
    items = given['x']
    for _ in range(ORDER):
        padded = [0] * (FACTOR - 1) + items
        items = [sum(padded[it:it + FACTOR]) for it in range(len(items))]
    return {'y': items[FACTOR - 1::FACTOR]}
