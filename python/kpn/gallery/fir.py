"""A FIR filter with eight taps, a process for each."""
from typing import Dict, List

from .. import parts
from ..network import Network
from .signals import noise

TAPS = (-3, 0, 19, 48, 48, 19, 0, -3)


def build() -> Network:
    """The filter of the source `x` with the sink `y`."""
    net = Network()
    net.sink('y', parts.fir(net.source('x'), TAPS, systolic=True))
    return net


def inputs(count: int) -> Dict[str, List[int]]:
    """Noise."""
    return {'x': noise(count, 30_000, 1)}


def expected(given: Dict[str, List[int]]) -> Dict[str, List[int]]:
    """The convolution of the items and the taps."""
    padded = [0] * (len(TAPS) - 1) + given['x']
    return {'y': [sum(tap * item for tap, item in zip(reversed(TAPS), padded[it:]))
                  for it in range(len(given['x']))]}
