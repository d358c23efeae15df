"""Run-length codes, made and read again. The last run never comes out, since no item ends it."""
import itertools
from typing import Dict, List

from .. import parts
from ..network import Network
from .signals import noise

LONGEST = 9


def build() -> Network:
    """The codes of the source `x`: the sinks `values` and `counts`, and what they stand for as the sink `y`."""
    net = Network(auto_fork=True)
    values, counts = parts.run_length_encode(net.source('x'), LONGEST)
    net.sink('y', parts.run_length_decode(values, counts))
    net.sink('values', values)
    net.sink('counts', counts)
    return net


def inputs(count: int) -> Dict[str, List[int]]:
    """Runs of some ten equal items each."""
    levels, steps = noise(count, 2, 4), noise(count, 10, 5)
    return {'x': list(itertools.islice((it for it, step in zip(levels, steps) for _ in range(step + 10)), count))}


def expected(given: Dict[str, List[int]]) -> Dict[str, List[int]]:
    """The groups of equal items, cut into pieces of at most nine."""
    runs = []
    for value, group in itertools.groupby(given['x']):
        length = len(list(group))
        runs += [(value, min(LONGEST, length - it)) for it in range(0, length, LONGEST)]
    runs = runs[:-1]
    return {'y': [value for value, length in runs for _ in range(length)],
            'values': [value for value, _ in runs], 'counts': [length for _, length in runs]}
