"""A CORDIC in 16 stages, each a process: the cosine and the sine of angles, without a multiplication."""
import math
from typing import Dict, List

from .. import parts
from ..network import Network
from ..process import Process
from .signals import noise

STAGES, BITS = 16, 20
ONE = 2**BITS
# The stages stretch a vector by this.
STRETCH = math.prod(math.sqrt(1 + 4.0**-k) for k in range(STAGES))
START = round(ONE / STRETCH)
ANGLES = [round(ONE * math.atan(2.0**-k)) for k in range(STAGES)]
STAGE = Process.from_text('''
process stage(in x, y, z; out next_x, next_y, next_z; par divisor, angle) {
  while 1 {
    read x a;
    read y b;
    read z c;
    turn = ((2 * (c >= 0)) - 1);
    write next_x (a - (turn * (b / divisor)));
    write next_y (b + (turn * (a / divisor)));
    write next_z (c - (turn * angle));
  }
}''')


def build() -> Network:
    """The sinks `cosine` and `sine` of the source `angle`, with 20 bits after the point, and the angle's `rest`."""
    net = Network()
    z, first, second = parts.fork(net.source('angle'), 3)
    x, y = parts.pointwise('((0 * z) + start)', z=first, start=START), parts.gain(second, 0)
    for k, angle in enumerate(ANGLES):
        x, y, z = STAGE(x, y, z, 2**k, angle)
    for name, stream in (('cosine', x), ('sine', y), ('rest', z)):
        net.sink(name, stream)
    return net


def inputs(count: int) -> Dict[str, List[int]]:
    """Angles from -1.5 to 1.5."""
    return {'angle': noise(count, round(1.5 * ONE), 11)}


def expected(given: Dict[str, List[int]]) -> Dict[str, List[int]]:
    """The stages for one angle after the other."""
    found: Dict[str, List[int]] = {'cosine': [], 'sine': [], 'rest': []}
    for z in given['angle']:
        x, y = START, 0
        for k, angle in enumerate(ANGLES):
            turn, step_x, step_y = (1 if z >= 0 else -1), int(x / 2**k), int(y / 2**k)
            x, y, z = x - turn * step_y, y + turn * step_x, z - turn * angle
        for name, value in (('cosine', x), ('sine', y), ('rest', z)):
            found[name].append(value)
    return found
