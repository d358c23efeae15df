"""A PID controller in a loop with the plant that it controls, which is slow and of order 1."""
from typing import Dict, List

from .. import parts
from ..network import Network
from ..process import Process
from .signals import noise

GAINS = (900, 40, 300)
LOWEST, HIGHEST = -50_000, 50_000
PID = Process.from_text('''
process pid(in error; out control; par p, i, d) {
  total = 0;
  before = 0;
  while 1 {
    read error e;
    total = (total + e);
    write control ((((p * e) + (i * total)) + (d * (e - before))) / 256);
    before = e;
  }
}''')
PLANT = Process.from_text('''
process plant(in control; out state; par pull, slowness) {
  x = 0;
  while 1 {
    read control u;
    x = (x + (((u * pull) - x) / slowness));
    write state x;
  }
}''')


def build() -> Network:
    """The loop that brings the plant to the `target`. Its sinks are the `state` of the plant and the `control`."""
    net = Network(auto_fork=True)
    state = net.channel()
    error = parts.subtract(net.source('target'), parts.delay(state))
    control = parts.saturate(PID(error, *GAINS), LOWEST, HIGHEST)
    state.connect(PLANT(control, pull=2, slowness=50))
    net.sink('state', state)
    net.sink('control', control)
    return net


def inputs(count: int) -> Dict[str, List[int]]:
    """A target that jumps each 500 items."""
    levels = noise(count // 500 + 1, 60_000, 10)
    return {'target': [levels[it // 500] for it in range(count)]}


def quotient(a: int, b: int) -> int:
    """The quotient towards 0."""
    return abs(a) // b * (1 if a > 0 else -1)


def expected(given: Dict[str, List[int]]) -> Dict[str, List[int]]:
    """The loop, step by step."""
    p, i, d = GAINS
    states, controls, total, before = [0], [], 0, 0
    for target in given['target']:
        error = target - states[-1]
        total += error
        controls.append(max(LOWEST, min(HIGHEST, quotient(p * error + i * total + d * (error - before), 256))))
        states.append(states[-1] + quotient(2 * controls[-1] - states[-1], 50))
        before = error
    return {'state': states[1:], 'control': controls}
