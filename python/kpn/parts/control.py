"""Controllers, and a plant to try them with."""
from __future__ import annotations

from typing import Tuple, cast

from ..errors import whole
from ..process import Process, Stream
from .arithmetic import MOST_BITS
from .texts import nearest
from .wiring import need

TANKS = Process.from_text('''
process two_tanks(in inflow; out first, second; par between, drain) {
  a = 0; b = 0;
  while 1 {
    read inflow u;
    flow = ((a - b) / between);
    a = ((a + (u * 65536)) - flow);
    b = ((b + flow) - (b / drain));
    if (a < 0) { a = 0; } else { }
    write first (a / 65536);
    write second (b / 65536);
  }
}''')


def pid(error: Stream, p: int, i: int, d: int, shift: int, low: int, high: int) -> Stream:
    """A controller: (p e + i (the sum of e) + d (e less the e before)) / 2^shift, to nearest, brought into its limits.

    While the result is at a limit, the sum does not go on beyond it: there is no windup. `shift` is 0 to 62.
    Rates: one out for one in; so a loop with a plant needs a `delay`. Faults: overflow. Source: the parallel form, with
    the sum held at the limits.
    """
    need(low <= high, f'low is {low} and high is {high}: low may not be larger')
    one = 1 << whole('the shift', shift, 0, MOST_BITS)
    return cast(Stream, Process.from_text(f'''
        process pid(in error; out control; par p, i, d, low, high) {{
          total = 0; before = 0;
          while 1 {{
            read error e;
            next = (total + e);
            u = (((p * e) + (i * next)) + (d * (e - before)));
            {nearest('u', one)}
            if (u > high) {{ u = high; if ((i * e) > 0) {{ next = total; }} else {{ }} }} else {{ }}
            if (u < low) {{ u = low; if ((i * e) < 0) {{ next = total; }} else {{ }} }} else {{ }}
            total = next; before = e;
            write control u;
          }}
        }}''')(error, p, i, d, low, high))


def two_tanks(inflow: Stream, between: int, drain: int) -> Tuple[Stream, Stream]:
    """The levels of two tanks: an item of inflow goes into the first, which leads to the second, which drains.

    In each step a part `1 / between` of the difference of the levels flows from the first to the second, and a part
    `1 / drain` of the second leaves it. Both are 2 or more. The levels begin at 0, and the first never falls below.
    Rates: one item on each out for one in. Faults: overflow, for levels of 2^47. Source: two linear differential
    equations by Euler's rule, with 16 bits after the point.
    """
    between, drain = whole('`between`', between, 2), whole('`drain`', drain, 2)
    return cast(Tuple[Stream, Stream], TANKS(inflow, between, drain))
