"""Filters with feedback."""
from __future__ import annotations

import cmath
import math
from typing import Any, Callable, Dict, List, Sequence, Tuple, cast

from ..errors import whole
from ..fixed import Q, plain
from ..process import Process, Stream
from .arithmetic import MOST_BITS
from .texts import MOST_VARIABLES, nearest, slide, weighted, whole_numbers, zeros
from .wiring import need

# The rounding of each item is made up for by the next ones, so it stays small beside poles near 1.
SECTION = Process.from_text('''
process section(in i; out o; par b0, b1, b2, a1, a2, one) {
  x1 = 0; x2 = 0; y1 = 0; y2 = 0; r1 = 0; r2 = 0;
  half = (one / 2);
  while 1 {
    read i x;
    sum = (((((b0 * x) + (b1 * x1)) + (b2 * x2)) - ((a1 * y1) + (a2 * y2))) + ((2 * r1) - r2));
    if (sum < 0) { y = ((sum - half) / one); } else { y = ((sum + half) / one); }
    write o y;
    r2 = r1; r1 = (sum - (y * one));
    x2 = x1; x1 = x; y2 = y1; y1 = y;
  }
}''')
# The bits of coefficients of sections after the point.
BITS = 30
# The cosine and the width of a section give the weights of the items; those of what came out are the same for all.
KINDS: Dict[str, Callable[[float, float], Tuple[float, float, float]]] = {
    'low': lambda cosine, _: ((1 - cosine) / 2, 1 - cosine, (1 - cosine) / 2),
    'high': lambda cosine, _: ((1 + cosine) / 2, -1 - cosine, (1 + cosine) / 2),
    'band': lambda _, width: (width, 0.0, -width),
    'notch': lambda cosine, _: (1.0, -2 * cosine, 1.0),
    'all': lambda cosine, width: (1 - width, -2 * cosine, 1 + width),
}


def iir(stream: Stream, b: Sequence[int], a: Sequence[int], shift: int) -> Stream:
    """y[n] = (b[0] x[n] + b[1] x[n-1] + .. - a[0] y[n-1] - a[1] y[n-2] - ..) / 2^shift, rounded to nearest.

    A half goes away from 0. The coefficients are whole numbers, as `kpn.Q(shift)` makes them; scipy's a begins with a 1
    that is left out here. There are at most 62 in all. A filter of high order wants many bits: `cascade` wants fewer.
    Rates: one out for one in. Faults: overflow, also of a part of the sum. Source: the direct form.
    """
    first, second = whole_numbers('a coefficient', b), whole_numbers('a coefficient', a)
    shift = whole('the shift', shift, 0, MOST_BITS)
    need(len(first) > 0, 'an IIR filter has at least one coefficient of items')
    need(len(first) + len(second) <= MOST_VARIABLES - 2,
         f'{len(first) + len(second)} coefficients: they have to be at most {MOST_VARIABLES - 2}. Make a cascade')
    names = [f'x{it}' for it in range(len(first))] + [f'y{it}' for it in range(1, len(second) + 1)]
    return cast(Stream, Process.from_text(f'''
        process iir(in i; out o) {{
          {zeros(names[1:])}
          while 1 {{
            read i x0;
            y0 = {weighted([*first, *(-it for it in second)], names)};
            {nearest('y0', 1 << shift)}
            write o y0;
            {slide('x', len(first))} {slide('y', len(second) + 1)}
          }}
        }}''')(stream))


def cascade(stream: Stream, sections: Any, *, bits: int = BITS) -> Stream:
    """A row of filters of order 2, each by six numbers: three for items, and 1 and two for what came out before.

    So scipy's `sos` is a list of them. The numbers get `bits` bits after the point, 0 to 62. Each section rounds to
    nearest and adds what that leaves to the next sums, so that the error stays at some units even for narrow filters.
    Rates: one out for one in. Faults: overflow, for items near 2^(59 - bits). Source: the direct form with the error of
    the rounding fed back twice, as in T. Thong and B. Liu, "Error spectrum shaping in narrow-band recursive filters",
    1977.
    """
    to_fixed = Q(bits)
    for section in plain(sections):
        need(len(section) == 6 and section[3] == 1, 'a section has to be six numbers of which the fourth is 1')
        b0, b1, b2, _, a1, a2 = to_fixed(section)
        stream = SECTION(stream, b0, b1, b2, a1, a2, to_fixed.one)
    return stream


def second_order(stream: Stream, kind: str, fs: float, f0: float, q: float = math.sqrt(0.5), *,
                 bits: int = BITS) -> Stream:
    """A filter of order 2 at f0 of fs items a second: `kind` is `low`, `high`, `band`, `notch` or `all`.

    A `band` has gain 1 at f0 and is f0 / q wide; so is a `notch`. `all` turns only the phase.
    Rates: one out for one in. Faults: those of `cascade`.
    Source: the bilinear transform of the analogue filter, right at f0, as in R. Bristow-Johnson, "Cookbook formulae for
    audio EQ biquad filter coefficients".
    """
    return cascade(stream, [section_of(kind, fs, f0, q)], bits=bits)


def butterworth(stream: Stream, kind: str, fs: float, f0: float, order: int, *, bits: int = BITS) -> Stream:
    """A flat `low` or `high` pass of any order, at half of the power at f0 of fs items a second.

    Rates: one out for one in. Faults: those of `cascade`.
    Source: S. Butterworth, "On the theory of filter amplifiers", 1930: poles on a circle, in pairs, by the bilinear
    transform.
    """
    order = whole('the order', order, 1)
    need(kind in ('low', 'high'), f'the kind is {kind!r}: it has to be low or high')
    sections = [section_of(kind, fs, f0, 1 / (2 * math.sin(math.pi * (2 * pair + 1) / (2 * order))))
                for pair in range(order // 2)]
    if order % 2:
        sections.append(first_order_section(kind, fs, f0))
    return cascade(stream, sections, bits=bits)


def notch(stream: Stream, fs: float, f0: float, q: float = 30, *, bits: int = BITS) -> Stream:
    """Takes out the tone f0 of fs items a second, and what is within f0 / (2 q) of it.

    Rates: one out for one in. Faults: those of `cascade`.
    Source: `second_order`.
    """
    return second_order(stream, 'notch', fs, f0, q, bits=bits)


def dc_block(stream: Stream, fs: float, f0: float = 5, *, bits: int = BITS) -> Stream:
    """Takes out the mean: a high pass of order 1 at f0 of fs items a second.

    Rates: one out for one in. Faults: those of `cascade`.
    Source: y[n] = g (x[n] - x[n-1]) + r y[n-1], by the bilinear transform.
    """
    return cascade(stream, [first_order_section('high', fs, f0)], bits=bits)


def deemphasis(stream: Stream, fs: float, seconds: float = 50e-6, *, bits: int = BITS) -> Stream:
    """Undoes the emphasis of an FM sender of this time constant: 50e-6 in Europe, 75e-6 in America.

    Rates: one out for one in. Faults: those of `cascade`.
    Source: y[n] = (1 - r) x[n] + r y[n-1] with r = exp(-1 / (fs seconds)).
    """
    need(fs > 0 and seconds > 0, f'fs is {fs} and the time constant {seconds}: both have to be above 0')
    r = math.exp(-1 / (fs * seconds))
    return cascade(stream, [[1 - r, 0.0, 0.0, 1.0, -r, 0.0]], bits=bits)


def section_of(kind: str, fs: float, f0: float, q: float) -> List[float]:
    """The six numbers of a section of order 2."""
    need(kind in KINDS, f'the kind is {kind!r}: it has to be one of {", ".join(KINDS)}')
    need(0 < f0 < fs / 2, f'f0 is {f0}: it has to be above 0 and below half of fs, {fs / 2}')
    need(q > 0, f'q is {q}: it has to be above 0')
    angle = cmath.exp(2j * math.pi * f0 / fs)
    width = angle.imag / (2 * q)
    given = [*KINDS[kind](angle.real, width), 1 + width, -2 * angle.real, 1 - width]
    return [it / given[3] for it in given]


def first_order_section(kind: str, fs: float, f0: float) -> List[float]:
    """The six numbers of a low or high pass of order 1."""
    need(0 < f0 < fs / 2, f'f0 is {f0}: it has to be above 0 and below half of fs, {fs / 2}')
    width = math.tan(math.pi * f0 / fs)
    r = (1 - width) / (1 + width)
    b = [(1 - r) / 2, (1 - r) / 2] if kind == 'low' else [(1 + r) / 2, -(1 + r) / 2]
    return [*b, 0.0, 1.0, -r, 0.0]
