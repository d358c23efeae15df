"""Filters and transforms of signals of whole numbers."""
from __future__ import annotations

import cmath
import math
from typing import List, Sequence, Tuple, cast

from ..errors import whole
from ..process import Process, Stream
from .arithmetic import MOST_BITS, ROUNDINGS, WRAPPED, modulus
from .wiring import deal, downsample, merge, need

INTEGRATE = Process.from_text(f'''
process integrate(in i; out o; par m) {{
  y = 0;
  while 1 {{
    read i x;
    y = (y + x);
    {WRAPPED}
    write o y;
  }}
}}''')
COMB = Process.from_text(f'''
process comb(in i; out o; par m) {{
  before = 0;
  while 1 {{
    read i x;
    y = (x - before);
    {WRAPPED}
    write o y;
    before = x;
  }}
}}''')
BIQUAD = Process.from_text(f'''
process biquad(in i; out o; par b0, b1, b2, a1, a2, divisor) {{
  x1 = 0; x2 = 0; y1 = 0; y2 = 0;
  while 1 {{
    read i x0;
    x = (((((b0 * x0) + (b1 * x1)) + (b2 * x2)) - (a1 * y1)) - (a2 * y2));
    {ROUNDINGS['nearest']}
    write o y;
    x2 = x1; x1 = x0; y2 = y1; y1 = y;
  }}
}}''')
BUTTERFLY = Process.from_text(f'''
process butterfly(in ar, ai, br, bi; out cr, ci, dr, di; par wr, wi, divisor) {{
  while 1 {{
    read ar a; read ai b; read br c; read bi d;
    x = ((c * wr) - (d * wi));
    {ROUNDINGS['nearest']}
    re = y;
    x = ((c * wi) + (d * wr));
    {ROUNDINGS['nearest']}
    write cr (a + re); write ci (b + y); write dr (a - re); write di (b - y);
  }}
}}''')


def cic(stream: Stream, order: int, factor: int, bits: int = 62) -> Stream:
    """A filter of `order` integrators, a downsampling by `factor` and `order` combs; its gain is factor^order.

    Both are 1 or more. Its registers have `bits` bits, 1 to 62, and wrap. The items that come out are right if they
    fit into these. Rates: one out for `factor` in. Faults: overflow of items near 2^63.
    Source: E. B. Hogenauer, "An economical class of digital filters for decimation and interpolation", 1981.
    """
    order, factor = whole('the order', order, 1), whole('the factor', factor, 1)
    for _ in range(order):
        stream = INTEGRATE(stream, modulus(bits))
    stream = downsample(stream, factor, factor - 1)
    for _ in range(order):
        stream = COMB(stream, modulus(bits))
    return stream


def biquad(stream: Stream, b: Sequence[int], a: Sequence[int], shift: int) -> Stream:
    """y[n] = (b[0] x[n] + b[1] x[n-1] + b[2] x[n-2] - a[0] y[n-1] - a[1] y[n-2]) / 2^shift, rounded to nearest.

    A half goes away from 0. `shift` is 0 to 62. Rates: one out for one in. Faults: overflow.
    Source: direct form 1 in R. Bristow-Johnson, "Cookbook formulae for audio EQ biquad filter coefficients".
    """
    need(len(b) == 3 and len(a) == 2, f'a biquad has 3 and 2 coefficients: {len(b)} and {len(a)} are given')
    return cast(Stream, BIQUAD(stream, *b, *a, 1 << whole('the shift', shift, 0, MOST_BITS)))


def fft(re: Stream, im: Stream, points: int, bits: int = 14) -> Tuple[Stream, Stream]:
    """The transforms of frames of `points` complex numbers, a power of two from 2 on; not divided by their number.

    Its factors have `bits` bits after the point, 0 to 62, and each product is rounded to nearest. There is a process
    for each butterfly, so a network has room for 32 points.
    Rates: one out for one in, by whole frames. Faults: overflow. Source: J. W. Cooley and J. W. Tukey, "An algorithm
    for the machine calculation of complex Fourier series", 1965.
    """
    points, one = whole('the number of points', points, 2), 1 << whole('the number of bits', bits, 0, MOST_BITS)
    need(points & (points - 1) == 0, f'{points} points: they have to be a power of two')
    spectrum = butterflies(list(zip(deal(re, points), deal(im, points))), one)
    return merge([it for it, _ in spectrum]), merge([it for _, it in spectrum])


def butterflies(points: List[Tuple[Stream, Stream]], one: int) -> List[Tuple[Stream, Stream]]:
    """The transform of complex points by those of its even and its odd places."""
    if len(points) == 1:
        return points
    low, high = [], []
    for k, (even, odd) in enumerate(zip(butterflies(points[::2], one), butterflies(points[1::2], one))):
        factor = one * cmath.exp(-2j * math.pi * k / len(points))
        cr, ci, dr, di = BUTTERFLY(*even, *odd, round(factor.real), round(factor.imag), one)
        low.append((cr, ci))
        high.append((dr, di))
    return low + high
