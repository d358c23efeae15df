"""Tones, complex signals and modulation. An angle is a whole number: 2^32 are a whole turn."""
from __future__ import annotations

import math
from typing import TYPE_CHECKING, Tuple, cast

from ..errors import whole
from ..process import Process, Stream
from .arithmetic import pointwise
from .recursive import dc_block
from .texts import nearest
from .wiring import constant, need

if TYPE_CHECKING:
    from ..network import Network

TURN = 2**32
# The sine of z quarter turns is z (C1 - w (C3 - w (C5 - w C7))) with w = z^2, for |z| <= 1, within 7e-7.
# The numbers have 30 bits after the point, and so have z and w.
ONE = 2**30
SINE = [round(it * ONE) for it in (1.57079101, 0.64589285, 0.07943434, 0.00433310)]
WRAP_ANGLE = f'if (p >= {TURN // 2}) {{ p = (p - {TURN}); }} else {{ }}'
MOST_AMPLITUDE = 2**31


def sine_of(angle: str, to: str) -> str:
    """Statements that make a sine of an angle from -2^31 to 2^31 - 1, times an `amplitude`."""
    c1, c3, c5, c7 = SINE
    return f'''
    z = {angle};
    if (z > {ONE}) {{ z = ({2 * ONE} - z); }} else {{ }}
    if (z < -{ONE}) {{ z = (-{2 * ONE} - z); }} else {{ }}
    w = ((z * z) / {ONE});
    w = ((z * ({c1} - ((w * ({c3} - ((w * ({c5} - ((w * {c7}) / {ONE}))) / {ONE}))) / {ONE}))) / {ONE});
    w = (w * amplitude);
    {nearest('w', ONE)}
    write {to} w;'''


def nco(steps: Stream, amplitude: int = 32767) -> Tuple[Stream, Stream]:
    """The cosine and the sine of an angle, from 0 on, that grows by an item of the stream after each item.

    2^32 are a turn, so `round(2**32 * f / fs)` makes the frequency f. The amplitude is 0 to 2^31.
    Rates: one item on each out for one in. Faults: overflow, for steps of 2^62 or more. They are within 2e-6 of the
    amplitude, and a half. Source: a sum, as in J. Tierney, C. M. Rader and B. Gold, "A digital frequency synthesizer",
    1971, and a polynomial of degree 7 for a quarter of the sine.
    """
    text = f'''
        process nco(in step; out cosine, sine; par amplitude) {{
          angle = 0;
          while 1 {{
            read step d;
            p = (angle + {TURN // 4}); {WRAP_ANGLE}
            {sine_of('p', 'cosine')} {sine_of('angle', 'sine')}
            p = ((angle + d) % {TURN}); if (p < -{TURN // 2}) {{ p = (p + {TURN}); }} else {{ }} {WRAP_ANGLE}
            angle = p;
          }}
        }}'''
    made = Process.from_text(text)(steps, whole('the amplitude', amplitude, 0, MOST_AMPLITUDE))
    return cast(Tuple[Stream, Stream], made)


def oscillator(net: Network, fs: float, f0: float, amplitude: int = 32767) -> Tuple[Stream, Stream]:
    """A cosine and a sine of the frequency f0 at fs items a second, without end. It is `nco` of a constant.

    Rates: no items in. Faults: none. f0 is rounded to a multiple of fs / 2^32. Source: that of `nco`.
    """
    return nco(constant(net, step_of(fs, f0)), amplitude)


def step_of(fs: float, f0: float) -> int:
    """The angle that a frequency goes on by from one item to the next."""
    need(fs > 0 and abs(f0) <= fs / 2, f'f0 is {f0}: it has to be at most half of fs, {fs / 2}')
    return round(TURN * f0 / fs)


def complex_multiply(a_re: Stream, a_im: Stream, b_re: Stream, b_im: Stream, *, shift: int = 0
                     ) -> Tuple[Stream, Stream]:
    """The product of an item of each of two complex streams, divided by 2^shift, 0 to 62, and rounded to nearest.

    A half goes away from 0. Rates: one item on each out for one on each in. Faults: overflow, also of a product.
    Source: the definition, by four products.
    """
    one = 1 << whole('the shift', shift, 0, 62)
    return cast(Tuple[Stream, Stream], Process.from_text(f'''
        process complex_multiply(in ar, ai, br, bi; out re, im) {{
          while 1 {{
            read ar a; read ai b; read br c; read bi d;
            x = ((a * c) - (b * d)); {nearest('x', one)} write re x;
            x = ((a * d) + (b * c)); {nearest('x', one)} write im x;
          }}
        }}''')(a_re, a_im, b_re, b_im))


def mix(re: Stream, im: Stream, fs: float, f0: float) -> Tuple[Stream, Stream]:
    """Moves a complex stream of fs items a second up by the frequency f0, or down by one below 0.

    Rates: one item on each out for one on each in. Faults: overflow, for items near 2^31. The result is right within
    4e-6 of the height of the signal, and a half. Source: `complex_multiply` by an `oscillator`.
    """
    return complex_multiply(re, im, *oscillator(re.net, fs, f0, ONE), shift=30)


def polar(re: Stream, im: Stream, *, rounds: int = 20) -> Tuple[Stream, Stream]:
    """The magnitude of a complex item, and its angle: -2^31 to 2^31 - 1, of which 2^32 are a turn. So it is `atan2`.

    The angle is within 2^(32 - rounds), and 2^18 / magnitude; `rounds` is 4 to 28. That of 0 is 0.
    Rates: one item on each out for one on each in. Faults: overflow, for items of 2^31 or more. The magnitude is right
    within 1 for items below 2^24 and 14 rounds. Source: J. E. Volder, "The CORDIC trigonometric computing technique",
    1959, by vectors, with 16 bits after the point, one process.
    """
    steps, gain = vectoring(rounds)
    return cast(Tuple[Stream, Stream], Process.from_text(f'''
        process polar(in re, im; out magnitude, angle) {{
          while 1 {{
            {steps}
            x = (((x / 65536) * {gain}) + (((x % 65536) * {gain}) / 65536)); {nearest('x', ONE)}
            write magnitude x;
            write angle p;
          }}
        }}''')(re, im))


def vectoring(rounds: int) -> Tuple[str, int]:
    """Statements that read a complex item, turn it to the angle 0 by CORDIC and set p to the angle that it had.

    They set x to its magnitude with 16 bits after the point, which is to be multiplied by the second result / 2^30.
    """
    rounds = whole('the number of rounds', rounds, 4, 28)
    steps = ''
    for it in range(rounds):
        part, angle = 1 << it, round(math.atan(2.0**-it) / (2 * math.pi) * TURN)
        steps += (f'if (y < 0) {{ t = (x - (y / {part})); y = (y + (x / {part})); p = (p - {angle}); }} '
                  f'else {{ t = (x + (y / {part})); y = (y - (x / {part})); p = (p + {angle}); }} x = t;\n')
    text = f'''
        read re x; read im y;
        p = 0; some = ((x != 0) || (y != 0));
        if (x < 0) {{ x = -x; y = -y; p = {TURN // 2}; }} else {{ }}
        x = (x * 65536); y = (y * 65536);
        {steps}
        {WRAP_ANGLE}
        p = (p * some);'''
    return text, round(ONE / math.prod(math.sqrt(1 + 4.0**-it) for it in range(rounds)))


def fm_demodulate(re: Stream, im: Stream, *, rounds: int = 16) -> Stream:
    """By how much the angle of a complex stream grows from item to item: 2^32 are a turn, so f is 2^32 f / fs.

    The angle before the first item is 0. It is one process.
    Rates: one out for one on each in. Faults: those of `polar`. Source: the difference of two angles of `polar`.
    """
    steps, _ = vectoring(rounds)
    return cast(Stream, Process.from_text(f'''
        process fm_demodulate(in re, im; out o) {{
          before = 0;
          while 1 {{
            {steps}
            now = p;
            p = (now - before); {WRAP_ANGLE} if (p < -{TURN // 2}) {{ p = (p + {TURN}); }} else {{ }}
            write o p;
            before = now;
          }}
        }}''')(re, im))


def am_demodulate(re: Stream, im: Stream, fs: float, f0: float = 20) -> Stream:
    """The magnitude of a complex stream of fs items a second, without its mean.

    Rates: one out for one on each in. Faults: those of `polar` and `dc_block`. Source: the two in a row.
    """
    magnitude, angle = polar(re, im)
    return dc_block(pointwise('(magnitude + (0 * angle))', name='magnitude', magnitude=magnitude, angle=angle), fs, f0)
