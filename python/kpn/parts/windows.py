"""Filters without feedback: each item that comes out is a sum of the last ones that came in, by weights."""
from __future__ import annotations

from typing import List, Optional, Sequence, Tuple, cast

from ..errors import whole
from ..process import Process, Stream
from .arithmetic import MOST_BITS, gain, scale
from .texts import MOST_CELLS, MOST_NODES, MOST_VARIABLES, folded, nearest, slide, times, whole_numbers, zeros
from .wiring import deal, delay, fork, need, upsample

# A tap multiplies the item, adds the sum of the taps before, and hands on the item before. The last hands on none.
FIRST_TAP = Process.from_text('''
process first_tap(in x; out next, sum; par h) {
  before = 0;
  while 1 { read x item; write next before; write sum (h * item); before = item; }
}''')
TAP = Process.from_text('''
process tap(in x, s; out next, sum; par h) {
  before = 0;
  while 1 { read x item; read s part; write next before; write sum (part + (h * item)); before = item; }
}''')
LAST_TAP = Process.from_text('''
process last_tap(in x, s; out sum; par h) {
  while 1 { read x item; read s part; write sum (part + (h * item)); }
}''')
SUM_OF_WINDOW = Process.from_text('''
process sum_of_window(in i, before; out o) {
  y = 0;
  while 1 { read i x; read before old; y = (y + (x - old)); write o y; }
}''')
# The largest factor of a rate that is changed by statements written one after the other.
MOST_FACTOR = 16


def fir(stream: Stream, taps: Sequence[int], *, shift: int = 0, systolic: bool = False) -> Stream:
    """The sum of taps[k] times the item k places before, with 0 before the first item. There is one tap or more.

    The sum is divided by 2^shift, 0 to 62, and rounded to nearest; a half goes away from 0. The taps are whole numbers,
    as `kpn.Q(15)(floats)` makes some of a list or an array; then `shift` is 15. It is one process of up to 2,048 taps,
    and a chain of as few as there have to be of more; with `systolic=True` there is a process for each tap. Of more
    than 63 taps it makes the network one of language 2, in which `array`, `language` and `table` are no names.
    Rates: one out for one in. Faults: overflow, also of a sum of some items or products. Taps that are the same from
    both ends delay a signal by half of (their number - 1). Source: the convolution by its definition; of up to 63 taps,
    two items that have one tap, as many from both ends, are added first. `systolic` is as in H. T. Kung, "Why systolic
    architectures?", 1982.
    """
    if not systolic:
        return windows(stream, [whole_numbers('a tap', taps)], shift)
    found = systolic_fir(stream, taps)
    return scale(found, 1 << whole('the shift', shift, 0, MOST_BITS)) if shift else found


def systolic_fir(stream: Stream, taps: Sequence[int]) -> Stream:
    """A FIR with a process for each tap."""
    need(len(taps) > 0, 'a FIR filter has at least one tap')
    if len(taps) == 1:
        return gain(stream, taps[0])
    stream, total = FIRST_TAP(stream, taps[0])
    for tap in taps[1:-1]:
        stream, total = TAP(stream, total, tap)
    return cast(Stream, LAST_TAP(stream, total, taps[-1]))


def decimate(stream: Stream, taps: Sequence[int], n: int, *, shift: int = 0, phase: int = 0) -> Stream:
    """Each n-th item of `fir(stream, taps, shift=shift)`, from place `phase` on, 0 to n - 1. n is 1 or more.

    Only the sums that are kept are computed. As for `fir`, many taps make the network one of language 2, and so does a
    factor above 16.
    Rates: one out for n in. Faults: those of `fir`. Source: the definition.
    """
    n = whole('the factor of a decimation', n, 1)
    phase = whole(f'the phase of {n} items', phase, 0, n - 1)
    return windows(stream, [whole_numbers('a tap', taps)], shift, n, phase)


def interpolate(stream: Stream, taps: Sequence[int], n: int, *, shift: int = 0) -> Stream:
    """`fir` of the stream with n - 1 zeros after each item; n is 1 or more.

    Up to a factor of 65,535 the products with zeros are not computed. As for `fir`, many taps make the network one of
    language 2, and so does a factor above 16.
    Rates: n out for one in. Faults: those of `fir`. A low pass with gain n keeps the height of a signal. Source: the
    taps k, k + n, k + 2 n and so on make the item that is k later.
    """
    n, numbers = whole('the factor of an interpolation', n, 1), whole_numbers('a tap', taps)
    if n >= MOST_CELLS:
        return fir(upsample(stream, n), taps, shift=shift)
    numbers += [0] * (-len(numbers) % n)
    return windows(stream, [numbers[it::n] for it in range(n)], shift)


def polyphase(stream: Stream, taps: Sequence[int], n: int, *, shift: int = 0) -> Tuple[Stream, ...]:
    """A bank of n filters: filter k has taps[k::n] and the items at places n - 1 - k of each n items.

    Their sum is `decimate(stream, taps, n, phase=n - 1)`, and their `fft` is a bank of n channels. n is 1 to 16, or a
    product of such numbers; there are n taps or more.
    Rates: one item on each out for n in. Faults: those of `fir`. Source: M. G. Bellanger, G. Bonnerot and M. Coudreuse,
    "Digital filtering by polyphase network: application to sample-rate alteration and filter banks", 1976.
    """
    n = whole('the number of filters', n, 1)
    need(len(taps) >= n, f'a bank of {n} filters has at least {n} taps: {len(taps)} are given')
    return tuple(fir(part, taps[it::n], shift=shift) for it, part in enumerate(reversed(deal(stream, n))))


def moving_sum(stream: Stream, n: int) -> Stream:
    """The sum of the last n items, 1 or more, with 0 before the first one.

    It is one process up to 61 items, and beyond it has a delay line.
    Rates: one out for one in. Faults: overflow. Source: a running sum.
    """
    if whole('the number of items', n, 1) > MOST_VARIABLES - 3:
        now, before = fork(stream)
        return cast(Stream, SUM_OF_WINDOW(now, delay(before, n)))
    names = [f'x{it}' for it in range(n + 1)]
    return cast(Stream, Process.from_text(f'''
        process moving_sum(in i; out o) {{
          y = 0; {zeros(names)}
          while 1 {{ read i x0; y = (y + (x0 - x{n})); write o y; {slide('x', n + 1)} }}
        }}''')(stream))


def windows(stream: Stream, phases: List[List[int]], shift: int, factor: int = 1, phase: int = 0) -> Stream:
    """For each `factor` items, the sums by the taps of each phase, which are as many; in as few processes as can be."""
    count, shift = len(phases[0]), whole('the shift', shift, 0, MOST_BITS)
    need(count > 0, 'a FIR filter has at least one tap')
    most = (MOST_NODES - 200 - 24 * len(phases)) // (4 * len(phases) + 2 * factor)
    if count <= min(most, MOST_VARIABLES - 1) and max(len(phases), factor) <= MOST_FACTOR:
        return cast(Stream, written_out(phases, shift, factor, phase)(stream))
    number = -(-count // (MOST_CELLS // (len(phases) + 1)))
    ends = [count * it // number for it in range(number + 1)]
    totals: Optional[Stream] = None
    for begin, end in zip(ends, ends[1:]):
        process = by_table([taps[begin:end] for taps in phases], shift if end == count else 0, factor, phase,
                           totals is not None, end < count)
        made = process(stream) if totals is None else process(stream, totals)
        stream, totals = made if end < count else (stream, made)
    return cast(Stream, totals)


def written_out(phases: List[List[int]], shift: int, factor: int, phase: int) -> Process:
    """A process whose variables are the last items, and whose sums are expressions."""
    names = [f'x{it}' for it in range(len(phases[0]))]
    slides = slide('x', len(names))
    skip = f'read i x0; {slides} '
    sums = ''.join(f'y = {folded(taps, names)}; {nearest("y", 1 << shift)} write o y;' for taps in phases)
    return Process.from_text(f'''
        process fir(in i; out o) {{
          {zeros(names[1:])}
          while 1 {{ {skip * phase} read i x0; {sums} {slides} {skip * (factor - 1 - phase)} }}
        }}''')


def by_table(phases: List[List[int]], shift: int, factor: int, phase: int, has_part: bool, hands_on: bool) -> Process:
    """A process with a table of the taps, and an array round which the last items go. If it is in a chain, it adds to
    sums, and hands on the items that it has no more taps for."""
    size, count = len(phases[0]), len(phases)
    take = (f'read i x; at = (at == 0 ? {size - 1} : at - 1); {"write next last[at];" if hands_on else ""} '
            'last[at] = x;')
    # The last item is at `at`, and those before it lie after it, to the end of the array, and then from its beginning.
    # If there is room, each is there twice, so that all lie in a row.
    add = f'y = y + taps[{"k" if count == 1 else "first + k"}] * last[%s + k]; k = k + 1;'
    is_twice = (count + 2) * size <= MOST_CELLS
    if is_twice:
        take += f' last[at + {size}] = x;'
        sums = f'while k < {size} {{ {add % "at"} }}'
    else:
        sums = (f'end = {size} - at; while k < end {{ {add % "at"} }} '
                f'start = at - {size}; while k < {size} {{ {add % "start"} }}')
    made = f'{"read s y" if has_part else "y = 0"}; k = 0; {sums} {nearest("y", 1 << shift)} write o y;'
    if count > 1:
        made = f'first = 0; while first < {count * size} {{ {made} first = first + {size}; }}'
    return Process.from_text(f'''language 2;
        process fir(in i{", s" if has_part else ""}; out {"next, " if hands_on else ""}o) {{
          array last[{2 * size if is_twice else size}];
          table taps = {", ".join(str(tap) for taps in phases for tap in taps)};
          at = 0;
          while 1 {{ {times(phase + 1, take)} {made} {times(factor - 1 - phase, take)} }}
        }}''')
