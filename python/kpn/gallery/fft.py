"""The Fourier transforms of frames of 16 complex numbers: a process for each of the 32 butterflies."""
import cmath
import math
from typing import Dict, List

from .. import parts
from ..network import Network
from .signals import noise, tone

POINTS, BITS = 16, 14


def build() -> Network:
    """The transforms of the frames of the sources `re` and `im`, with the sinks `out_re` and `out_im`."""
    net = Network()
    out_re, out_im = parts.fft(net.source('re'), net.source('im'), POINTS, BITS)
    net.sink('out_re', out_re)
    net.sink('out_im', out_im)
    return net


def inputs(count: int) -> Dict[str, List[int]]:
    """Tones with noise, by whole frames."""
    count -= count % POINTS
    return {'re': [a + b for a, b in zip(tone(count, 5.3, 9_000), noise(count, 300, 6))],
            'im': [a + b for a, b in zip(tone(count, 3.1, 4_000), noise(count, 300, 7))]}


def rounded(value: int) -> int:
    """A product without its bits after the point; a half goes away from 0."""
    return (abs(value) + (1 << BITS - 1) >> BITS) * (1 if value > 0 else -1)


def transform(re: List[int], im: List[int]) -> None:
    """The transform of one frame in place: the items in the order of reversed bits, and then column after column."""
    order = [int(f'{it:0{POINTS.bit_length() - 1}b}'[::-1], 2) for it in range(POINTS)]
    re[:], im[:] = [re[it] for it in order], [im[it] for it in order]
    half = 1
    while half < POINTS:
        for k in range(half):
            factor = 2**BITS * cmath.exp(-1j * math.pi * k / half)
            wr, wi = round(factor.real), round(factor.imag)
            for a in range(k, POINTS, 2 * half):
                b = a + half
                x, y = rounded(re[b] * wr - im[b] * wi), rounded(re[b] * wi + im[b] * wr)
                re[a], im[a], re[b], im[b] = re[a] + x, im[a] + y, re[a] - x, im[a] - y
        half *= 2


def expected(given: Dict[str, List[int]]) -> Dict[str, List[int]]:
    """The transform in place of each frame."""
    found: Dict[str, List[int]] = {'out_re': [], 'out_im': []}
    for start in range(0, len(given['re']), POINTS):
        re, im = (given[part][start:start + POINTS] for part in ('re', 'im'))
        transform(re, im)
        found['out_re'] += re
        found['out_im'] += im
    return found
