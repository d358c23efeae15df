#!/usr/bin/env python3
"""Measures the chain that somebody writes first: 10 seconds of sound at 48 kHz through a FIR of 31 taps, a notch and a
compressor, right to the item. By `net.run`, by `net.compile()`, by plain Python with NumPy's convolution if NumPy is
there, and by the same loop in C. A time is that of a processor for the whole call, the best of the runs.
"""
import array
import math
import os
import pathlib
import random
import subprocess
import sys
import tempfile

TOP = pathlib.Path(__file__).resolve().parents[2]
sys.path[:0] = [str(TOP / 'bench'), str(TOP / 'python')]

import kpn  # noqa: E402
import measure  # noqa: E402
from kpn import parts  # noqa: E402
from kpn.native import command  # noqa: E402
from kpn.parts.recursive import section_of  # noqa: E402

try:
    import numpy
except ImportError:
    numpy = None

FS, SECONDS = 48_000, 10
TAPS = kpn.Q(15)([(0.54 + 0.46 * math.cos(math.pi * k / 16)) / 17 for k in range(-15, 16)])
B0, B1, B2, _, A1, A2 = kpn.Q(30)(section_of('notch', FS, 50, 30))


def network():
    """The chain as a user writes it."""
    net = kpn.Network()
    x = parts.fir(net.source('x'), TAPS, shift=15)
    x = parts.notch(x, FS, 50)
    x = parts.compressor(x, threshold=8_000, ratio=4, attack=48, release=4_800)
    net.sink('y', x)
    return net


def nearest(a, b):
    """The quotient to nearest; a half goes away from 0."""
    return (2 * abs(a) + b) // (2 * b) * (1 if a > 0 else -1)


def by_python(items):
    """The chain in another way: NumPy's convolution if it is there, and then a loop."""
    if numpy:
        sums = numpy.convolve(items, TAPS)[:len(items)].tolist()
    else:
        padded = [0] * (len(TAPS) - 1) + items
        sums = [sum(map(int.__mul__, TAPS[::-1], padded[n:n + len(TAPS)])) for n in range(len(items))]
    x1 = x2 = y1 = y2 = r1 = r2 = level = 0
    found = []
    for it in sums:
        x = nearest(it, 1 << 15)
        exact = B0 * x + B1 * x1 + B2 * x2 - A1 * y1 - A2 * y2 + 2 * r1 - r2
        y = nearest(exact, 1 << 30)
        r1, r2, x1, x2, y1, y2 = exact - (y << 30), r1, x, x1, y, y1
        step = 65536 * abs(y) - level
        level += abs(step) // (48 if step > 0 else 4_800) * (1 if step > 0 else -1)
        v = level // 65536
        found.append(nearest(y * (8_000 * 3 + v), v * 4) if v > 8_000 else y)
    return found


def by_c(folder, items):
    """The chain in C."""
    program = pathlib.Path(folder, 'chain')
    if not program.exists():
        measure.Run([*command.compiler(), str(TOP / 'bench/python/chain.c'), '-o', str(program)])
    words = [str(it) for it in (*TAPS, B0, B1, B2, A1, A2)]
    done = subprocess.run([str(program), *words], input=array.array('q', items).tobytes(), capture_output=True,
                          check=True)
    return array.array('q', done.stdout).tolist()


def items():
    """The sound: a tone, hum and noise."""
    noise = random.Random(3)
    return [round(9_000 * math.sin(2 * math.pi * 440 * n / FS) + 4_000 * math.sin(2 * math.pi * 50 * n / FS))
            + noise.randint(-2_000, 2_000) for n in range(FS * SECONDS)]


def main():
    runs, given = measure.asked(__doc__, {}, {'runs': 5}).runs, items()
    with tempfile.TemporaryDirectory(prefix='kpn-') as folder:
        program = network().compile(cache=folder)
        ways = {'net.run': lambda: network().run(given).check()['y'], 'compiled': lambda: program.run(given)['y'],
                'NumPy and Python' if numpy else 'plain Python': lambda: by_python(given),
                'C': lambda: by_c(folder, given)}
        wanted = by_c(folder, given)
        for who, call in ways.items():
            best = math.inf
            for _ in range(runs):
                before = sum(os.times()[:4])
                if call() != wanted:
                    sys.exit(f'{who} gives other items than C')
                best = min(best, sum(os.times()[:4]) - before)
            print(f'{who:18} {best:6.2f} s, {SECONDS / max(best, 0.01):6.1f} times real time', flush=True)


if __name__ == '__main__':
    main()
