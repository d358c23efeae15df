#!/usr/bin/env python3
"""Measures the FM receiver of examples/applications/fm: seconds of a processor for SECONDS of signal at 240 kHz. By
`kpn stream`, by the compiled network, by NumPy if it is there, and in C; the last two in floating point. The sound of
all of them may differ by 4 of 32,768. The best of the runs counts.
"""
import array
import math
import os
import pathlib
import subprocess
import sys
import tempfile

TOP = pathlib.Path(__file__).resolve().parents[2]
sys.path[:0] = [str(TOP / 'bench'), str(TOP / 'python'), str(TOP / 'examples/applications/fm')]

import kpn  # noqa: E402
import measure  # noqa: E402
import receiver  # noqa: E402
from kpn.native import command  # noqa: E402

try:
    import numpy
except ImportError:
    numpy = None

STAYS = math.exp(-receiver.FACTOR / (receiver.FS * 50e-6))
TAPS = [receiver.HEIGHT * receiver.FS / (receiver.DEVIATION * 2 * math.pi) * it
        for it in receiver.low_pass(60, 16_000)]


def by_numpy(samples):
    """The receiver by NumPy, with a loop for the filter with feedback."""
    points = numpy.frombuffer(samples, dtype='<i2').astype(float)
    angle = numpy.arctan2(points[1::2], points[::2])
    steps = numpy.diff(angle, prepend=0)
    steps -= 2 * math.pi * numpy.round(steps / (2 * math.pi))
    sound, found = 0.0, []
    for it in numpy.convolve(steps, TAPS)[:len(steps):receiver.FACTOR].tolist():
        sound = (1 - STAYS) * it + STAYS * sound
        found.append(round(sound))
    return array.array('h', found).tobytes()


def run(words, samples):
    """What a program makes of the samples."""
    return subprocess.run(words, input=samples, capture_output=True, check=True).stdout


def main():
    asked = measure.asked(__doc__, {'seconds': 4}, {'runs': 5})
    sender = [sys.executable, str(TOP / 'examples/applications/fm/sender.py'), str(asked.seconds)]
    samples = run(sender, b'')
    with tempfile.TemporaryDirectory(prefix='kpn-') as folder:
        text, loop = pathlib.Path(folder, 'receiver.kpn'), pathlib.Path(folder, 'loop')
        text.write_text(str(receiver.build()))
        measure.Run([*command.compiler(), str(TOP / 'bench/python/radio.c'), '-o', str(loop), '-lm'])
        compiled, ends = receiver.build().compile(cache=folder).path, ['--format', 's16le', '--quiet']
        ways = {'C': lambda: run([str(loop), str(STAYS), *map(str, TAPS)], samples),
                'kpn stream': lambda: run([kpn.find_program(), 'stream', str(text), *ends], samples),
                'compiled': lambda: run([compiled, 'stream', *ends], samples),
                **({'NumPy': lambda: by_numpy(samples)} if numpy else {})}
        wanted = array.array('h', ways['C']())
        for who, call in ways.items():
            best = math.inf
            for _ in range(asked.runs):
                before = sum(os.times()[:4])
                found = array.array('h', call())
                best = min(best, sum(os.times()[:4]) - before)
                if len(found) != len(wanted) or max(abs(a - b) for a, b in zip(found, wanted)) > 4:
                    sys.exit(f'{who} gives another sound than C')
            print(f'{who:12} {best:6.2f} s, {asked.seconds / max(best, 0.01):6.1f} times real time', flush=True)


if __name__ == '__main__':
    main()
