#!/usr/bin/env python3
"""Writes what an antenna gets of a sender that is modulated by a tone: I and Q of 240 kHz, as samples of 16 bits.

usage: sender.py [SECONDS [FREQUENCY]] > sender.iq
"""
import array
import cmath
import math
import random
import sys

FS, DEVIATION, HEIGHT = 240_000, 75_000, 12_000


def main():
    words = [float(it) for it in sys.argv[1:]]
    seconds, tone = [*words, 2.0, 1000.0][0], [*words[1:], 1000.0][0]
    noise, angle, samples = random.Random(5), 0.0, array.array('h')
    for n in range(round(seconds * FS)):
        angle += 2 * math.pi * 0.5 * DEVIATION / FS * math.sin(2 * math.pi * tone * n / FS)
        point = HEIGHT * cmath.exp(1j * angle)
        samples.extend((round(point.real + noise.gauss(0, 100)), round(point.imag + noise.gauss(0, 100))))
    if sys.byteorder == 'big':
        samples.byteswap()
    sys.stdout.buffer.write(samples.tobytes())


if __name__ == '__main__':
    main()
