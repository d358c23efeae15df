#!/usr/bin/env python3
"""Writes the network of an FM receiver: complex samples of 240 kHz in, each I and then Q; sound of 48 kHz out.

usage: receiver.py > receiver.kpn
"""
import math

import kpn
from kpn import parts

FS, FACTOR, DEVIATION, HEIGHT = 240_000, 5, 75_000, 24_000


def low_pass(count, cutoff):
    """The taps of a low pass with gain 1: a sinc in a Hamming window."""
    middle = (count - 1) / 2
    taps = [(0.54 + 0.46 * math.cos(math.pi * (n - middle) / (middle + 0.5)))
            * math.sin(2 * math.pi * cutoff / FS * (n - middle)) / (math.pi * (n - middle)) for n in range(count)]
    return [it / sum(taps) for it in taps]


def build(block=0):
    """The receiver of the source `iq`, with the sink `sound`. If there is a block, the source `tune` has an item for each
    block of this many complex samples: the frequency by which they are moved up first, times 2^32 / FS."""
    net = kpn.Network()
    re, im = parts.deal(net.source('iq'), 2)
    if block:
        re, step = parts.control(re, net.source('tune'), block)
        re, im = parts.complex_multiply(re, im, *parts.nco(step, 2**30), shift=30)
    turns = parts.fm_demodulate(re, im, rounds=14)
    # A frequency f is 2^32 f / FS there. The taps bring that of the deviation to the height.
    scale = HEIGHT * FS / (DEVIATION * 2**32)
    taps = kpn.Q(44)([scale * it for it in low_pass(60, 16_000)])
    net.sink('sound', parts.deemphasis(parts.decimate(turns, taps, FACTOR, shift=44), FS / FACTOR))
    return net


if __name__ == '__main__':
    print(build(), end='')
