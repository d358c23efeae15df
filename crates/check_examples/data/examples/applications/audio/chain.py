#!/usr/bin/env python3
"""Writes a chain for sound of 48 kHz: a low pass of 31 taps, a notch at 50 Hz and a compressor.

usage: chain.py [CHANNELS] > chain.kpn      CHANNELS is 1, 2 or more, whose samples take turns
"""
import math
import sys

import kpn
from kpn import parts

FS, CUTOFF = 48_000, 8_000
# A sinc in a Hamming window; its gain is 1.
SINC = [(0.54 + 0.46 * math.cos(math.pi * k / 16)) * (math.sin(2 * math.pi * CUTOFF / FS * k) / (math.pi * k)
                                                      if k else 2 * CUTOFF / FS) for k in range(-15, 16)]
TAPS = kpn.Q(15)([it / sum(SINC) for it in SINC])


def chain(stream):
    """The chain of one channel; its items stay within 16 bits."""
    stream = parts.notch(parts.fir(stream, TAPS, shift=15), FS, 50)
    stream = parts.compressor(stream, threshold=8_000, ratio=4, attack=FS // 1000, release=FS // 10)
    return parts.saturate(stream, -32_768, 32_767)


def louder(stream, volumes, block):
    """A stream at a volume that changes after each block of `block` items: 256 is as loud as before."""
    stream, volume = parts.control(stream, volumes, block)
    return parts.saturate(parts.scale(parts.multiply(stream, volume), 256), -32_768, 32_767)


def build(channels=1, block=0):
    """The chains of the channels of the source `x`, with the sink `y`. If there is a block, the source `volume` has an
    item for each block of this many samples of a channel."""
    net = kpn.Network()
    sounds = [chain(it) for it in parts.deal(net.source('x'), channels)]
    if block:
        volumes = parts.fork(net.source('volume'), channels)
        sounds = [louder(*pair, block) for pair in zip(sounds, volumes)]
    net.sink('y', parts.merge(sounds))
    return net


if __name__ == '__main__':
    print(build(int([*sys.argv[1:], 1][0])), end='')
