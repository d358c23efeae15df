#!/usr/bin/env python3
"""Writes a grey picture: rings that get narrower, and a dark and a bright square.

usage: picture.py [WIDTH [HEIGHT]] > picture.pgm
"""
import math
import sys


def main():
    width, height = (int(it) for it in [*sys.argv[1:], '256', '192'][:2])
    pixels = bytearray()
    for y in range(height):
        for x in range(width):
            ring = 128 + 100 * math.cos(((x - width / 2)**2 + (y - height / 2)**2) / 400)
            inside = x < width // 6 and y < height // 6
            pixels.append(20 if inside else 235 if x > width * 5 // 6 and y > height * 5 // 6 else round(ring))
    sys.stdout.buffer.write(f'P5\n{width} {height}\n255\n'.encode() + pixels)


if __name__ == '__main__':
    main()
