#!/usr/bin/env python3
"""Compares a picture with what a decoder made of its JPEG file: each block has to be within the quantiser's error.

A transform that is orthonormal keeps the sum of squares. So the errors of the pixels of a block have at most the
length of the errors of its 64 items: a half of a quantum each, 0.6 of the transform and a half by each rounding.

usage: compare.py PICTURE.pgm DECODED.pgm
"""
import math
import sys

from encode import QUANTA, picture_of

MOST = math.sqrt(sum((it / 2 + 0.6)**2 for it in QUANTA)) + math.sqrt(64) * 1.0


def main():
    width, height, rows = picture_of(sys.argv[1])
    if picture_of(sys.argv[2])[:2] != (width, height):
        sys.exit('the pictures are not of one size')
    decoded = picture_of(sys.argv[2])[2]
    worst, squares = 0.0, 0
    for top in range(0, height, 8):
        for left in range(0, width, 8):
            errors = [a - b for one, other in zip(rows[top:top + 8], decoded[top:top + 8])
                      for a, b in zip(one[left:left + 8], other[left:left + 8])]
            worst = max(worst, math.hypot(*errors))
            squares += sum(it * it for it in errors)
    noise = 10 * math.log10(255**2 * width * height / squares) if squares else math.inf
    print(f'worst block {worst:.1f} of {MOST:.1f}; {noise:.1f} dB above the error')
    return 0 if worst <= MOST else 1


if __name__ == '__main__':
    sys.exit(main())
