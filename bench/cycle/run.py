#!/usr/bin/env python3
"""Walks per second along the waits of 2, 16 and 256 processes, on a chain and on a cycle.

It measures each walk in a network of as many processes as the walk meets and in one of 256, of which the others wait
for nobody. A step has to cost the same in both. It is no part of the gate. A word may name the number of steps of a
run; the default is 100,000,000. It reports the best of five runs.
"""
import pathlib
import sys

HERE = pathlib.Path(__file__).resolve().parent
sys.dont_write_bytecode = True
sys.path.append(str(HERE.parent))

import measure

SHAPES = ['chain', 'cycle']
LENGTHS = [2, 16, 256]
PROCESSES = 256
RUNS = 5


def run(parts, shape, length, processes, walks):
    """The best of the runs in seconds. Each walk along a cycle finds a full channel, and no other does."""
    line = f'cycle {shape} {length} {processes} {walks}'
    wanted = walks if shape == 'cycle' else 0
    runs = [measure.Run([parts], given=line) for _ in range(RUNS)]
    for it in runs:
        if it.wrote.split() != [str(wanted)]:
            sys.exit(f'{line}: {it.wrote.strip()} walks found a full channel, {wanted} are to')
    return min(it.elapsed for it in runs)


def main():
    steps = measure.asked(__doc__, {'steps': 100_000_000}).steps
    parts = measure.parts()
    for shape in SHAPES:
        for length in LENGTHS:
            for processes in sorted({length, PROCESSES}):
                walks = max(steps // length, 1)
                seconds = run(parts, shape, length, processes, walks)
                nanoseconds = seconds / (walks * length) * 1e9
                print(f'{shape} of {length:3} in {processes:3} processes: {walks / seconds / 1e6:7.2f} million walks a'
                      f' second, {nanoseconds:5.2f} ns a step')


if __name__ == '__main__':
    main()
