#!/usr/bin/env python3
"""Steps per second of the stepper on some loops, beside a plain Rust interpreter over the same enum trees and the same
loops as rustc compiles them. Also what it takes to copy a frame and compare it with another.

Prints ratios and checks that all computed the same. It is no part of the gate. A word may name the number of turns; the
default is 1,000,000. It reports the best processor time of 40 rounds, less that of a run with one turn. The runs are
short, and each program has its turn in each round, so that others on the machine trouble all alike.
"""
import pathlib
import sys
import tempfile

HERE = pathlib.Path(__file__).resolve().parent
sys.dont_write_bytecode = True
sys.path.append(str(HERE.parent))

import measure

LOOPS = ['counting', 'ifs', 'arithmetic', 'computing', 'remainder', 'deep']
FRAMES = 4_000_000
ROUNDS = 40


def measured(programs, count):
    """The seconds that each program takes for this many turns, and its output. Each is a run by how many there are."""
    starts, times, outputs = ([None] * len(programs) for _ in range(3))
    for _ in range(ROUNDS):
        for place, program in enumerate(programs):
            start, run = program(1), program(count)
            starts[place] = min(starts[place] or start.seconds, start.seconds)
            times[place] = min(times[place] or run.seconds, run.seconds)
            outputs[place] = run.wrote.split()
    return [max(seconds - start, 1e-9) for seconds, start in zip(times, starts)], outputs


def main():
    turns = measure.asked(__doc__, {'turns': 1_000_000}).turns
    parts = measure.parts()
    with tempfile.TemporaryDirectory() as folder:
        plain = measure.plain(HERE / 'plain.rs', folder)
        for loop in LOOPS:
            programs = [lambda count: measure.Run([parts], given=f'step {loop} {count}'),
                        lambda count: measure.Run([plain, loop, str(count)]),
                        lambda count: measure.Run([plain, loop, str(count), 'compiled'])]
            seconds, (computed, (wanted, steps), (compiled, _)) = measured(programs, turns)
            if computed != [wanted] or compiled != wanted:
                sys.exit(f'{loop}: {computed} where the plain interpreter computed {wanted}, and rustc {compiled}')
            print(f'{loop:10} {int(steps) / seconds[0] / 1e6:6.1f} million steps a second, '
                  f'{turns / seconds[0] / 1e6:6.1f} million turns, '
                  f'{seconds[1] / seconds[0]:5.2f} of the plain interpreter, '
                  f'{seconds[2] / seconds[0]:6.3f} of what rustc compiles')
    (seconds,), _ = measured([lambda count: measure.Run([parts], given=f'frames {count}')], FRAMES)
    print(f'frames     {seconds / FRAMES * 1e9:6.1f} ns to copy one and compare it with another')


if __name__ == '__main__':
    main()
