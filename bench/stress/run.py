#!/usr/bin/env python3
"""Many runs of the example networks by workers, with a gate that dawdles at random.

Each run has to come to the outcome and the items of a run on one thread, within its time, and the auditor has to find
its history legal. A run that hangs ends this program with an error. It is no part of the gate. A word may name how many
runs there are in all; the default is 10,000. A second word says where the random numbers begin.
"""
import pathlib
import subprocess
import sys
import time

TOP = pathlib.Path(__file__).resolve().parent.parent.parent
sys.path.append(str(TOP / 'bench'))

import measure  # noqa: E402

EXAMPLES = TOP / 'examples'
WORKERS = (1, 2, 3, 4, 16)

# seconds that a run may take, and those that a program may take beside its runs
MOST = 10
BESIDE = 30

# the description, how many items are wanted of each sink (0 for all), and the items of the sources
NETWORKS = (
    ('copy.kpn', 0, ['s=signal']),
    ('kahn.kpn', 6, []),
    ('mean.kpn', 0, ['signal=signal']),
    ('moving_average.kpn', 0, ['signal=signal']),
    ('fault.kpn', 0, ['signal=signal']),
    ('fibonacci.kpn', 10, []),
    ('sieve.kpn', 1, []),
    ('ring_of_cells.kpn', 0, []),
    ('deadlock.kpn', 0, []),
    ('jammed.kpn', 0, []),
    ('clogged.kpn', 0, []),
    ('two.kpn', 0, []),
    ('worked/self_loop.kpn', 0, []),
    ('worked/ended_reader.kpn', 0, []),
    ('worked/both_ways.kpn', 0, []),
    ('worked/tie.kpn', 0, []),
    ('worked/two_and_spin.kpn', 1, []),
    ('worked/zero_divisor.kpn', 0, []),
    ('worked/overflow.kpn', 0, []),
    ('worked/operators.kpn', 0, []),
)


def stress(program, network, workers, runs, seed):
    """This many runs of a network; the seconds that they took."""
    file, take, lists = network
    line = ' '.join(['stress', file, str(workers), str(runs), str(seed), str(take), *lists]) + '\n'
    before = time.monotonic()
    done = subprocess.run([program], cwd=EXAMPLES, input=line, capture_output=True, text=True,
                          timeout=BESIDE + MOST * runs)
    if done.returncode != 0 or done.stdout != f'{runs} runs\n':
        sys.exit(f'{line}{done.returncode}: {done.stdout}{done.stderr}')
    return time.monotonic() - before


def main():
    asked = measure.asked(__doc__, {'runs': 10_000, 'seed': 1})
    wanted, seed = asked.runs, asked.seed
    program = str(measure.parts())
    runs = -(-wanted // (len(NETWORKS) * len(WORKERS)))
    for workers in WORKERS:
        took = 0
        slowest = ''
        most = 0
        for network in NETWORKS:
            seconds = stress(program, network, workers, runs, seed)
            seed += runs
            took += seconds
            if seconds >= most:
                most, slowest = seconds, network[0]
        print(f'{workers} workers: {runs * len(NETWORKS)} runs in {took:.1f} s, the slowest {slowest} with '
              f'{1000 * most / runs:.1f} ms a run', flush=True)
    print(f'{runs * len(NETWORKS) * len(WORKERS)} runs, each as one on one thread, each history legal')


if __name__ == '__main__':
    main()
