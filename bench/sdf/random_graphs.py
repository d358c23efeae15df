#!/usr/bin/env python3
"""Compares `kpn.sdf` on random graphs with plain counting (python/tests/plain_graphs.py), and each least capacity with
runs of the proved program: one that ends, and some with a token less that deadlock. It ends with the first difference.

A thousand graphs take some minutes. Each seventh also compares the whole Pareto curve.
"""
import argparse
import pathlib
import random
import sys
import time
import unittest

TOP = pathlib.Path(__file__).resolve().parents[2]
sys.path[:0] = [str(TOP / 'python/tests')]


def main():
    reads = argparse.ArgumentParser(description=__doc__, formatter_class=argparse.RawDescriptionHelpFormatter)
    reads.add_argument('count', nargs='?', type=int, default=1_000)
    reads.add_argument('seed', nargs='?', type=int, default=1)
    asked = reads.parse_args()
    import plain_graphs  # it needs the program
    count, seed = asked.count, asked.seed
    test, found, start = unittest.TestCase(), {}, time.time()
    for number in range(seed, seed + count):
        if (number - seed) % 100 == 99:
            print(f'{number - seed + 1} graphs', flush=True)
        is_long = number % 7 == 0
        graph = plain_graphs.random_graph(random.Random(number), *((3, 3) if is_long else (4, 4)))
        try:
            kind = plain_graphs.compare(test, graph, is_long)
        except BaseException:
            print(f'graph {number}: {list(graph.actors.values())} {list(graph.channels.values())}')
            raise
        found[kind] = found.get(kind, 0) + 1
    print(f'{count} graphs, {found}, in {time.time() - start:.0f} s: no difference')


if __name__ == '__main__':
    main()
