#!/usr/bin/env python3
"""Puts and gets per second of a channel, and its bytes an item, beside a plain Rust `VecDeque` with a `Vec` journal.

Prints ratios and checks that both read the same. It is no part of the gate. A word may name the number of items; the
default is 20,000,000. It reports the best of five runs, by the time that the process took on its processor.
"""
import pathlib
import sys
import tempfile

HERE = pathlib.Path(__file__).resolve().parent
sys.dont_write_bytecode = True
sys.path.append(str(HERE.parent))

import measure

CAPACITIES = [1, 64, 65_536]
RUNS = 5


def best(run, capacity, items):
    """The least seconds of the runs, the bytes an item above a run on one item, and what was written."""
    runs = [run(capacity, items) for _ in range(RUNS)]
    if len({it.wrote for it in runs}) != 1:
        sys.exit(f'capacity {capacity}: the runs differ')
    memory = max(it.memory for it in runs) - run(capacity, 1).memory
    return measure.best(runs).seconds, memory / items, runs[0].wrote


def main():
    items = measure.asked(__doc__, {'items': 20_000_000}).items
    parts = measure.parts()
    with tempfile.TemporaryDirectory() as folder:
        plain = measure.plain(HERE / 'plain.rs', folder)
        runs = [lambda capacity, items: measure.Run([parts], given=f'chan {capacity} {items}'),
                lambda capacity, items: measure.Run([plain, str(capacity), str(items)])]
        for capacity in CAPACITIES:
            (ours, bytes_ours, read), (theirs, bytes_theirs, wanted) = (best(it, capacity, items) for it in runs)
            if read != wanted:
                sys.exit(f'capacity {capacity}: {read} where the plain program read {wanted}')
            print(f'capacity {capacity:6} {items / ours / 1e6:8.2f} million puts and gets a second, '
                  f'{theirs / ours:5.2f} of the plain program; '
                  f'{bytes_ours:5.1f} bytes an item beside {bytes_theirs:5.1f}')


if __name__ == '__main__':
    main()
