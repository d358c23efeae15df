#!/usr/bin/env python3
"""Measures a network over two ranks of MPI against `kpn run` on one thread, and beside a program in Go over TCP.

A row of 8 processes: the first one counts, the next ones copy, and the last one adds up and writes the sum, so that
files take no time. Each rank has 4 of them. It prints, for plain copies and for some 2 microseconds of work at each
item, and for capacities of 64 and 4,096, the seconds of a run on one thread and those over two ranks as a part of them:
the best of some runs, without the time that a run of no items takes. Wanted are at most 0.75 for copies, and 0.6 at 2
microseconds.

The Go program does the copies by goroutines and channels of the same capacities in two processes, over a connection of
TCP whose writer hands on what it has whenever its channel is empty. `--alone` gives each rank a processor of its own at
real-time priority, if something else runs on the machine; it needs root. The load is printed too. It is no part of the
gate. Words: the number of items of copies, by default 2,000,000.
"""
import os
import pathlib
import shutil
import subprocess
import sys
import tempfile
import time

HERE = pathlib.Path(__file__).resolve().parent
sys.dont_write_bytecode = True
sys.path += [str(HERE.parent), str(HERE.parents[1] / 'python')]

import measure  # noqa: E402
from kpn.program import find_program  # noqa: E402
from kpn.ranks import SETTINGS, find_mpi_program  # noqa: E402

STAGES, RUNS, CAPACITIES = 8, 3, (64, 4096)
# Turns of a loop that take some 2 microseconds, and by how much fewer items there are then.
TURNS, FEWER = 400, 30
ENVIRONMENT = {**os.environ, **SETTINGS, 'OMPI_ALLOW_RUN_AS_ROOT': '1', 'OMPI_ALLOW_RUN_AS_ROOT_CONFIRM': '1',
               'OMPI_MCA_hwloc_base_binding_policy': 'none'}
# Ranks 0 and 1 get processors 0 and 1.
ALONE = 'exec chrt -f 10 taskset -c "${OMPI_COMM_WORLD_RANK:-${PMI_RANK:-0}}" "$@"'
WANTED = {'copies': 0.75, '2 us': 0.6}


def text_of(items, capacity, turns):
    """The row as a description."""
    work = f'k = 0; while (k < {turns}) {{ k = (k + 1); }} ' if turns else ''
    lines = [f'process count(out o) {{ x = 0; while (x < {items}) {{ x = (x + 1); {work}write o x; }} }}',
             f'process copy(in i; out o) {{ while 1 {{ read i x; {work}write o x; }} }}',
             f'process add(in i; out o) {{ n = 0; s = 0; while (n < {items}) {{ read i x; n = (n + 1); {work}',
             '  s = (s + x); } write o s; }',
             'network {', *(f'channel c{it} cap {capacity};' for it in range(STAGES - 1)), 'sink sum cap 1;',
             'a0 = count(; c0);', *(f'a{it} = copy(c{it - 1}; c{it});' for it in range(1, STAGES - 1)),
             f'a{STAGES - 1} = add(c{STAGES - 2}; sum);', '}']
    return '\n'.join(lines) + '\n'


def seconds(words, folder):
    """The least time on the clock of a program, and what it wrote."""
    found = []
    for _ in range(RUNS):
        began = time.monotonic()
        done = subprocess.run(words, cwd=folder, env=ENVIRONMENT, capture_output=True, text=True)
        found.append(time.monotonic() - began)
        if done.returncode:
            sys.exit(f'{words} ended with {done.returncode}: {done.stderr}')
    return min(found), done.stdout


def time_of(words, folder):
    """The time of a run over the items of `net` without that of one over `none`, and what it wrote."""
    start, _ = seconds([*words[:-1], 'none'], folder)
    whole, said = seconds(words, folder)
    return whole - start, said


def over_ranks(starter, is_alone):
    """The words for two ranks with the first and the second half of the row."""
    words = [starter, '-n', '2', *(['sh', '-c', ALONE, 'sh'] if is_alone else []), find_mpi_program()]
    return [*words, '--cut', 'cut', '--room', '1', '--max-commits', str(10**9), 'net']


def compare(folder, items, capacity, turns, is_alone):
    """One row of the table."""
    for name, count in (('net', items), ('none', 0)):
        (folder / name).write_text(text_of(count, capacity, turns))
    (folder / 'cut').write_text(''.join(f'a{it}={2 * it // STAGES}\n' for it in range(STAGES)))
    alone = ['sh', '-c', ALONE, 'sh'] if is_alone else []
    one, wanted = time_of([*alone, find_program(), 'run', '--max-commits', str(10**9), 'net'], folder)
    two, found = time_of(over_ranks(shutil.which('mpirun'), is_alone), folder)
    if wanted != found:
        sys.exit(f'one thread: {wanted}two ranks: {found}')
    what = '2 us' if turns else 'copies'
    hops = items * STAGES
    print(f'{what:8} {capacity:>9,} {one:8.2f} s {1e6 * one / hops:8.2f} us {two / one:9.2f}   at most {WANTED[what]}',
          flush=True)
    return one


def builds_go(folder):
    """Builds the program in Go, and returns whether that worked."""
    words = ['go', 'build', '-o', folder / 'rows', HERE / 'rows.go']
    return subprocess.run(words, env={**os.environ, 'GO111MODULE': 'off'}).returncode == 0


def compare_go(folder, items, capacity, one):
    """The copies by Go, as a part of the time on one thread."""
    words = [str(folder / 'rows'), str(items), str(capacity)]
    took, _ = time_of_go(words)
    print(f'{"Go, TCP":8} {capacity:>9,} {"":10} {"":11} {took / one:9.2f}', flush=True)


def time_of_go(words):
    found = []
    for _ in range(RUNS):
        began = time.monotonic()
        done = subprocess.run(words, capture_output=True, text=True, check=True)
        found.append(time.monotonic() - began)
    return min(found), done.stdout


def main():
    given = measure.asked(__doc__, {'items': 2_000_000}, {'alone': False})
    print(f'load {os.getloadavg()[0]:.1f} on {os.cpu_count()} processors')
    print('work      capacity one thread    an item  two ranks')
    with tempfile.TemporaryDirectory(prefix='kpn-') as name:
        folder = pathlib.Path(name)
        has_go = shutil.which('go') and builds_go(folder)
        for capacity in CAPACITIES:
            one = compare(folder, given.items, capacity, 0, given.alone)
            if has_go:
                compare_go(folder, given.items, capacity, one)
        for capacity in CAPACITIES:
            compare(folder, given.items // FEWER, capacity, TURNS, given.alone)


if __name__ == '__main__':
    main()
