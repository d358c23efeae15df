#!/usr/bin/env python3
"""Random networks as archives with static memory, in a session that feeds and takes piece by piece, beside `kpn run`.

usage: bench/stress/native_fixed.py [NETWORKS [SEED]] [--by PROGRAM]

KPN_PROGRAM names the program `kpn`, CC and CFLAGS the compiler, and AR what makes archives. `--by` names what runs the
programs of another machine. So networks are tried on 32 bits by

    CC='arm-linux-gnueabihf-gcc -static' AR=arm-linux-gnueabihf-ar bench/stress/native_fixed.py 200 --by qemu-arm
    CC='i686-linux-gnu-gcc -static' AR=i686-linux-gnu-ar bench/stress/native_fixed.py 200

The items of all sinks and the outcome have to be those of `kpn run`. It ends with 1 at the first difference. It is no
part of the gate, but python/tests/test_native.py uses it.
"""
import argparse
import collections
import pathlib
import random
import subprocess
import sys
import tempfile

TOP = pathlib.Path(__file__).resolve().parents[2]
sys.path += [str(TOP / 'bench/stress'), str(TOP / 'python')]

import native_networks  # noqa: E402
from kpn.native import command  # noqa: E402
from native import COMMITS, ENDS, Difference, call  # noqa: E402
from kpn.program import find_program  # noqa: E402

# The most items that wait at a source, and the limit of a network without one. Under `policy all` a growth may be owed
# only once all sources are closed, so there all items have to find room.
ITEMS, ALL_ITEMS, LIMIT = 7, 1000, 80


def wanted_of(folder, lists):
    """What `kpn run` gives, as the lines of native_fixed.c, or nothing if it comes to no end; and the sinks."""
    canonical = call([find_program(), 'print', 'net'], folder)[0].decode()
    sinks = [line.split()[1] for line in canonical.splitlines() if line.startswith('  sink ')]
    words = [find_program(), 'run', 'net', '--max-commits', COMMITS, *(f'--sink={sink}={sink}.out' for sink in sinks)]
    for name, items in lists.items():
        pathlib.Path(folder, f'{name}.in').write_text(''.join(f'{it}\n' for it in items))
        words.append(f'--source={name}={name}.in')
    report, status, _ = call(words, folder)
    if status not in ENDS:
        return canonical, sinks, None
    lines = [f'{sink} {item}' for sink in sinks for item in pathlib.Path(folder, f'{sink}.out').read_text().split()]
    return canonical, sinks, [*lines, report.split()[-1].decode()]


def try_network(text, lists, by=()):
    """One network; gives its outcome."""
    with tempfile.TemporaryDirectory(prefix='kpn-') as folder:
        pathlib.Path(folder, 'net').write_text(text)
        canonical, sinks, wanted = wanted_of(folder, lists)
        if wanted is None:
            return 'stopped'
        c = command.c_of(canonical, command.SCHEDULES[0], fixed=ALL_ITEMS if ' policy all;' in text else ITEMS)
        harness = str(TOP / 'bench/stress/native_fixed.c')
        link = [*command.compiler(), harness, 'net.a', '-o', 'prog']
        failed = command.build_library(c, f'{folder}/net.a', True)
        if failed or subprocess.run(link, cwd=folder, check=False).returncode:
            raise Difference('the compiler refuses the C')
        words = [*by, './prog', *(f'+{name}' for name in lists), *(f'-{sink}' for sink in sinks)]
        given = ''.join(' '.join(map(str, items)) + '\n' for items in lists.values())
        out, status, told = call(words, folder, input=given.encode(), timeout=120)
        if status or out.decode().splitlines() != wanted:
            raise Difference(f'status {status} {told.decode()}: {out[:500]} {wanted[-20:]}')
        return wanted[-1]


def with_limit(text):
    """A network that has a limit."""
    return text if ' limit ' in text else text.replace('network {', f'network {{ limit {LIMIT};', 1)


def main():
    parser = argparse.ArgumentParser(description=__doc__.split('\n')[0])
    parser.add_argument('networks', nargs='?', type=int, default=100)
    parser.add_argument('seed', nargs='?', type=int, default=1)
    parser.add_argument('--by', default='', help='what runs the programs')
    given = parser.parse_args()
    counts = collections.Counter()
    for seed in range(given.seed, given.seed + given.networks):
        text, lists = native_networks.network(random.Random(seed), '' if seed % 2 else 'faults')
        try:
            counts[try_network(with_limit(text), lists, given.by.split())] += 1
        except (Difference, subprocess.TimeoutExpired) as found:
            print(f'network {seed}: {found}\n{text}{lists}')
            return 1
    print(f'{given.networks} networks: {", ".join(f"{count} {outcome}" for outcome, count in sorted(counts.items()))}')
    return 0


if __name__ == '__main__':
    sys.exit(main())
