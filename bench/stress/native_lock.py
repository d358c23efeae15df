#!/usr/bin/env python3
"""Random networks as objects with a session in lock step, beside objects whose processes make turns.

usage: bench/stress/native_lock.py [NETWORKS [SEED]] [--fixed] [--prefix NAME] [--library LIBKPN]

KPN_PROGRAM names the program `kpn`, and CC and CFLAGS the compiler. Of each network that has a lock step the two have
to give and tell the same, whatever is fed, taken and asked for; native_lock.c chooses that. With `--fixed` the first
has static memory, with `--prefix` calls of its own. With `--library` the other session is that of a library, as
tools/clib.py builds it. It ends with 1 at the first difference. It is no part of the gate, but
python/tests/test_native.py uses it.
"""
import argparse
import collections
import os
import pathlib
import random
import re
import subprocess
import sys
import tempfile

TOP = pathlib.Path(__file__).resolve().parents[2]
sys.path += [str(TOP / 'bench/stress'), str(TOP / 'python')]

import native_networks  # noqa: E402
from kpn.native import command  # noqa: E402
from native import Difference, call  # noqa: E402
from native_fixed import with_limit  # noqa: E402
from kpn.program import find_program  # noqa: E402

PROGRAM = TOP / 'bench/stress/native_lock.c'
CALLS = sorted(set(re.findall(r'\bkpn_(\w+)\(', PROGRAM.read_text())))
# How many items may wait at a source in static memory, and how many steps a session has with how many bits.
ITEMS, STEPS, WIDTHS = 4096, 200, (4, 6, 8, 10)


def try_network(text, chosen, fixed=0, library=None, prefix=''):
    """One network; gives what came of it."""
    with tempfile.TemporaryDirectory(prefix='kpn-') as folder:
        pathlib.Path(folder, 'net').write_text(text)
        canonical, status, told = call([find_program(), 'print', 'net'], folder)
        if status:
            raise Difference(told.decode())
        texts = [command.c_of(canonical.decode(), schedule, text.encode(), of, True)
                 for schedule, of in (('fuse', fixed), ('batch', 0))]
        if 'lock_plan' not in texts[0]:
            return 'no lock step'
        for number, (c, of) in enumerate(zip(texts, (fixed, 0))):
            beside, own = number and library or f'{number}.o', '' if number else prefix
            if beside != library and command.build_library(c, f'{folder}/{number}.o', of > 0, own):
                raise Difference('the compiler refuses the C')
            names = [f'-Dkpn_{call}={own}_{call}' for call in CALLS if own]
            words = [*command.compiler(), *names, str(PROGRAM), beside, '-o', str(number)]
            subprocess.run(words, cwd=folder, check=True)
        words = [chosen.randrange(2**63), STEPS, chosen.choice(WIDTHS), *(['net'] if library else [])]
        wanted, found = (call([f'./{number}', *words], folder, timeout=60) for number in (1, 0))
        if wanted[1:] == found[1:] and wanted[0][:len(found[0])] == found[0][:len(wanted[0])]:
            return 'the same'
        lines = list(zip(wanted[0].splitlines(), found[0].splitlines()))
        first = next((it for it, pair in enumerate(lines) if pair[0] != pair[1]), len(lines))
        raise Difference(f'{words}: statuses {wanted[1:]} {found[1:]}, line {first}: {lines[first:first + 1]}')


def main():
    parser = argparse.ArgumentParser(description=__doc__.split('\n')[0])
    parser.add_argument('networks', nargs='?', type=int, default=100)
    parser.add_argument('seed', nargs='?', type=int, default=1)
    parser.add_argument('--fixed', action='store_true', help='static memory')
    parser.add_argument('--prefix', type=command.prefix_of, help='what the calls of the first begin with')
    parser.add_argument('--library', type=os.path.abspath, help='a library with the sessions of kpn.h')
    given = parser.parse_args()
    counts = collections.Counter()
    for seed in range(given.seed, given.seed + given.networks):
        chosen = random.Random(seed)
        text, _ = native_networks.network(chosen, chosen.choice(('', 'faults', 'small')))
        text = with_limit(text) if given.fixed else text
        try:
            counts[try_network(text, chosen, ITEMS if given.fixed else 0, given.library, given.prefix or '')] += 1
        except (Difference, subprocess.TimeoutExpired) as found:
            print(f'network {seed}: {found}\n{text}')
            return 1
    print(', '.join(f'{count} {word}' for word, count in sorted(counts.items())))
    return 0


if __name__ == '__main__':
    sys.exit(main())
