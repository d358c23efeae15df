#!/usr/bin/env python3
"""Random networks in any order of their turns, and in that of the queue.

usage: bench/stress/orders.py [--networks N] [--first N] [--program FILE]

`kpn run` without a trace makes turns in any order, where this is faster. With one it makes them in the order of the
queue. Both have to write the same, and the same files of sinks, under any limit of commits and any number of wanted
items. Half of the networks get channels with room for several items. It is no part of the gate. There are N networks
(3,000), counted from number N (1). Without --program it takes `kpn` of the repository, and builds it if need be.
"""
import argparse
import pathlib
import random
import re
import subprocess
import sys
import tempfile

sys.dont_write_bytecode = True
sys.path.append(str(pathlib.Path(__file__).resolve().parent.parent))

import measure  # noqa: E402
import random_networks  # noqa: E402

MOST = 60
LIMITS = (0, 1, 2, 5, 10, 30, 100, 300, 1_000, 3_000, 10_000)
WANTED = (0, 1, 2, 3, 10, 50)


def run(program, words, sinks, folder):
    """What a run writes, its status, and what is in the files of its sinks."""
    files = [folder / f'{sink}.out' for sink in sinks]
    for file in files:
        file.unlink(missing_ok=True)
    ends = [word for sink, file in zip(sinks, files) for word in ('--sink', f'{sink}={file}')]
    done = subprocess.run([program, 'run', *words, *ends], capture_output=True, timeout=MOST)
    return done.stdout, done.stderr, done.returncode, [file.read_bytes() if file.exists() else None for file in files]


def compare(program, number, folder):
    chosen = random.Random(number)
    text, items = random_networks.network(chosen)
    if chosen.random() < 0.5:
        text = re.sub(r'cap (\d)', lambda cap: f'cap {chosen.choice([int(cap[1]), 8, 64])}', text)
    description = folder / 'network.kpn'
    description.write_text(text)
    words = [description, '--max-commits', str(chosen.choice([*LIMITS, 20_000, 200_000]))]
    if chosen.random() < 0.4:
        words += ['--take', str(chosen.choice(WANTED))]
    for source, given in items.items():
        file = folder / f'{source}.items'
        file.write_text(''.join(f'{item}\n' for item in given))
        words += ['--source', f'{source}={file}']
    sinks = re.findall(r'sink (\w+)', text)
    any_order = run(program, words, sinks, folder)
    in_order = run(program, [*words, '--trace', folder / 'trace'], sinks, folder)
    if any_order != in_order:
        sys.exit(f'{text}{" ".join(map(str, words))}: network {number}: {any_order} is not {in_order}')


def main():
    parser = argparse.ArgumentParser(description=__doc__, formatter_class=argparse.RawDescriptionHelpFormatter)
    parser.add_argument('--networks', type=int, default=3000)
    parser.add_argument('--first', type=int, default=1)
    parser.add_argument('--program')
    asked = parser.parse_args()
    program = asked.program or measure.kpn()
    with tempfile.TemporaryDirectory() as folder:
        for number in range(asked.first, asked.first + asked.networks):
            compare(program, number, pathlib.Path(folder))
    print(f'{asked.networks} networks from number {asked.first} on wrote the same in both orders')


if __name__ == '__main__':
    main()
