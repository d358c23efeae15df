#!/usr/bin/env python3
"""`kpn run --workers` beside two others. If steps are short, that is the plain Rust program of bench/run. If processes
compute by themselves, it is as many independent compiled loops as there are workers. `command.py` compares it with one
thread, at medium grain too.

It reports parts of the other's speed, by the clock. All have to write the same. It is no part of the gate. A word may
name the number of hops, of items that are put on a channel; the default is 4,000,000. The programs take turns, and the
best of five runs of each counts: on a machine that does other work only such parts of one run mean something.
"""
import pathlib
import sys
import tempfile

HERE = pathlib.Path(__file__).resolve().parent
sys.dont_write_bytecode = True
sys.path += [str(HERE.parent), str(HERE.parent / 'run')]

import measure
import networks
import run as one_thread

RUNS = 5
WORKERS = (1, 4)


def by_workers(folder, kpn, text, wanted=0):
    """The command lines that run this network, by the number of workers."""
    description = pathlib.Path(folder) / 'network.kpn'
    description.write_text(text)
    words = [kpn, 'run', description, '--max-commits', '1000000000', *(['--take', str(wanted)] if wanted else [])]
    return {count: [*words, '--workers', str(count)] for count in WORKERS}


def fine(folder, kpn, title, text, wanted):
    """Beside the plain program."""
    plain = measure.plain(HERE.parent / 'run/plain.rs', folder)
    spelled = pathlib.Path(folder) / 'network.words'
    spelled.write_text(networks.as_words(text))
    best = measure.fastest(by_workers(folder, kpn, text, wanted) | {'plain': [plain, spelled, str(wanted)]}, RUNS)
    if any(run.wrote != best['plain'].wrote for run in best.values()):
        sys.exit(f'{title}: the outputs differ')
    parts = (f'{best["plain"].elapsed / best[count].elapsed:5.2f} with {count}' for count in WORKERS)
    print(f'{title:32} {", ".join(parts)}, of the plain program', flush=True)


def coarse(folder, kpn, turns):
    """How much faster four workers are than one, beside four compiled loops that share the work of one."""
    loops = measure.plain(HERE / 'loops.rs', folder)
    compiled = {f'{count} loops': [loops, str(count), str(64 * turns // count)] for count in WORKERS}
    best = measure.fastest(by_workers(folder, kpn, networks.computing(16, turns)) | compiled, RUNS)
    gained = best[1].elapsed / best[4].elapsed
    reached = best['1 loops'].elapsed / best['4 loops'].elapsed
    print(f'16 computing processes: 4 workers {gained:.2f} times as fast as 1, 4 compiled loops {reached:.2f} times, '
          f'so {gained / reached:.2f} of these')


def main():
    hops = measure.asked(__doc__, {'hops': 4_000_000}).hops
    kpn = measure.kpn()
    with tempfile.TemporaryDirectory() as folder:
        for title, text, wanted in one_thread.measured_networks(hops):
            fine(folder, kpn, title, text, wanted)
        coarse(folder, kpn, hops)


if __name__ == '__main__':
    main()
