#!/usr/bin/env python3
"""Item-hops a second of `kpn run` on one thread, beside a plain Rust program of the same meaning. If `go` is installed,
also beside goroutines and channels on one processor. Also how the cost of a hop depends on the number of processes, and
the memory of history and journals.

A hop is an item that is put on a channel. It prints ratios, above 1 if `kpn run` is faster, and checks that all wrote
the same. It is no part of the gate. A word may name the number of hops; the default is 4,000,000. The programs take
turns, and the best of three runs of each counts, or of `--runs N`, by the time that it took on its processor.
`--before PROGRAM` names another build of `kpn`, which takes its turns as well. With `--instructions` it only counts the
machine instructions a commit, by callgrind.
"""
import os
import pathlib
import re
import shutil
import subprocess
import sys
import tempfile

HERE = pathlib.Path(__file__).resolve().parent
sys.dont_write_bytecode = True
sys.path.append(str(HERE.parent))

import measure
import networks

COMMITS = 10_000_000
# The instructions of this many hops less those of a tenth of them, without what a run costs by itself.
COUNTED_HOPS = 600_000


class Measured:
    """A network in a folder, and the programs that run it."""

    def __init__(self, folder, builds, plain, text, wanted=0, with_go=True):
        folder = pathlib.Path(folder)
        description, words = folder / 'network.kpn', folder / 'network.words'
        description.write_text(text)
        words.write_text(networks.as_words(text))
        take = ['--take', str(wanted)] if wanted else []
        words_of_run = ['run', description, '--max-commits', '1000000000', *take]
        self.programs = {name: [build, *words_of_run] for name, build in builds.items()}
        self.programs['plain'] = [plain, words, str(wanted)]
        if with_go and shutil.which('go'):
            source, program = folder / 'network.go', folder / 'network_go'
            source.write_text(networks.as_go(text, wanted))
            subprocess.run(['go', 'build', '-o', program, source], check=True)
            self.programs['go'] = [program]

    def run(self, runs):
        environment = dict(os.environ, GOMAXPROCS='1')
        found = {name: [] for name in self.programs}
        for _ in range(runs):
            for name, words in self.programs.items():
                found[name].append(measure.Run(words, environment))
        best = {name: measure.best(all_runs) for name, all_runs in found.items()}
        if any(run.wrote != best['kpn'].wrote for name, run in best.items() if name != 'go'):
            sys.exit('the outputs differ')
        sinks = ''.join(line for line in best['kpn'].wrote.splitlines(keepends=True) if line.startswith('sink '))
        if 'go' in best and best['go'].wrote != sinks:
            sys.exit('what Go computed differs')
        return best

    def instructions(self, name):
        """All machine instructions of one run."""
        with tempfile.NamedTemporaryFile() as kept:
            words = ['valgrind', '--tool=callgrind', f'--callgrind-out-file={kept.name}', *self.programs[name]]
            run = subprocess.run(words, check=True, stdout=subprocess.DEVNULL, stderr=subprocess.PIPE, text=True)
        return int(re.search(r'Collected : (\d+)', run.stderr)[1])


def counts(run):
    """How many commits, events and items the plain program counted."""
    return (int(word) for word in run.told.split())


def measured_networks(hops):
    for processes in (8, 64):
        for capacity in (1, 64):
            text = networks.pipeline(processes, capacity, hops // (processes + 1))
            yield f'pipeline of {processes}, capacity {capacity}', text, 0
    yield 'Kahn\'s example', networks.kahn(), hops // 3
    for capacity in (1, 64):
        yield f'split and join, capacity {capacity}', networks.split_and_join(capacity, hops // 4), 0
    for capacity in (1, 64):
        yield f'sieve of 100, capacity {capacity}', networks.sieve(100, capacity, hops // 12), 0


def told(title, best, unit, count):
    seconds = best['kpn'].seconds
    beside = ', '.join(f'{best[name].seconds / seconds:5.2f} of {name}' for name in best if name != 'kpn')
    return f'{title:32} {count / seconds / 1e6:7.2f} million {unit} a second, {beside}'


def count_instructions(folder, builds, plain):
    for (title, text, wanted), (_, less, few) in zip(measured_networks(COUNTED_HOPS),
                                                     measured_networks(COUNTED_HOPS // 10)):
        found = []
        for description, items in ((text, wanted), (less, few)):
            measured = Measured(folder, builds, plain, description, items, with_go=False)
            commits, _, _ = counts(measured.run(1)['plain'])
            found.append((commits, {name: measured.instructions(name) for name in measured.programs}))
        (commits, many), (fewer, some) = found
        beside = ', '.join(f'{(many[name] - some[name]) / (commits - fewer):.0f} of {name}' for name in many)
        print(f'{title:32} instructions a commit: {beside}', flush=True)


def measure_all(folder, builds, plain, hops, runs):
    for title, text, wanted in measured_networks(hops):
        best = Measured(folder, builds, plain, text, wanted).run(runs)
        _, _, items = counts(best['plain'])
        print(told(title, best, 'hops', items), flush=True)
    best = Measured(folder, builds, plain, networks.computing(16, hops // 4)).run(runs)
    print(told('16 computing processes', best, 'turns', 16 * (hops // 4)), flush=True)
    for processes in (8, 64, 256):
        text = networks.pipeline(processes - 2, 1, hops // (processes - 1))
        best = Measured(folder, builds, plain, text, with_go=False).run(runs)
        _, _, items = counts(best['plain'])
        print(f'{processes:3} processes in a row: {best["kpn"].seconds / items * 1e9:6.1f} ns a hop', flush=True)
    best = Measured(folder, builds, plain, networks.pipeline(8, 1, COMMITS // 19), with_go=False).run(1)
    commits, events, items = counts(best['plain'])
    bytes_kept = 16 * events + 8 * items
    own, plain_own = (best[name].memory / bytes_kept for name in ('kpn', 'plain'))
    print(f'{commits} commits, {events} events, {items} items: memory is {own:.2f} of 16 bytes an event'
          f' and 8 an item, that of the plain program {plain_own:.2f}')


def main():
    asked = measure.asked(__doc__, {'hops': 4_000_000}, {'runs': 3, 'before': '', 'instructions': False})
    builds = {'kpn': measure.kpn()}
    if asked.before:
        builds['before'] = pathlib.Path(asked.before).resolve()
    with tempfile.TemporaryDirectory() as folder:
        plain = measure.plain(HERE / 'plain.rs', folder)
        if asked.instructions:
            count_instructions(folder, builds, plain)
        else:
            measure_all(folder, builds, plain, asked.hops, asked.runs)


if __name__ == '__main__':
    main()
