#!/usr/bin/env python3
"""`kpn run --workers` beside `kpn run` on one thread: the whole command, start, reading and report included.

It reports parts of the speed of one thread, by the clock, above 1 if the workers are faster. At fine grain a turn of a
process is short. At medium grain the stages of pipelines go through a loop or write the value of a long expression for
each item; the row has the microseconds that one thread takes for an item at a stage. At coarse grain processes compute
by themselves. All have to write the same.

Four processors may do less side by side than four times the work of one. So a row also has the speed of four workers as
a part of that of four runs on one thread that start at once: 1 if these take four times as long. If `go` is installed,
it has the time that goroutines and channels take on four processors, as a part of that of four workers.

It is no part of the gate. A word may name the number of hops, of items that are put on a channel; the default is
4,000,000. The command lines take turns, and the best of three runs of each counts, or of `--runs N`. `--only WORD`
leaves out each network without this word in its title.
"""
import os
import pathlib
import shutil
import subprocess
import sys
import tempfile

HERE = pathlib.Path(__file__).resolve().parent
sys.dont_write_bytecode = True
sys.path += [str(HERE.parent), str(HERE.parent / 'run')]

import measure
import networks
import run as one_thread

WORKERS = (1, 2, 4, 16)
PROCESSORS = 4
ITEMS = 1_000_000
# A turn of the loop of a stage takes some 50 ns: so these take about 0.4, 1, 2, 4 and 10 microseconds. The three steps
# of each stay within the 1,000 of a claim.
TURNS = (8, 20, 40, 80, 200)
OPERATORS = 300


class Command:
    """A network with its title, how many items are wanted of a sink, the items of its source, if it has one, and, at
    medium grain, how many items pass a stage."""

    def __init__(self, title, text, wanted=0, items=0, passed=0):
        self.title, self.text, self.wanted, self.items, self.passed = title, text, wanted, items, passed

    def line(self, folder, kpn):
        """The words on one thread."""
        folder = pathlib.Path(folder)
        description = folder / 'network.kpn'
        description.write_text(self.text)
        words = [kpn, 'run', description, '--max-commits', '1000000000']
        if self.wanted:
            words += ['--take', str(self.wanted)]
        if self.items:
            numbers = folder / 'numbers.txt'
            numbers.write_text(''.join(f'{number}\n' for number in range(self.items)))
            words += ['--source', f'a={numbers}']
        return words


def measured_commands(hops):
    for title, text, wanted in one_thread.measured_networks(hops):
        yield Command(title, text, wanted)
    for stages in (8, 16):
        for turns in TURNS:
            items = 5 * hops // (stages * turns)
            text = networks.computing_pipeline(stages, 64, items, turns)
            yield Command(f'medium grain, {stages} stages of {turns} turns', text, passed=stages * items)
    items = 20 * hops // (8 * OPERATORS)
    text = networks.writing_pipeline(8, 64, items, OPERATORS)
    yield Command(f'long writes, 8 stages of {OPERATORS} operators', text, passed=8 * items)
    yield Command('16 computing processes', networks.computing(16, hops))
    # whole frames of the FFT
    for name in ('fft', 'fir'):
        yield Command(f'{name} of the gallery, capacity 64', networks.of_gallery(name, 64, hops // 128 * 16))
    for copies in (1, 8):
        title = f'source of {ITEMS} and {copies} {"copy" if copies == 1 else "copies"}, capacity 64'
        yield Command(title, networks.fed_pipeline(copies, 64), items=ITEMS)


def time_of_go(command, folder, runs):
    """The least time that the same program in Go takes, or None if there is none."""
    if command.items or not shutil.which('go'):
        return None
    source, program = pathlib.Path(folder) / 'network.go', pathlib.Path(folder) / 'network_go'
    source.write_text(networks.as_go(command.text, command.wanted))
    subprocess.run(['go', 'build', '-o', program, source], check=True)
    environment = dict(os.environ, GOMAXPROCS=str(PROCESSORS))
    return min(measure.Run([program], environment).elapsed for _ in range(runs))


def told(command, folder, kpn, runs):
    """The row of a network after its title."""
    words = command.line(folder, kpn)
    lines = {0: words} | {count: [*words, '--workers', str(count)] for count in WORKERS}
    best = measure.fastest(lines, runs)
    if any(run.wrote != best[0].wrote for run in best.values()):
        sys.exit(f'{command.title}: the outputs differ')
    parts = [f'{best[0].elapsed / best[count].elapsed:5.2f} with {count}' for count in WORKERS]
    beside = measure.side_by_side(words, PROCESSORS, runs)
    parts.append(f'{beside / PROCESSORS / best[PROCESSORS].elapsed:5.2f} of {PROCESSORS} side by side')
    go = time_of_go(command, folder, runs)
    if go is not None:
        parts.append(f'{go / best[PROCESSORS].elapsed:5.2f} of Go')
    if command.passed:
        parts.append(f'{best[0].elapsed / command.passed * 1e6:5.2f} us')
    return ', '.join(parts)


def main():
    asked = measure.asked(__doc__, {'hops': 4_000_000}, {'runs': 3, 'only': ''})
    kpn = measure.kpn()
    with tempfile.TemporaryDirectory() as folder:
        for command in measured_commands(asked.hops):
            if asked.only in command.title:
                print(f'{command.title:42} {told(command, folder, kpn, asked.runs)}', flush=True)


if __name__ == '__main__':
    main()
