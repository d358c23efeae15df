#!/usr/bin/env python3
"""Seconds and memory of `kpn audit` beside the `kpn run --trace` that made the trace. bench/trace measures what it
takes to write a trace.

Prints ratios, and checks that the audit says `legal` and that a plain Rust program of the same meaning as `kpn run`
makes the same trace. It is no part of the gate. Words may name counts of events; the default is 1,000,000 and
10,000,000. It reports the best of three runs, by the time that each took on its processor.
"""
import filecmp
import pathlib
import sys
import tempfile

HERE = pathlib.Path(__file__).resolve().parent
sys.dont_write_bytecode = True
sys.path.append(str(HERE.parent))

import measure
import networks

RUNS = 3


def measured_networks(events):
    """Networks with about this many events: a title, the description, and how many items are wanted of each sink."""
    yield 'pipeline of 8, capacity 1', networks.pipeline(8, 1, events // 19), 0
    yield 'Kahn\'s example', networks.kahn(), events * 2 // 19


def best(words):
    return measure.best([measure.Run(words) for _ in range(RUNS)])


def tell(folder, kpn, plain, title, text, wanted):
    folder = pathlib.Path(folder)
    description, words = folder / 'network.kpn', folder / 'network.words'
    own, other = folder / 'own.trace', folder / 'other.trace'
    description.write_text(text)
    words.write_text(networks.as_words(text))
    run = [kpn, 'run', description, '--max-commits', '1000000000', *(['--take', str(wanted)] if wanted else [])]
    silent, traced = best(run), best([*run, '--trace', own])
    events = int(measure.Run([plain, words, str(wanted), other]).told.split()[1])
    audit = best([kpn, 'audit', description, own, '--steps', '1000000000'])
    if not audit.wrote.startswith('legal\n') or not filecmp.cmp(own, other, shallow=False):
        sys.exit('the audit does not say legal, or the traces differ')
    print(f'{title}, {events} events, {own.stat().st_size / 1e6:.0f} MB of text')
    ratios = [audit.seconds / run.seconds for run in (silent, traced)]
    print(f'  run {silent.seconds:6.2f} s, with its trace {traced.seconds:6.2f}, audit {audit.seconds:6.2f}:'
          f' {ratios[0]:.2f} of the run, {ratios[1]:.2f} of it with its trace')
    print(f'  memory of the audit: {audit.memory / (16 * events):.2f} of 16 bytes an event', flush=True)


def main():
    counts = measure.asked(__doc__, {'events': [1_000_000, 10_000_000]}).events
    kpn = measure.kpn()
    with tempfile.TemporaryDirectory() as folder:
        plain = measure.plain(HERE.parent / 'run/plain.rs', folder)
        for events in counts:
            for title, text, wanted in measured_networks(events):
                tell(folder, kpn, plain, title, text, wanted)


if __name__ == '__main__':
    main()
