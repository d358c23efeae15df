#!/usr/bin/env python3
"""Time and memory of writing a trace into memory, beside a plain Rust program that writes the same with `writeln!`.

Prints ratios and checks that both write the same bytes. It is no part of the gate. A word may name the number of
events; the default is 10,000,000. The time of a run that writes the trace once is subtracted from that of one that
writes it more often. The programs take turns. It reports the best of nine runs of each, by the time that it took on its
processor.
"""
import pathlib
import sys
import tempfile

HERE = pathlib.Path(__file__).resolve().parent
sys.dont_write_bytecode = True
sys.path.append(str(HERE.parent))

import measure

RUNS = 9
TIMES = 3


class Writer:
    """A program, and its runs that write the trace once and oftener."""

    def __init__(self, run_once):
        self.run_once = run_once
        self.runs = {1: [], 1 + TIMES: []}

    def run(self, events):
        for times, runs in self.runs.items():
            runs.append(self.run_once(events, times))

    def seconds(self):
        """What it takes to write the trace once."""
        once, often = (measure.best(runs).seconds for runs in self.runs.values())
        return (often - once) / TIMES

    def memory(self):
        return max(run.memory for run in self.runs[1]) / 1e6

    def wrote(self):
        return {run.wrote for runs in self.runs.values() for run in runs}


def tell(events, own, plain):
    for _ in range(RUNS):
        own.run(events)
        plain.run(events)
    if len(own.wrote() | plain.wrote()) != 1:
        sys.exit('the programs wrote different traces')
    print(f'{events} events: {own.seconds():.2f} s, {own.seconds() / plain.seconds():.2f} of the time of the plain'
          f' program; {own.memory():.0f} MB beside {plain.memory():.0f} MB')


def main():
    events = measure.asked(__doc__, {'events': 10_000_000}).events
    parts = measure.parts()
    with tempfile.TemporaryDirectory() as folder:
        plain = measure.plain(HERE / 'plain.rs', folder)
        tell(events, Writer(lambda events, times: measure.Run([parts], given=f'trace {events} {times}')),
             Writer(lambda events, times: measure.Run([plain, str(events), str(times)])))


if __name__ == '__main__':
    main()
