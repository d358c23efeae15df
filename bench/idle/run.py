#!/usr/bin/env python3
"""What workers take of a processor while they wait for a feed, and how long an item takes from its feed to its take.

One process copies the items of a source to a sink. A thread of its own feeds an item after each pause, and the calling
thread sleeps until it can take one. The program makes only public calls of `kpn_pool`. Its source is main.rt.txt,
since the gate wants each .rt file in a crate that it proves. The build is optimised, and not proved. Beside it is a plain Rust program of three threads, which hand the items on by channels of
std. It prints for 1, 4 and 16 workers

- the processor time of a whole run in which the only item comes after two seconds, and of one in which it comes at
  once: the median and the most of nine runs. The difference of the medians is the wait.
- the median and the worst time of items from feed to take, a millisecond apart.

All depends on what else runs, so the load is printed too. If the machine is virtual, its processors may be taken away,
and some runs then seem to take far more. It is no part of the gate. Words: the number of items, by default 10,000, and
`--program FILE` for a program that was built before.
"""
import os
import pathlib
import statistics
import sys
import tempfile

HERE = pathlib.Path(__file__).resolve().parent
sys.dont_write_bytecode = True
sys.path.append(str(HERE.parent))

import measure

USES = 'kpn_limits kpn_book kpn_pool kpn_text anyhow'
WORKERS, RUNS = (1, 4, 16), 9

# the pauses in microseconds: of a wait, and between items
WAIT, PAUSE = 2_000_000, 1_000


def load():
    return f'{os.cpu_count()} processors, load {os.getloadavg()[0]:.1f}'


class Way:
    """One way from a feed to a take."""

    def __init__(self, title, program, workers=0):
        self.title, self.program, self.workers = title, program, workers

    def run(self, items, pause):
        """One run of this many items, with `pause` microseconds before each."""
        return measure.Run([self.program], given=f'{self.workers} {items} {pause}\n')

    def seconds(self, pause):
        """The median and the most processor time of runs of one item."""
        runs = [self.run(1, pause).seconds for _ in range(RUNS)]
        return statistics.median(runs), max(runs)

    def print_wait(self):
        (waiting, most), (bare, most_bare) = self.seconds(WAIT), self.seconds(0)
        print(f'{self.title}: {1e3 * waiting:.1f} ms of processor (most {1e3 * most:.1f}) with a wait of 2 s, '
              f'{1e3 * bare:.1f} (most {1e3 * most_bare:.1f}) without, so {1e8 * (waiting - bare) / WAIT:.3f} % of a '
              f'processor; {load()}', flush=True)

    def print_spans(self, items):
        spans = sorted(int(line) / 1e3 for line in self.run(items, PAUSE).wrote.split())
        if len(spans) != items:
            sys.exit(f'{self.title}: {len(spans)} items of {items}')
        print(f'{self.title}: median {statistics.median(spans):.1f} us, 99 of 100 within '
              f'{spans[items * 99 // 100]:.0f} us, worst {spans[-1]:.0f} us; {load()}', flush=True)


def main():
    asked = measure.asked(__doc__, {'items': 10_000}, {'program': ''})
    with tempfile.TemporaryDirectory(prefix='kpn-idle-') as name:
        folder = pathlib.Path(name)
        given = pathlib.Path(asked.program).resolve() if asked.program else None
        program = given or measure.built(folder, HERE / 'main.rt.txt', USES)
        ways = [Way(f'workers {workers:2}', program, workers) for workers in WORKERS]
        ways.append(Way('plain Rust', measure.plain(HERE / 'plain.rs', folder)))
        for way in ways:
            way.print_wait()
        for way in ways:
            way.print_spans(asked.items)


if __name__ == '__main__':
    main()
