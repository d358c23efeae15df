#!/usr/bin/env python3
"""Runs the gate and measures what each crate costs it, in processor minutes, and writes a table as that of
docs/PROVING.md.

usage: tools/gate.py [--log FILE] [--beside PID]

It makes a clean clone of what is committed, calls `rt ci --anew` there, and adds up the processor time of its
processes: the proof of each crate, its must-fail edits, and its tests. A program's runs belong to its proof. What
`rt ci` says goes to FILE, or else to standard error. The last lines say how long it took by the clock, and how this
machine compares with that of the table there. With --beside it watches the `rt ci` that runs as process PID. Without
`--anew` that proves no crate which has passed before on this machine, and the table leaves those out.
"""
import argparse
import os
import pathlib
import re
import shutil
import subprocess
import sys
import tempfile
import time
from collections import defaultdict

import prover

TOP = pathlib.Path(__file__).resolve().parent.parent
TABLE = TOP / 'docs/PROVING.md'
# A row of the table whose first number is no estimate.
MEASURED = re.compile(r'^    (\w+) +(\d[\d.]*)(?= |$)', re.M)
TICK = os.sysconf('SC_CLK_TCK')
SECONDS_BETWEEN_LOOKS = 0.2
RAN = re.compile(r'/rt-run-[^/]*/bin/(\w+?)(_tests)?$')


class Spent:
    """What a crate has cost, in seconds of processors."""

    def __init__(self):
        self.proof = self.edits = self.tests = 0.0
        self.number_of_edits = self.number_of_tests = 0


def process_at(pid):
    """The parent, the words, the folder and the seconds of a process and its ended children; None if it is gone."""
    try:
        folder = pathlib.Path('/proc', str(pid))
        words = (folder / 'cmdline').read_bytes().decode(errors='replace').split('\0')[:-1]
        fields = (folder / 'stat').read_text().rpartition(')')[2].split()
        return int(fields[1]), words, os.readlink(folder / 'cwd'), sum(map(int, fields[11:15])) / TICK
    except (OSError, IndexError):
        return None


def part_of(words, folder):
    """The crate for which a process works, and the part of its cost; None for others."""
    if len(words) > 3 and words[0].endswith('/rattle') and '--crate-name' in words:
        crate = words[words.index('--crate-name') + 1]
        if '--test' in words:
            return crate, 'tests'
        return crate, 'proof' if folder.endswith(f'/crates/{crate}') else 'edits'
    for word in words:
        ran = RAN.search(word)
        if ran:
            return ran[1], 'tests' if ran[2] else 'proof'
    return None


class Watch:
    """Adds up what the processes below one have taken."""

    def __init__(self, root):
        self.root = root
        # By process and its words: the crate, the part, and the seconds when it was seen last.
        self.seen = {}

    def look(self):
        found = {pid: it for pid in map(int, filter(str.isdigit, os.listdir('/proc'))) if (it := process_at(pid))}
        parts = {pid: part_of(words, folder) for pid, (_, words, folder, _) in found.items()}
        now = defaultdict(float)
        for pid, (*_, seconds) in found.items():
            way = list(self.way(pid, found))
            # What is below one that counts is counted with it. It may still run when that is seen for the last time.
            counted = [it for it in way if parts.get(it)]
            if counted and self.root in way:
                now[counted[-1], parts[counted[-1]]] += seconds
        for key, seconds in now.items():
            # A child that ends during the look may lack.
            self.seen[key] = max(seconds, self.seen.get(key, 0))

    def way(self, pid, found):
        """A process, its parent and so on, up to the root or one that is gone."""
        yield pid
        while pid in found and pid != self.root:
            pid = found[pid][0]
            yield pid

    def spent(self):
        spent = defaultdict(Spent)
        for (_, (crate, part)), seconds in self.seen.items():
            setattr(spent[crate], part, getattr(spent[crate], part) + seconds)
        return spent


def run_and_watch(folder, log):
    """Calls `rt ci` in a folder. Returns what the crates spent, the seconds by the clock, and the status."""
    begun = time.monotonic()
    started = subprocess.Popen(['rt', 'ci', '--anew'], cwd=folder, stdin=subprocess.DEVNULL, stdout=log, stderr=log)
    watch = Watch(started.pid)
    while started.poll() is None:
        watch.look()
        time.sleep(SECONDS_BETWEEN_LOOKS)
    return watch.spent(), time.monotonic() - begun, started.returncode


def watch_alone(pid):
    """The same of one that runs already; its status is not known."""
    begun, watch = time.monotonic(), Watch(pid)
    while process_at(pid):
        watch.look()
        time.sleep(SECONDS_BETWEEN_LOOKS)
    return watch.spent(), time.monotonic() - begun, 0


def minutes(seconds):
    return f'{seconds / 60:.1f}'


def table(spent, crates):
    """The rows of the crates that were proved, and the line that names the others."""
    total = Spent()
    for crate in (it for it in crates if it.name in spent):
        it = spent[crate.name]
        it.number_of_edits = len(list((crate.folder / 'must-fail').glob('*.edit')))
        it.number_of_tests = sum(file.read_text().count('#[test]') for file in (crate.folder / 'src').rglob('*.rt'))
        yield row(crate.name, it)
        for name in vars(total):
            setattr(total, name, getattr(total, name) + getattr(it, name))
    yield row('all', total)
    left = [it.name for it in crates if it.name not in spent]
    if left:
        yield f'Not measured: {", ".join(left)}.'


def row(name, it):
    edits = f'{it.number_of_edits:>3} edits {minutes(it.edits):>5}' if it.number_of_edits else ''
    tests = f'{it.number_of_tests:>3} tests {minutes(it.tests):>5}' if it.number_of_tests else ''
    return f'    {name:<25}{minutes(it.proof):>5} {edits:<15} {tests}'.rstrip()


def compared(spent):
    """How this machine compares with that of the table, by the proofs which both have measured."""
    rows = MEASURED.findall(TABLE.read_text()) if TABLE.exists() else []
    rows = {name: float(number) for name, number in rows if name in spent and float(number)}
    here, there = sum(spent[it].proof / 60 for it in rows), sum(rows.values())
    if not here:
        return 'The machine is not compared: no crate was proved whose proof the table has without `~`.'
    return (f'{", ".join(rows)}: {here:.1f} minutes here, {there:.1f} in the table, so minutes here times '
            f'{there / here:.2f} are minutes of the table.')


def main():
    about, _, rest = __doc__.partition('\n\nusage: ')
    usage, _, more = rest.partition('\n')
    reads = argparse.ArgumentParser(usage=usage, description=about + more,
                                    formatter_class=argparse.RawDescriptionHelpFormatter)
    reads.add_argument('--log', type=argparse.FileType('w'), default=sys.stderr, metavar='FILE',
                       help='where to write what `rt ci` says')
    reads.add_argument('--beside', type=int, metavar='PID', help='watch the `rt ci` that is this process')
    asked = reads.parse_args()
    if asked.beside and not process_at(asked.beside):
        reads.error(f'no process has the number {asked.beside}')
    if asked.beside:
        spent, seconds, status = watch_alone(asked.beside)
    else:
        room = pathlib.Path(tempfile.mkdtemp(prefix='kpn-gate-'))
        try:
            subprocess.run(['git', 'clone', '-q', TOP, room / 'clone'], check=True)
            spent, seconds, status = run_and_watch(room / 'clone', asked.log)
        finally:
            shutil.rmtree(room, ignore_errors=True)
    print('\n'.join(table(spent, list(prover.read_crates(TOP).values()))))
    print(f'{minutes(seconds)} minutes by the clock on {len(os.sched_getaffinity(0))} processors.')
    print(compared(spent))
    return status


if __name__ == '__main__':
    sys.exit(main())
