#!/usr/bin/env python3
"""Whether a service that feeds and takes through workers takes the same memory however long it runs.

The program (main.rt.txt, by public calls of `kpn_pool`) is built like that of bench/idle. This prints the time and the
peak memory of runs of ever more items, by 1 and by 4 workers, and ends with 1 if the longest takes a tenth more memory
than the shortest. The peak is read while the program runs, since what the system counts for a child begins with the
memory of its parent. It is no part of the gate. Words: the number of items of the longest run, by default 100,000,000,
and `--program FILE` for a program that was built before.
"""
import pathlib
import re
import subprocess
import sys
import tempfile
import time

HERE = pathlib.Path(__file__).resolve().parent
sys.dont_write_bytecode = True
sys.path.append(str(HERE.parent))

import measure

USES = 'kpn_limits kpn_book kpn_pool kpn_text anyhow'
WORKERS = (1, 4)


def peak_of(child):
    """The peak memory of a program, in bytes, as it was read last before the program ended."""
    most = 0
    while child.poll() is None:
        told = pathlib.Path(f'/proc/{child.pid}/status').read_text()
        found = re.search(r'VmHWM:\s*(\d+) kB', told)
        most = int(found[1]) * 1024 if found else most
        time.sleep(0.005)
    return most


def peaks(program, workers, most):
    """The peak memory of runs of a hundredth, a tenth and all of this many items."""
    for items in (most // 100, most // 10, most):
        started = time.monotonic()
        child = subprocess.Popen([program], stdin=subprocess.PIPE, stdout=subprocess.PIPE, text=True)
        child.stdin.write(f'{workers} {items}\n')
        child.stdin.close()
        memory, wrote = peak_of(child), child.stdout.read()
        if wrote != f'{items} {items * (items - 1) // 2}\n':
            sys.exit(f'{workers} workers: {items} items, and {wrote} came')
        print(f'{workers} workers, {items:11,} items: {time.monotonic() - started:6.1f} s, {memory / 1e6:.2f} MB',
              flush=True)
        yield memory


def main():
    asked = measure.asked(__doc__, {'items': 100_000_000}, {'program': ''})
    with tempfile.TemporaryDirectory(prefix='kpn-service-') as name:
        folder = pathlib.Path(name)
        program = measure.built(folder, HERE / 'main.rt.txt', USES) if not asked.program else asked.program
        found = [list(peaks(program, workers, asked.items)) for workers in WORKERS]
    return 0 if all(last <= 1.1 * first for first, *_, last in found) else 1


if __name__ == '__main__':
    sys.exit(main())
