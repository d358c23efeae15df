#!/usr/bin/env python3
"""Items per second and peak memory of `kpn alone sum`, beside awk and a plain Rust program of the same meaning.

Prints ratios and checks that the outputs are equal. It is no part of the gate. Words may name counts of lines; the
default is 1,000,000 and 10,000,000. It reports the best of three runs.
"""
import hashlib
import os
import pathlib
import shutil
import subprocess
import sys
import tempfile
import time

HERE = pathlib.Path(__file__).resolve().parent
TOP = HERE.parent.parent
sys.path.append(str(TOP / 'bench'))

import measure  # noqa: E402

RUNS = 3


def items(count):
    """Items of both signs whose sums stay small enough that awk's numbers are exact."""
    state = 1
    for _ in range(count):
        state = (state * 1103515245 + 12345) % 2147483648
        yield state % 2000001 - 1000000


def run(words, source, target):
    """One run: seconds, peak memory in bytes, and the digest of what it wrote."""
    with open(source, 'rb') as given, open(target, 'wb') as out:
        begun = time.monotonic()
        child = subprocess.Popen(words, stdin=given, stdout=out)
        _, status, usage = os.wait4(child.pid, 0)
        seconds = time.monotonic() - begun
    if status != 0:
        sys.exit(f'{words[0]} ended with {status}')
    with open(target, 'rb') as written:
        digest = hashlib.file_digest(written, 'sha256').hexdigest()
    return seconds, usage.ru_maxrss * 1024, digest


def programs(folder):
    subprocess.run([TOP / 'kpn', '--version'], check=True, stdout=subprocess.DEVNULL)
    found = [('kpn', [str(TOP / 'crates/kpn/out/kpn'), 'alone', 'sum']),
             ('awk', ['awk', '{t+=$1; printf "%d\\n", t}'])]
    if shutil.which('rustc'):
        plain = folder / 'sum'
        subprocess.run(['rustc', '-O', '-o', plain, HERE / 'sum.rs'], check=True)
        found.append(('plain Rust', [str(plain)]))
    return found


def main():
    counts = measure.asked(__doc__, {'counts': [1_000_000, 10_000_000]}).counts
    with tempfile.TemporaryDirectory() as name:
        folder = pathlib.Path(name)
        measured = programs(folder)
        for count in counts:
            source = folder / 'items'
            # written as a stream, since a child's peak memory counts what its parent held when it was started
            with source.open('w') as lines:
                lines.writelines(f'{item}\n' for item in items(count))
            print(f'{count} items')
            digests = set()
            own = None
            for title, words in measured:
                runs = [run(words, source, folder / 'out') for _ in range(RUNS)]
                seconds = min(r[0] for r in runs)
                memory = max(r[1] for r in runs)
                digests.update(r[2] for r in runs)
                own = own or seconds
                print(f'  {title:10} {count / seconds / 1e6:8.2f} million items a second,'
                      f' {memory / count:7.1f} bytes an item, kpn is {seconds / own:5.2f} times as fast')
            if len(digests) != 1:
                sys.exit('the outputs differ')
            print('  the outputs are equal')


if __name__ == '__main__':
    main()
