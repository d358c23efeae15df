#!/usr/bin/env python3
"""`kpn stream` as a part of a pipeline: items a second, the time from line in to line out, and memory.

It sends a number of items (a word, by default 1,000,000) through 8 processes that copy them: by `kpn stream`, by
`kpn run` with the same file, and by 8 Python generators. It prints how many times the others take the clock time of the
stream. Then it writes lines one by one into `kpn stream` and into `awk '{ print; fflush() }'`, waits for each to come
out, and prints the median times. Last it prints the memory that the items take through ten processes. It is no part of
the gate. `--program PROGRAM` names another build of `kpn`, and `--runs N` how often each is run, of which the best
counts.
"""
import os
import pathlib
import shutil
import statistics
import subprocess
import sys
import tempfile
import time

HERE = pathlib.Path(__file__).resolve().parent
sys.dont_write_bytecode = True
sys.path.append(str(HERE.parent))

import measure  # noqa: E402

GENERATORS = '''
import sys
def copy(items):
    for item in items:
        yield item
items = map(int, sys.stdin)
for _ in range(8):
    items = copy(items)
for item in items:
    print(item)
'''
LINES = 2_000
# mawk waits for a whole buffer without its option
AWK = ['awk', *(['-W', 'interactive'] if 'mawk' in os.path.realpath(shutil.which('awk') or '') else [])]


def copies(count):
    """A pipeline of processes that copy items."""
    channels = ['first', *(f'c{k}' for k in range(1, count)), 'last']
    lines = ['process copy(in here; out there) { while 1 { read here item; write there item; } }', 'network {',
             '  source first;', *(f'  channel {name} cap 64;' for name in channels[1:-1]), '  sink last cap 64;',
             *(f'  p{k} = copy({channels[k]}; {channels[k + 1]});' for k in range(count)), '}']
    return '\n'.join(lines) + '\n'


def line_times(words):
    """The seconds from each line that a program gets to the line that it writes."""
    child = subprocess.Popen(words, stdin=subprocess.PIPE, stdout=subprocess.PIPE, stderr=subprocess.DEVNULL, bufsize=0)
    found = []
    for number in range(LINES):
        started = time.perf_counter()
        child.stdin.write(b'%d\n' % number)
        if child.stdout.readline() != b'%d\n' % number:
            sys.exit(f'{words} wrote another line')
        found.append(time.perf_counter() - started)
    child.stdin.close()
    child.wait()
    return found


def main():
    asked = measure.asked(__doc__, {'items': 1_000_000}, {'program': '', 'runs': 3})
    program = pathlib.Path(asked.program).resolve() if asked.program else measure.kpn()
    with tempfile.TemporaryDirectory() as folder:
        net, ten, items = (pathlib.Path(folder) / name for name in ('net.kpn', 'ten.kpn', 'items'))
        net.write_text(copies(8))
        ten.write_text(copies(10))
        items.write_text(''.join(f'{number}\n' for number in range(asked.items)))
        stream = [program, 'stream', net, '--source', f'first={items}']
        commands = {
            'stream': stream,
            'run': [program, 'run', net, '--source', f'first={items}', '--max-commits', '1000000000'],
            'generators': ['sh', '-c', f'exec {sys.executable} -c "$0" < {items}', GENERATORS],
        }
        best = measure.fastest(commands, asked.runs)
        wrote = best['stream'].wrote
        if wrote != best['generators'].wrote or wrote.split() != best['run'].wrote.splitlines()[0].split()[2:]:
            sys.exit('the outputs differ')
        own = best['stream'].elapsed
        print(f'stream: {own:.2f} s, {asked.items / own:,.0f} items a second')
        for name in ('run', 'generators'):
            print(f'{name}: {best[name].elapsed:.2f} s, {best[name].elapsed / own:.2f} times the stream')
        by_line = {'stream': [program, 'stream', net, '--quiet'], 'awk': [*AWK, '{ print; fflush() }']}
        for name, words in by_line.items():
            print(f'{name}: from line in to line out {statistics.median(line_times(words)) * 1e6:.0f} us')
        memory = measure.Run([program, 'stream', ten, '--source', f'first={items}']).memory
        print(f'memory of {asked.items:,} items through ten processes: {memory / 1e6:.0f} MB')


if __name__ == '__main__':
    main()
