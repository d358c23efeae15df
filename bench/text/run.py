#!/usr/bin/env python3
"""Megabytes per second of `kpn check` on large descriptions and of reading 10,000,000 items, beside `wc -l` and a plain
Rust reader, and the seconds of `kpn rounds` on Kahn's example with 1,000 rounds.

`kpn rounds` with no round and one source reads the items and writes them too. The plain reader only reads them. It is
no part of the gate. It reports the best of three runs.
"""
import pathlib
import subprocess
import sys
import tempfile
import time

HERE = pathlib.Path(__file__).resolve().parent
TOP = HERE.parent.parent
sys.path.append(str(TOP / 'bench'))

import measure  # noqa: E402

RUNS = 3
LIMIT = 1_048_576
ITEMS = 10_000_000


def comments():
    """As many comments as a description may hold."""
    line = '# all that stands here is passed over, byte for byte, and means nothing\n'
    end = 'network { }\n'
    return line * ((LIMIT - len(end)) // len(line)) + end


def processes():
    """Processes, each with an instance, a channel and as much text as fits."""
    count = 250
    turn = 'read i x; y = ((x * 3) + (y - 1)); if (x < y) { write o x; } else { write o y; }'
    head = 'process p{0}(in i; out o) {{ while 1 {{ '
    items = ''.join(f'channel c{k} cap 1; i{k} = p{k}(c{k}; c{(k + 1) % count}); ' for k in range(count))
    turns = (LIMIT - len(items) - count * 60) // count // (len(turn) + 1)
    # a program has 4,096 nodes at the most
    turns = min(turns, 150)
    texts = [head.format(k) + (turn + ' ') * turns + '} }\n' for k in range(count)]
    return ''.join(texts) + 'network { ' + items + '}\n'


def minuses():
    """One run of `-`, which nests too deep: it is refused after its tokens were read."""
    head = 'process p(out z) { write z '
    return head + '-' * (LIMIT - len(head))


def seconds(words, given=None):
    """The best time of a command."""
    best = None
    for _ in range(RUNS):
        with open(given or '/dev/null', 'rb') as source:
            begun = time.monotonic()
            subprocess.run(words, stdin=source, stdout=subprocess.DEVNULL, stderr=subprocess.DEVNULL, check=False)
            spent = time.monotonic() - begun
        best = spent if best is None else min(best, spent)
    return best


def items_file(path):
    state = 1
    with path.open('w') as lines:
        for _ in range(ITEMS):
            state = (state * 1103515245 + 12345) % 2147483648
            lines.write(f'{state % 2000001 - 1000000}\n')


def main():
    measure.asked(__doc__, {})
    subprocess.run([TOP / 'kpn', '--version'], check=True, stdout=subprocess.DEVNULL)
    kpn = str(TOP / 'crates/kpn/out/kpn')
    with tempfile.TemporaryDirectory() as name:
        folder = pathlib.Path(name)
        plain = str(folder / 'plain')
        subprocess.run(['rustc', '-O', '-o', plain, HERE / 'plain.rs'], check=True)
        for title, text in (('comments', comments()), ('processes', processes()), ('minuses', minuses())):
            file = folder / title
            file.write_text(text)
            size = len(text) / 1e6
            answer = subprocess.run([kpn, 'check', file], capture_output=True, text=True)
            own = seconds([kpn, 'check', str(file)])
            line, rust = seconds(['wc', '-l'], file), seconds([plain, 'bytes'], file)
            print(f'{title:10} {size:5.2f} MB: kpn check {size / own:7.2f} MB a second, wc -l {size / line:8.2f},'
                  f' plain Rust {size / rust:8.2f}   {(answer.stdout + answer.stderr).strip()}')
        given = folder / 'items'
        items_file(given)
        size = given.stat().st_size / 1e6
        reader = folder / 'reader.kpn'
        reader.write_text('process none(in i) { } network { source s; n = none(s;); }\n')
        own = seconds([kpn, 'rounds', str(reader), '0', '--source', f's={given}'])
        alone = seconds([kpn, 'alone', 'copy'], given)
        line = seconds(['wc', '-l'], given)
        rust = seconds([plain, 'items'], given)
        print(f'{ITEMS} items, {size:.1f} MB: read and written by kpn rounds {size / own:.2f} MB a second,'
              f' read, stepped and written by kpn alone copy {size / alone:.2f}, wc -l {size / line:.2f},'
              f' read by plain Rust {size / rust:.2f}')
        print(f'  kpn rounds takes {own / rust:.2f} of the time of the plain reader')
        spent = seconds([kpn, 'rounds', str(TOP / 'examples/kahn.kpn'), '1000'])
        print(f'kpn rounds kahn.kpn 1000: {spent:.3f} seconds')


if __name__ == '__main__':
    sys.exit(main())
