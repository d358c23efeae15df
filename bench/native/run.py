#!/usr/bin/env python3
"""Measures compiled networks beside `kpn run`, rings by hand in C (rings.c), and Go on one processor if it is there:
million items a channel in a second of a processor, of the whole program. Then the filter of the gallery beside a loop
in C with the same checks, and the chain for sound of bench/python/chain.py: how many times real time it is in this
process, from array to array, and as a stream of samples of 16 bits.

The programs run in turn; the best of the runs counts. The machine should do nothing else, or the script be set before
all other work.
"""
import array
import os
import pathlib
import shutil
import sys
import tempfile
import time

TOP = pathlib.Path(__file__).resolve().parents[2]
sys.path[:0] = [str(TOP / 'bench'), str(TOP / 'bench/python'), str(TOP / 'python')]

import chain  # noqa: E402
import measure  # noqa: E402
import networks  # noqa: E402
from kpn.native import command  # noqa: E402
from kpn.program import answer, find_program  # noqa: E402

KAHN = "Kahn's example, capacity 1"
# The name, what makes the text for N items, the first words of rings.c, the channels that each item goes through,
# and how many times the speed of Go is wanted. Kahn's example goes on for ever, and a part of its items is wanted.
ROWS = (
    ('pipeline of 8, capacity 1', lambda items: networks.pipeline(8, 1, items), 'row 8 1', 9, None),
    ('pipeline of 8, capacity 64', lambda items: networks.pipeline(8, 64, items), 'row 8 64', 9, 20),
    ('pipeline of 64, capacity 64', lambda items: networks.pipeline(64, 64, items), 'row 64 64', 65, 20),
    ('split and join of 2, capacity 64', lambda items: networks.split_and_join(64, items), 'split 0 64', 4, 15),
    ('sieve of 100, capacity 64', lambda items: networks.sieve(100, 64, items), 'sieve 100 64', 12, 4),
    (KAHN, lambda items: networks.kahn(), 'kahn 0 1', 3, 10),
)
HOPS_HERE, HOPS_COMPILED = 2_000_000, 60_000_000


def compiled(folder, name, text, schedule, runtime):
    """A network as a program."""
    program = pathlib.Path(folder, f'{name}.{schedule}')
    if command.build(command.c_of(answer('print', text), schedule), find_program(), str(program), runtime):
        sys.exit(f'{name}: the compiler refuses the C')
    return str(program)


def rates(folder, row, runtime, runs):
    """A line of the table."""
    name, made, by_hand, channels, wanted = row
    few, many = HOPS_HERE // channels, HOPS_COMPILED // channels
    take_few, take_many = ([], []) if name != KAHN else (['--take', str(few)], ['--take', str(many)])
    source = pathlib.Path(folder, 'description')
    source.write_text(made(few))
    commands = {'kpn run': ([find_program(), 'run', str(source), '--max-commits', '1000000000', *take_few], HOPS_HERE)}
    for schedule in reversed(command.SCHEDULES):
        program = compiled(folder, 'net', made(many), schedule, runtime)
        words = [program, 'run', '--max-commits', '1000000000', *take_many]
        commands[schedule] = words, HOPS_COMPILED
    commands['rings'] = [str(pathlib.Path(folder, 'rings')), *by_hand.split(), str(many)], HOPS_COMPILED
    if shutil.which('go'):
        go = pathlib.Path(folder, 'net.go')
        go.write_text(networks.as_go(made(few), few if take_few else 0))
        measure.Run(['go', 'build', '-o', str(go.with_suffix('')), str(go)])
        commands['Go'] = [str(go.with_suffix(''))], HOPS_HERE
    best = {}
    for _ in range(runs):
        for who, (words, hops) in commands.items():
            seconds = measure.Run(words, {**os.environ, 'GOMAXPROCS': '1'}).seconds
            best[who] = max(best.get(who, 0), hops / seconds / 1e6)
    beside = f'{best["fuse"] / best["Go"]:.0f} of Go ({wanted or "none"} wanted)' if 'Go' in best else ''
    return f'{name:34}' + ''.join(f'{who} {rate:7.1f}  ' for who, rate in best.items()) + beside


def filters(folder, runtime, runs):
    """Nanoseconds an item of the filter, beyond what reading and writing take; and those of the loop."""
    items = 3_000_000
    given = pathlib.Path(folder, 'items')
    given.write_text(''.join(f'{k * 2654435761 % 40001 - 20000}\n' for k in range(items)))
    fir, copy = ((TOP / 'examples' / name).read_text() for name in ('gallery/fir.kpn', 'copy.kpn'))
    programs = [[compiled(folder, 'fir', fir, 'fuse', runtime), 'run', '--source', f'x={given}'],
                [compiled(folder, 'copy', copy, 'fuse', runtime), 'run', '--source', f's={given}'],
                [str(pathlib.Path(folder, 'loop')), str(10 * items)]]
    measure.Run([*command.compiler(), str(TOP / 'bench/native/fir.c'), '-o', programs[2][0]])
    best = [min(measure.Run(words).seconds for _ in range(runs)) for words in programs]
    of_filter, of_loop = 1e9 * (best[0] - best[1]) / items, 1e8 * best[2] / items
    return f'filter of 8 processes {of_filter:.1f} ns, loop {of_loop:.1f} ns an item'


def sound(folder, runtime, runs):
    """How many times real time the chain for sound is, from array to array and as a stream of samples."""
    net, items = chain.network(), array.array('q', chain.items())
    program = net.compile(cache=folder)
    wanted = program.run(items)['y']
    if wanted.tolist() != chain.by_c(folder, items):
        sys.exit('the chain gives other items than C')
    stream = [compiled(folder, 'chain', str(net), 'fuse', runtime), 'stream', '--format', 's16le', '--quiet']
    samples, out = pathlib.Path(folder, 'samples'), pathlib.Path(folder, 'out')
    samples.write_bytes(array.array('h', items).tobytes())
    words = [*stream, '--source', f'x={samples}', '--sink', f'y={out}']
    of_call, of_stream = [], []
    for _ in range(runs):
        before = time.process_time()
        program.run(items)
        of_call.append(time.process_time() - before)
        of_stream.append(measure.Run(words).seconds)
    if array.array('h', out.read_bytes()) != array.array('h', wanted):
        sys.exit('the stream gives other items than the call')
    return f'chain for sound {chain.SECONDS / min(of_call):.0f} times real time from array to array, ' \
           f'{chain.SECONDS / min(of_stream):.0f} as a stream (50 wanted)'


def main():
    runs = measure.asked(__doc__, {}, {'runs': 5}).runs
    with tempfile.TemporaryDirectory(prefix='kpn-') as folder:
        runtime = command.compile_runtime(folder)
        measure.Run([*command.compiler(), str(TOP / 'bench/native/rings.c'), '-o', str(pathlib.Path(folder, 'rings'))])
        for row in ROWS:
            print(rates(folder, row, runtime, runs), flush=True)
        print(filters(folder, runtime, runs))
        print(sound(folder, runtime, runs))


if __name__ == '__main__':
    main()
