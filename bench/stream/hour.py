#!/usr/bin/env python3
"""The memory that `kpn stream` takes for a long signal.

It sends a sine of 48,000 samples a second, as `s16le`, through four processes that copy it, for as many seconds as each
word says (by default 300 and 3,600). It prints the most memory that the stream had, and the seconds of a processor that
it took. It is no part of the gate. `--program PROGRAM` names another build of `kpn`. With `--check` the network is
compiled, and `kpn stream` runs beside it (`--check items`): the memory is that of each, the seconds are those of both.
"""
import math
import os
import pathlib
import re
import struct
import subprocess
import sys
import tempfile

HERE = pathlib.Path(__file__).resolve().parent
sys.dont_write_bytecode = True
sys.path.append(str(HERE.parent))

import measure  # noqa: E402
from run import copies  # noqa: E402

RATE = 48_000
# A second has this many whole periods.
PITCH = 440


def most_memory(process):
    """The most bytes of memory that a process had, and those that it started, without the program that started it."""
    status = pathlib.Path(f'/proc/{process}/status').read_text()
    children = pathlib.Path(f'/proc/{process}/task/{process}/children').read_text().split()
    return [int(re.search(r'VmHWM:\s+(\d+) kB', status)[1]) * 1024, *(it for one in children for it in most_memory(one))]


def compiled(net):
    """The words of a stream of a compiled network that is checked."""
    words = [sys.executable, '-m', 'kpn.native', net, '-o', net.with_suffix('')]
    subprocess.run(words, check=True, env={**os.environ, 'PYTHONPATH': str(HERE.parents[1] / 'python')})
    return [net.with_suffix(''), 'stream', '--check', 'items']


def stream(words, second, seconds):
    """The memory of a stream that gets this second this many times, and the seconds of a processor that it took."""
    with tempfile.TemporaryFile() as told:
        child = subprocess.Popen(words, stdin=subprocess.PIPE, stdout=subprocess.DEVNULL, stderr=told)
        for _ in range(seconds):
            child.stdin.write(second)
        child.stdin.flush()
        memory = most_memory(child.pid)
        child.stdin.close()
        _, status, usage = os.wait4(child.pid, 0)
        child.returncode = os.waitstatus_to_exitcode(status)
        told.seek(0)
        expected, found = f'sink last: {seconds * RATE} items, complete\n', told.read().decode()
        if child.returncode != 0 or expected not in found or ('--check' in words) != ('kpn: checked' in found):
            sys.exit(f'the stream of {seconds} s ended with {child.returncode}')
    return memory, usage.ru_utime + usage.ru_stime


def main():
    asked = measure.asked(__doc__, {'seconds': [300, 3_600]}, {'program': '', 'check': False})
    program = pathlib.Path(asked.program).resolve() if asked.program else measure.kpn()
    os.environ['KPN_PROGRAM'] = str(program)
    samples = (round(30_000 * math.sin(2 * math.pi * PITCH * at / RATE)) for at in range(RATE))
    second = struct.pack(f'<{RATE}h', *samples)
    with tempfile.TemporaryDirectory() as folder:
        net = pathlib.Path(folder) / 'net.kpn'
        net.write_text(copies(4))
        words = compiled(net) if asked.check else [program, 'stream', net]
        for seconds in asked.seconds:
            memory, processor = stream([*words, '--format', 's16le'], second, seconds)
            sizes = ' and '.join(f'{it / 1e6:.2f}' for it in memory)
            print(f'{seconds} s: {sizes} MB, {processor:.1f} s of a processor', flush=True)


if __name__ == '__main__':
    main()
