#!/usr/bin/env python3
"""Compiled streams beside `kpn stream`, on random bytes and items, with random formats of their ends.

usage: bench/stress/native_stream.py [STREAMS [SEED]]

KPN_PROGRAM names the program `kpn`, and CC and CFLAGS the compiler. So sanitizers look on:

    CFLAGS='-O1 -w -fsanitize=address,undefined -fno-sanitize-recover=all' bench/stress/native_stream.py

Four networks are compiled under all schedules. A stream has formats for all ends or for some, and perhaps `--clip`,
`--take`, `--quiet`, or a word that is wrong. Both programs have to write the same bytes, tell the same, and end with
the same status. Some compiled ones are checked by `--check items`, which has to find nothing. Two sinks are served in
another order: if a device has failed, the items of one begin those of the other. It ends with 1 at the first
difference. It is no part of the gate, but python/tests/test_native.py runs a part of it.
"""
import argparse
import collections
import math
import pathlib
import random
import re
import struct
import subprocess
import sys
import tempfile

TOP = pathlib.Path(__file__).resolve().parents[2]
sys.path += [str(TOP / 'bench/stress'), str(TOP / 'python')]

from kpn.native import command  # noqa: E402
from native import Difference, call  # noqa: E402
from kpn.program import find_program  # noqa: E402

NETWORKS = {
    'copy': 'process copy(in i; out o) { while 1 { read i x; write o x; } }\n'
            'network { source a; sink y cap 4; c = copy(a; y); }\n',
    'faults': 'process third(in i; out o) { while 1 { read i x; write o (x * 3); } }\n'
              'network { source a; sink y cap 4; t = third(a; y); }\n',
    'mean': 'process mean(in i, j; out o) { while 1 { read i x; read j y; write o ((x / 2) + (y / 2)); } }\n'
            'network { source a; source b; sink y cap 4; m = mean(a, b; y); }\n',
    'split': 'process split(in i; out o, p) { while 1 { read i x; write o x; write p (x / 2); } }\n'
             'network { source a; sink y cap 4; sink z cap 4; s = split(a; y, z); }\n',
}
# Each sample with its code in `struct`; lines and s24le have none.
CODES = {'lines': '', 'u8': 'B', 's8': 'b', 's16le': '<h', 's24le': '', 's32le': '<i', 's64le': '<q', 'f32le': '<f',
         'f32le:0': '<f', 'f32le:40': '<f', 'wav': '', 'wav16': '', 'wav24': ''}
TOLD = b'kpn: compiled: nothing is proved of the program that runs here\n'
CHECKED = re.compile(rb'^kpn: checked: .*\n', re.M)
# Seconds that a stream may take.
MOST = 60


def item(chosen):
    """An item at the edge of a format, or any of a number of bits."""
    power = 1 << chosen.choice((7, 8, 15, 23, 31, 48, chosen.randrange(64), 63))
    found = chosen.choice((power, -power, chosen.randrange(-power, power))) + chosen.choice((0, 0, -1, 1))
    return max(-2**63, min(found, 2**63 - 1))


def text_of(chosen, format, number):
    """The text of an item, if the format has one; now and then another one."""
    if format == 'lines':
        return b'%d%s' % (number, chosen.choice((b'\n',) * 30 + (b'\r\n', b'x\n', b'\n\n')))
    if format == 's24le':
        return struct.pack('<i', number >> 40)[:3]
    if format.startswith('f32le'):
        # Items, halves between two, and now and then what no item is.
        half = (chosen.getrandbits(chosen.randrange(24)) + 0.5) * chosen.choice((-1, 1)) / 2**15
        strange = chosen.choice((half, 2.0**48, -2.0**48, 1e30, math.inf, -math.inf, math.nan))
        rare = strange if chosen.random() < 0.1 else half
        return struct.pack('<f', chosen.choice((number / 2**15, half, half, rare)))
    bits = 8 * struct.calcsize(CODES[format])
    return struct.pack(CODES[format], number >> 64 - bits if CODES[format] != 'B' else number % 256)


def bytes_for(chosen, format):
    """What an input may hold: random bytes, or the texts of items, perhaps cut."""
    count = chosen.choice((0, 1, 5, 100, 3000))
    if format.startswith('wav'):
        made = wav_of(chosen, count)
        return made[:chosen.randrange(len(made) + 1)] if chosen.random() < 0.3 else made
    if chosen.random() < 0.3:
        return chosen.randbytes(count)
    made = b''.join(text_of(chosen, format, item(chosen)) for _ in range(count))
    return made[:chosen.randrange(len(made) + 1)] if chosen.random() < 0.3 else made


def wav_of(chosen, count):
    """A WAV file of this many bytes of samples, perhaps with a wrong byte in its head or a wrong size."""
    width, channels = chosen.choice((1, 2, 3)), chosen.choice((1, 2))
    kind = struct.pack('<HHIIHH', 1, channels, 8000, 8000 * width, channels * width, 8 * width)
    samples = chosen.randbytes(count)
    sizes = (count, count, count, 2**31 - 4096, 2**31 - 8192, 2**31 - 8193, max(0, count - 5), count + 5)
    head = struct.pack('<4sI4s', b'RIFF', 0, b'WAVE')
    for _ in range(chosen.choice((0, 0, 1, 3))):
        size = chosen.randrange(40)
        head += struct.pack('<4sI', b'note', size) + bytes(size + size % 2)
    head += struct.pack('<4sI', b'fmt ', len(kind)) + kind + struct.pack('<4sI', b'data', chosen.choice(sizes))
    if chosen.random() < 0.2:
        place = chosen.randrange(len(head))
        head = head[:place] + chosen.randbytes(1) + head[place + 1:]
    return head + samples + chosen.choice((b'', b'', b'\0', b'LIST'))


class Streams:
    """The networks in a folder, as programs under each schedule."""

    def __init__(self, folder, chosen, schedules, runtime):
        self.folder, self.chosen, self.kpn = pathlib.Path(folder), chosen, find_program()
        self.counts, self.programs = collections.Counter(), {}
        for name, text in NETWORKS.items():
            (self.folder / name).write_text(text)
            for schedule in schedules:
                made = self.folder / f'{name}-{schedule}'
                self.programs.setdefault(name, []).append(made)
                canonical = call([self.kpn, 'print', name], folder)[0].decode()
                if command.build(command.c_of(canonical, schedule), self.kpn, str(made), runtime):
                    raise Difference(f'the compiler refuses {name} under {schedule}')

    def ends(self, name):
        """The sources and sinks of a network."""
        words = NETWORKS[name].replace(';', ' ').replace('{', ' ').split()
        return [[after for word, after in zip(words, words[1:]) if word == kind] for kind in ('source', 'sink')]

    def formats(self, ends):
        """Words for formats, and the format of each end."""
        chosen, common, words = self.chosen, 'lines', []
        if chosen.random() < 0.5:
            common = chosen.choice(list(CODES))
            words += ['--format', common]
        found = {end: chosen.choice((common, chosen.choice(list(CODES)))) for end in ends}
        words += [f'--format={end}={format}' for end, format in found.items() if format != common]
        if chosen.random() < 0.05:
            words += ['--format', chosen.choice(('s16', 'q=u8', 'u8', 'y=u8', 'a=', '=u8', 'y=s8=u8', 'y=s16be',
                                                 'f32le:63', 'f32le:-1', 'f32le:', 'y=f32le:07', 'wav8'))]
        if any(format.startswith('wav') for format in found.values()) and chosen.random() < 0.5:
            words += ['--rate', '44100', '--channels', chosen.choice(('1', '2', '1000'))]
        return words, found

    def words(self, name):
        """Words of a stream; standard input has what they read from `-`."""
        sources, sinks = self.ends(name)
        words, formats = self.formats([*sources, *sinks])
        standard = b''
        for place, source in enumerate(sources):
            given = bytes_for(self.chosen, formats[source])
            (self.folder / f'{source}.in').write_bytes(given)
            is_standard = place == 0 and self.chosen.random() < 0.5
            standard = given if is_standard else standard
            words += ['--source', f'{source}={"-" if is_standard else f"{source}.in"}']
        words += [word for sink in sinks for word in ('--sink', f'{sink}={sink}.out')]
        words += [word for word in ('--clip', '--quiet') if self.chosen.random() < 0.4]
        if name == 'copy' and self.chosen.random() < 0.3:
            words += ['--take', str(self.chosen.choice((1, 7, 500)))]
        return words, standard

    def outcome(self, program, name, words, standard):
        """What a stream has come to: status, output, what is told, and the files of the sinks."""
        for sink in self.ends(name)[1]:
            (self.folder / f'{sink}.out').unlink(missing_ok=True)
        out, status, told = call([*program, *words], self.folder, input=standard, timeout=MOST)
        files = [self.folder / f'{sink}.out' for sink in self.ends(name)[1]]
        told = CHECKED.sub(b'', told.replace(TOLD, b''))
        return status, out, told, [it.read_bytes() if it.exists() else None for it in files]

    def stream(self):
        """One stream by both programs."""
        name = self.chosen.choice(list(NETWORKS))
        words, standard = self.words(name)
        program = self.chosen.choice(self.programs[name])
        wanted = self.outcome([self.kpn, 'stream', name], name, words, standard)
        checks = ['--check', 'items'] if self.chosen.random() < 0.2 else []
        found = self.outcome([program, 'stream', *checks], name, words, standard)
        if not self.are_equal(wanted, found):
            raise Difference(f'{program.name} {" ".join(words)}: {found}, and not {wanted}')
        failed = [line.split()[1] for line in wanted[2].decode().splitlines() if line.startswith('kpn: ')]
        self.counts[f'status {wanted[0]} {"".join(failed[:1])}'.strip()] += 1

    @staticmethod
    def are_equal(wanted, found):
        """Whether two streams have come to the same. How far processes are under `enough`, or once an output has
        failed, depends on the order of turns; so do then the items of other sinks, and which of two faults is told."""
        has_failed, parts = b'at --sink ' in wanted[2], []
        for status, out, told, _ in (wanted, found):
            is_enough = told.endswith(b'enough\n')
            kept = [line for line in told.splitlines() if not (is_enough and line.startswith(b'waits '))]
            parts.append((status, out, kept[-2:] if has_failed else kept))
        if not has_failed or len(wanted[3]) == 1:
            return parts[0] == parts[1] and wanted[3] == found[3]
        return wanted[:2] == found[:2] and b'at --sink ' in found[2] and all(
            one.startswith(other) or other.startswith(one) for one, other in zip(wanted[3], found[3]))


def try_streams(count, seed, schedules=command.SCHEDULES, runtime=()):
    """This many streams, with the runtime by these object files; gives how many ended how, or the first difference."""
    with tempfile.TemporaryDirectory(prefix='kpn-') as folder:
        try:
            runtime = runtime or command.compile_runtime(folder)
            streams = Streams(folder, random.Random(seed), schedules, runtime)
            for _ in range(count):
                streams.stream()
        except (Difference, subprocess.TimeoutExpired) as found:
            return str(found)
    return streams.counts


def main():
    parser = argparse.ArgumentParser(description=__doc__.split('\n')[0])
    parser.add_argument('streams', nargs='?', type=int, default=2000)
    parser.add_argument('seed', nargs='?', type=int, default=1)
    given = parser.parse_args()
    found = try_streams(given.streams, given.seed)
    if isinstance(found, str):
        print(found)
        return 1
    print(f'{given.streams} streams: {", ".join(f"{count} {name}" for name, count in sorted(found.items()))}')
    return 0


if __name__ == '__main__':
    sys.exit(main())
