"""The examples of arrays and tables beside plain Python, which computes each of their answers by itself; and the second
implementation on arrays and tables.

What the heads of the examples claim, what histories.py makes of more items, and what `kpn` does, have to be the same.
"""
import hashlib
import math
import os
import pathlib
import random
import re
import subprocess
import sys
import tempfile
import unittest

TOP = pathlib.Path(__file__).resolve().parent.parent.parent
sys.path.append(str(TOP / 'tools'))

import examples  # noqa: E402
import histories  # noqa: E402
import rounds  # noqa: E402

PROGRAM = os.environ.get('KPN_PROGRAM', TOP / 'crates/kpn/out/kpn')
FOLDER = TOP / 'examples/language2'
LOW = 2 ** 32 - 1
COMMAND = re.compile(r'#   \./kpn run \S+/(\w+)\.kpn --source (\w+)=\S+/(\w+)(?: --take (\d+))?\n')


# ---- the answers: the lists of the sinks for that of the source

def filtered(taps, items):
    """What a filter makes of items, in units of 2^-15."""
    return [(sum(tap * items[n - k] for k, tap in enumerate(taps[:n + 1])) + 2 ** 14) >> 15 for n in range(len(items))]


def low_pass(items):
    """By a sinc in a window of Hann whose taps have the sum 1."""
    taps = [round(2 ** 15 * math.sin(math.pi * t / 4) / (math.pi * t) * math.cos(math.pi * t / 32) ** 2)
            for t in range(1, 16)]
    return {'y': filtered([*taps[::-1], 2 ** 15 - 2 * sum(taps), *taps], items)}


def tone(items):
    return {'y': filtered([round(8192 * 0.98 ** k * math.cos(math.pi * k / 6)) for k in range(255)], items)}


def transformed(items):
    """The cosine transform of each block by its definition, a double sum."""
    wave = [[round(8192 * (math.sqrt(1 / 8) if u == 0 else 1 / 2) * math.cos((2 * x + 1) * u * math.pi / 16))
             for x in range(8)] for u in range(8)]
    found = []
    for first in range(0, len(items) // 64 * 64, 64):
        found += [(sum((items[first + 8 * y + x] - 128) * wave[v][y] * wave[u][x]
                       for y in range(8) for x in range(8)) + 2 ** 25) >> 26 for v in range(8) for u in range(8)]
    return {'frequencies': found}


def to_and_fro(items):
    """Up the even diagonals of each block, and down the odd ones."""
    places = [(x + y, y if (x + y) % 2 else x, 8 * y + x) for y in range(8) for x in range(8)]
    return {'row': [items[first + place] for first in range(0, len(items) // 64 * 64, 64)
                    for _, _, place in sorted(places)]}


def coded(symbols):
    """The bytes of canonical codes, by how many there are of each length, up to a symbol without a code."""
    codes, code = [], 0
    for length, count in enumerate((0, 1, 5, 1, 1, 1, 1, 1, 1), 1):
        codes += [f'{code + k:0{length}b}' for k in range(count)]
        code = 2 * (code + count)
    known = [*codes, '1' * 7]
    last = next((n for n, it in enumerate(symbols) if not 0 <= it < len(known)), len(symbols))
    bits = ''.join(known[it] for it in symbols[:last])
    return {'bytes': [int(bits[k:k + 8], 2) for k in range(0, len(bits) - 7, 8)]}


def enciphered(items):
    """XTEA as it was published, of whole blocks, and the blocks again."""
    key, found = [0x00010203, 0x04050607, 0x08090a0b, 0x0c0d0e0f], []
    for v0, v1 in zip(items[::2], items[1::2]):
        total = 0
        for _ in range(32):
            v0 = v0 + (((v1 << 4) ^ (v1 >> 5)) + v1 ^ total + key[total & 3]) & LOW
            total = total + 0x9e3779b9 & LOW
            v1 = v1 + (((v0 << 4) ^ (v0 >> 5)) + v0 ^ total + key[(total >> 11) & 3]) & LOW
        found += [v0, v1]
    return {'cipher': found, 'again': items[:len(found)]}


def padded(message):
    """The words of a message with its padding."""
    whole = message + b'\x80' + bytes(-(len(message) + 9) % 64) + (8 * len(message)).to_bytes(8, 'big')
    return [int.from_bytes(whole[k:k + 4], 'big') for k in range(0, len(whole), 4)]


def hashed(message):
    """The words of the hash of a message."""
    digest = hashlib.sha256(message).digest()
    return [int.from_bytes(digest[k:k + 4], 'big') for k in range(0, 32, 4)]


def echoed(items, back=4):
    """Each sum by its own terms: an echo of half the size `back` items later, towards 0."""
    wet = []
    for n, item in enumerate(items):
        wet.append(item + (int(math.copysign(abs(wet[n - back]) // 2, wet[n - back])) if n >= back else 0))
    return {'wet': wet}


def turned(angles):
    """Cosines and sines by turns; they differ little from those of Python."""
    gain = math.prod(1 / math.sqrt(1 + 4.0 ** -k) for k in range(20))
    cosines, sines = [], []
    for angle in angles:
        x, y, left = round(2 ** 30 * gain), 0, angle
        for k in range(20):
            x, y, left = (x + (y >> k), y - (x >> k), left + round(2 ** 30 * math.atan(2.0 ** -k))) if left < 0 else \
                (x - (y >> k), y + (x >> k), left - round(2 ** 30 * math.atan(2.0 ** -k)))
        assert all(abs(found - 2 ** 30 * of(angle / 2 ** 30)) < 4096 for found, of in ((x, math.cos), (y, math.sin)))
        cosines.append(x)
        sines.append(y)
    return {'cosines': cosines, 'sines': sines}


def chance_items(chance, count, most):
    return [chance.randrange(-most, most + 1) for _ in range(count)]


def cases():
    """For each example its answers, and more items for it."""
    chance = random.Random(2)
    bytes_ = [chance.randrange(256) for _ in range(130)]
    words = [chance.getrandbits(32) for _ in range(21)]
    return {
        'fir31': (low_pass, chance_items(chance, 100, 2 ** 15)), 'fir255': (tone, chance_items(chance, 300, 2 ** 15)),
        'dct': (transformed, bytes_), 'zigzag': (to_and_fro, chance_items(chance, 200, 2 ** 62)),
        'huffman': (coded, [chance.randrange(13) for _ in range(90)] + [-1, 3]), 'xtea': (enciphered, words),
        'echo': (echoed, chance_items(chance, 50, 2 ** 40)),
        'cordic': (turned, chance_items(chance, 20, round(2 ** 30 * math.pi / 2))),
        'sha256': (lambda items: {'hash': hashed(b'abc')}, padded(b'abc')),
    }


def by_second(text, lists):
    """The run of a text by histories.py."""
    return histories.Run(histories.Network(text), lists).go()


def sinks_of(run):
    return {run.network.channels[c]: run.journals[c] for c in run.network.of_kind('sink')}


def line_of(sink, items):
    """The line of a sink in a report."""
    return f'sink {sink}:{histories.items_text(items)}\n'


def by_kpn(text, lists):
    """What `kpn run` writes for a text."""
    with tempfile.TemporaryDirectory() as folder:
        pathlib.Path(folder, 'net.kpn').write_text(text)
        words = []
        for name, items in lists.items():
            pathlib.Path(folder, name).write_text(''.join(f'{it}\n' for it in items))
            words += ['--source', f'{name}={name}']
        done = subprocess.run([PROGRAM, 'run', 'net.kpn', *words], cwd=folder, capture_output=True, text=True)
    return done.stdout + done.stderr


class Examples(unittest.TestCase):
    def test_what_the_heads_claim(self):
        met = set()
        for file in FOLDER.glob('*.kpn'):
            found = COMMAND.search(file.read_text())
            name, source, items, take = found.groups()
            self.assertEqual(name, file.stem)
            if name in cases():
                met.add(name)
                given = [int(it) for it in (FOLDER / items).read_text().split()]
                for sink, wanted in cases()[name][0](given).items():
                    self.assertIn(f'#   {line_of(sink, wanted[:take and int(take)])}', file.read_text(), name)
                self.assertIn(f'source {source};', file.read_text())
        self.assertEqual(met, set(cases()))

    def test_the_second_implementation_on_more_items(self):
        for name, (answer, items) in cases().items():
            text = (FOLDER / f'{name}.kpn').read_text()
            source = COMMAND.search(text)[2]
            self.assertEqual(sinks_of(by_second(text, {source: items})), answer(items), name)

    def test_kpn_on_more_items(self):
        for name, (answer, items) in cases().items():
            text = (FOLDER / f'{name}.kpn').read_text()
            source = COMMAND.search(text)[2]
            wanted = ''.join(map(line_of, *zip(*answer(items).items())))
            said = by_kpn(text, {source: items})
            self.assertTrue(said.startswith(wanted), f'{name}: {said}')

    def test_messages(self):
        """Of more than one block the last hash is that of the message."""
        text = (FOLDER / 'sha256.kpn').read_text()
        for message in (b'', b'a' * 55, b'a' * 56, bytes(range(256))):
            found = sinks_of(by_second(text, {'message': padded(message)}))['hash']
            self.assertEqual(found[-8:], hashed(message))

    def test_a_longer_way_back(self):
        text = (FOLDER / 'echo.kpn').read_text()
        items = chance_items(random.Random(3), 2500, 1000)
        found = sinks_of(by_second(text.replace('wet; 4)', 'wet; 1000)'), {'dry': items}))
        self.assertEqual(found, echoed(items, 1000))
        run = by_second(text.replace('wet; 4)', 'wet; 1001)'), {'dry': items})
        self.assertEqual((sinks_of(run)['wet'], run.ended), (items[:1000], ['index']))


# ---- arrays and tables in the second implementation

HEAD = 'language 2; table t = 5, -6; process p(out o) { array a[3]; table u = -9223372036854775807, -0, 007; '
TAIL = '} network { sink z cap 1; p = p(; z); }'
# The statements of a process, what it writes, and how it ends.
MEANINGS = [
    ('write o a[0]; write o a[2]; write o t[1]; write o u[0]; write o u[1]; write o u[2];',
     [0, 0, -6, 1 - 2 ** 63, 0, 7], 'done'),
    ('a[1] = 4; a[a[1] - 2] = a[1] + 1; write o a[1]; write o a[2]; write o a[0];', [4, 5, 0], 'done'),
    ('write o a[3];', [], 'index'), ('write o a[-1];', [], 'index'), ('write o a[2 - 3];', [], 'index'),
    ('write o t[2];', [], 'index'), ('write o u[3];', [], 'index'),
    # the index is looked at before the value is evaluated, and is evaluated first
    ('a[3] = 1 / 0;', [], 'index'), ('a[2] = 1 / 0;', [], 'zero-divisor'), ('a[1 / 0] = u[3];', [], 'zero-divisor'),
    ('a[1 << 64] = 1 / 0;', [], 'shift'), ('a[0] = u[3];', [], 'index'), ('a[0] = u[0] - 9;', [], 'overflow'),
    ('a[0] = 3; a[0] = a[0] * u[0]; write o 1;', [], 'overflow'),
    # of two sides the left one comes first
    ('write o u[3] + 1 / 0;', [], 'index'), ('write o 1 / 0 + u[3];', [], 'zero-divisor'),
    ('write o 1 << u[3];', [], 'index'), ('write o (a[0] ? a[3] : t[0]);', [5], 'done'),
    ('write o a[0] && a[3]; write o a[0] == 0 || a[3];', [0, 1], 'done'),
    ('write o a[a[a[2]]]; write o -t[1]; write o ~t[0]; write o !a[1];', [0, 6, -6, 1], 'done'),
    ('x = 3; while x { x = x - 1; a[x] = x * x; } write o a[0] + a[1] * 10 + a[2] * 100;', [410], 'done'),
    # what a later line sets is 0 before it
    ('while n < 3 { write o n + k; n = n + 1; k = 7; } write o a[m] + m; m = 1;', [0, 8, 9, 0], 'done'),
    ('if x { y = 1; } else { write o y; z = 5; } write o x + y + z; x = 1;', [0, 5], 'done'),
    # numbers
    ("write o 0xfF + 0b1_01_; write o 1_000_000; write o 'A'; write o ' ' - '~'; write o a[0x2];",
     [260, 1_000_000, 65, 32 - 126, 0], 'done'),
    (r"write o '\n'; write o '\\'; write o '\''; write o '\0'; write o 0x7fff_ffff_ffff_ffff;",
     [10, 92, 39, 0, 2 ** 63 - 1], 'done'),
]
PRINTED = '''language 2;
table t = 5, -6;
process p(out o) {
  array a[3];
  array b[1];
  table u = 7;
  a[a[0] + 1] = -a[(1 ? 2 : 0)] << (b[0] == 0);
  write o (a[t[0] - 5] + 1) * u[0];
}
network {
  sink z cap 1;
  p = p(; z);
}
'''


class Arrays(unittest.TestCase):
    def test_meanings(self):
        for statements, written, end in MEANINGS:
            run = by_second(HEAD + statements + TAIL, {})
            self.assertEqual((sinks_of(run)['z'], run.ended), (written, [end]), statements)
            self.assertEqual(rounds.rounds(HEAD + statements + TAIL, 4, {}), {'z': written}, statements)

    def test_kpn(self):
        for statements, written, end in MEANINGS:
            wanted = line_of('z', written) + f'fault p {end}\n' * (end != 'done') + 'ended\n'
            self.assertEqual(by_kpn(HEAD + statements + TAIL, {}), wanted, statements)

    def test_cells_of_instances_and_of_rounds(self):
        """Each instance has its own array, and each round begins with the first values."""
        text = 'language 2; process p(in i; out o) { array a[1]; ' \
               'while 1 { read i x; a[0] = a[0] + x; write o a[0]; } } ' \
               'network { source s; channel c cap 1; sink z cap 1; one = p(s; c); two = p(c; z); }'
        self.assertEqual(sinks_of(by_second(text, {'s': [1, 2, 3]})), {'z': [1, 4, 10]})
        self.assertEqual(rounds.rounds(text, 5, {'s': [1, 2, 3]})['z'], [1, 4, 10])

    def test_steps(self):
        """To set a cell is one step, and to look at cells is none."""
        network = histories.Network(HEAD + 'a[0] = a[1] + t[0]; x = a[a[1]]; write o 1;' + TAIL)
        process = network.start()[0]
        self.assertEqual([process.stop(quota)[0] for quota in (1, 0, 1)], ['paused', 'paused', 'write'])

    def test_language_1(self):
        """There the three words are names."""
        text = 'process p(out o) { table = 4; array = (table + 1); write o array; } ' \
               'network { sink z cap 1; p = p(; z); }'
        self.assertEqual(sinks_of(by_second(text, {})), {'z': [5]})

    def test_canonical(self):
        text = PRINTED.replace('  array b[1];\n  table u = 7;\n', 'table u=07;array b[01];')
        text = text.replace('a[0] + 1', '(a[0])+1')
        with tempfile.TemporaryDirectory() as folder:
            file = pathlib.Path(folder, 'net.kpn')
            for given in (text, PRINTED):
                file.write_text(given)
                self.assertEqual(examples.print_text(file), PRINTED)


if __name__ == '__main__':
    unittest.main()
