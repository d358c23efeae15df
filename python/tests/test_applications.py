"""The applications: their networks against plain Python, and their files by the tools of others if those are there."""
import array
import cmath
import importlib.util
import math
import os
import pathlib
import re
import shutil
import subprocess
import sys
import tempfile
import unittest

from support import TOP, kpn
from test_signals import compressed, convolved, rounded

FOLDER = TOP / 'examples/applications'


def module_of(path):
    """A script of an application as a module."""
    spec = importlib.util.spec_from_file_location(path.replace('/', '_'), FOLDER / f'{path}.py')
    module = importlib.util.module_from_spec(spec)
    sys.modules.setdefault(path.rpartition('/')[2], module)
    spec.loader.exec_module(module)
    return module


def section(numbers, items, one=2**30):
    """What a section gives, step by step: the rest of each rounding is fed back twice."""
    b0, b1, b2, _, a1, a2 = kpn.Q(30)(numbers)
    x1 = x2 = y1 = y2 = r1 = r2 = 0
    found = []
    for x in items:
        exact = b0 * x + b1 * x1 + b2 * x2 - a1 * y1 - a2 * y2 + 2 * r1 - r2
        y = rounded(exact, one)
        r1, r2, x1, x2, y1, y2 = exact - one * y, r1, x, x1, y, y1
        found.append(y)
    return found


def run_tool(words, given=None):
    return subprocess.run(words, input=given, capture_output=True, check=True)


class Sound(unittest.TestCase):
    chain = module_of('audio/chain')
    items = [round(12_000 * math.sin(n / 9) + 9_000 * math.sin(n / 153)) for n in range(600)]

    def wanted(self, items):
        found = convolved(self.chain.TAPS, items, 15)
        found = section(kpn.parts.recursive.section_of('notch', self.chain.FS, 50, 30), found)
        return [max(-32_768, min(32_767, it)) for it in compressed(found, 8_000, 4, 48, 4_800)]

    def test_a_chain(self):
        self.assertEqual(self.chain.build().run(self.items).check()['y'], self.wanted(self.items))

    def test_two_channels(self):
        found = self.chain.build(2).run(self.items).check()['y']
        self.assertEqual((found[::2], found[1::2]), (self.wanted(self.items[::2]), self.wanted(self.items[1::2])))

    def test_volume(self):
        volumes = [256, 128, 0, 1024, 300, 256]
        found = self.chain.build(2, 50).run({'x': self.items, 'volume': volumes}).check()['y']
        for channel in (0, 1):
            loud = [it * volumes[n // 50] for n, it in enumerate(self.wanted(self.items[channel::2]))]
            self.assertEqual(found[channel::2], [max(-32_768, min(32_767, rounded(it, 256))) for it in loud])

    @unittest.skipUnless(shutil.which('sox'), 'sox is not there')
    def test_live_through_pipes(self):
        with tempfile.TemporaryDirectory() as folder:
            path = pathlib.Path(folder, 'chain.kpn')
            path.write_text(str(self.chain.build()))
            raw = '-t raw -r 48000 -e signed -b 16 -c 1 -'
            done = run_tool(['bash', '-c', f'set -o pipefail; sox -D -n {raw} synth 0.05 sine 440 vol 0.5 | '
                             f'"{kpn.find_program()}" stream "{path}" --format s16le --quiet | sox -D {raw} {raw}'])
        tone = array.array('h', run_tool(['bash', '-c', f'sox -D -n {raw} synth 0.05 sine 440 vol 0.5']).stdout)
        self.assertEqual(array.array('h', done.stdout).tolist(), self.wanted(tone.tolist()))
        self.assertEqual(len(tone), 2_400)


class Radio(unittest.TestCase):
    def test_a_tone_comes_out(self):
        receiver, sender = module_of('fm/receiver'), module_of('fm/sender')
        made = run_tool([sys.executable, str(FOLDER / 'fm/sender.py'), '0.02', '2000']).stdout
        samples = array.array('h', made)
        self.assertEqual(len(samples), 2 * 4_800)
        self.is_tone(receiver, receiver.build().run(samples.tolist()).check()['sound'][240:])
        self.assertEqual(sender.FS, receiver.FS)
        # The sender is 30 kHz lower at first, and then 20 kHz higher.
        moves = [-30_000] * 10 + [20_000] * 10
        angles = [sum(moves[:n // 240]) * 240 + moves[n // 240] * (n % 240) for n in range(4_800)]
        points = [complex(*pair) * cmath.exp(2j * math.pi * angle / receiver.FS)
                  for pair, angle in zip(zip(samples[::2], samples[1::2]), angles)]
        items = [round(it) for point in points for it in (point.real, point.imag)]
        tune = [round(-it * 2**32 / receiver.FS) for it in moves]
        self.is_tone(receiver, receiver.build(240).run({'iq': items, 'tune': tune}).check()['sound'][240:])

    def is_tone(self, receiver, sound):
        """The tone of 2,000 Hz comes out, and nothing else."""
        at = [sum(it * cmath.exp(-2j * math.pi * n * f / 48_000) for n, it in enumerate(sound)) / len(sound) * 2
              for f in (2_000, 4_000, 6_000)]
        height = receiver.HEIGHT * 0.5 / abs(1 + 2j * math.pi * 2_000 * 50e-6)
        self.assertAlmostEqual(abs(at[0]) / height, 1, delta=0.02)
        self.assertLess(max(map(abs, at[1:])), 0.01 * height)


class Picture(unittest.TestCase):
    def setUp(self):
        folder = tempfile.TemporaryDirectory()
        self.addCleanup(folder.cleanup)
        self.folder = pathlib.Path(folder.name)
        self.encode = module_of('jpeg/encode')

    def test_the_scan_of_a_flat_picture(self):
        # The mean of the first block is 8 (178 - 128) / 16 = 25, of 5 bits; nothing changes after it.
        scan = self.encode.build(16, 8).run([178] * 128).check()['scan']
        text = '110' + '11001' + '1010' + '00' + '1010' + '1111111'
        self.assertEqual(scan, [int(text[it:it + 8], 2) for it in range(0, len(text) - 7, 8)])

    def test_the_codes(self):
        codes = self.encode.codes_of(self.encode.OTHER_COUNTS, self.encode.OTHERS)
        self.assertEqual((codes[1], codes[0], codes[240], codes[250]), ((0, 2), (10, 4), (0x7f9, 11), (0xfffe, 16)))
        self.assertEqual(len(codes), 162)

    @unittest.skipUnless(shutil.which('djpeg'), 'djpeg is not there')
    def test_a_decoder_reads_it(self):
        picture, made, decoded = (self.folder / it for it in ('picture.pgm', 'made.jpg', 'decoded.pgm'))
        picture.write_bytes(run_tool([sys.executable, str(FOLDER / 'jpeg/picture.py'), '45', '20']).stdout)
        environment = {**os.environ, 'PYTHONDONTWRITEBYTECODE': '1', 'PYTHONPATH': str(TOP / 'python'),
                       'KPN_PROGRAM': kpn.find_program()}
        subprocess.run([sys.executable, str(FOLDER / 'jpeg/encode.py'), str(picture), str(made)], env=environment,
                       check=True)
        decoded.write_bytes(run_tool(['djpeg', '-grayscale', '-pnm', str(made)]).stdout)
        told = subprocess.run([sys.executable, str(FOLDER / 'jpeg/compare.py'), str(picture), str(decoded)],
                              env=environment, capture_output=True, text=True)
        self.assertEqual(told.returncode, 0, told)
        self.assertTrue(re.match(r'worst block [\d.]+ of [\d.]+; ', told.stdout))


if __name__ == '__main__':
    unittest.main()
