"""The gallery: its stored texts, its sinks against plain Python, and how short its networks are."""
import inspect
import math
import os
import tempfile
import unittest
import unittest.mock

from support import GALLERY, kpn

from kpn import gallery, parts
from kpn.gallery import cordic, delta_sigma, fft, fir, wavefront

SAMPLES = 10_000


class Gallery(unittest.TestCase):
    def test_the_texts_are_those_stored(self):
        self.assertEqual(sorted(it.stem for it in GALLERY.glob('*')), sorted(gallery.GALLERY))
        for name, module in gallery.GALLERY.items():
            with self.subTest(name):
                text = (GALLERY / f'{name}.kpn').read_text()
                self.assertEqual(text, gallery.stored_text(name))
                self.assertEqual(str(kpn.Network.from_text(text)), str(module.build()))

    def test_the_sinks_are_those_of_plain_python(self):
        for name, module in gallery.GALLERY.items():
            with self.subTest(name):
                given = module.inputs(SAMPLES)
                result = module.build().run(given).check()
                self.assertEqual(dict(result), module.expected(given))
                self.assertGreater(min(map(len, given.values())), SAMPLES - 16)

    def test_a_wavefront_of_3_600_cells(self):
        net, given = wavefront.build(60), wavefront.inputs(180, 60)
        wanted = wavefront.expected(given, 60)
        self.assertEqual(str(kpn.Network.from_text(str(net))), str(net))
        for options in ({}, {'workers': 4}):
            self.assertEqual(dict(net.run(given, **options)), wanted)
        with tempfile.TemporaryDirectory() as folder, unittest.mock.patch.dict(os.environ, CFLAGS='-O0'):
            self.assertEqual(dict(net.compile(schedule='batch', cache=folder).run(given)), wanted)

    def test_cordic_is_near_cosine_and_sine(self):
        given = cordic.inputs(500)
        result = cordic.build().run(given)
        for angle, cosine, sine in zip(given['angle'], result['cosine'], result['sine']):
            self.assertAlmostEqual(cosine / cordic.ONE, math.cos(angle / cordic.ONE), delta=1e-4)
            self.assertAlmostEqual(sine / cordic.ONE, math.sin(angle / cordic.ONE), delta=1e-4)

    def test_delta_sigma_keeps_the_mean(self):
        given = delta_sigma.inputs(4_000)
        result = delta_sigma.build().run(given)
        means = [sum(given['x'][32 * it:32 * it + 32]) // 32 for it in range(125)]
        for mean, found in list(zip(means, result['y'][1:]))[4:-1]:
            self.assertLess(abs(mean - found), 2_500)

    def test_they_are_short(self):
        def lines(*functions):
            return sum(len([line for line in inspect.getsource(it).splitlines() if line.strip()]) for it in functions)
        self.assertLessEqual(lines(fir.build), 12)
        self.assertLessEqual(lines(parts.fir), 12 + len(parts.fir.__doc__.splitlines()))
        self.assertLessEqual(lines(parts.fft, parts.filters.butterflies),
                             25 + len(parts.fft.__doc__.splitlines()))
        self.assertLessEqual(lines(fft.build), 25)


if __name__ == '__main__':
    unittest.main()
