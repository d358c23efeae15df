"""Arrays of NumPy as inputs and outputs of runs, and items that a scale makes of floats."""
import array
import fractions
import math
import numbers
import unittest

from support import kpn

from kpn import parts

try:
    import numpy
except ImportError:
    numpy = None


class Number:
    """A real number that knows its value and nothing else."""

    def __init__(self, value):
        self.value = value


numbers.Real.register(Number)


def copying():
    """A network that copies the items of `x` to `y`."""
    net = kpn.Network()
    net.sink('y', parts.gain(net.source('x'), 1))
    return net


class Scale(unittest.TestCase):
    def test_the_nearest_and_a_half_away_from_0(self):
        given = [0.5, -0.5, 0.25, -0.25, 0.124, 0.125, -0.125, -0.126, 1, fractions.Fraction(3, 8)]
        self.assertEqual(copying().run(given, scale=4)['y'], [2, -2, 1, -1, 0, 1, -1, -1, 4, 2])
        self.assertEqual(copying().run({'x': [0.75]}, scale={'x': 1 << 40})['y'], [3 << 38])
        self.assertEqual(copying().run(array.array('f', [-1, 0.5]), scale=2**15)['y'],
                         array.array('q', [-32768, 16384]))
        self.assertEqual(copying().run([0.4, 2.5], scale=1)['y'], [0, 3])

    def test_items_that_are_refused(self):
        for given, error, why in (([0.5, math.nan], kpn.KpnError, 'item 1 of the source `x` is nan, which is no num'),
                                  ([math.inf], kpn.KpnError, 'item 0 of the source `x` is inf, which is no number'),
                                  ([0, 2.0**62], kpn.KpnError, 'item 1 .* is 4.6.*, out of range: times 2 it has'),
                                  ([-2.0**62 - 1024], kpn.KpnError, 'it has to be from -2\\^63 to 2\\^63 - 1'),
                                  ([1, '1'], TypeError, "item 1 of the source `x` is '1'"),
                                  (2.5, TypeError, 'the source `x` have to be numbers, and not 2.5')):
            with self.assertRaisesRegex(error, why):
                copying().run(given, scale=2)

    def test_the_lowest_item(self):
        self.assertEqual(copying().run([-2.0**62, -2**62], scale=2)['y'], [-2**63, -2**63])

    def test_numbers_like_those_of_numpy(self):
        """They are no `float`, or wider than one, or their products wrap."""
        class Narrow(Number):
            def __float__(self):
                return float(self.value)

        class Wide(Number):
            def as_integer_ratio(self):
                return self.value.as_integer_ratio()

        class Wrapping(Number):
            numerator = denominator = property(lambda self: self)

            def __index__(self):
                return int(self.value)
        numbers.Integral.register(Wrapping)
        given = [Narrow(0.5), Wide(2**60 + fractions.Fraction(1, 2)), Wrapping(3)]
        self.assertEqual(copying().run(given, scale=4)['y'], [2, 2**62 + 2, 12])

    def test_scales_that_are_refused(self):
        for scale, error in ((3, kpn.KpnError), (0, kpn.KpnError), (2**63, kpn.KpnError), (2.0, TypeError),
                             ({'z': 2}, kpn.KpnError)):
            with self.assertRaises(error):
                copying().run([1], scale=scale)

    def test_floats_without_a_scale(self):
        self.assertEqual(copying().run([2.0, -3.0])['y'], [2, -3])
        with self.assertRaisesRegex(TypeError, 'item 1 of the source `x` is 0.5, .* and so does `scale=`'):
            copying().run([2.0, 0.5])
        for given in (math.inf, -math.inf, math.nan):
            with self.assertRaises(TypeError) as caught:
                copying().run([2.0, given])
            self.assertEqual(str(caught.exception),
                             f'item 1 of the source `x` is {given!r}, and items have to be whole numbers')
        with self.assertRaisesRegex(TypeError, r'item 0 of the source `x` is Fraction\(10*, 3\), .* so does `scale=`'):
            copying().run([fractions.Fraction(10**400, 3)])


@unittest.skipIf(numpy is None, 'NumPy is not there')
class Arrays(unittest.TestCase):
    def test_whole_types(self):
        for name in ('int8', 'int16', 'int32', 'int64', 'uint8'):
            info = numpy.iinfo(name)
            given = numpy.array([info.min, 1, info.max], dtype=name)
            result = copying().run(given)
            self.assertEqual(result['y'].dtype, numpy.int64)
            for found in (result['y'], result.array('y', name), result.array('y', numpy.dtype(name))):
                self.assertEqual(found.tolist(), given.tolist())
            self.assertEqual(result.array('y', name).dtype, given.dtype)

    def test_other_layouts(self):
        table = numpy.arange(12, dtype='>i2').reshape(4, 3)
        self.assertEqual(copying().run(table[:, 1])['y'].tolist(), [1, 4, 7, 10])
        self.assertEqual(copying().run(numpy.array([], dtype='int16'))['y'].tolist(), [])
        for given in (table, numpy.int16(3) + numpy.zeros((), 'int16')):
            with self.assertRaisesRegex(TypeError, 'have the shape .* one dimension'):
                copying().run({'x': numpy.asarray(given)})
            with self.assertRaisesRegex(TypeError, 'have the shape .* one dimension'):
                copying().run({'x': numpy.asarray(given)}, scale=2)

    def test_floats_are_scaled(self):
        for name in ('float32', 'float64'):
            given = numpy.array([0.0, 1.0, -1.0, 0.5 / 2**15, -0.5 / 2**15, 0.49 / 2**15, -0.75], dtype=name)
            result = copying().run(given, scale=2**15)
            self.assertEqual(result['y'].tolist(), [0, 32768, -32768, 1, -1, 0, -24576])
            found = result.array('y', name, scale=2**15)
            self.assertEqual((found.dtype, found.tolist()[:3], found.tolist()[-1]), (given.dtype, [0, 1, -1], -0.75))

    def test_an_array_is_scaled_as_a_list_is(self):
        given = numpy.array([0.1, 1e18, -1e18, 2.5, -2.5, 0.49999999999999994, 4503599627370497.5, -1e-300, 3e-45])
        for scale in (1, 2, 4):
            self.assertEqual(copying().run(given, scale=scale)['y'].tolist(),
                             copying().run(given.tolist(), scale=scale)['y'])
        self.assertEqual(copying().run(numpy.array([3, -4], 'int8'), scale=2**10)['y'].tolist(), [3072, -4096])

    def test_the_lowest_item(self):
        self.assertEqual(copying().run(numpy.array([-2.0**62, 1]), scale=2)['y'].tolist(), [-2**63, 2])

    def test_numbers_that_are_no_floats(self):
        given = [numpy.float32(0.5), numpy.float16(-0.25), numpy.int64(2**60), numpy.int8(100), numpy.longdouble(1.5)]
        self.assertEqual(copying().run(given, scale=4)['y'], [2, -1, 2**62, 400, 6])
        for item in (numpy.int64(2**62), numpy.float32(2.0**62)):
            with self.assertRaisesRegex(kpn.KpnError, 'item 0 of the source `x` is .*, out of range'):
                copying().run([item], scale=4)

    def test_wide_floats_are_not_rounded_before(self):
        given = numpy.array([2**60, -1, 0.5], 'longdouble') + numpy.longdouble(1) / 4
        exact = [fractions.Fraction(*map(int, it.as_integer_ratio())) * 4 for it in given]
        self.assertEqual(copying().run(given, scale=4)['y'].tolist(), exact)

    def test_rows(self):
        with self.assertRaisesRegex(TypeError, 'item 0 of the source `x` is array.*, and items have to be whole num'):
            copying().run(list(numpy.zeros((2, 3), 'int64')))

    def test_floats_that_are_refused(self):
        for item, why in ((numpy.nan, 'nan, which is no number'), (-numpy.inf, 'inf, which is no number'),
                          (2.0**62, 'out of range')):
            with self.assertRaisesRegex(kpn.KpnError, f'item 2 of the source `x` is .*{why}'):
                copying().run(numpy.array([0, 1, item, 1]), scale=2)
        with self.assertRaisesRegex(TypeError, 'item 1 of the source `x` is 0.25'):
            copying().run(numpy.array([2, 0.25], dtype='float32'))

    def test_arrays_that_are_refused(self):
        result = copying().run([1, 300, -1])
        for words, why in ((('uint8',), 'item 1 of the sink `y` is 300, out of range: uint8 is from 0 to 255'),
                           (('int8',), 'item 1 .* int8 is from -128 to 127'), (('uint16',), '`dtype` is uint16'),
                           (('int16', 2), 'a scale of 2 is given'), (('float32', 3), 'power of two'),
                           (('float3',), '`dtype` is float3: it has to be one of'), ((None,), '`dtype` is None')):
            with self.assertRaisesRegex(kpn.KpnError, why):
                result.array('y', *words)
        with self.assertRaises(KeyError):
            result.array('z')

    def test_the_nearest_float(self):
        items = [2**24 + 1, -(2**24 + 3), 2**62 + 2**38 + 1]
        found = copying().run(items).array('y', 'float32', scale=2)
        self.assertEqual(found.tolist(), [2.0**23, -(2.0**23 + 2), 2.0**61 + 2.0**38])


@unittest.skipUnless(numpy is None, 'NumPy is there')
class NoNumPy(unittest.TestCase):
    def test_an_array_is_asked_for(self):
        with self.assertRaisesRegex(kpn.KpnError, 'NumPy is not there'):
            copying().run([1]).array('y')


if __name__ == '__main__':
    unittest.main()
