"""Each part against plain Python."""
import itertools
import math
import random
import unittest

import test_signals
from support import kpn, run_one

from kpn import parts

NUMBERS = random.Random(7)
A = [NUMBERS.randint(-1000, 1000) for _ in range(200)]
B = [NUMBERS.randint(-1000, 1000) for _ in range(200)]
BITS = [NUMBERS.randrange(2) for _ in range(200)]
RUNS = [it // 7 % 3 for it in range(200)]
COUNTS = [it % 6 - 2 for it in range(200)]
# Parts that are what their first line says, and have no source.
PLAIN = {'add', 'constant', 'control', 'count', 'deal', 'delay', 'downsample', 'drop', 'fork', 'gain', 'hold', 'merge', 'multiply',
         'offset', 'pointwise', 'saturate', 'scale', 'subtract', 'sum_of', 'upsample', 'wrap', 'zip_streams'}


def rounded(a, b):
    """The quotient to nearest; a half goes away from 0."""
    return (2 * abs(a) + b) // (2 * b) * (1 if a > 0 else -1)


def in_bits(value, bits):
    return (value + 2 ** (bits - 1)) % 2**bits - 2 ** (bits - 1)


def selected(control, yes, no):
    yes, no = iter(yes), iter(no)
    return [next(yes if it else no) for it in control]


def convolution(taps, items):
    return [sum(tap * items[n - k] for k, tap in enumerate(taps) if n >= k) for n in range(len(items))]


def boxes(items, order, factor):
    for _ in range(order):
        items = convolution([1] * factor, items)
    return items[factor - 1::factor]


def runs(items):
    return [(value, len(list(group))) for value, group in itertools.groupby(items)][:-1]


def transform(points):
    """The discrete Fourier transform by its definition, in floating point."""
    return [sum(x * complex(math.cos(2 * math.pi * k * n / len(points)), -math.sin(2 * math.pi * k * n / len(points)))
                for n, x in enumerate(points)) for k in range(len(points))]


# The part, what it is called with, the lists of its sources, and what has to come out; a part without an entry fails.
CASES = {
    'add': [(parts.add, [A, B], [a + b for a, b in zip(A, B)])],
    'biquad': [],
    'cic': [(lambda x: parts.cic(x, 2, 4), [A], boxes(A, 2, 4)),
            (lambda x: parts.cic(x, 3, 5, 20), [A], boxes(A, 3, 5))],
    'constant': [(lambda x: parts.add(x, parts.constant(x.net, 3)), [A], [it + 3 for it in A]),
                 (lambda x: parts.add(x, parts.constant(x.net, 3, times=5)), [A], [it + 3 for it in A[:5]])],
    'control': [(lambda x, y: parts.control(x, y, 7), [A, B[:20]],
                 (A[:140], [it for it in B[:20] for _ in range(7)]))],
    'count': [(lambda x: parts.add(x, parts.count(x.net)), [A], [it + n for n, it in enumerate(A)]),
              (lambda x: parts.add(x, parts.count(x.net, 5, -2)), [A], [it + 5 - 2 * n for n, it in enumerate(A)])],
    'deal': [(lambda x: parts.deal(x, 3), [A], tuple(A[it::3] for it in range(3))),
             (lambda x: parts.deal(x, 1), [A], (A,)),
             (lambda x: parts.deal(x, 36), [A], tuple(A[it::36] for it in range(36)))],
    'delay': [(parts.delay, [A], [0, *A]), (lambda x: parts.delay(x, 4, -1), [A], [-1] * 4 + A),
              (lambda x: parts.delay(x, 0), [A], A), (lambda x: parts.delay(x, 9, cap=1), [A], [0] * 9 + A)],
    'downsample': [(lambda x: parts.downsample(x, 3), [A], A[::3]),
                   (lambda x: parts.downsample(x, 7, 2), [A], A[2::7])],
    'drop': [(parts.drop, [A], A[1:]), (lambda x: parts.drop(x, 300), [A], []), (lambda x: parts.drop(x, 0), [A], A)],
    'fft': [],
    'fir': [(lambda x: parts.fir(x, [3]), [A], convolution([3], A)), (lambda x: parts.fir(x, [3, -2]), [A],
                                                                      convolution([3, -2], A)),
            (lambda x: parts.fir(x, range(9)), [A], convolution(range(9), A))],
    'fork': [(parts.fork, [A], (A, A)), (lambda x: parts.fork(x, 5), [A], (A,) * 5),
             (lambda x: parts.fork(x, 1), [A], (A,)), (lambda x: parts.fork(x, 40), [A], (A,) * 40)],
    'gain': [(lambda x: parts.gain(x, -7), [A], [-7 * it for it in A])],
    'hold': [(lambda x: parts.hold(x, 3), [A], [it for it in A for _ in range(3)]),
             (lambda x: parts.hold(x, 0), [A], [])],
    'merge': [(lambda *x: parts.merge(x), [A, B], [it for pair in zip(A, B) for it in pair]),
              (lambda x: parts.merge([x]), [A], A),
              (lambda x: parts.merge(parts.deal(x, 50)), [A], A)],
    'multiply': [(parts.multiply, [A, B], [a * b for a, b in zip(A, B)])],
    'offset': [(lambda x: parts.offset(x, -5), [A], [it - 5 for it in A])],
    'pointwise': [(lambda x, y: parts.pointwise('((x * k) - (y % m))', x=x, y=y, k=3, m=10), [A, B],
                   [3 * a - int(math.fmod(b, 10)) for a, b in zip(A, B)])],
    'run_length_decode': [(parts.run_length_decode, [A, COUNTS], [a for a, n in zip(A, COUNTS) for _ in range(n)])],
    'run_length_encode': [(parts.run_length_encode, [RUNS], tuple(map(list, zip(*runs(RUNS))))),
                          (lambda x: parts.run_length_encode(x, 3), [[5] * 10], ([5, 5, 5], [3, 3, 3]))],
    'saturate': [(lambda x: parts.saturate(x, -300, 500), [A], [max(-300, min(500, it)) for it in A])],
    'scale': [(lambda x: parts.scale(x, 7), [A], [rounded(it, 7) for it in A]),
              (lambda x: parts.scale(x, 8, 3), [A], [rounded(3 * it, 8) for it in A]),
              (lambda x: parts.scale(x, 16, rounding='floor'), [A], [it // 16 for it in A]),
              (lambda x: parts.scale(x, 16, rounding='truncate'), [A], [int(it / 16) for it in A]),
              (lambda x: parts.scale(x, 1), [A], A)],
    'select': [(parts.select, [BITS, A, B], selected(BITS, A, B))],
    'subtract': [(parts.subtract, [A, B], [a - b for a, b in zip(A, B)])],
    'sum_of': [(lambda *x: parts.sum_of(x), [A, B, BITS, RUNS, A], [sum(it) for it in zip(A, B, BITS, RUNS, A)]),
               (lambda x: parts.sum_of([x]), [A], A)],
    'switch': [(parts.switch, [BITS, A], ([a for a, c in zip(A, BITS) if c], [a for a, c in zip(A, BITS) if not c]))],
    'upsample': [(lambda x: parts.upsample(x, 3), [A], [it for a in A for it in (a, 0, 0)]),
                 (lambda x: parts.upsample(x, 2, 9), [A], [it for a in A for it in (a, 9)])],
    'wrap': [(lambda x, bits=bits: parts.wrap(x, bits), [A + [2**63 - 1, -2**63]],
              [in_bits(it, bits) for it in A + [2**63 - 1, -2**63]]) for bits in (1, 2, 8, 62)],
    'zip_streams': [(parts.zip_streams, [A, B[:50]], (A[:50], B[:50]))],
}


class Parts(unittest.TestCase):
    def test_each_part_has_a_case(self):
        self.assertEqual(sorted({*CASES, *test_signals.CASES, *test_signals.NEAR}), parts.__all__)

    def test_what_comes_out(self):
        for name, cases in CASES.items():
            for number, (build, lists, wanted) in enumerate(cases):
                with self.subTest(part=name, number=number):
                    found, result = run_one(build, *lists)
                    self.assertEqual(found, wanted)
                    self.assertEqual(result.faults, {})
                    self.assertTrue(all(result.complete.values()), result)

    def test_biquad(self):
        b, a, x = (3, -2, 5), (-900, 300), A
        y = []
        for n in range(len(x)):
            total = sum(b[k] * x[n - k] for k in range(3) if n >= k)
            y.append(rounded(total - sum(a[k] * y[n - 1 - k] for k in range(2) if n > k), 1024))
        self.assertEqual(run_one(lambda x: parts.biquad(x, b, a, 10), x)[0], y)

    def test_fft_is_near_the_transform(self):
        for points in (2, 4, 8, 32):
            frames = [[complex(*it) for it in zip(A, B)][first:first + points] for first in (0, points)]
            (re, im), _ = run_one(lambda re, im: parts.fft(re, im, points, 20), A[:2 * points], B[:2 * points])
            self.assertEqual((len(re), len(im)), (2 * points, 2 * points))
            for *found, wanted in zip(re, im, [it for frame in frames for it in transform(frame)]):
                self.assertLess(abs(complex(*found) - wanted), 2 * points)

    def test_faults_are_those_that_are_told(self):
        large = [2**62]
        for build, lists in ((lambda x: parts.gain(x, 2), [large]), (parts.add, [large, large]),
                             (lambda x: parts.scale(x, 3, 2), [large]), (lambda x: parts.offset(x, 2**62), [large]),
                             (lambda x: parts.fir(x, [2, 1]), [large])):
            found, result = run_one(build, *lists)
            self.assertEqual((found, list(result.faults.values())), ([], ['overflow']))
        for build in (lambda x: parts.saturate(x, 0, 5), lambda x: parts.wrap(x, 4), parts.drop, parts.delay):
            self.assertEqual(run_one(build, [-2**63, 2**63 - 1])[1].faults, {})

    def test_docs_tell_rates_faults_and_sources(self):
        for name in parts.__all__:
            doc = getattr(parts, name).__doc__
            self.assertTrue('Rates: ' in doc and 'Faults: ' in doc, name)
            self.assertEqual('Source: ' in doc, name not in PLAIN, name)

    def test_wrong_words_are_refused(self):
        for build in (lambda x: parts.downsample(x, 3, 3), lambda x: parts.scale(x, 0), lambda x: parts.wrap(x, 63),
                      lambda x: parts.scale(x, 2, rounding='up'), lambda x: parts.saturate(x, 1, 0),
                      lambda x: parts.deal(x, 17), lambda x: parts.merge([]), lambda x: parts.fir(x, []),
                      lambda x: parts.fft(x, x, 12), lambda x: parts.fork(x, 0), parts.zip_streams,
                      lambda x: parts.upsample(x, 0), lambda x: parts.deal(x, 0), lambda x: parts.deal(x, -4),
                      lambda x: parts.delay(x, -1), lambda x: parts.drop(x, -1), lambda x: parts.hold(x, -1),
                      lambda x: parts.constant(x.net, 1, -1), lambda x: parts.downsample(x, 0),
                      lambda x: parts.run_length_encode(x, 0), lambda x: parts.cic(x, 1, 0),
                      lambda x: parts.biquad(x, [1, 2, 3], [1, 2], -1), lambda x: parts.fft(x, x, 2, 63)):
            with self.assertRaisesRegex(kpn.KpnError, 'has to be|have to be|has at least|takes at least|may not be'):
                run_one(build, A)
        for build in (parts.upsample, parts.deal, parts.delay, parts.drop, parts.hold, parts.downsample, parts.fork,
                      parts.wrap, parts.run_length_encode):
            for given in (1.0, True, '2'):
                with self.assertRaisesRegex(TypeError, 'has to be a whole number'):
                    run_one(lambda x: build(x, given), A)


if __name__ == '__main__':
    unittest.main()
