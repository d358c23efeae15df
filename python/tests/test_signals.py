"""The parts for signals, pictures, codes and control against plain Python, and fixed-point numbers."""
import array
import cmath
import fractions
import math
import operator
import random
import unittest

from support import kpn, run_one

from kpn import parts
from kpn.parts import blocks, codes, shown

NUMBERS = random.Random(11)
A = [NUMBERS.randint(-1000, 1000) for _ in range(200)]
B = [NUMBERS.randint(-1000, 1000) for _ in range(200)]
FRAMES = [NUMBERS.randint(-255, 255) for _ in range(4 * 64)]
SMALL = [NUMBERS.randint(0, 40) for _ in range(150)]
TAPS = [NUMBERS.randint(-99, 99) for _ in range(200)]
TABLE = [NUMBERS.randint(1, 60) for _ in range(64)]
WORDS = {0: (0, 1), 1: (2, 2), -7: (6, 3), 5: (14, 4), 9: (15, 4)}
CHOSEN = [NUMBERS.choice(list(WORDS)) for _ in range(100)]
FS = 48_000


def rounded(a, b=1):
    """The quotient to nearest; a half goes away from 0."""
    return (2 * abs(a) + b) // (2 * b) * (1 if a > 0 else -1)


def towards_zero(a, b):
    return abs(a) // b * (1 if a > 0 else -1)


def convolved(taps, items, shift=0):
    return [rounded(sum(tap * items[n - k] for k, tap in enumerate(taps) if n >= k), 1 << shift)
            for n in range(len(items))]


def stuffed(items, n):
    return [it for item in items for it in (item, *[0] * (n - 1))]


def frames(items, size):
    return [items[it:it + size] for it in range(0, len(items) - size + 1, size)]


def joined(rows):
    return [it for row in rows for it in row]


def by_feedback(b, a, items, shift):
    found = []
    for n in range(len(items)):
        total = sum(it * items[n - k] for k, it in enumerate(b) if n >= k)
        total -= sum(it * found[n - 1 - k] for k, it in enumerate(a) if n > k)
        found.append(rounded(total, 1 << shift))
    return found


def levels(items, attack, release):
    now, found = 0, []
    for item in items:
        step = 65536 * abs(item) - now
        now += towards_zero(step, attack if step > 0 else release)
        found.append(now // 65536)
    return found


def compressed(items, threshold, ratio, attack, release):
    return [item if level <= threshold else rounded(item * (threshold * (ratio - 1) + level), level * ratio)
            for item, level in zip(items, levels(items, attack, release))]


def controlled(items, p, i, d, shift, low, high):
    found, total, before = [], 0, 0
    for item in items:
        exact = rounded(p * item + i * (total + item) + d * (item - before), 1 << shift)
        found.append(min(high, max(low, exact)))
        total += item if low <= exact <= high or (exact > high) == (i * item <= 0) else 0
        before = item
    return found


def tanks(items, between, drain):
    a = b = 0
    first, second = [], []
    for item in items:
        flow, out = towards_zero(a - b, between), towards_zero(b, drain)
        a, b = max(0, a + 65536 * item - flow), b + flow - out
        first.append(a // 65536)
        second.append(b // 65536)
    return first, second


def golomb(item):
    """The code as text."""
    return '0' * (len(f'{item + 1:b}') - 1) + f'{item + 1:b}'


def unfolded(item):
    return 2 * item - 1 if item > 0 else -2 * item


def as_codes(texts):
    texts = list(texts)
    return [int(it, 2) for it in texts], [len(it) for it in texts]


def packed(texts, width):
    text = ''.join(texts)
    return [int(text[it:it + width], 2) for it in range(0, len(text) - width + 1, width)]


def diagonals(block):
    """The block along its diagonals, by a walk that turns at the edges."""
    row = column = 0
    found = []
    for _ in range(64):
        found.append(block[8 * row + column])
        if (row + column) % 2 == 0:
            row, column = (row - 1, column + 1) if row and column < 7 else (
                (row + 1, column) if column == 7 else (row, column + 1))
        else:
            row, column = (row + 1, column - 1) if column and row < 7 else (
                (row, column + 1) if row == 7 else (row + 1, column))
    return found


def in_blocks(items, width, size):
    return [items[width * (size * down + y) + size * right + x] for down in range(len(items) // width // size)
            for right in range(width // size) for y in range(size) for x in range(size)]


def product(a, b, rows, inner, columns):
    return [sum(a[r * inner + k] * b[k * columns + c] for k in range(inner))
            for r in range(rows) for c in range(columns)]


def multiplied(rows, inner, columns):
    count = min(len(A) // (rows * inner), len(B) // (inner * columns))
    a, b = A[:count * rows * inner], B[:count * inner * columns]
    pairs = zip(frames(a, rows * inner), frames(b, inner * columns))
    return (lambda x, y: parts.matrix_product(x, y, rows, inner, columns), [a, b],
            joined(product(*it, rows, inner, columns) for it in pairs))


def coded(items):
    """The codes of items by the table, and what they are when packed and when read again."""
    return [f'{WORDS[it][0]:0{WORDS[it][1]}b}' for it in items]


# The part, what it is called with, the lists of its sources, and what has to come out.
CASES = {
    'bitonic_sort': [(lambda x, n=n: parts.bitonic_sort(x, n), [A], joined(map(sorted, frames(A, n))))
                     for n in (2, 4, 8, 16, 32)],
    'compressor': [(lambda x: parts.compressor(x, 300, 4, 5, 50), [A], compressed(A, 300, 4, 5, 50)),
                   (lambda x: parts.compressor(x, 0, 1, 1, 1), [A], A),
                   (lambda x: parts.compressor(x, 500, 65536, 1, 900), [A], compressed(A, 500, 65536, 1, 900))],
    'agc': [(lambda x: parts.agc(x, 5000, 20, 5, 50), [A],
             [20 * a if 20 * v <= 5000 else rounded(5000 * a, v) for a, v in zip(A, levels(A, 5, 50))])],
    'complex_multiply': [(lambda *x: parts.complex_multiply(*x, shift=5), [A, B, B[::-1], A[::-1]],
                          ([rounded(a * c - b * d, 32) for a, b, c, d in zip(A, B, B[::-1], A[::-1])],
                           [rounded(a * d + b * c, 32) for a, b, c, d in zip(A, B, B[::-1], A[::-1])]))],
    'decimate': [(lambda x, w=w: parts.decimate(x, TAPS[:w[0]], w[1], shift=4, phase=w[2]), [A],
                  convolved(TAPS[:w[0]], A, 4)[w[2]::w[1]])
                 for w in ((1, 1, 0), (5, 3, 0), (31, 4, 3), (64, 8, 2), (200, 5, 1), (9, 40, 17))],
    'dequantize': [(lambda x: parts.dequantize(x, TABLE), [FRAMES],
                    [a * b for a, b in zip(FRAMES, TABLE * 4)])],
    'exp_golomb': [(parts.exp_golomb, [SMALL], as_codes(map(golomb, SMALL))),
                   (lambda x: parts.exp_golomb(x, signed=True), [A], as_codes(golomb(unfolded(it)) for it in A))],
    'exp_golomb_decode': [(parts.exp_golomb_decode, [list(map(int, ''.join(map(golomb, SMALL))))], SMALL),
                          (lambda x: parts.exp_golomb_decode(x, signed=True),
                           [list(map(int, ''.join(golomb(unfolded(it)) for it in A)))], A)],
    'fir': [(lambda x, t=t: parts.fir(x, t), [A], convolved(t, A))
            for t in ([3, 5, 3], [3, -4, -4, 3], [0, 0, 7, 0, 0], [1, 2, 2], TAPS[:30] + TAPS[29::-1])] + [
        (lambda x, w=w: parts.fir(x, TAPS[:w[0]], shift=w[1]), [A], convolved(TAPS[:w[0]], A, w[1]))
        for w in ((1, 0), (31, 0), (63, 6), (64, 0), (64, 3), (65, 0), (125, 2), (200, 7))] + [
        (lambda x: parts.fir(x, TAPS[:9], shift=5, systolic=True), [A], convolved(TAPS[:9], A, 5)),
        (lambda x: parts.fir(x, [0, 0, 0]), [A], [0] * len(A)), (lambda x: parts.fir(x, [0, -1]), [A], [0] + [
            -it for it in A[:-1]])],
    'from_blocks': [(lambda x: parts.from_blocks(x, 16), [in_blocks(FRAMES, 16, 8)], FRAMES)],
    'huffman': [(lambda x: parts.huffman(x, WORDS), [CHOSEN], as_codes(coded(CHOSEN))),
                (lambda x: parts.huffman(x, {3: (1, 1)}), [[3, 4, 3]], ([1, 0, 1], [1, 0, 1]))],
    'huffman_decode': [(lambda x: parts.huffman_decode(x, WORDS), [list(map(int, ''.join(coded(CHOSEN))))], CHOSEN)],
    'iir': [(lambda x: parts.iir(x, [900, 300, -70, 5], [-700, 211], 10), [A],
             by_feedback([900, 300, -70, 5], [-700, 211], A, 10)),
            (lambda x: parts.iir(x, [7], [], 1), [A], by_feedback([7], [], A, 1)),
            (lambda x: parts.iir(x, [3] * 32, [1] * 30, 5), [A], by_feedback([3] * 32, [1] * 30, A, 5))],
    'interpolate': [(lambda x, w=w: parts.interpolate(x, TAPS[:w[0]], w[1], shift=4), [A[:60]],
                     convolved(TAPS[:w[0]], stuffed(A[:60], w[1]), 4))
                    for w in ((1, 1), (7, 3), (31, 4), (128, 2), (200, 2), (40, 20))],
    'level': [(lambda x: parts.level(x, 1, 10), [A], levels(A, 1, 10))],
    'linear': [(lambda x: parts.linear(x, [[1, 2, 3], [0, -5, 6]], shift=2), [A],
                [rounded(it, 4) for x, y, z in frames(A, 3) for it in (x + 2 * y + 3 * z, 6 * z - 5 * y)])],
    'matrix_product': [multiplied(3, 3, 3), multiplied(1, 4, 14), multiplied(7, 2, 5)],
    'moving_sum': [(lambda x, n=n: parts.moving_sum(x, n), [A], convolved([1] * n, A)) for n in (1, 2, 61, 62, 150)],
    'pack_bits': [(lambda c, n: parts.pack_bits(c, n), list(as_codes(coded(CHOSEN))), packed(coded(CHOSEN), 8)),
                  (lambda c, n: parts.pack_bits(c, n, 3), list(as_codes(coded(CHOSEN))), packed(coded(CHOSEN), 3)),
                  (lambda c, n: parts.pack_bits(c, n, stuff=True), [[2**20 - 1, 0, 5, 9], [20, 0, 3, 9]],
                   [255, 0, 255, 0, 0xfa, 9])],
    'permute': [(lambda x: parts.permute(x, [2, 0, 1]), [A],
                 [it for a, b, c in frames(A, 3) for it in (c, a, b)]),
                (lambda x: parts.permute(x, [0]), [A], A)],
    'pid': [(lambda x: parts.pid(x, 900, 40, 300, 8, -2000, 1500), [A], controlled(A, 900, 40, 300, 8, -2000, 1500)),
            (lambda x: parts.pid(x, 10, -9, 1, 2, -300, 300), [A], controlled(A, 10, -9, 1, 2, -300, 300))],
    'polyphase': [(lambda x: parts.polyphase(x, TAPS[:30], 4), [A],
                   tuple(convolved(TAPS[k:30:4], A[3 - k::4]) for k in range(4))),
                  (lambda x: parts.sum_of(parts.polyphase(x, TAPS[:64], 8)), [A], convolved(TAPS[:64], A)[7::8])],
    'quantize': [(lambda x: parts.quantize(x, TABLE), [FRAMES], [rounded(a, b) for a, b in zip(FRAMES, TABLE * 4)])],
    'sort_streams': [(lambda *x: parts.sort_streams(x), [A, B, A[::-1], B[::-1]],
                      tuple(map(list, zip(*map(sorted, zip(A, B, A[::-1], B[::-1])))))),
                     (lambda x: parts.merge(parts.sort_streams(parts.deal(x, 16))), [A],
                      joined(map(sorted, frames(A, 16))))],
    'to_blocks': [(lambda x: parts.to_blocks(x, 32), [FRAMES], in_blocks(FRAMES, 32, 8)),
                  (lambda x: parts.to_blocks(x, 8, 2), [FRAMES], in_blocks(FRAMES, 8, 2)),
                  (lambda x: parts.to_blocks(x, 4, 1), [A], A)],
    'transpose': [(lambda x: parts.transpose(x), [FRAMES],
                   joined(it[n::8] for it in frames(FRAMES, 64) for n in range(8))),
                  (lambda x: parts.transpose(x, 2, 5), [A],
                   joined(it[n::5] for it in frames(A, 10) for n in range(5)))],
    'two_tanks': [(lambda x: parts.two_tanks(x, 5, 9), [A], tanks(A, 5, 9))],
    'unpack_bits': [(parts.unpack_bits, [SMALL], [int(it) for item in SMALL for it in f'{item:08b}']),
                    (lambda x: parts.unpack_bits(x, 62), [[2**62 - 2]], [1] * 61 + [0])],
    'zigzag': [(parts.zigzag, [FRAMES], joined(map(diagonals, frames(FRAMES, 64)))),
               (lambda x: parts.zigzag(x, inverse=True), [joined(map(diagonals, frames(FRAMES, 64)))], FRAMES)],
}
# Those that are near what floating point says; each has a test below.
NEAR = ('am_demodulate', 'butterworth', 'cascade', 'dc_block', 'dct', 'dct_blocks', 'deemphasis', 'fm_demodulate',
        'mix', 'nco', 'notch', 'oscillator', 'polar', 'second_order')


def turned(count, step, height=1.0):
    """Complex numbers on a circle."""
    return [height * cmath.exp(2j * math.pi * step * n) for n in range(count)]


def whole_parts(points):
    return [round(it.real) for it in points], [round(it.imag) for it in points]


def bilinear(above, below, f0):
    """The six numbers of a section that is as an analogue filter, by its weights of 1, s and s^2; s is j at f0."""
    k = 1 / math.tan(math.pi * f0 / FS)
    rows = [[a + b * k + c * k**2, 2 * (a - c * k**2), a - b * k + c * k**2] for a, b, c in (above, below)]
    return [it / rows[1][0] for it in joined(rows)]


def high_pass(f0):
    """The section of a high pass of order 1."""
    return bilinear((0, 1, 0), (1, 1, 0), f0)


def filtered(sections, items):
    """What sections give in floating point."""
    for b0, b1, b2, _, a1, a2 in sections:
        found = []
        for n, item in enumerate(items):
            x1, x2 = items[n - 1] if n else 0, items[n - 2] if n > 1 else 0
            y1, y2 = found[n - 1] if n else 0, found[n - 2] if n > 1 else 0
            found.append(b0 * item + b1 * x1 + b2 * x2 - a1 * y1 - a2 * y2)
        items = found
    return items


def gain_at(build, f, count=3072, height=100_000):
    """The gain of a part for a tone, once it has settled."""
    tone = [round(height * math.cos(2 * math.pi * f / FS * n)) for n in range(count)]
    found = run_one(build, tone)[0][count // 2:]
    return abs(sum(it * cmath.exp(-2j * math.pi * f / FS * n) for n, it in enumerate(found))) * 2 / len(found) / height


class Signals(unittest.TestCase):
    def near(self, found, wanted, delta):
        self.assertEqual(len(found), len(wanted))
        self.assertLess(max(abs(a - b) for a, b in zip(found, wanted)), delta)

    def test_what_comes_out(self):
        for name, cases in CASES.items():
            for number, (build, lists, wanted) in enumerate(cases):
                with self.subTest(part=name, number=number):
                    found, result = run_one(build, *lists)
                    self.assertEqual(found, wanted)
                    self.assertEqual(result.faults, {})

    def test_the_largest_fit_into_the_language(self):
        taps = [7, -5] * 500
        for build in (lambda x: parts.interpolate(x, taps[:992], 16, shift=9), lambda x: parts.huffman(
                          x, {it: (it, 9) for it in range(250)}),
                      lambda x: parts.decimate(x, taps, 16, shift=9, phase=7), lambda x: parts.quantize(x, [9] * 200),
                      lambda x: parts.interpolate(x, taps[:120], 2, shift=9), lambda x: parts.bitonic_sort(x, 32),
                      lambda x: parts.huffman_decode(x, {it: (it, 9) for it in range(300)}),
                      lambda x: parts.huffman_decode(x, {it: ((1 << it) - 1 << 1, it + 1) for it in range(28)}),
                      lambda x: parts.linear(x, [[-9] * 63] * 14, shift=9), lambda x: parts.polar(x, x, rounds=28),
                      lambda x: parts.linear(x, [[-9]] * 166, shift=9), lambda x: parts.iir(x, [9] * 31, [-9] * 31, 9),
                      lambda x: parts.matrix_product(x, x, 5, 1, 62), lambda x: parts.fir(x, taps, shift=9),
                      lambda x: parts.permute(x, range(63, -1, -1)), lambda x: parts.moving_sum(x, 61),
                      lambda x: parts.to_blocks(x, 2**20, 16), lambda x: parts.dct(x, shift=42, inverse=True)):
            net = kpn.Network(auto_fork=True)
            made = build(net.source('x'))
            for number, stream in enumerate(made if isinstance(made, tuple) else (made,)):
                net.sink(f'y{number}', stream)
            net.check()

    def test_sections_are_near_floating_point(self):
        items = [300 * it for it in A] * 3
        for kind, above in (('low', (1, 0, 0)), ('high', (0, 0, 1)), ('band', (0, 1/2, 0)), ('notch', (1, 0, 1)),
                            ('all', (1, -1/2, 1))):
            found = run_one(lambda x: parts.second_order(x, kind, FS, 1000, 2), items)[0]
            self.near(found, filtered([bilinear(above, (1, 1/2, 1), 1000)], items), 8)
        self.near(run_one(lambda x: parts.dc_block(x, FS, 500), items)[0], filtered([high_pass(500)], items), 8)
        sections = [[0.5, 0.2, 0.1, 1.0, -0.3, 0.2], [1.0, 0.0, -1.0, 1.0, 0.1, -0.4]]
        self.near(run_one(lambda x: parts.cascade(x, sections), items)[0], filtered(sections, items), 8)
        r = math.exp(-1 / (FS * 50e-6))
        self.near(run_one(lambda x: parts.deemphasis(x, FS), items)[0],
                  filtered([[1 - r, 0, 0, 1, -r, 0]], items), 8)

    def test_the_rounding_of_a_narrow_filter_stays_small(self):
        items = [300 * it for it in A] * 10
        section = bilinear((1, 0, 1), (1, 1/30, 1), 50)
        self.near(run_one(lambda x: parts.notch(x, FS, 50), items)[0], filtered([section], items), 30)

    def test_gains_of_filters(self):
        for build, f, wanted in ((lambda x: parts.second_order(x, 'low', FS, 6000), 6000, math.sqrt(0.5)),
                                 (lambda x: parts.second_order(x, 'band', FS, 6000, 3), 6000, 1),
                                 (lambda x: parts.notch(x, FS, 6000, 2), 6000, 0),
                                 (lambda x: parts.notch(x, FS, 6000, 30), 9000, 1),
                                 (lambda x: parts.second_order(x, 'all', FS, 6000), 3000, 1),
                                 (lambda x: parts.dc_block(x, FS, 500), 500, math.sqrt(0.5))):
            self.assertAlmostEqual(gain_at(build, f), wanted, delta=2e-3)
        for order in (1, 2, 3, 4, 5):
            for kind, power in (('low', 1), ('high', -1)):
                for f in (4000, 6000, 9000):
                    ratio = (math.tan(math.pi * f / FS) / math.tan(math.pi * 6000 / FS)) ** power
                    self.assertAlmostEqual(gain_at(lambda x: parts.butterworth(x, kind, FS, 6000, order), f, 1152),
                                           1 / math.sqrt(1 + ratio**(2 * order)), delta=2e-3)
        self.near(run_one(lambda x: parts.dc_block(x, FS, 500), [70_000] * 900)[0][-50:], [0] * 50, 2)

    def test_tones(self):
        steps = [NUMBERS.randint(-2**31, 2**31) for _ in range(300)] + [2**40 + 5, -2**40 - 7, 0]
        angle, wanted = 0, []
        for step in steps:
            wanted.append(1e6 * cmath.exp(2j * math.pi * angle / 2**32))
            angle += step
        cosine, sine = run_one(lambda x: parts.nco(x, 10**6), steps)[0]
        self.near([complex(*it) for it in zip(cosine, sine)], wanted, 3)
        _, cosine, sine = run_one(
            lambda x: parts.zip_streams(x, *parts.oscillator(x.net, FS, -7000, 1000)), [0] * 300)[0]
        self.near([complex(*it) for it in zip(cosine, sine)], turned(300, -7000 / FS, 1000), 1)
        found, _ = run_one(lambda *x: parts.mix(*x, FS, 5000), *whole_parts(turned(300, 2000 / FS, 10**6)))
        self.near([complex(*it) for it in zip(*found)], turned(300, 7000 / FS, 10**6), 8)

    def test_polar(self):
        points = [complex(*it) for it in zip(A, B)] + turned(60, 1 / 60, 10**6) + turned(7, 1 / 7, 2**30)
        points += [0, 1, -1, 1j, -1j, 1 + 1j, -1 - 1j]
        re, im = whole_parts([complex(it) for it in points])
        magnitude, angle = run_one(lambda *x: parts.polar(*x, rounds=24), re, im)[0]
        points = [complex(*it) for it in zip(re, im)]
        self.near(magnitude[:-14], [abs(it) for it in points][:-14], 0.6)
        self.near(magnitude, [abs(it) for it in points], 3)
        self.assertEqual(len(angle), len(points))
        for found, point in zip(angle, points):
            wrong = abs(found / 2**32 - cmath.phase(point) / (2 * math.pi))
            self.assertLess(min(wrong, 1 - wrong), 1e-7 + 6e-5 / max(1, abs(point)))
            self.assertTrue(-2**31 <= found < 2**31)
        self.assertEqual((magnitude[-7], angle[-7]), (0, 0))

    def test_demodulators(self):
        message = [math.sin(2 * math.pi * n / 50) for n in range(400)]
        angle, points = 0.0, []
        for it in message:
            angle += 2 * math.pi * 0.2 * it
            points.append(20_000 * cmath.exp(1j * angle))
        found = run_one(parts.fm_demodulate, *whole_parts(points))[0]
        self.near([it / 2**32 for it in found[1:]], [0.2 * it for it in message[1:]], 1e-4)
        points = [(10_000 + 3000 * it) * turn for it, turn in zip(message, turned(400, 0.123))]
        found = run_one(lambda *x: parts.am_demodulate(*x, FS, 20), *whole_parts(points))[0]
        self.near(found, filtered([high_pass(20)], [abs(it) for it in points]), 5)

    def test_cosine_transforms(self):
        def by(matrix, items):
            return [sum(map(operator.mul, row, items)) for row in matrix]

        def both(matrix, block):
            rows = [by(matrix, it) for it in frames(block, 8)]
            return joined(zip(*(by(matrix, it) for it in zip(*rows))))
        cosines = [[(math.sqrt(0.5) if k == 0 else 1) / 2 * math.cos((2 * n + 1) * k * math.pi / 16)
                    for n in range(8)] for k in range(8)]
        for matrix, inverse in ((cosines, False), (list(zip(*cosines)), True)):
            rows = joined(by(matrix, it) for it in frames(FRAMES, 8))
            self.near(run_one(lambda x: parts.dct(x, inverse=inverse), FRAMES)[0], rows, 0.51)
            self.near(run_one(lambda x: parts.dct(x, shift=-6, inverse=inverse), FRAMES)[0],
                      [64 * it for it in rows], 0.6)
            self.near(run_one(lambda x: parts.dct_blocks(x, inverse=inverse), FRAMES)[0],
                      joined(both(matrix, it) for it in frames(FRAMES, 64)), 0.6)
        self.near(run_one(lambda x: parts.dct(parts.dct(x, shift=-8), shift=8, inverse=True), FRAMES)[0], FRAMES, 1)
        self.near(run_one(lambda x: parts.dct_blocks(parts.dct_blocks(x), inverse=True), FRAMES)[0], FRAMES, 2.5)

    def test_codes_go_round(self):
        lengths = {it: 2 + (it > 1) + 3 * (it > 3) for it in range(20)}
        made = codes.canonical_codes(lengths)
        self.assertEqual([made[it] for it in range(4)], [(0, 2), (1, 2), (4, 3), (5, 3)])
        items = [it % 20 for it in SMALL]

        def build(x):
            bits = parts.unpack_bits(parts.pack_bits(*parts.huffman(x, made)))
            return parts.huffman_decode(bits, made)
        self.assertEqual(run_one(build, items)[0], items[:len(run_one(build, items)[0])])
        self.assertGreater(len(run_one(build, items)[0]), len(items) - 5)

    def test_a_loop_of_tanks_comes_to_its_level(self):
        net = kpn.Network(auto_fork=True)
        level = net.channel()
        pump = parts.pid(parts.subtract(net.source('wanted'), parts.delay(level)), 2_000, 20, 9_000, 10, 0, 500)
        first, second = parts.two_tanks(pump, 20, 40)
        level.connect(second)
        for name, stream in (('pump', pump), ('first', first), ('level', level)):
            net.sink(name, stream)
        wanted = [3000] * 400 + [900] * 800
        found = net.run(wanted).check()
        self.assertEqual((found['first'], found['level']), tanks(found['pump'], 20, 40))
        errors = [a - b for a, b in zip(wanted, [0, *found['level']])]
        self.assertEqual(found['pump'], controlled(errors, 2_000, 20, 9_000, 10, 0, 500))
        self.assertEqual((min(found['pump']), max(found['pump'])), (0, 500))
        for place in (399, 1199):
            self.assertAlmostEqual(found['level'][place], wanted[place], delta=30)
        self.assertLess(max(found['level']), 3300)

    def test_each_part_is_shown(self):
        self.assertEqual(list(shown.CALLS), parts.__all__)
        for name in parts.__all__:
            text = shown.text_of(name)
            self.assertIn(getattr(parts, name).__doc__.splitlines()[0], text)
            self.assertIn(f'parts.{name}(', text)
        for name in ('fir', 'sort_streams', 'dct_blocks', 'huffman', 'oscillator'):
            shown.network_of(name).check()
            self.assertIn('process ', shown.page_of([name]))
        with self.assertRaises(kpn.KpnError):
            shown.text_of('nothing')

    def test_wrong_words_are_refused(self):
        for build in (lambda x: parts.decimate(x, [1], 0), lambda x: parts.decimate(x, [1], 3, phase=3),
                      lambda x: parts.interpolate(x, [], 3), lambda x: parts.polyphase(x, [1], 2),
                      lambda x: parts.fir(x, [1], shift=63), lambda x: parts.moving_sum(x, 0),
                      lambda x: parts.iir(x, [1] * 40, [1] * 23, 1), lambda x: parts.iir(x, [], [1], 1),
                      lambda x: parts.cascade(x, [[1, 2, 3]]), lambda x: parts.second_order(x, 'wide', FS, 1000),
                      lambda x: parts.second_order(x, 'low', FS, FS), lambda x: parts.notch(x, FS, 50, 0),
                      lambda x: parts.butterworth(x, 'band', FS, 50, 2), lambda x: parts.compressor(x, 5, 0, 1, 1),
                      lambda x: parts.agc(x, 2**61, 2, 1, 1), lambda x: parts.level(x, 0, 1),
                      lambda x: parts.permute(x, [0, 0]), lambda x: parts.transpose(x, 9, 8),
                      lambda x: parts.to_blocks(x, 9), lambda x: parts.dct(x, shift=-21),
                      lambda x: parts.quantize(x, [0]), lambda x: parts.linear(x, [[1], [1, 2]]),
                      lambda x: parts.matrix_product(x, x, 1, 8, 8), lambda x: parts.bitonic_sort(x, 6),
                      lambda x: parts.sort_streams([x]), lambda x: parts.huffman(x, {1: (2, 1)}),
                      lambda x: parts.huffman_decode(x, {1: (0, 1), 2: (1, 2)}), lambda x: parts.unpack_bits(x, 63),
                      lambda x: parts.pid(x, 1, 1, 1, 1, 2, 1), lambda x: parts.two_tanks(x, 1, 2),
                      lambda x: parts.deemphasis(x, 0), lambda x: parts.mix(x, x, FS, FS),
                      lambda x: codes.canonical_codes({1: 1, 2: 1, 3: 1})):
            with self.assertRaisesRegex(kpn.KpnError, 'has to be|have to be|has at least|may not be|code may not'):
                run_one(build, A)
        with self.assertRaisesRegex(TypeError, r'kpn.Q\(15\)'):
            run_one(lambda x: parts.fir(x, [0.5, 0.5]), A)

    def test_each_comparison_of_a_sort_is_needed(self):
        for count in (2, 4, 8, 16):
            pairs = blocks.exchanges(count)
            self.assertEqual(len(pairs), count * int(math.log2(count)) * (int(math.log2(count)) + 1) // 4)


class FixedPoint(unittest.TestCase):
    def test_numbers(self):
        q = kpn.Q(15)
        self.assertEqual((q(0.5), q(-1), q(2**-16), q(-2**-16), q(0), q.one), (16384, -32768, 1, -1, 0, 32768))
        self.assertEqual(q([0.5, [1, fractions.Fraction(1, 4)]]), [16384, [32768, 8192]])
        self.assertEqual(q(array.array('d', [0.25, 1e-9])), [8192, 0])
        self.assertEqual(kpn.Q(0)([1.5, -2.5, 2.4]), [2, -3, 2])
        self.assertEqual(q.real([16384, -1]), [0.5, -2**-15])
        self.assertEqual((q.error(0.5), q.error([0.5, 2**-17]), q.error([])), (0, 2**-17, 0))
        self.assertLessEqual(max(q.error(it / 997) for it in range(997)), 2**-16)
        for wrong in (math.nan, math.inf, 1e300):
            with self.assertRaises(kpn.KpnError):
                q(wrong)
        with self.assertRaises(kpn.KpnError):
            kpn.Q(63)

    def test_sums_of_a_fir(self):
        q = kpn.Q(4)
        self.assertEqual(q.sums([1, -0.5], -10, 20), [('b[0]', -160, 320), ('b[1]', -320, 400)])
        self.assertEqual(q.overflowing([1, -0.5], -10, 20), [])
        self.assertEqual(q.sums([1, -1], 10, 20), [('b[0]', 0, 320), ('b[1]', -320, 320)])
        self.assertEqual(kpn.Q(62)(0.5), 2**61)
        self.assertEqual(kpn.Q(60).overflowing([1, 1, 1, -1], 0, 4), ['b[1]', 'b[2]', 'b[3]'])
        for top, faults in ((2**31 - 1, []), (2**31, ['overflow'])):
            found = run_one(lambda x: parts.fir(x, kpn.Q(31)([1, 1])), [top, top])[1]
            self.assertEqual(list(found.faults.values()), faults)
            self.assertEqual(kpn.Q(31).overflowing([1, 1], 0, top), ['b[1]'] if faults else [])

    def test_sums_of_a_filter_with_feedback(self):
        q = kpn.Q(30)
        low = q.sums([0.5], -100, 100, [-0.5])
        self.assertEqual([it.name for it in low], ['b[0]', 'a[0]'])
        self.assertTrue(100 * q.one <= low[1].high <= 102 * q.one)
        self.assertEqual(q.overflowing([0.5], -100, 100, [-0.5]), [])
        self.assertEqual(q.overflowing([0.5], -2**33, 2**33, [-0.5]), ['a[0]'])
        with self.assertRaisesRegex(kpn.KpnError, 'fade'):
            q.sums([1], -1, 1, [-1.01])


if __name__ == '__main__':
    unittest.main()
