"""Filters without feedback that have more taps than a process has variables: a table of taps in language 2."""
import copy
import pathlib
import pickle
import random
import shutil
import tempfile
import unittest
import unittest.mock

from support import kpn, run_one
import joins
from test_signals import A, B, convolved, joined, stuffed

from kpn import parts
from kpn.parts import shown
from kpn.program import answer

NUMBERS = random.Random(12)
TAPS = [NUMBERS.randint(-99, 99) for _ in range(2_800)]
ITEMS = [NUMBERS.randint(-1000, 1000) for _ in range(2_810)]
# There are more items in most tests, so that they go round in the array of the last ones.
LONG = TAPS[:100]
TALL = 2**62


def made_of(build):
    """How many processes a part is, and the language of the network, which is right."""
    net = kpn.Network()
    net.sink('y', build(net.source('x')))
    net.check()
    return len(net.layout().instances), net.language


def others(x, y):
    """Streams of other parts."""
    x = parts.biquad(x, [318, 636, 318], [-23742, 8630], 14)
    low, high = parts.fork(x)
    re, im = parts.fft(parts.delay(low, 3), y, 8, 10)
    return re, im, parts.decimate(parts.moving_sum(high, 70), [1, 4, 1], 2, shift=1)


def mixed(x, y, z):
    """Streams of other parts, with long filters before, between and after them."""
    re, im, low = others(parts.fir(x, LONG, shift=6), y)
    return re, parts.fir(im, LONG), low, parts.interpolate(z, TAPS[:300], 3, shift=2)


class LongFilters(unittest.TestCase):
    def test_one_process_of_up_to_2_000_taps(self):
        for taps, shift, count in ((64, 0, 200), (65, 3, 200), (100, 1, 350), (255, 15, 600), (1_000, 4, 1_010),
                                   (2_000, 7, 2_010)):
            with self.subTest(taps=taps):
                found, result = run_one(lambda x: parts.fir(x, TAPS[:taps], shift=shift), ITEMS[:count])
                self.assertEqual(found, convolved(TAPS[:taps], ITEMS[:count], shift))
                self.assertEqual((result.layout.instances, result.faults), (['fir'], {}))
                self.assertTrue(all(result.complete.values()))

    def test_symmetrical_taps(self):
        for taps in (LONG + LONG[::-1], LONG + [7] + LONG[::-1], LONG + [-it for it in LONG[::-1]]):
            self.assertEqual(run_one(lambda x: parts.fir(x, taps, shift=9), A + B)[0], convolved(taps, A + B, 9))

    def test_few_items(self):
        for items in ([], [5], [5, -3], [0] * 9, A[:99], A[:100], A[:101]):
            found, result = run_one(lambda x: parts.fir(x, LONG, shift=1), items)
            self.assertEqual((found, result.faults), (convolved(LONG, items, 1), {}))

    def test_systolic_is_the_same(self):
        for shift in (0, 5):
            found = [run_one(lambda x: parts.fir(x, TAPS[:70], shift=shift, systolic=it), A)[0]
                     for it in (False, True)]
            self.assertEqual(*found)

    def test_the_largest_taps(self):
        for tap in (2**63 - 1, 1 - 2**63):
            taps = [0] * 80 + [tap]
            found, result = run_one(lambda x: parts.fir(x, taps), [1, -1, 0, 1] + [0] * 80)
            self.assertEqual((found, result.faults), ([0] * 80 + [tap, -tap, 0, tap], {}))

    def test_overflow(self):
        rest = [0] * 97
        for taps, shift, items, wanted in (
                ([2, *rest], 0, [TALL], []),
                ([-1, *rest], 0, [-2 * TALL], []),
                ([1, *rest], 0, [-2 * TALL], [-2 * TALL]),
                ([1] * 100, 0, [TALL - 1, TALL, 0, 1], [TALL - 1, 2 * TALL - 1, 2 * TALL - 1]),
                # The sum of two products is too large, and that of all three is not.
                ([1, 1, 0, -1, *rest], 0, [TALL, -TALL, TALL, TALL, 0], [TALL, 0, 0]),
                # The half that is added to round is too much.
                ([1, *rest], 62, [3 * TALL // 2 - 1, 3 * TALL // 2], [1])):
            found, result = run_one(lambda x: parts.fir(x, taps, shift=shift), items)
            self.assertEqual(found, wanted)
            self.assertEqual(result.faults, {} if len(wanted) == len(items) else {'fir': 'overflow'})

    def test_how_many_processes_there_are(self):
        for wanted, counts in ((1, (64, 21_845, 21_846, 32_768)), (2, (32_769,))):
            for taps in counts:
                self.assertEqual(made_of(lambda x: parts.fir(x, [7] * taps)), (wanted, 2))
                self.assertEqual(made_of(lambda x: parts.decimate(x, [7] * taps, 5, phase=2)), (wanted, 2))
        for n, taps, wanted in ((16, 61_680, 1), (16, 61_681, 2), (2, 43_690, 1), (65_535, 3, 1), (65_535, 65_536, 2)):
            self.assertEqual(made_of(lambda x: parts.interpolate(x, [7] * taps, n, shift=1)), (wanted, 2))
        self.assertEqual(made_of(lambda x: parts.interpolate(x, [7] * 3, 65_536)), (2, 1))

    def test_short_filters_need_no_table(self):
        for build, language in ((lambda x: parts.fir(x, [7]), 1), (lambda x: parts.fir(x, [7] * 63), 1),
                                (lambda x: parts.decimate(x, [7] * 63, 16), 1),
                                (lambda x: parts.decimate(x, [7], 17), 2),
                                (lambda x: parts.interpolate(x, [7] * 99, 16), 1),
                                (lambda x: parts.interpolate(x, [7] * 99, 17), 2)):
            self.assertEqual(made_of(build), (1, language))

    @unittest.mock.patch('kpn.parts.windows.MOST_CELLS', 4_096)
    def test_chains_and_arrays_without_room(self):
        """Each item is once in the arrays of the processes here, but for a factor of 40."""
        sums = convolved(TAPS, ITEMS)
        for build, wanted in ((lambda x: parts.fir(x, TAPS), sums),
                              (lambda x: parts.decimate(x, TAPS, 3, phase=1), sums[1::3])):
            found, result = run_one(build, ITEMS)
            self.assertEqual((found, len(result.layout.instances)), (wanted, 2))
        for n, count, length, wanted in ((40, 4_040, 120, 2), (16, 3_680, 240, 1), (16, 7_680, 490, 2)):
            taps, items = (TAPS * 3)[:count], ITEMS[:length]
            found, result = run_one(lambda x: parts.interpolate(x, taps, n, shift=3), items)
            self.assertEqual(found, joined(zip(*(convolved(taps[it::n], items, 3) for it in range(n)))))
            self.assertEqual(len(result.layout.instances), wanted)

    def test_other_rates(self):
        for n in (1, 2, 3, 16, 17, 30):
            for taps in (1, 2, 5, 33, 100, 257):
                with self.subTest(n=n, taps=taps):
                    for phase in {0, n // 2, n - 1}:
                        found = run_one(lambda x: parts.decimate(x, TAPS[:taps], n, shift=4, phase=phase), A)[0]
                        self.assertEqual(found, convolved(TAPS[:taps], A, 4)[phase::n])
                    found, result = run_one(lambda x: parts.interpolate(x, TAPS[:taps], n, shift=3), A[:40])
                    self.assertEqual(found, convolved(TAPS[:taps], stuffed(A[:40], n), 3))
                    self.assertEqual(len(result.layout.instances), 1)
        found, result = run_one(lambda x: parts.polyphase(x, TAPS[:400], 4), A + B)
        self.assertEqual(found, tuple(convolved(TAPS[it:400:4], (A + B)[3 - it::4]) for it in range(4)))
        self.assertEqual(len(result.layout.instances), 5)
        found = run_one(lambda x: parts.interpolate(x, [3, 4], 70_000), [1, -2])[0]
        self.assertEqual((found[:2], found[70_000:70_002], sum(map(abs, found))), ([3, 4], [-6, -8], 21))

    def test_each_part_stays_right_beside_one(self):
        for name in parts.__all__:
            with self.subTest(part=name):
                net = shown.network_of(name)
                net.sink('long', parts.fir(net.source('given'), LONG))
                self.assertEqual(net.language, 2)
                net.check()

    def test_other_parts_give_the_same_beside_one(self):
        alone = run_one(others, A, B)
        beside = run_one(lambda x, y, z: (*others(x, y), parts.fir(z, LONG)), A, B, A)
        self.assertEqual((alone[1].layout.text.split()[0], beside[1].layout.text.split()[0]), ('process', 'language'))
        self.assertEqual(beside[0], (*alone[0], convolved(LONG, A)))
        re, im, low, z = run_one(mixed, A, B, A)[0]
        wanted = run_one(others, convolved(LONG, A, 6), B)[0]
        self.assertEqual((re, im, low), (wanted[0], convolved(LONG, wanted[1]), wanted[2]))
        self.assertEqual(z, convolved(TAPS[:300], stuffed(A, 3), 2))

    def network(self):
        """A network of such parts."""
        net = kpn.Network()
        for number, stream in enumerate(mixed(*(net.source(it) for it in 'xyz'))):
            net.sink(f'out{number}', stream)
        return net, {'x': A, 'y': B, 'z': A}

    def test_texts_and_copies(self):
        net, items = self.network()
        wanted = net.run(items)
        printed = answer('print', str(net))
        for made in (copy.deepcopy(net), pickle.loads(pickle.dumps(net)), kpn.Network.from_text(str(net)),
                     kpn.Network.from_text(printed)):
            self.assertEqual(answer('print', str(made)), printed)
        self.assertEqual(kpn.Network.from_text(printed).run(items), wanted)
        self.assertEqual(net.run(items, workers=2), wanted)

    def test_a_live_run(self):
        net = kpn.Network()
        net.sink('y', parts.fir(net.source('x'), LONG))
        with net.stream(timeout=60) as live:
            live.feed(A[:150])
            self.assertEqual(live.read(150), convolved(LONG, A[:150]))
            live.feed(A[150:])
            self.assertEqual(live.finish()['y'], convolved(LONG, A)[150:])

    @unittest.skipUnless(shutil.which('cc'), 'there is no C compiler')
    def test_a_compiled_network(self):
        net = kpn.Network(auto_fork=True)
        x = parts.fir(net.source('x'), LONG, shift=6)
        net.sink('y', parts.gain(x, 3))
        net.sink('z', parts.interpolate(parts.offset(x, 1), TAPS[:300], 3, shift=2))
        wanted = net.run(A)
        with tempfile.TemporaryDirectory() as folder:
            made = net.compile(cache=folder)
            found = made.run(A, certify=True)
            self.assertEqual((found, found.certified), (wanted, 'legal, exact'))
            self.assertEqual(made.run([2 * TALL - 1], certify=True).faults, {'fir': 'overflow'})

    def test_the_parts_of_ranks(self):
        net, _ = self.network()
        with tempfile.TemporaryDirectory() as folder:
            path = pathlib.Path(folder, 'net.kpn')
            path.write_text(str(net))
            whole = joins.read_description(path)
            ranks = {name: number % 2 for number, (name, _) in enumerate(whole.instances)}
            for rank in range(2):
                text = joins.part_of(whole, ranks, rank, False).text()
                self.assertTrue(text.startswith('language 2;\n'))
                self.assertTrue(answer('check', text).startswith('ok: '))


if __name__ == '__main__':
    unittest.main()
