"""What a result says of rings, rates and capacities, and the search for the least ones."""
import copy
import io
import itertools
import os
import pathlib
import pickle
import random
import re
import tempfile
import unittest
import unittest.mock
import warnings

from support import TOP, kpn

import native_networks
from kpn import parts
from kpn.rates import growable
from kpn.result import LOOKS
from kpn.timing import Clock, Moves

WORDS = 'one of them has to write before it reads (a first item before its loop)'


def example(name):
    """The network of a file in examples/."""
    return kpn.Network.from_text((TOP / 'examples' / f'{name}.kpn').read_text())


def loop(delayed):
    """A sum of all items so far, with or without the delay that its loop needs."""
    net = kpn.Network()
    back = net.channel('back')
    total, again = parts.fork(parts.add(net.source('x'), back))
    back.connect(parts.delay(again) if delayed else parts.gain(again, 1))
    net.sink('sum', total)
    return net


def unequal():
    """A sum of streams with unequal rates."""
    net = kpn.Network()
    left, right = parts.fork(net.source('x'))
    net.sink('y', parts.add(parts.downsample(left, 2), right))
    return net


class Rings(unittest.TestCase):
    def test_a_loop_without_a_delay(self):
        for traced in (False, True):
            result = loop(False).run([1, 2, 3], trace=traced)
            ring = [('add', 'back', False), ('gain', 'fork_o2', False), ('fork', 'add', False)]
            self.assertEqual((result.outcome, result.deadlock), ('ended', [ring]))
            with self.assertRaises(kpn.Deadlock) as caught:
                result.check()
            self.assertEqual(caught.exception.rings, [ring])
            self.assertEqual(str(caught.exception).splitlines(), [
                'deadlock: add waits on back for gain, gain waits on fork_o2 for fork, fork waits on add for add; '
                + WORDS, 'a loop needs a `delay`: `kpn.parts.delay` writes its first items before it reads'])
            again = pickle.loads(pickle.dumps(caught.exception))
            self.assertEqual((str(again), again.rings), (str(caught.exception), [ring]))

    def test_a_loop_with_a_delay(self):
        result = loop(True).run([1, 2, 3]).check()
        self.assertEqual((result['sum'], result.deadlock), ([1, 3, 6], []))

    def test_a_ring_with_a_delay_that_is_too_short(self):
        net = kpn.Network()
        back = net.channel()
        pair = kpn.Process.from_text('process pair(in i; out o) { while 1 { read i a; read i b; write o (a + b); } }')
        total, again = parts.fork(pair(back))
        back.connect(parts.delay(again))
        net.sink('y', total)
        with self.assertRaises(kpn.Deadlock) as caught:
            net.run().check()
        self.assertNotIn('a loop needs', str(caught.exception))

    def test_several_rings_and_who_waits_behind_them(self):
        text = ('process copy(in i; out o) { while 1 { read i x; write o x; } }\nnetwork { channel a cap 1; '
                'channel b cap 1; channel c cap 1; channel d cap 1; sink z cap 1; p = copy(a; a); q = copy(b; c); '
                'r = copy(c; b); s = copy(d; z); t = two(c2; d, c2); channel c2 cap 1; }')
        text = text.replace('network', 'process two(in i; out o, p) { read i x; write o x; write p x; }\nnetwork')
        result = kpn.Network.from_text(text).run()
        rings = [[it.instance for it in ring] for ring in result.deadlock]
        self.assertEqual(rings, [['p'], ['q', 'r'], ['t']])
        self.assertRaisesRegex(kpn.Deadlock, 'deadlock: p waits on a for p;', result.check)

    def test_a_ring_in_a_run_that_has_enough_or_has_stopped(self):
        text = ('process ones(out o) { while 1 { write o 1; } }\nprocess copy(in i; out o) { read i x; write o x; }\n'
                'network { channel a cap 1; channel b cap 1; sink z cap 1; n = ones(; z); p = copy(a; b); '
                'q = copy(b; a); }')
        net = kpn.Network.from_text(text)
        result = net.run(take=3, trace=True)
        self.assertEqual([[it.instance for it in ring] for ring in result.deadlock], [['p', 'q']])
        self.assertIs(result.check(), result)
        self.assertEqual(net.run(take=3).deadlock, [])
        stopped = net.run(max_commits=100, trace=True)
        self.assertEqual(len(stopped.deadlock), 1)
        self.assertRaises(kpn.Deadlock, stopped.check)

    def test_a_live_run(self):
        with loop(False).stream(timeout=60) as live:
            live.feed([1, 2])
            result = live.finish()
        self.assertEqual(len(result.deadlock), 1)
        self.assertRaises(kpn.Deadlock, result.check)

    def test_no_ring(self):
        for name in ('two', 'jammed', 'mean', 'kahn'):
            net = example(name)
            found = net.run({it: [1, 2] for it in net.layout().sources}, max_commits=1000)
            self.assertEqual(found.deadlock, [], name)

    def test_a_ring_beside_a_full_channel(self):
        result = example('clogged').run()
        self.assertEqual((result.outcome, len(result.deadlock)), ('clogged', 1))
        self.assertRaisesRegex(kpn.Deadlock, 'deadlock: q waits on b for r, r waits on c for q; one', result.check)


class Rates(unittest.TestCase):
    def test_a_channel_that_grows(self):
        net = unequal()
        rates = {it.channel: it for it in net.rates(net.run(range(100), trace=True))}
        self.assertEqual(rates['fork_o2'], ('fork_o2', 'fork', 'add', 100, 50, 50, True))
        self.assertEqual(rates['x'], ('x', None, 'fork', 100, 100, 0, False))
        self.assertEqual(rates['y'], ('y', 'add', None, 50, 50, 0, False))

    def test_check_warns(self):
        net = unequal()
        LOOKS.clear()
        for options, put in (({'trace': True}, 3000), ({}, 1000), ({'workers': 2}, 1000)):
            with self.assertWarnsRegex(kpn.GrowthWarning, f'`fork_o2` grows .* `fork` put {put} items on it, and `add` '
                                                          f'got {put // 2}'):
                net.run(range(3000), **options).check()
        self.assertEqual(len(LOOKS), 1)
        with tempfile.TemporaryDirectory() as folder:
            path = pathlib.Path(folder, 'items')
            path.write_text('1\n' * 200)
            LOOKS.clear()
            with self.assertWarnsRegex(kpn.GrowthWarning, 'put 200 items'):
                net.run({'x': path}).check()

    def test_what_comes_and_goes_is_no_growth(self):
        net = kpn.Network()
        now, before = parts.fork(net.source('x'))
        net.sink('y', parts.add(now, parts.delay(before, 200, cap=1)))
        frames, other = parts.fork(net.source('z'))
        net.sink('frames', parts.add(parts.permute(frames, range(63, -1, -1)), other))
        given = {'x': range(1000), 'z': range(1000)}
        with warnings.catch_warnings():
            warnings.simplefilter('error')
            net.run(given).check()
            net.run(given, trace=True).check()
            loop(True).run(range(1000)).check()
            # A row of blocks has more items than a short run.
            net = kpn.Network()
            net.sink('y', parts.to_blocks(net.source('x'), 256))
            net.run(range(4096)).check()
            # Nobody reads after a process has ended.
            once = kpn.Process.from_text('process once(in a, b; out o) { read a x; read b y; write o (x + y); }')
            net = kpn.Network()
            net.sink('y', once(*parts.fork(net.source('x'))))
            net.run(range(1000)).check()

    def test_a_chain_can_not_grow(self):
        """It fills the room that it has, also beside a cycle."""
        copies = kpn.Process.from_text('process copy(in i; out o) { while 1 { read i x; write o x; } }')
        net = kpn.Network()
        net.sink('y', parts.add(copies(net.source('x'), name='wide', cap=500), net.source('v')))
        for has_cycle in (False, True):
            given = {'x': range(300), 'v': range(100)}
            if has_cycle:
                net.sink('z', parts.add(*parts.fork(net.source('w'))))
                given['w'] = range(9)
            result = net.run(given, trace=True)
            with unittest.mock.patch('kpn.rates.growable', lambda layout: set(layout.channels)), \
                    self.assertWarnsRegex(kpn.GrowthWarning, '`wide` put 300 items on it, and `add` got 101'):
                result.check()
            with warnings.catch_warnings():
                warnings.simplefilter('error')
                result.check()

    def test_a_channel_at_its_limit_can_not_grow(self):
        for limit, warns in ((300, False), (301, True)):
            net = kpn.Network(limit, 'all', cap=300)
            net.sink('y', parts.add(parts.scale(net.source('x'), 1), net.source('v')))
            result = net.run({'x': range(3000), 'v': range(3)}, trace=True)
            with warnings.catch_warnings(record=True) as told:
                warnings.simplefilter('always')
                result.check()
            self.assertEqual(bool(told), warns)

    def test_which_channels_may_grow(self):
        """Those on a cycle, whichever way its channels lead; a channel between two cycles is none."""
        net = unequal()
        self.assertEqual(growable(net.layout()), {'fork_o1', 'fork_o2', 'downsample'})
        one, two = parts.fork(parts.gain(parts.gain(parts.add(*parts.fork(net.source('w'))), 1), 1))
        net.sink('z', parts.add(one, two))
        names = growable(net.layout())
        self.assertEqual(len(names), 7)
        self.assertFalse({'gain', 'gain_2', 'w'} & names)
        net.policy = 'all'
        self.assertEqual(growable(copy.copy(net).layout()) - names, {'gain', 'gain_2', 'add_2'})
        self.assertEqual(growable(loop(True).layout()), {'back', 'add', 'fork_o2'})

    def test_another_network(self):
        self.assertRaisesRegex(kpn.KpnError, 'of another network', loop(True).rates, unequal().run([1], trace=True))
        self.assertRaisesRegex(kpn.KpnError, 'of another network', loop(True).tuned, unequal().run([1], trace=True))
        self.assertRaisesRegex(kpn.KpnError, 'give `trace=True`', unequal().rates, unequal().run([1]))


def rate(name, gets, puts):
    """A process that gets and puts these numbers of items in turn."""
    return kpn.Process.from_text(
        f'process {name}(in i; out o) {{ while 1 {{ n = 0; while (n < {gets}) {{ read i x; n = (n + 1); }} n = 0; '
        f'while (n < {puts}) {{ write o x; n = (n + 1); }} }} }}')


def chain(*processes, cap=1):
    """A chain of processes."""
    net = kpn.Network(cap=cap)
    stream = net.source('x')
    for process in processes:
        stream = process(stream)
    net.sink('y', stream)
    return net


def cd2dat():
    """From 147 samples to 160 by four rates, as from a compact disc to a tape."""
    return chain(*(rate(*it) for it in (('a', 1, 1), ('b', 1, 2), ('c', 3, 2), ('d', 7, 8), ('e', 7, 5), ('f', 1, 1))))


class Ticks(unittest.TestCase):
    def test_ticks_of_a_run_and_of_an_item(self):
        net = kpn.Network()
        net.sink('y', parts.gain(net.source('x'), 2))
        net.sink('z', parts.downsample(net.source('w'), 3))
        result = net.run({'x': range(9), 'w': range(16)}, trace=True)
        self.assertEqual((result.ticks, result.ticks_per_item), (22, {'y': 2.0, 'z': 4.0}))
        self.assertEqual(result.sink_ticks, {'y': list(range(2, 19, 2)), 'z': [2, 6, 10, 14, 18, 22]})
        self.assertEqual(net.run({'x': [1], 'w': []}, trace=True).ticks_per_item, {'y': None, 'z': None})

    def test_a_length_of_one_tick(self):
        text = 'process one(out o) { write o 1; } network { sink z cap 1; p = one(; z); }'
        result = kpn.Network.from_text(text).run(trace=True)
        self.assertEqual((result.ticks, result.least), (1, {'z': 1}))
        self.assertEqual(kpn.least_capacities(kpn.Network.from_text(text)).ticks, 1)

    def test_bursts(self):
        """One burst shows no period, and neither does what goes on after it."""
        for bursts, ticks in ((1, None), (2, None), (3, 3.0), (5, 3.0)):
            net = chain(rate('burst', 48, 24), rate('copy', 1, 1), cap=24)
            result = net.run(range(48 * bursts), trace=True)
            self.assertEqual(result.ticks_per_item, {'y': ticks}, bursts)

    def test_no_period(self):
        """A process that waits for another move than its period says, one that never does the same twice, and one that
        gets a first item besides."""
        burst = 'process p(in i; out o) { n = 0; while (n < 3) { read i x; n = (n + 1); } ' \
            'n = 0; while (n < 60) { write o x; n = (n + 1); } read i x; }'
        self.assertEqual(chain(kpn.Process.from_text(burst)).run([1] * 3, trace=True).ticks_per_item, {'y': None})
        ever_more = kpn.Process.from_text('process p(in i; out o) { n = 1; while n { m = n; while m { m = (m - 1); '
                                          'write o m; } read i x; n = (n + 1); } }')
        self.assertEqual(chain(ever_more, rate('copy', 1, 1)).run([1] * 20, trace=True).ticks_per_item, {'y': None})
        first = kpn.Process.from_text('process p(in c, i; out o) { read c k; while 1 { read i x; write o (x * k); } }')
        net = kpn.Network()
        net.sink('y', first(parts.constant(net, 7, 1), net.source('x')))
        self.assertEqual(net.run(range(9), trace=True).ticks_per_item, {'y': 2.0})

    def test_random_networks(self):
        """The package computes the ticks of `kpn stats`, without capacities and with those of the run; and a run with
        the least ones is as short as without any, and the same."""
        compared = 0
        for seed in range(30):
            text, lists = native_networks.network(random.Random(seed))
            net = kpn.Network.from_text(text)
            given = {name: items[:20] for name, items in lists.items()}
            result = net.run(given, trace=True, max_commits=3_000)
            with_caps, without = map(int, re.findall(r'\d+', result._told_stats()['head'][0]))
            moves = Moves(result.layout, result.trace().path, {})
            self.assertEqual(Clock(moves).ticks(), without, seed)
            if not any(row['growths'] for row in result.stats.channels):
                caps = [cap or 1 for _, _, cap in kpn.language.Reader(text).description().channels]
                self.assertEqual(Clock(moves, caps).ticks(), with_caps, seed)
            if result.outcome in ('ended', 'clogged'):
                compared += 1
                again = net.tuned(result).run(given, trace=True)
                self.assertEqual((dict(again), again.outcome, again.ticks), (dict(result), result.outcome, without))
                self.assertFalse(any(row['growths'] for row in again.stats.channels), seed)
        self.assertGreater(compared, 9)


class Capacities(unittest.TestCase):
    def test_tuned(self):
        net = example('two')
        result = net.run(trace=True)
        self.assertEqual((result.least, result.fast), ({'a': 2, 'b': 1, 'z': 1}, dict.fromkeys('abz', 1024)))
        tuned = net.tuned(result)
        self.assertEqual(str(tuned), str(net).replace('channel a cap 1', 'channel a cap 2'))
        again = tuned.run(trace=True)
        self.assertEqual((again['z'], again.ticks), (result['z'], 7))
        self.assertEqual(sum(row['growths'] for row in again.stats.channels), 0)
        self.assertEqual(str(net.tuned({'z': 3})), str(net).replace('sink z cap 1', 'sink z cap 3'))

    def test_the_least_for_a_shortest_run_do_not_grow_with_it(self):
        net, found = cd2dat(), []
        for count in (1, 4):
            result = net.run(range(147 * count), trace=True)
            found.append(result.least)
            again = net.tuned(result).run(range(147 * count), trace=True)
            self.assertIn(f'length {again.ticks} ticks, {again.ticks} without', again._told_stats()['head'][0])
            self.assertEqual(again['y'], result['y'])
        self.assertEqual(found, [{'a': 1, 'b': 3, 'c': 5, 'd': 7, 'e': 3, 'y': 1}] * 2)
        self.assertEqual(max(net.run(range(147), trace=True).fast.values()), 1024)
        two = unequal()
        two.sink('z', parts.hold(two.source('w'), 7))
        result = two.run({'x': range(40), 'w': range(40)}, trace=True)
        self.assertLess(result.least['fork_o2'], 26)

    def test_the_least_where_the_sinks_have_enough(self):
        """What went on beside needs no room."""
        net = kpn.Network()
        one, two = parts.fork(parts.count(net))
        net.sink('y', one)
        net.sink('z', parts.hold(parts.gain(two, 1), 2))
        for take in (3, 30):
            result = net.run(take=take, trace=True)
            again = net.tuned(result).run(take=take, trace=True)
            self.assertEqual((dict(again), again.outcome), (dict(result), 'enough'))
            self.assertLessEqual(max(result.least.values()), 3)

    def test_a_capacity_for_all(self):
        net = kpn.Network(cap=64)
        net.sink('y', parts.delay(parts.gain(net.source('x'), 1), 2, cap=3), cap=5)
        net.sink('z', parts.gain(net.source('w'), 1))
        caps = {name: cap for _, name, cap in kpn.language.Reader(str(copy.copy(net))).description().channels}
        self.assertEqual(caps, {'x': None, 'y': 5, 'gain': 64, 'w': None, 'z': 64})
        self.assertEqual(net.source('v').cap, 64)
        for cap in (0, 2_000_000):
            self.assertRaisesRegex(kpn.KpnError, f'a capacity of {cap} is given', kpn.Network, cap=cap)

    def test_what_can_not_be_tuned(self):
        self.assertRaisesRegex(kpn.KpnError, 'no channel `q`.* there are a, b, z', example('two').tuned, {'q': 1})
        self.assertRaisesRegex(kpn.KpnError, 'no channel `x`', unequal().tuned, {'x': 1})
        self.assertRaisesRegex(kpn.KpnError, 'the capacity is 0', example('two').tuned, {'a': 0})
        net = kpn.Network(limit=3)
        net.sink('y', net.source('x'))
        self.assertIn('sink y cap 3', str(net.tuned({'y': 9})))

    def test_the_least_capacities(self):
        net, told = unequal(), []
        found = kpn.least_capacities(net, range(40), tell=told.append)
        self.assertEqual((dict(found), found.is_exact), ({'fork_o1': 1, 'fork_o2': 20, 'downsample': 1, 'y': 1}, True))
        self.assertRegex(told[-1], '^[0-9]+: a run with 23 in all')
        self.assertEqual(net.tuned(found).run(range(40), trace=True).ticks, found.ticks)
        again = pickle.loads(pickle.dumps(found))
        self.assertEqual((again, again.ticks, again.is_exact), (found, found.ticks, True))
        self.assertRaisesRegex(kpn.KpnError, 'has stopped', kpn.least_capacities, net, range(40), max_commits=9)
        self.assertRaisesRegex(kpn.KpnError, 'has jammed', kpn.least_capacities, example('jammed'))
        self.assertRaisesRegex(kpn.KpnError, "the goal is 'x': it has to be one of", kpn.least_capacities, net,
                               goal='x')

    def test_goals(self):
        net = cd2dat()
        shortest = kpn.least_capacities(net, range(147))
        self.assertEqual((sum(shortest.values()), shortest.ticks, shortest.is_exact), (18, 521, True))
        points = kpn.least_capacities(net, range(147), goal='pareto')
        self.assertEqual((points[0], points[-1].ticks), (dict.fromkeys(shortest, 1), 521))
        self.assertEqual(kpn.least_capacities(net, range(147), goal='deadlock-free'), points[0])
        self.assertEqual([sum(it.values()) for it in points], list(range(6, 19)))
        self.assertTrue(all(one.ticks > two.ticks and two.is_exact for one, two in zip(points, points[1:])))

    def test_enough_items(self):
        """What goes on inside once the sinks have theirs does not count, with workers neither."""
        for options in ({}, {'workers': 3}):
            found = kpn.least_capacities(cd2dat(), range(147 * 4), take=160, **options)
            self.assertEqual((sum(found.values()), found.ticks), (18, 521))
        net = kpn.Network()
        net.sink('y', parts.add(*parts.fork(parts.count(net))))
        found = kpn.least_capacities(net, take=9)
        self.assertEqual((set(found.values()), found.ticks), ({1}, 30))

    def test_all_choices_of_small_networks(self):
        """No smaller sum keeps a run as short, by runs of `kpn` with each choice."""
        for seed in range(4):
            numbers = random.Random(seed)
            net = chain(*(rate(f'p{it}', numbers.randrange(1, 4), numbers.randrange(1, 4)) for it in range(3)))
            found = kpn.least_capacities(net, range(18))
            self.assertTrue(found.is_exact)
            for caps in itertools.product(range(1, sum(found.values()) - 1), repeat=2):
                if sum(caps) + 1 < sum(found.values()):
                    run = net.tuned(dict(zip(found, caps))).run(range(18), trace=True)
                    self.assertTrue(run.ticks > found.ticks or any(it['growths'] for it in run.stats.channels), seed)

    def test_a_search_that_takes_too_long(self):
        with unittest.mock.patch('kpn.room.MOST_MOVES', 0):
            found = kpn.least_capacities(cd2dat(), range(147))
            points = kpn.least_capacities(cd2dat(), range(147), goal='pareto')
        self.assertEqual((sum(found.values()) < 21, found.ticks, found.is_exact), (True, 521, False))
        self.assertEqual([(it.ticks > 521, it.is_exact) for it in points], [(True, False), (False, False)])

    def test_a_terminal_sees_the_search(self):
        class Terminal(io.StringIO):
            def isatty(self):
                return True

            def fileno(self):
                return 2
        with unittest.mock.patch('sys.stderr', Terminal()) as told, \
                unittest.mock.patch('os.get_terminal_size', lambda number: os.terminal_size((30, 9))):
            kpn.least_capacities(example('two'))
        lines = told.getvalue().split('\r\x1b[K')
        self.assertEqual((lines[0], lines[1], lines[-1]), ('', '1: the run as it is', ''))
        self.assertLess(max(map(len, lines)), 30)


class Items(unittest.TestCase):
    def test_numbers_with_a_point(self):
        net = loop(True)
        self.assertEqual(net.run([1, 2.0, True])['sum'], [1, 3, 4])
        for given, said in (([1, 2.5], r'item 1 of the source `x` is 2\.5'), ([float('nan')], 'item 0 .* is nan'),
                            ([float('inf')], 'is inf'), ('7', "is '7'"), (5, 'and not 5')):
            self.assertRaisesRegex(TypeError, said + '.*', net.run, given)
        self.assertRaisesRegex(kpn.KpnError, 'item 2 of the source `x` is 1e[+]30, out of range', net.run, [0, 1, 1e30])
        with net.stream(timeout=60) as live:
            live.feed([3.0])
            self.assertRaisesRegex(TypeError, 'item 0', live.feed, [3.5])
            self.assertEqual(live.finish()['sum'], [3])


class Stopped(unittest.TestCase):
    def test_it_names_the_limit(self):
        net = example('fibonacci')
        self.assertRaisesRegex(kpn.KpnError, 'has stopped at `max_commits`, 100;', net.run(max_commits=100).check)
        result = copy.copy(net.run(max_commits=7))
        self.assertRaisesRegex(kpn.KpnError, '`max_commits`, 7;', result.check)
        with net.stream(max_commits=50, timeout=60) as live:
            result = live.finish()
        self.assertRaisesRegex(kpn.KpnError, '`max_commits`, 50;', result.check)

    def test_the_usual_limit_is_the_largest(self):
        with unittest.mock.patch('kpn.running.call', side_effect=kpn.KpnError('no')) as call:
            self.assertRaises(kpn.KpnError, loop(True).run, [1])
        words = call.call_args[0][0]
        self.assertEqual(words[words.index('--max-commits') + 1], '1000000000')


if __name__ == '__main__':
    unittest.main()
