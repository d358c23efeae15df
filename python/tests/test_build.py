"""Building networks: connecting, naming, forking, loops and limits."""
import copy
import pickle
import unittest

from support import kpn

GAIN = kpn.Process.from_text('process gain(in i; out o; par k) { while 1 { read i x; write o (x * k); } }')
PAIR = kpn.Process.from_text('process pair(in a, b; out low, high) { while 1 { read a x; read b y; write low x; '
                             'write high y; } }')
END = kpn.Process.from_text('process end(in i) { while 1 { read i x; } }')


def wide(count):
    """A network of language 2 with this many channels."""
    net = kpn.Network(language=2)
    for _ in range(count):
        net.channel()
    return net


class Building(unittest.TestCase):
    def setUp(self):
        self.net = kpn.Network()

    def refused(self, words, call, *args, **named):
        """What a call is refused with; the words have to be in it."""
        with self.assertRaises((kpn.KpnError, TypeError)) as caught:
            call(*args, **named)
        self.assertIn(words, str(caught.exception))

    def test_the_text_of_a_small_network(self):
        self.net.sink('y', GAIN(self.net.source('x'), k=3), cap=2)
        self.assertEqual(str(self.net), '''process gain(in i; out o; par k) {
  while 1 {
    read i x;
    write o (x * k);
  }
}
network {
  source x;
  sink y cap 2;
  gain = gain(x; y; 3);
}
''')
        self.net.check()

    def test_settings_are_written(self):
        text = str(kpn.Network(5, 'all', 'double'))
        self.assertEqual(text, 'network {\n  limit 5;\n  policy all;\n  grow double;\n}\n')
        self.assertEqual(str(kpn.Network.from_text(text)), text)

    def test_ports_and_parameters_by_place_or_name(self):
        texts = set()
        for call in (lambda x: GAIN(x, 3), lambda x: GAIN(x, k=3), lambda x: GAIN(i=x, k=3), lambda x: GAIN(k=3, i=x)):
            net = kpn.Network()
            net.sink('y', call(net.source('x')))
            texts.add(str(net))
        self.assertEqual(len(texts), 1)

    def test_wrong_calls_are_refused(self):
        x = self.net.source('x')
        self.refused('takes 2 streams and numbers, and 3', GAIN, x, 1, 2)
        self.refused('`gain` lacks k', GAIN, x)
        self.refused('no in port or parameter `j`', GAIN, x, j=1)
        self.refused('`i` of `gain` is given twice', GAIN, x, i=x, k=1)
        self.refused('takes a stream, and not 3', GAIN, 3, 3, net=self.net)
        self.refused('takes a whole number, not 1.5', GAIN, x, 1.5)
        self.refused('from -9223372036854775807', GAIN, x, 2**63)
        self.refused('name its network by `net=`', kpn.Process.from_text('process p(out o) { write o 1; }'))
        self.refused('more than its out ports', GAIN, x, 1, cap=[1, 2])
        self.refused('from 1 to the limit', GAIN, x, 1, cap=0)
        self.refused('of another network', PAIR, x, kpn.Network().source('y'))
        self.assertEqual(self.net.layout().instances, [])

    def test_outputs(self):
        x, y = self.net.source('x'), self.net.source('y')
        low, high = PAIR(x, y, cap={'high': 7})
        self.assertEqual((low.name, high.name, low.cap, high.cap), ('pair_low', 'pair_high', 1, 7))
        self.assertIsNone(END(low))
        self.assertEqual(END(high, name='last'), None)
        self.net.check()

    def test_a_stream_that_is_used_twice(self):
        x = self.net.source('x')
        GAIN(x, 1)
        self.refused('`x` is used twice: `gain` reads it already', GAIN, x, 2)
        self.refused('fork', self.net.sink, 'y', x)
        y = self.net.source('y')
        self.refused('`y` is used twice: `pair` reads it', PAIR, y, y)
        y = GAIN(y, 1)
        z = self.net.sink('z', y)
        self.refused('the outside, as the sink `z`, reads it', GAIN, y, 1)
        self.refused('is used twice', GAIN, z, 1)
        self.net.sink('last', self.net._instances[0].outs[0])
        self.net.check()

    def test_automatic_forks(self):
        net = kpn.Network(auto_fork=True)
        x = net.source('x')
        for number in range(40):
            net.sink(f'y{number}', GAIN(x, number))
        net.sink('x_itself', x)
        net.check()
        result = net.run([1, 2])
        self.assertEqual(dict(result), {**{f'y{it}': [it, 2 * it] for it in range(40)}, 'x_itself': [1, 2]})
        self.assertEqual(len(net.layout().instances), 40 + 3)

    def test_loops(self):
        loop = self.net.channel()
        total = kpn.parts.add(self.net.source('x'), loop)
        out, back = kpn.parts.fork(total)
        loop.connect(kpn.parts.delay(back))
        self.net.sink('sum', out)
        self.assertEqual(self.net.run(range(5))['sum'], [0, 1, 3, 6, 10])
        self.refused('has a writer already', loop.connect, self.net.source('z'))

    def test_a_channel_that_nobody_connects(self):
        GAIN(self.net.channel('lost'), 1, name='g')
        self.refused('`lost` has no writer', self.net.check)
        self.refused('`connect` it to what shall flow there', self.net.check)
        early = self.net.channel('early')
        self.refused('connect it first', self.net.sink('y').connect, early)
        self.refused('connect it first', self.net.sink, 'z', early)
        self.refused('connect it first', early.connect, early)
        net = kpn.Network(auto_fork=True)
        self.refused('connect it first', GAIN, net.sink('y'), 1)
        self.assertEqual(self.net.layout().sinks, ['y'])

    def test_a_source_may_flow_to_a_sink(self):
        self.net.sink('y', self.net.source('x'))
        self.assertEqual(self.net.run([3, 4])['y'], [3, 4])

    def test_a_sink_that_is_connected_later(self):
        sink = self.net.sink('y', cap=4)
        sink.connect(GAIN(self.net.source('x'), 2))
        self.assertEqual((self.net.run([3])['y'], sink.cap), ([6], 4))

    def test_names(self):
        x = self.net.source('x')
        with self.net.scope('left'):
            y = GAIN(x, 1)
        y = GAIN(GAIN(GAIN(y, 2), 3, name='gain'), 4)
        self.net.sink('gain', y)
        self.assertEqual(self.net.layout().instances, ['left_gain', 'gain_2', 'gain', 'gain_3'])
        self.assertEqual(self.net.layout().channels, ['x', 'left_gain', 'gain_2', 'gain_3', 'gain'])
        self.refused('there is another `x`', self.net.source, 'x')
        z = self.net.source('z')
        self.refused('there is another `gain`', self.net.add, GAIN, z, 1, name='gain')
        self.net.sink('z_itself', z)
        for name in ('while', '1x', '', 'a-b', 'x' * 33):
            self.refused('is no name', self.net.source, name)
            self.refused('is no name', self.net.scope(name).__enter__)
        self.net.check()

    def test_long_names_are_cut(self):
        long = kpn.Process.from_text('process a_name_of_thirty_two_letters_abc(in i; out o) { read i x; write o x; }')
        stream = self.net.source('x')
        for _ in range(12):
            stream = long(stream)
        self.net.sink('y', stream)
        self.net.check()

    def test_processes_of_one_name(self):
        other = kpn.Process.from_text('process gain(in i; out o) { while 1 { read i x; write o (x * 10); } }')
        again = kpn.Process.from_text('process gain(in i;out o;par k){while 1{read i x;# so\nwrite o (x*k);}}')
        self.net.sink('y', again(other(GAIN(self.net.source('x'), 2)), 3))
        self.assertEqual([it.name for _, it in self.net.layout().begins], ['gain', 'gain_2'])
        self.assertEqual(self.net.run([1])['y'], [60])

    def test_limits_are_told_before_a_run(self):
        stream = self.net.source('x')
        for _ in range(300):
            stream = GAIN(stream, 1)
        self.net.sink('y', stream)
        self.refused('300 instances: 44 more than the 256 that it may have. Most of its instances are 300 of `gain`',
                     self.net.run, [1])
        self.refused('17 in ports: 1 more than the 16', kpn.Process.from_text,
                     f'process p(in {", ".join(f"i{it}" for it in range(17))}) {{ }}')
        net = kpn.Network()
        for stream in kpn.parts.fork(net.source('x'), 16):
            for stream in kpn.parts.fork(stream, 16):
                for number, stream in enumerate(kpn.parts.fork(stream, 4)):
                    pass
        self.refused('273 instances', net.check)
        net = kpn.Network()
        for number in range(1025):
            net.channel()
        self.refused('1025 channels: 1 more than the 1024', net.check)
        net = kpn.Network()
        for number in range(257):
            kpn.Process.from_text(f'process p{number}() {{ }}')(net=net)
        self.refused('257 processes: 1 more than the 256', net.check)

    def test_language_2_has_larger_limits(self):
        def chain(count, **options):
            net = kpn.Network(**options)
            stream = net.source('x')
            for _ in range(count):
                stream = GAIN(stream, -1)
            net.sink('y', stream)
            return net
        self.refused('. `kpn.Network(language=2)` may have 4096', chain(257).check)
        net = chain(4_095, language=2)
        self.assertEqual((net.language, net.run([1, 2])['y']), (2, [-1, -2]))
        self.refused('4097 instances: 1 more than the 4096', chain(4_097, language=2).check)
        self.refused('16385 channels: 1 more than the 16384', wide(16_385).check)
        self.refused('the language', kpn.Network, language=3)

    def test_the_name_of_a_stream_that_flows_into_a_named_channel_is_free_again(self):
        first, second = self.net.channel('first'), self.net.channel('second')
        first.connect(GAIN(self.net.source('x'), 2))
        second.connect(first)
        self.net.sink('first', second)
        self.refused('there is another `first` already', copy.deepcopy(self.net).channel, 'first')
        self.assertEqual(self.net.run([4])['first'], [8])

    def test_numbers_that_are_none(self):
        x = self.net.source('x')
        for given in (True, 1.5, '3'):
            self.refused('the limit has to be a whole number', kpn.Network, given)
            self.refused('the capacity has to be a whole number', self.net.channel, cap=given)
            self.refused('the capacity has to be a whole number', GAIN, x, 1, cap={'o': given})
        self.refused('the capacity has to be a whole number', GAIN, x, 1, cap=True)
        self.refused('from 1 to the limit', GAIN, x, 1, cap=-1)

        class Number(int):
            """As those of an enumeration or of NumPy, it does not look like its number."""

            def __str__(self):
                return 'a number'
        net = kpn.Network(Number(9))
        net.sink('y', GAIN(net.source('x'), Number(3), cap=Number(4)), cap=Number(5))
        self.assertEqual(str(net).partition('network')[2], ' {\n  limit 9;\n  source x;\n  sink y cap 5;\n'
                                                           '  gain = gain(x; y; 3);\n}\n')
        net = kpn.Network()
        net.sink('y', GAIN(net.source('x'), True))
        self.assertEqual(net.run([7])['y'], [7])

    def test_copies(self):
        net = kpn.Network(99, 'all', 'double', auto_fork=True)
        loop = net.channel()
        x = net.source('x')
        with net.scope('chain'):
            total = stream = kpn.parts.add(x, loop)
            for number in range(250):
                stream = GAIN(stream, number, cap=2)
        loop.connect(kpn.parts.delay(total))
        net.sink('y', stream)
        net.sink('again', x)
        for other, its in (pickle.loads(pickle.dumps((net, total))), copy.deepcopy((net, total)),
                           (copy.copy(net), None)):
            self.assertEqual((str(other), other.auto_fork), (str(net), True))
            if its:
                self.assertIs(its.net, other)
                self.assertEqual((its.name, repr(its)), (total.name, repr(total)))
                other.sink('more', its)
                other.check_limits()
                self.assertIn('sink more', str(other))
            other.sink('last', other.source('first'))
            self.assertNotIn('last', str(net))
        self.assertEqual(pickle.loads(pickle.dumps(loop)).name, loop.name)

    def test_wrong_settings(self):
        self.refused('from 1 to 1048576', kpn.Network, 0)
        self.refused("'cycles' or 'all'", kpn.Network, policy='some')
        self.refused("'one' or 'double'", kpn.Network, grow='two')
        self.refused('from 1 to the limit, 5', kpn.Network(5).channel, cap=6)


class Places(unittest.TestCase):
    """Faults are shown in the source of the part."""

    def test_a_text_that_is_none(self):
        with self.assertRaises(kpn.KpnError) as caught:
            kpn.Process.from_text('process gain(in i; out o) {\n  while 1 {\n    read i x\n    write o x;\n  }\n}')
        self.assertEqual(caught.exception.place[1:], (4, 5))
        self.assertEqual(caught.exception.error, '21 Grammar at 57')
        self.assertIn('the process, line 4, column 5: ', str(caught.exception))
        self.assertIn('\n    write o x;\n    ^\n', str(caught.exception))

    def test_a_name_that_is_not_known(self):
        net = kpn.Network()
        GAIN(net.source('x'), 1)
        part = kpn.Process.from_text('process part(in i; out o) {\n  # reads\n  while 1 { read i x;\n'
                                     '\twrite o (x * kk); }\n}')
        net.sink('y', part(net.source('z')))
        for call in (net.check, lambda: net.run({'x': [], 'z': []})):
            with self.assertRaises(kpn.KpnError) as caught:
                call()
            self.assertEqual(caught.exception.place, ('process `part`', 4, 15))
            self.assertIn('\twrite o (x * kk); }\n\t             ^\n', str(caught.exception))
            self.assertIn('`kk`', str(caught.exception))

    def test_a_second_place(self):
        with self.assertRaises(kpn.KpnError) as caught:
            kpn.Network.from_text('network {\n  source a;\n  source a;\n}\n')
        self.assertEqual(caught.exception.error.split(' at ')[0], '23 DoubleName')
        self.assertIn('the network, line 3, column 10', str(caught.exception))
        self.assertIn('the network, line 2, column 10', str(caught.exception))

    def test_a_stream_that_nobody_reads(self):
        net = kpn.Network()
        GAIN(net.source('x'), 1, name='g')
        with self.assertRaises(kpn.KpnError) as caught:
            net.check()
        self.assertIn('`g` has no reader [15 NoReader at 1]', str(caught.exception))
        self.assertTrue(str(caught.exception).endswith('give it to a process, or to `net.sink`.'))
        self.assertEqual(caught.exception.place.what, 'the network')


if __name__ == '__main__':
    unittest.main()
