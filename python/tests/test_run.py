"""Runs: inputs, outcomes, options and what results tell."""
import array
import copy
import gc
import json
import os
import pathlib
import pickle
import re
import stat
import sys
import tempfile
import types
import unittest
import unittest.mock
import xml.etree.ElementTree

from support import PROGRAM, TOP, kpn

from kpn import parts


def example(name):
    """The network of a file in examples/."""
    return kpn.Network.from_text((TOP / 'examples' / f'{name}.kpn').read_text())


def doubling():
    """A network that doubles the items of `x`."""
    net = kpn.Network()
    net.sink('y', parts.gain(net.source('x'), 2))
    return net


class Inputs(unittest.TestCase):
    def test_forms_of_inputs(self):
        net = doubling()
        for given in ([1, 2], (1, 2), range(1, 3), iter([1, 2]), {'x': [1, 2]}, {'x': iter([1, 2])}, [True, 2]):
            self.assertEqual(net.run(given)['y'], [2, 4])
        self.assertEqual(net.run([])['y'], [])
        self.assertEqual(net.run([-2**62, 2**62 - 1])['y'], [-2**63, 2**63 - 2])

    def test_an_array_gives_an_array(self):
        found = doubling().run(array.array('h', [1, 2]))['y']
        self.assertEqual(found, array.array('q', [2, 4]))
        self.assertIsInstance(found, array.array)

    def test_numpy_gives_numpy(self):
        class Array:
            __array_interface__ = None

            def tolist(self):
                return [1, 2]
        numpy = types.SimpleNamespace(array=lambda items, dtype: (items, dtype), int64='int64')
        with unittest.mock.patch.dict(sys.modules, numpy=numpy):
            self.assertEqual(doubling().run(Array())['y'], ([2, 4], 'int64'))

    def test_a_file(self):
        net = doubling()
        self.assertEqual(net.run({'x': TOP / 'examples/signal'})['y'], [6, 10, 20, -4])
        with tempfile.TemporaryDirectory() as folder:
            path = pathlib.Path(folder, 'items')
            path.write_text('1\n2x\n')
            self.refused('items:2:1', net, {'x': path})
            self.refused('26 Read', net, {'x': pathlib.Path(folder, 'none')})
            self.refused("none` can't be read: there is no such file", net, {'x': pathlib.Path(folder, 'none')})

    def refused(self, words, net, *args, error=kpn.KpnError, **named):
        with self.assertRaises(error) as caught:
            net.run(*args, **named)
        self.assertIn(words, str(caught.exception))

    def test_wrong_inputs(self):
        self.refused('`x` is given no items', doubling())
        self.refused('no source `z`: it has x', doubling(), {'x': [], 'z': []})
        self.refused('has 0 sources', example('two'), [1])
        self.refused('whole numbers', doubling(), [1.5], error=TypeError)
        self.refused('whole numbers', doubling(), 'text', error=TypeError)
        self.refused('out of range', doubling(), [2**63])
        self.refused('the source `x` have to be whole numbers, and not 2.5', doubling(), 2.5, error=TypeError)

    def test_rows(self):
        class Row(list):
            """A row of an array of NumPy has this method, and none of the arrays but a single number is an index."""

            def __index__(self):
                raise TypeError('only integer scalar arrays can be converted to a scalar index')
        for row in ([1, 2], Row([1, 2])):
            self.refused('item 1 of the source `x` is [1, 2], and items have to be whole numbers', doubling(), [1, row],
                         error=TypeError)

    def test_wrong_options(self):
        for word, given, said in (('workers', 17, '`workers` is 17: it has to be from 1 to 16'),
                                  ('max_commits', -1, '`max_commits` is -1: it has to be from 1 to 1000000000'),
                                  ('take', 0, '`take` is 0'), ('timeout', -1, 'the timeout is -1')):
            self.refused(said, doubling(), [1], **{word: given})
        for given in (True, 2.0, '3'):
            self.refused('`take` has to be a whole number', doubling(), [1], take=given, error=TypeError)
        self.refused("27 Write\n`/nowhere/at/all` can't be written: its folder is not there", doubling(), [1],
                     trace='/nowhere/at/all')


class Outcomes(unittest.TestCase):
    def test_a_sink_that_is_not_there(self):
        result = doubling().run([1])
        self.assertNotIn('z', result)
        with self.assertRaisesRegex(KeyError, 'no sink `z`: it has y'):
            result['z']

    def test_ended(self):
        result = example('mean').run([3, 5, 10, -2])
        self.assertEqual((result.outcome, dict(result), result.faults), ('ended', {'means': [3, 4, 6, 4]}, {}))
        self.assertEqual(result.waits, [('running', 'signal', False)])
        self.assertEqual(result.complete, {'means': True})
        self.assertIs(result.check(), result)
        self.assertEqual(repr(result), '<Result ended: 4 items of means>')

    def test_enough(self):
        result = example('fibonacci').run(take=10)
        self.assertEqual((result.outcome, result['numbers']), ('enough', [0, 1, 1, 2, 3, 5, 8, 13, 21, 34]))
        self.assertEqual(result.complete, {'numbers': None})
        self.assertIs(result.check(), result)
        self.assertEqual(example('fibonacci').run(take=10, trace=True).complete, {'numbers': False})

    def test_clogged(self):
        result = example('worked/sink_behind_a_full_channel').run()
        self.assertEqual(result.outcome, 'clogged')
        self.assertFalse(all(result.complete.values()))
        with self.assertRaisesRegex(kpn.KpnError, 'has clogged; the sink `.*` is not complete; .* waits on the full'):
            result.check()

    def test_jammed(self):
        result = example('jammed').run()
        self.assertEqual((result.outcome, all(result.complete.values())), ('jammed', False))

    def test_stopped(self):
        result = example('fibonacci').run(max_commits=100)
        self.assertEqual((result.outcome, result.complete), ('stopped', {'numbers': None}))
        with self.assertRaisesRegex(kpn.KpnError, 'perhaps not complete'):
            result.check()

    def test_clogged_and_complete(self):
        net = kpn.Network()
        net.sink('y', parts.add(net.source('x'), parts.constant(net, 1)))
        result = net.run([1, 2])
        self.assertEqual((result.outcome, result['y'], result.complete), ('clogged', [2, 3], {'y': True}))
        self.assertIs(result.check(), result)

    def test_a_fault(self):
        result = doubling().run([1, 2**62, 3])
        self.assertEqual((result['y'], result.faults, result.complete), ([2], {'gain': 'overflow'}, {'y': True}))
        with self.assertRaisesRegex(kpn.KpnError, '`gain` ended by a fault: overflow in `x . k` .process `gain`, line'):
            result.check()

    def test_where_a_fault_was(self):
        """It has the place in the text of the process, the expression and the values in it."""
        text = 'language 2; table t = 5, -1; process p(in i, j; out o; par k) {\n  array a[3]; while 1 {\n' \
            '    read i x;\n    read j y; a[x & 1] = y;\n    if (y) == 0 { } else { if x { write o %s; } } } }'
        for expression, items, column, said in (
                ('(1) + ((x / (y - 1)))', ([3, 7], [2, 1]), 51, 'zero-divisor in `x / (y - 1)` (%s), with x = 7, '
                                                                'y = 1'),
                ('a[x & 3] * k', ([1, 2, 3], [4, 5, 6]), 43, 'index in `a[x & 3]` (%s), with x = 3, x & 3 = 3, '
                                                             'cells of a = 3'),
                ('k << (a[1] + t[0])', ([1], [60]), 43, 'shift in `k << (a[1] + t[0])` (%s), with k = 9, a[1] = 60, '
                                                        't[0] = 5'),
                ('~k * 2 - -(y * y)', ([1], [-2**62]), 54, f'overflow in `y * y` (%s), with y = {-2**62}')):
            said %= f'process `p`, line 5, column {column}'
            net = kpn.Network()
            net.sink('z', kpn.Process.from_text(text % expression)(net.source('s'), net.source('t'), 9))
            for trace in (False, True):
                result = net.run(dict(zip('st', items)), trace=trace)
                self.assertEqual(str(result.fault_places['p']), said)
            with self.assertRaisesRegex(kpn.KpnError, re.escape(f'`p` ended by a fault: {said}')) as caught:
                result.check()
            self.assertEqual(caught.exception.place, ('process `p`', 5, column))
            self.assertEqual(result.fault_places['p'].word, result.faults['p'])
        result = doubling().run([2**62], trace=True)
        self.assertEqual(result.fault_places['gain'].values, {'x': 2**62, 'k': 2})
        long = 'process p(in i; out o) { read i n; while n { n = (n - 1); } write o (1 / n); }'
        for steps, places in ((300_000, ['p']), (600_000, [])):
            net = kpn.Network()
            net.sink('z', kpn.Process.from_text(long)(net.source('s')))
            self.assertEqual(list(net.run([steps], trace=True).fault_places), places)
        result = net.run([steps])
        self.assertEqual((doubling().run([1], trace=True).fault_places, result.fault_places), ({}, {}))
        self.assertRaisesRegex(kpn.KpnError, 'ended by a fault: zero-divisor .a run with `trace=True`', result.check)

    def test_complete_is_what_stats_says(self):
        for name in 'clogged unclogged deadlock two jammed doubling fault kahn moving_average'.split():
            net = example(name)
            result = net.run({it: [1, 2, 3] for it in net.layout().sources}, trace=True, max_commits=5_000)
            told = {row['channel']: row['complete'] == 'yes' for row in result.stats.channels}
            self.assertEqual(result.complete, {it: told[it] for it in result}, name)

    def test_workers_give_the_same(self):
        items = list(range(1000))
        net = kpn.Network()
        net.sink('y', parts.fir(net.source('x'), [1, -2, 3]))
        self.assertEqual(dict(net.run(items)), dict(net.run(items, workers=3)))


class Traced(unittest.TestCase):
    def test_stats(self):
        result = example('two').run(trace=True)
        self.assertEqual(result.stats.channels[0]['channel'], 'a')
        self.assertEqual(result.stats.channels[0]['put'], 2)
        self.assertEqual(result.stats.processes[1]['gets'], 3)

    def test_explain_and_dot(self):
        result = example('two').run(trace=True)
        self.assertTrue(result.explain().startswith('legal\n'))
        self.assertTrue(result.dot().startswith('digraph'))
        self.assertTrue(example('two').dot().startswith('digraph'))

    def test_timeline(self):
        result = example('two').run(trace=True)
        events = json.loads(result.timeline())['traceEvents']
        self.assertEqual([it['args']['name'] for it in events if it['name'] == 'thread_name'], ['p', 'q'])
        slices = [it['name'] for it in events if it['ph'] == 'X' and not it['name'].startswith('waits')]
        self.assertEqual(sorted(slices), sorted(f'{it.kind} {it.channel}' for it in result.trace()
                                                if it.kind in ('get', 'put')))
        for svg in (result.svg(), result.svg(1, 3), result._repr_svg_()):
            self.assertTrue(xml.etree.ElementTree.fromstring(svg).tag.endswith('svg'))

    def test_a_picture_that_is_too_large(self):
        result = doubling().run(range(1500), trace=True)
        self.assertIn('of 3000</text>', result.svg(2000, 2100))
        for ticks, error, said in (((), kpn.KpnError, 'at most 2,000 ticks.* a `first` and a `last` tick with fewer'),
                                   ((900, 2900), kpn.KpnError, 'give a `first`'),
                                   ((7, 6), kpn.KpnError, '`last` is 6: it has to be from 7 to 1000000000'),
                                   ((0,), kpn.KpnError, '`first` is 0'), ((1, 2.5), TypeError, '`last` has to be a w')):
            with self.assertRaisesRegex(error, said) as caught:
                result.svg(*ticks)
            self.assertNotIn('--', str(caught.exception))

    def test_waits_that_never_end_are_drawn(self):
        result = example('deadlock').run(trace=True)
        slices = [(it['ts'], it['dur'], it['name']) for it in json.loads(result.timeline())['traceEvents']
                  if it['ph'] == 'X']
        self.assertEqual(slices, [(0, 1, 'waits x'), (0, 1, 'waits y')])
        titles = re.findall('<title>(.*?)</title>', result.svg())
        self.assertEqual(titles, [f'waits for an item on {name} from tick 1 to the end' for name in 'xy'])

    def test_an_explanation_shows_few_items(self):
        for count, last in ((20, '20'), (21, '.. 1 more'), (1021, '.. 1,001 more')):
            net = kpn.Network()
            net.sink('y', parts.scale(net.source('x'), 1))
            lines = net.run(range(1, count + 1), trace=True).explain().splitlines()
            self.assertTrue(lines[2].startswith('x: 1 2 3 ') and lines[2].endswith(f' {last}'), lines[2])
            self.assertEqual(len(lines[2].split(' ..')[0].split()), 21)

    def test_without_a_trace(self):
        result = example('two').run()
        for call in (lambda: result.stats, result.explain, result.dot, result.trace, result.timeline,
                     result.svg):
            self.assertRaisesRegex(kpn.KpnError, 'give `trace=True`', call)
        self.assertIsNone(result._repr_svg_())

    def test_a_stream_without_tables(self):
        with doubling().stream(timeout=60) as live:
            result = live.finish()
        self.assertRaisesRegex(kpn.KpnError, 'and no tables: give `stats=True` to `net.stream`', lambda: result.stats)

    def test_the_folder_goes_with_the_result(self):
        result = example('two').run(trace=True)
        path = pathlib.Path(result.trace().path)
        self.assertTrue(path.exists())
        del result
        self.assertFalse(path.parent.exists())

    def test_copies(self):
        """They have the trace too, also once the first result has gone, and in another process."""
        with tempfile.TemporaryDirectory() as folder:
            for trace in (True, pathlib.Path(folder, 'two.trace')):
                result = example('two').run(trace=trace)
                wanted = (dict(result), result.outcome, result.complete, result.stats, result.explain(), result.dot(),
                          list(result.trace()), result.check().waits)
                kept = pickle.dumps(result)
                copies = [copy.copy(result), copy.deepcopy(result)]
                folder_of_result = result._folder.path
                del result
                self.assertTrue(os.path.exists(folder_of_result))
                for it in (*copies, pickle.loads(kept)):
                    self.assertEqual((dict(it), it.outcome, it.complete, it.stats, it.explain(), it.dot(),
                                      list(it.trace()), it.check().waits), wanted)
                del copies, it
                self.assertFalse(os.path.exists(folder_of_result))
        with doubling().stream(timeout=60) as live:
            result = pickle.loads(pickle.dumps(live.finish()))
        self.assertEqual((result.outcome, result.complete), ('ended', {'y': True}))

    def test_a_forked_process_leaves_the_folder(self):
        result = example('two').run(trace=True)
        child = os.fork()
        if child == 0:
            try:
                del result
                gc.collect()
            finally:
                os._exit(0)
        os.waitpid(child, 0)
        self.assertEqual(len(result.stats.processes), 2)

    def test_a_large_network(self):
        """It is too long to be gone through from one stream to the next."""
        net = kpn.Network()
        stream = net.source('x')
        for _ in range(250):
            stream = parts.offset(stream, 1)
        net.sink('y', stream)
        result = pickle.loads(pickle.dumps(net.run([1])))
        self.assertEqual(result['y'], [251])

    def test_a_named_trace_stays(self):
        with tempfile.TemporaryDirectory() as folder:
            path = pathlib.Path(folder, 'two.trace')
            example('two').run(trace=path)
            self.assertTrue(path.read_text().startswith('kpn-trace 2\n'))


class Programs(unittest.TestCase):
    def program(self, folder, text):
        """A program that is a script."""
        path = pathlib.Path(folder, 'program')
        path.write_text(f'#!/bin/sh\n{text}\n')
        path.chmod(stat.S_IRWXU)
        return path

    def test_which_program(self):
        with unittest.mock.patch.dict(os.environ, {'KPN_PROGRAM': PROGRAM}):
            self.assertEqual(kpn.find_program(), PROGRAM)
            with tempfile.TemporaryDirectory() as folder:
                path = self.program(folder, 'exit 0')
                self.assertEqual(kpn.find_program(path), str(path))
                self.assertRaisesRegex(kpn.KpnError, 'no program', kpn.find_program, folder)

    def test_no_program(self):
        missing = pathlib.Path('/nowhere')
        with unittest.mock.patch.dict(os.environ, {'PATH': '/nowhere'}), \
                unittest.mock.patch('kpn.program.BUILT', missing), \
                unittest.mock.patch('kpn.program.UNPROVED', missing):
            os.environ.pop('KPN_PROGRAM', None)
            self.assertRaisesRegex(kpn.KpnError, 'no program `kpn`: build it by .* name one by', doubling().run, [1])
            with unittest.mock.patch('kpn.program.UNPROVED', pathlib.Path(PROGRAM)):
                self.assertRaisesRegex(kpn.KpnError, f'the unproved one, {PROGRAM}, by KPN', doubling().run, [1])

    def test_a_program_that_fails(self):
        with tempfile.TemporaryDirectory() as folder:
            path = self.program(folder, 'echo "kpn: 42 NoMemory" >&2; exit 6')
            with self.assertRaises(kpn.KpnError) as caught:
                doubling().run([1], program=path)
            self.assertEqual(caught.exception.error, '42 NoMemory')

    def test_a_program_that_is_killed(self):
        with tempfile.TemporaryDirectory() as folder:
            path = self.program(folder, 'kill -9 $$')
            self.assertRaisesRegex(kpn.KpnError, 'was killed by signal 9$', doubling().run, [1], program=path)

    def test_a_program_that_tells_nothing(self):
        with tempfile.TemporaryDirectory() as folder:
            for said in (':', 'echo waits for ended', 'echo is this it'):
                path = self.program(folder, 'for word; do case $word in *.sink) : > "${word#*=}";; esac; done\n' + said)
                self.assertRaisesRegex(kpn.KpnError, 'has told no outcome', doubling().run, [1], program=path)
                with doubling().stream(timeout=60, program=path) as live:
                    self.assertRaisesRegex(kpn.KpnError, 'has told no outcome', live.finish)

    def test_a_program_that_is_none(self):
        with tempfile.TemporaryDirectory() as folder:
            path = self.program(folder, '')
            path.write_text('no program')
            self.assertRaisesRegex(kpn.KpnError, f'{path} does not run: Exec format', doubling().run, [1], program=path)

    def test_why_a_run_was_refused_is_asked_in_time(self):
        with tempfile.TemporaryDirectory() as folder:
            path = self.program(folder, 'case $3 in explain) exec sleep 60;; esac\n'
                                        'echo "kpn: 21 Grammar at 3" >&2; exit 1')
            self.assertRaisesRegex(kpn.KpnError, '`kpn explain` had not ended after 3 seconds', doubling().run, [1],
                                   program=path, timeout=3)

    def test_a_program_that_does_not_end(self):
        with tempfile.TemporaryDirectory() as folder:
            path = self.program(folder, 'exec sleep 60')
            self.assertRaisesRegex(kpn.KpnError, 'had not ended after 0.2 seconds', doubling().run, [1], program=path,
                                   timeout=0.2)


if __name__ == '__main__':
    unittest.main()
