"""Dataflow graphs: what is computed of them, against plain counting and runs of `kpn`; files and pictures."""
import contextlib
import csv
import io
import math
import pathlib
import random
import re
import tempfile
import unittest
import unittest.mock
import xml.etree.ElementTree
from fractions import Fraction

import plain_graphs
from support import TOP, kpn

from kpn import parts, sdf

FILES = TOP / 'examples/sdf'
PAGE = (TOP / 'python/SDF.md').read_text()
CYCLE = (('a', 'b', 2, 3), ('b', 'c', 1, 1), ('c', 'a', 3, 2))


def graph_of(*channels, times=None):
    """A graph with these channels, and actors as they come."""
    graph = sdf.Graph('small')
    for name in dict.fromkeys(name for it in channels for name in it[:2]):
        graph.actor(name, (times or {}).get(name, 1))
    for it in channels:
        graph.channel(*it)
    return graph


def published(name):
    """A graph of examples/sdf/."""
    return sdf.Graph.read(FILES / f'{name}.xml')


class Balance(unittest.TestCase):
    def test_the_repetition_vector_counts_firings(self):
        self.assertEqual(published('cd2dat').repetition, dict(zip('abcdef', (147, 147, 98, 28, 32, 160))))
        self.assertEqual(graph_of(('a', 'b', [1, 2], [1, 0, 0])).repetition, {'a': 2, 'b': 9})
        self.assertEqual(sdf.Graph().repetition, {})

    def test_channels_that_contradict_one_another(self):
        for graph, names, words in (
                (graph_of(('a', 'b', 2, 3), ('b', 'c'), ('c', 'd'), ('d', 'b', 4, 2), ('a', 'e')),
                 ['b_c', 'c_d', 'd_b'], '`d_b` needs 1 x b = 2 x d'),
                (graph_of(('a', 'a', 2, 1)), ['a_a'], 'the rates of 1 channel contradict'),
                (graph_of(('a', 'b', [1, 2], 1), ('a', 'b', 1, 1)), ['a_b', 'a_b_2'], 'in cycles of phases')):
            with self.assertRaises(sdf.Inconsistent) as caught:
                graph.repetition
            self.assertEqual(sorted(it.name for it in caught.exception.channels), names)
            self.assertIn(words, str(caught.exception))

    def test_wrong_words(self):
        graph = graph_of(('a', 'b'))
        for call, error, words in (
                (lambda: graph.actor('a'), kpn.KpnError, 'has an actor `a` already'),
                (lambda: graph.actor('c', -1), kpn.KpnError, 'the time of `c` is -1'),
                (lambda: graph.actor('c', 1.5), TypeError, 'whole number'),
                (lambda: graph.actor('c', []), kpn.KpnError, 'empty list'),
                (lambda: graph.actor('a\nb'), kpn.KpnError, 'is no name'),
                (lambda: graph.channel('a', 'x'), kpn.KpnError, 'no actor `x`'),
                (lambda: graph.channel('a', 'b', name='a_b'), kpn.KpnError, 'has a channel `a_b` already'),
                (lambda: graph.channel('a', 'b', 0, 1), kpn.KpnError, 'nobody puts'),
                (lambda: graph.channel('a', 'b', 1, [0, 0]), kpn.KpnError, 'nobody gets'),
                (lambda: graph.channel('a', 'b', tokens=3, capacity=2), kpn.KpnError, 'at least 3'),
                (lambda: graph.with_capacities({'x': 1}), kpn.KpnError, 'no channel `x`'),
                (lambda: graph.throughput(by='token'), kpn.KpnError, "'firing' or 'item'"),
                (lambda: graph.throughput().of('x'), kpn.KpnError, 'no actor `x`'),
                (lambda: graph.least_capacities(2), kpn.KpnError, 'the most is 1 iterations'),
                (lambda: graph.least_capacities('fast'), kpn.KpnError, "above 0, as 1/4, or 'most'"),
                (lambda: graph.network(body='x'), kpn.KpnError, "'count', 'sum' or a dict"),
                (lambda: graph.network(outputs=['x']), kpn.KpnError, 'no actor `x`')):
            with self.subTest(words), self.assertRaisesRegex(error, re.escape(words)):
                call()


class Computed(unittest.TestCase):
    def test_random_graphs_by_plain_counting_and_runs(self):
        kinds = [plain_graphs.compare(self, plain_graphs.random_graph(random.Random(seed), 3, 3), seed % 2 == 0)
                 for seed in range(12)]
        self.assertEqual(set(kinds), {'live', 'deadlock'})

    def test_a_deadlock_and_the_tokens_that_free_it(self):
        ring = graph_of(*CYCLE).deadlock()
        self.assertEqual(ring.ring, [('a', 'c_a', False, 2), ('c', 'b_c', False, 1), ('b', 'a_b', False, 3)])
        self.assertEqual((sum(ring.tokens.values()), ring.exact), (2, True))
        self.assertIn('a lacks 2 tokens on c_a, c lacks 1 token on b_c', str(ring))
        with self.assertRaisesRegex(kpn.KpnError, 'more initial tokens free'):
            graph_of(*CYCLE).schedule()
        with self.assertRaisesRegex(kpn.KpnError, 'no capacities are enough'):
            graph_of(*CYCLE).least_capacities()
        tight = published('three').with_capacities({'a_b': 3})
        self.assertEqual((tight.deadlock().tokens, tight.deadlock().ring[0].for_room), ({}, True))
        self.assertRegex(str(tight.deadlock()), 'a lacks room for 1 token on a_b, .*larger capacities free it')

    def test_the_curve_of_a_published_example(self):
        curve = published('three').pareto()
        self.assertEqual([(it.total, it.throughput) for it in curve.points],
                         [(6, Fraction(1, 7)), (8, Fraction(1, 6)), (9, Fraction(1, 5)), (10, Fraction(1, 4))])
        self.assertTrue(curve.exact)
        found = published('three').least_capacities('1/6')
        self.assertEqual((found.total, found.throughput, found.exact), (8, Fraction(1, 6), True))
        self.assertEqual(published('three').throughput(found).of('a'), Fraction(1, 2))

    def test_least_capacities_of_published_graphs(self):
        for name, by, total in (('cd2dat', 'firing', 32), ('cd2dat', 'item', 5), ('h263decoder', 'firing', 4753)):
            graph = published(name)
            least = graph.least_capacities(by=by)
            self.assertEqual((least.total, least.exact), (total, True))
        self.assertEqual(graph.cycle_ratio(least).time, 1 / least.throughput)

    def test_a_run_confirms_least_capacities_only(self):
        graph = published('three')
        self.assertIn('2 runs with one token less', graph.confirm(graph.least_capacities()))
        with self.assertRaisesRegex(kpn.KpnError, '6 on `a_b` ends as well'):
            graph.confirm({'a_b': 7, 'b_c': 2})
        with self.assertRaisesRegex(kpn.KpnError, 'deadlocks after the firings'):
            graph.confirm({'a_b': 3, 'b_c': 2})

    def test_without_time_it_is_not_exact(self):
        graph = graph_of(('a', 'b', 3, 5), ('a', 'c', 2, 3), ('c', 'b', 9, 10, 1), times={'b': 3})
        exact, quick = graph.least_capacities('most'), graph.least_capacities('most', limit=0)
        self.assertEqual((exact.exact, quick.exact), (True, False))
        self.assertTrue(quick.at_least <= exact.total <= quick.total)
        self.assertGreaterEqual(quick.throughput, exact.throughput)
        curve = graph.pareto(limit=0)
        self.assertEqual((curve.exact, len(curve.points)), (False, 0))

    def test_parts_that_nothing_binds_and_graphs_without_times(self):
        graph = graph_of(('a', 'a', 1, 1, 1), ('a', 'b', 1, 2), ('b', 'b', 1, 1, 1), times={'a': 1, 'b': 5})
        found = graph.throughput()
        self.assertEqual((found.rate, found.part, found.period), (Fraction(1, 5), ('b',), 5))
        graph = graph_of(('a', 'b'), ('b', 'a', 1, 1, 2), times={'a': 0, 'b': 0})
        self.assertEqual((graph.throughput().rate, graph.cycle_ratio().time), (math.inf, 0))
        self.assertEqual(graph.least_capacities('most').total, 3)
        with self.assertRaisesRegex(kpn.KpnError, 'nothing in the graph takes time'):
            graph.gantt()

    def test_phases_become_one_firing(self):
        graph = graph_of(('a', 'b', [1, 2], [3, 0], 4), times={'a': [1, 2]})
        lumped = graph.lumped()
        self.assertEqual((lumped.actors['a'].times, lumped.actors['b'].times), ((3,), (2,)))
        self.assertEqual((lumped.channels['a_b'].puts, lumped.channels['a_b'].gets), ((3,), (3,)))


class Networks(unittest.TestCase):
    def test_numbers_sums_and_bodies_of_a_user(self):
        graph = graph_of(('a', 'b', 2, 3, 1), ('b', 'c', [1, 0], 1)).with_capacities({'a_b': 6})
        numbered = graph.network(2, outputs=['c'])
        result = numbered.run(trace=True)
        self.assertEqual(result['c'], list(range(graph.repetition['c'] * 2)))
        audit = graph.check(result)
        self.assertEqual(audit.firings, {name: 2 * count for name, count in graph.repetition.items()})
        self.assertEqual((audit.rings, audit.audited), ([], 'legal, exact'))
        self.assertLessEqual(audit.most['a_b'], 6)
        summed = graph.network(1, 'sum', 'item', inputs=['a'], outputs=['b']).run(range(10), trace=True)
        self.assertEqual(summed['b'], [0 + 1 + 1 + 1, 2 + 2 + 3 + 1])
        self.assertEqual(graph.check(summed, 'item').firings, graph.repetition)
        own = graph.network(1, {'a': 'a_b[0] = item; a_b[1] = item * 10;', 'b': 'result = a_b[0] + a_b[1] + a_b[2];'},
                            inputs=['a'], outputs=['b']).run([1, 2, 3], trace=True)
        self.assertEqual(own['b'], [0 + 1 + 10, 2 + 20 + 3])
        graph.check(own)

    def test_names_that_the_language_does_not_take(self):
        graph = graph_of(('in', '2b', 1, 1, 0, 2, 'a long name with blanks, and more of them'), ('in', 'é', 2, 1))
        result = graph.network().run(trace=True)
        self.assertEqual(graph.check(result).firings, {'in': 1, '2b': 1, 'é': 2})

    def test_an_audit_refuses_other_runs(self):
        graph = graph_of(('a', 'b', 2, 3), times={'a': 1}).with_capacities({'a_b': 4})
        for other, by, words in (
                (graph.with_capacities({'a_b': 5}), 'firing', '`b` has a put on a_b_room, and firing 0'),
                (graph, 'item', '`a` has a put on a_b, and firing 0'),
                (graph_of(('a', 'b', 1, 3)).with_capacities({'a_b': 4}), 'firing', 'has a put on a_b'),
                (graph_of(('a', 'c', 2, 3)).with_capacities({'a_c': 4}), 'firing', 'of another network'),
                (graph.without_capacities(), 'firing', 'of another network')):
            with self.subTest(words), self.assertRaisesRegex(kpn.KpnError, words):
                graph.check(other.network(by=by).run(trace=True))
        faulty = graph.network(body={'a': 'result = 1 / (1 - firing);'}).run(trace=True)
        with self.assertRaisesRegex(kpn.KpnError, 'zero-divisor'):
            graph.check(faulty)
        with self.assertRaisesRegex(kpn.KpnError, 'no trace'):
            graph.check(graph.network().run())

    def test_silent_firings_are_counted(self):
        graph = graph_of(('a', 'b', [0, 1, 0], [1, 0]), times={'a': [0, 0, 1]}).with_capacities({'a_b': 1})
        self.assertEqual(graph.check(graph.network(3).run(trace=True)).firings, {'a': 9, 'b': 6})


class Found(unittest.TestCase):
    def test_the_graph_of_a_network_has_its_ticks(self):
        net = kpn.Network()
        left, right = parts.fork(net.source('x'))
        right = parts.delay(parts.hold(parts.downsample(right, 3), 2), 2)
        net.sink('y', parts.add(parts.downsample(parts.fir(left, [1, 2, 3]), 3), parts.downsample(right, 2)))
        graph = sdf.Graph.of(net)
        self.assertEqual(graph.channels['delay'].tokens, 2)
        self.assertEqual(graph.lumped().repetition, dict(fork=3, fir=3, downsample=1, hold=1, delay=2, add=1,
                                                         downsample_2=1, downsample_3=1))
        for capacities in ({}, graph.least_capacities('most').capacities):
            tuned = net.tuned(capacities)
            result = tuned.run(list(range(600)), trace=True)
            wanted = sdf.Graph.of(tuned).throughput().of('add') / 3
            self.assertAlmostEqual(result.ticks_per_item['y'], float(1 / wanted), delta=0.05)
            self.assertEqual([row['growths'] for row in result.stats.channels if row['growths']], [])

    def test_a_process_without_constant_rates(self):
        for text, words in (
                ('while 1 { read i x; if x { write o x; } else { } }', 'no constant rates'),
                ('read i x; while 1 { read i y; write o y; }', 'gets from its port `i` before its period'),
                ('read i x; write o x;', 'no constant rates'),
                ('write o 1; write o 2; while 1 { write o 0; read i x; }', 'puts more than fits on')):
            net = kpn.Network()
            copied = kpn.Process.from_text(f'process copied(in i; out o) {{ {text} }}')(net.source('s'))
            net.sink('z', parts.gain(copied, 1))
            with self.subTest(text), self.assertRaisesRegex(kpn.KpnError, f'`copied` {words}|`copied` has {words}'):
                sdf.Graph.of(net)

    def test_periods_are_found_in_inner_loops_and_tables(self):
        net = kpn.Network()
        process = kpn.Process.from_text('''language 2; process p(in i; out o; par n) { table t = 1, 0, 2;
            read i x; while 1 { k = 0; while k < 3 { j = t[k] * n / 2; while j > 0 { write o x; j = j - 1; }
            read i x; k = k + 1; } } }''')
        net.sink('z', parts.gain(process(parts.gain(net.source('s'), 1), 4), 1))
        graph = sdf.Graph.of(net)
        self.assertEqual(graph.channels['p'].puts, (0, 1, 1, 0, 0, 1, 1, 1, 1))
        self.assertEqual(graph.channels['gain'].gets, (1, 0, 0, 1, 1, 0, 0, 0, 0))


class Files(unittest.TestCase):
    def test_graphs_are_read_as_they_were_written(self):
        with tempfile.TemporaryDirectory() as folder:
            path = pathlib.Path(folder, 'graph.xml')
            for seed in range(30):
                graph = plain_graphs.random_graph(random.Random(seed))
                graph = graph.with_capacities({it.name: it.tokens + 3 for it in graph.channels.values() if seed % 2})
                graph.write(path)
                again = sdf.Graph.read(path)
                again.write(path)
                self.assertEqual(vars(sdf.Graph.read(path)), vars(again))
                self.assertEqual((again.repetition, again.throughput().rate),
                                 (graph.repetition, graph.throughput().rate))
                self.assertEqual([(it.tokens, it.capacity) for it in again.channels.values()],
                                 [(it.tokens, it.capacity) for it in graph.channels.values()])

    def test_a_full_device_and_an_old_file(self):
        with self.assertRaises(OSError):
            published('three').write('/dev/full')
        with tempfile.TemporaryDirectory() as folder:
            path = pathlib.Path(folder, 'old.xml')
            path.write_text('old')
            with unittest.mock.patch('pathlib.Path.write_bytes', side_effect=OSError), self.assertRaises(OSError):
                published('three').write(path)
            self.assertEqual((path.read_text(), list(path.parent.iterdir())), ('old', [path]))

    def test_each_published_graph_says_its_source(self):
        for file in FILES.iterdir():
            self.assertRegex(file.read_text(), r'(?s)<!--.*\d{4}.*-->')
            self.assertEqual(sdf.Graph.read(file).name, file.stem)

    def test_wrong_files_name_their_place(self):
        right = (FILES / 'three.xml').read_text()
        for old, new, words in (
                ('</sdf3>', '', r'line \d+, column \d+ is no XML'),
                ('sdf3', 'svg', 'it begins with <svg>'),
                ('type="sdf"', 'type="fsmsadf"', '`fsmsadf`: only `sdf` and `csdf`'),
                ('rate="3"', 'rate="3,1"', '<port> `a_b_in` is a list'),
                ('rate="3"', 'rate="x"', '`rate` of <port> `a_b_in` is `x`'),
                ('rate="3"', '', '<port> `a_b_in` has no `rate`'),
                ('dstPort="b_c_in"', 'dstPort="none"', 'the channel `b_c` is at the port `none` of the actor `c`'),
                ('time="1"', 'time="-1"', '`time` of <executionTime> is `-1`'),
                ('<actor name="c"', '<actor name="b"', 'an actor `b` already'),
                ('<sdf name="three" type="three">', '<sdf>', None)):
            with self.subTest(words), tempfile.TemporaryDirectory() as folder:
                path = pathlib.Path(folder, 'wrong.xml')
                path.write_text(right.replace(old, new))
                if words is None:
                    self.assertEqual(sdf.Graph.read(path).name, 'sdf')
                    continue
                with self.assertRaisesRegex(kpn.KpnError, f'wrong.xml: .*{words}'):
                    sdf.Graph.read(path)
        with self.assertRaises(FileNotFoundError):
            sdf.Graph.read(FILES / 'nothing.xml')

    def test_times_of_a_processor(self):
        text = (FILES / 'three.xml').read_text().replace(
            '</processor>', '</processor><processor type="dsp"><executionTime time="7"/></processor>')
        with tempfile.TemporaryDirectory() as folder:
            path = pathlib.Path(folder, 'two.xml')
            path.write_text(text)
            self.assertEqual(sdf.Graph.read(path).actors['b'].times, (2,))
            self.assertEqual(sdf.Graph.read(path, 'dsp').actors['b'].times, (7,))
            with self.assertRaisesRegex(kpn.KpnError, 'no processor `arm`'):
                sdf.Graph.read(path, 'arm')


class Pictures(unittest.TestCase):
    def test_the_schedule_as_a_picture(self):
        graph = published('three')
        gantt = graph.gantt(capacities={'a_b': 4, 'b_c': 2})
        self.assertEqual([it[2:] for it in gantt.firings if it.actor == 'b'][:3], [(2, 4), (5, 7), (9, 11)])
        self.assertEqual((gantt.transient, gantt.period, gantt.time), (9, 7, 23))
        root = xml.etree.ElementTree.fromstring(gantt.svg())
        titles = [it.text for it in root.iter('{http://www.w3.org/2000/svg}title')]
        self.assertEqual(len(titles), len(gantt.firings))
        self.assertIn('b, firing 1: 5 to 7', titles)
        self.assertLess(max(it.start for it in graph.gantt(5).firings), 5)
        long = published('cd2dat').gantt(3_000)
        self.assertGreater(len(long.firings), 10_000)
        self.assertLess(len(long.svg()), 500_000)

    def test_a_curve_and_a_graph_as_pictures(self):
        root = xml.etree.ElementTree.fromstring(published('three').pareto().svg())
        self.assertEqual([it.text for it in root.iter('{http://www.w3.org/2000/svg}title')],
                         ['6 tokens: 1/7', '8 tokens: 1/6', '9 tokens: 1/5', '10 tokens: 1/4'])
        dot = graph_of(('a "quoted"', 'b', [1, 2], 3, 4, 9)).dot()
        self.assertIn('"a \\"quoted\\"" -> "b" [label="a \\"quoted\\"_b\\n● 4\\n≤ 9", taillabel="1,2", headlabel="3"]',
                      dot)

    def test_a_graph_of_networkx(self):
        try:
            import networkx
        except ImportError:
            self.skipTest('networkx is not there')
        made = published('three').networkx()
        self.assertTrue(networkx.is_directed_acyclic_graph(made))
        self.assertEqual(made.edges['a', 'b', 'a_b']['gets'], (3,))

    def test_without_networkx(self):
        with unittest.mock.patch.dict('sys.modules', {'networkx': None}):
            with self.assertRaisesRegex(kpn.KpnError, 'pip install networkx'):
                published('three').networkx()


def run_of(text, items=None):
    """A run of a text with a trace."""
    return kpn.Network.from_text(text).run(items, trace=True)


class Exports(unittest.TestCase):
    def test_the_waveform_has_each_item_at_its_tick(self):
        result = run_of('process p(in i; out o) { while 1 { read i x; write o -x; } } network '
                        '{ source s; channel c cap 2; sink z cap 1; p = p(s; c); q = p(c; z); }', [1, -2, 3])
        at, now, names = {}, 0, {}
        for line in result.vcd().splitlines():
            words = line.split()
            if words[0] == '$var':
                names[words[3]] = words[4]
            elif line.startswith('#'):
                now = int(line[1:])
            elif line.startswith('b') and 'x' not in words[0]:
                at.setdefault(names[words[1]], []).append((now, int(words[0][1:], 2)))
        puts = [(it['ts'] + 1, it['args']['item']) for it in kpn.exports.marks_of(result) if it['name'] == 'put c']
        self.assertEqual(at['c'], [(tick, item % 2 ** 64) for tick, item in puts])
        self.assertEqual([item for _, item in at['s']], [1, 2 ** 64 - 2, 3])
        self.assertEqual(at['c_unread'][0], (0, 0))
        self.assertEqual(now, result.ticks + 1)

    def test_many_channels_have_different_identifiers(self):
        made = [kpn.exports.identifier(it) for it in range(20_000)]
        self.assertEqual(len(set(made)), 20_000)
        self.assertTrue(all(33 <= ord(mark) <= 126 for it in made for mark in it))

    def test_the_table_has_each_event(self):
        result = run_of((TOP / 'examples/two.kpn').read_text())
        head, *rows = csv.reader(io.StringIO(result.csv()))
        self.assertEqual(head, ['event', 'kind', 'process', 'channel', 'value', 'tick'])
        self.assertEqual([row[1:5] for row in rows],
                         [['' if it is None else str(it) for it in event] for event in result.trace()])
        self.assertEqual([row[5] for row in rows if row[5]], ['1', '2', '3', '4', '5', '6', '7'])

    def test_a_figure_of_any_length(self):
        result = run_of((TOP / 'examples/two.kpn').read_text())
        titles = [it.text for it in xml.etree.ElementTree.fromstring(result.figure()).iter() if 'title' in it.tag]
        self.assertIn('waits b, ticks 1 to 3', titles)
        self.assertIn('put z: item 312, tick 7', titles)
        self.assertIn('a grows', titles)
        text = (TOP / 'examples/copy.kpn').read_text()
        long = run_of(text, range(3_000))
        with self.assertRaises(kpn.KpnError):
            long.svg()
        self.assertLess(len(long.figure()), 200_000)
        part = xml.etree.ElementTree.fromstring(long.figure(11, 20))
        self.assertEqual(sum('title' in it.tag for it in part.iter()), 12)
        for first, last in ((0, 5), (5, 4)):
            with self.assertRaisesRegex(kpn.KpnError, 'have to be from 1'):
                long.figure(first, last)

    def test_an_audit_says_whether_the_run_has_ended(self):
        self.assertEqual(run_of((TOP / 'examples/two.kpn').read_text()).audit(), 'legal, exact')
        net = kpn.Network.from_text((TOP / 'examples/worked/spin.kpn').read_text())
        self.assertEqual(net.run(max_commits=3, trace=True).audit(), 'legal')


class Page(unittest.TestCase):
    def test_what_the_page_shows_comes_out(self):
        names = {'__name__': 'page'}
        for code in re.findall(r'```python\n(.*?)```', PAGE, re.S):
            with contextlib.redirect_stdout(io.StringIO()) as out:
                exec(code.replace("'examples/", f"'{TOP}/examples/"), names)
            wanted = [line.split('# ', 1)[1] for line in code.splitlines() if line.strip().startswith('print(')]
            self.assertEqual(out.getvalue().splitlines(), wanted)


if __name__ == '__main__':
    unittest.main()
