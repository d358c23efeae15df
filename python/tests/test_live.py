"""Runs by `kpn stream`, which are fed and read while they go on."""
import copy
import os
import pathlib
import random
import resource
import signal
import subprocess
import sys
import tempfile
import threading
import time
import unittest
import unittest.mock

import fuzz_live
from support import TOP, kpn

from kpn import gallery, parts
from kpn.running import report_of

# What no call of these tests comes near to; it ends a test that hangs.
LONG = 60
# More items than a pipe holds.
MANY = 100_000
# What each program that is written below begins with.
HEAD = f"""
import os, signal, sys
sys.path.insert(0, {str(TOP / 'python')!r})
import kpn
def network(text):
    return kpn.Network.from_text(text)
DOUBLING = network("process p(in i; out o) {{ while 1 {{ read i x; write o (x * 2); }} }} "
                   "network {{ source x; sink y cap 1; p = p(x; y); }}")
SPINNING = network("process p(out o) {{ while 1 {{ }} write o 1; }} network {{ sink y cap 1; p = p(; y); }}")
"""


def doubling():
    """A network that doubles the items of `x`."""
    net = kpn.Network()
    net.sink('y', parts.gain(net.source('x'), 2))
    return net


def swallowing():
    """A network that reads the items of `x` and writes none of them to `y`."""
    net = kpn.Network()
    net.sink('y', parts.drop(net.source('x'), 10**9))
    return net


def descriptors():
    """The numbers of the open descriptors."""
    return {*os.listdir('/proc/self/fd')}


def started(text, **how):
    """A program in Python, begun in a session of its own."""
    return subprocess.Popen([sys.executable, '-c', HEAD + text], stdout=subprocess.PIPE, stderr=subprocess.PIPE,
                            text=True, start_new_session=True, **how)


class Streams(unittest.TestCase):
    def test_200_random_chunkings(self):
        for seed in range(200):
            numbers = random.Random(seed)
            items = [numbers.randint(-99, 99) for _ in range(numbers.randrange(300))]
            with self.subTest(seed=seed), doubling().stream(timeout=LONG) as live:
                fed, found = 0, []
                while fed < len(items):
                    chunk = items[fed:fed + numbers.randrange(40)]
                    live.feed(chunk)
                    fed += len(chunk)
                    if numbers.randrange(2):
                        found += live.read(numbers.randrange(fed - len(found) + 1))
                result = live.finish()
                self.assertEqual(found + result['y'], [2 * it for it in items])
                self.assertEqual((result.outcome, result.complete), ('ended', {'y': True}))

    def test_each_item_comes_before_the_next_is_fed(self):
        with doubling().stream(timeout=LONG) as live:
            for it in range(100):
                live.feed([it])
                self.assertEqual(live.read(1), [2 * it])

    def test_large_chunks_do_not_block(self):
        items = list(range(50_000))
        with doubling().stream(timeout=LONG) as live:
            live.feed(items)
            live.feed(items)
            self.assertEqual(live.read(75_000)[-1], 49_998)
            live.close()
            self.assertEqual(len(live.read()), 25_000)

    def test_sources_and_sinks_by_name(self):
        net = kpn.Network(auto_fork=True)
        a, b = net.source('a'), net.source('b')
        total = parts.add(a, b)
        net.sink('sum', total)
        net.sink('double', parts.gain(total, 2))
        with net.stream(timeout=LONG) as live:
            self.assertRaisesRegex(kpn.KpnError, 'has 2 sources: name the one', live.feed, [1])
            self.assertRaisesRegex(kpn.KpnError, 'has no sink `a`', live.read, 1, 'a')
            live.feed([5, 6], 'a')
            live.feed([1], source='b')
            self.assertEqual((live.read(1, 'sum'), live.read(1, sink='double')), ([6], [12]))
            live.close('b')
            self.assertRaisesRegex(kpn.KpnError, 'closed already', live.feed, [1], 'b')
            self.assertEqual(dict(live.finish()), {'sum': [], 'double': []})

    def test_a_time_out_loses_nothing(self):
        with doubling().stream(timeout=0.05) as live:
            live.feed([1])
            self.assertEqual(live.read(1, timeout=LONG), [2])
            self.assertRaises(TimeoutError, live.read, 2)
            live.feed([2])
            self.assertRaises(TimeoutError, live.read, 2)
            live.feed([3])
            self.assertEqual(live.read(2, timeout=LONG), [4, 6])

    def test_a_reader_that_stops(self):
        begun = time.monotonic()
        net = kpn.Network()
        net.sink('y', parts.count(net))
        with net.stream(timeout=LONG) as live:
            self.assertEqual(live.read(3), [0, 1, 2])
            live.leave()
        with net.stream(timeout=LONG) as live:
            self.assertEqual(live.read(3), [0, 1, 2])
        self.assertLess(time.monotonic() - begun, LONG)

    def test_take(self):
        net = kpn.Network()
        net.sink('y', parts.count(net))
        with net.stream(take=5, timeout=LONG) as live:
            self.assertEqual(live.finish()['y'], [0, 1, 2, 3, 4])

    def test_a_program_that_is_killed(self):
        with doubling().stream(timeout=LONG) as live:
            live.feed([1])
            self.assertEqual(live.read(1), [2])
            os.kill(live._process.pid, signal.SIGKILL)
            self.assertRaisesRegex(kpn.KpnError, 'killed by signal 9', live.read, 1)

    def test_a_network_that_is_refused(self):
        net = kpn.Network()
        net.sink('y', kpn.Process.from_text('process p(in i; out o) { read i x; write o z; }')(net.source('x')))
        with net.stream(timeout=LONG) as live:
            with self.assertRaises(kpn.KpnError) as caught:
                live.read(1)
            self.assertEqual(caught.exception.place.what, 'process `p`')

    def test_a_fault(self):
        with doubling().stream(timeout=LONG) as live:
            live.feed([1, 2**62, 3])
            result = live.finish()
            self.assertEqual((result['y'], result.faults), ([2], {'gain': 'overflow'}))
        self.assertEqual(result.fault_places['gain'].values, {'x': 2**62, 'k': 2})
        with self.assertRaisesRegex(kpn.KpnError, '`gain` ended by a fault: overflow in `x . k` .process `gain`, .*'
                                                  f' with x = {2**62}, k = 2'):
            copy.deepcopy(result).check()

    def test_where_a_fault_was(self):
        """It is told whatever was fed later and was not read, if the first bytes that were fed come to it."""
        for before, behind, kept, place in ((0, 0, 99, 'x'), (7, MANY, 9_999, 'x'), (MANY, 3, MANY, ''), (0, 0, 9, '')):
            with unittest.mock.patch('kpn.live.KEPT', kept), doubling().stream(timeout=LONG) as live:
                live.feed([0] * before)
                live.feed([1, 2])
                self.assertEqual(len(live.read(before + 2)), before + 2)
                live.feed([2**62] + [3] * behind)
                live.feed([4] * behind)
                result = live.finish()
                self.assertEqual((result['y'], result.faults), ([], {'gain': 'overflow'}))
                values = {'gain': {'x': 2**62, 'k': 2}} if place else {}
                self.assertEqual({name: it.values for name, it in result.fault_places.items()}, values)
        net = kpn.Network.from_text('process p(out o) { write o (1 / (3 - 3)); } network { sink y cap 1; p = p(; y); }')
        with net.stream(timeout=LONG) as live:
            self.assertEqual(list(live.finish().fault_places), ['p'])

    def test_the_gallery(self):
        for name, module in gallery.GALLERY.items():
            given = module.inputs(2_000)
            with self.subTest(name), module.build().stream(timeout=LONG) as live:
                for source, items in given.items():
                    live.feed(items, source)
                self.assertEqual(dict(live.finish().check()), module.expected(given))

    def test_a_random_short_form(self):
        fuzz_live.fuzz(150)


class Endings(unittest.TestCase):
    """How runs end whose sinks were left, and that nothing waits beyond its time."""

    def test_all_sinks_are_left(self):
        net = kpn.Network()
        net.sink('y', parts.count(net))
        with net.stream(timeout=LONG) as live:
            self.assertEqual(live.read(3), [0, 1, 2])
            live.leave()
            result = live.finish()
        self.assertEqual((result.outcome, result.complete), (None, {'y': False}))
        self.assertRegex(repr(result), '<Result None: [0-9]+ items of y>')
        self.assertRaisesRegex(kpn.KpnError, 'all sinks were left before the run had an outcome; the sink `y` is not',
                               result.check)

    def test_a_sink_that_is_left_is_complete_if_all_of_it_came(self):
        net = kpn.Network(auto_fork=True)
        x = net.source('x')
        net.sink('y', parts.gain(x, 2))
        net.sink('z', parts.gain(x, 3))
        for count, is_complete in ((3, True), (2, False)):
            with net.stream(timeout=LONG) as live:
                live.feed([1, 2])
                self.assertEqual((live.read(2, 'y'), live.read(2, 'z')), ([2, 4], [3, 6]))
                if not is_complete:
                    live.leave('y')
                live.feed([3])
                self.assertEqual(live.read(1, 'z'), [9])
                if is_complete:
                    self.assertEqual(live.read(1, 'y'), [6])
                    live.leave('y')
                result = live.finish()
                self.assertEqual((result.outcome, result.complete), ('ended', {'y': is_complete, 'z': True}))

    def test_enough_without_a_sink_that_is_left(self):
        net = kpn.Network()
        net.sink('y', parts.count(net))
        net.sink('z', parts.count(net))
        with net.stream(take=1_000, timeout=LONG) as live:
            live.leave('z')
            result = live.finish()
        # If the program has seen that `z` was left before its items were enough, all sinks were left and it tells none.
        self.assertIn(result.outcome, ('enough', None))
        self.assertEqual(len(result['y']), 1_000)
        self.assertRaisesRegex(kpn.KpnError, 'the sink `z` is not complete$', result.check)

    def test_the_forms_of_a_summary(self):
        told = report_of('a library says: ended\nfault p zero-divisor\nfault s shift\nwaits q c\nwaits r d full\n'
                         'sink y: 3 items, not complete\nsink z: 0 items, complete\nwaits\nstopped\nkpn: 27 Write\n')
        self.assertEqual(told, ('stopped', {'p': 'zero-divisor', 's': 'shift'}, [('q', 'c', False), ('r', 'd', True)],
                                {'y': (3, False), 'z': (0, True)}))
        self.assertIsNone(report_of('waits q c\nhas ended\n').outcome)

    def test_what_channels_and_processes_did(self):
        with doubling().stream(stats=True) as live:
            live.feed([1, 2, 3])
            result = live.finish(LONG)
        self.assertEqual(result['y'], [2, 4, 6])
        self.assertEqual(result.stats.channels, [{'channel': name, 'put': 3, 'read': 3, 'unread': 0, 'most': 1}
                                                 for name in ('x', 'y')])
        self.assertEqual(result.stats.processes, [{'process': 'gain', 'end': 'waits x'}])
        with doubling().stream() as live, self.assertRaisesRegex(kpn.KpnError, 'no trace'):
            live.finish(LONG).stats

    def test_more_than_a_pipe_holds_and_no_open_sink(self):
        for net, leaves in ((kpn.Network.from_text('process p(in i) { while 1 { read i x; } } network { source x; '
                                                   'p = p(x;); }'), ()), (swallowing(), ('y',))):
            with net.stream(timeout=LONG) as live:
                live.feed(range(MANY))
                for sink in leaves:
                    live.leave(sink)
                self.assertEqual(live.finish().outcome, 'ended')

    def test_more_than_a_pipe_holds_and_a_process_that_ends(self):
        net = kpn.Network.from_text('process p(in i; out o) { read i x; write o x; } '
                                    'network { source x; sink y cap 1; p = p(x; y); }')
        with net.stream(timeout=LONG) as live:
            live.feed(range(MANY))
            self.assertEqual(dict(live.finish().check()), {'y': [0]})

    def test_a_sink_that_is_left_is_not_awaited(self):
        with doubling().stream(timeout=LONG) as live:
            live.feed([1, 2])
            self.assertEqual(live.read(1), [2])
            live.leave()
            self.assertEqual(live.read() + live.read(5), [4])

    def test_a_forked_process(self):
        with doubling().stream(timeout=LONG) as live:
            live.feed([1])
            end, gate = os.pipe()
            child = os.fork()
            if child == 0:
                os.close(gate)
                try:
                    live.read(1)
                except kpn.KpnError as error:
                    live.__exit__(None, None, None)
                    os.read(end, 1)
                    os._exit(3 if 'of the process that began it' in str(error) else 4)
                finally:
                    os._exit(5)
            os.close(end)
            self.assertEqual(dict(live.finish().check()), {'y': [2]})
        os.close(gate)
        self.assertEqual(os.WEXITSTATUS(os.waitpid(child, 0)[1]), 3)

    def test_no_time_at_all(self):
        with doubling().stream(timeout=0) as live:
            live.feed(range(MANY))
            self.assertRaises(TimeoutError, live.read, MANY + 1)
            end, found = time.monotonic() + LONG, []
            while not found and time.monotonic() < end:
                try:
                    found = live.read(MANY)
                except TimeoutError:
                    time.sleep(0.001)
            self.assertEqual(found, list(range(0, 2 * MANY, 2)))
            self.assertRaises(TimeoutError, live.finish, 0)
            self.assertEqual(dict(live.finish(LONG)), {'y': []})

    def test_wrong_times_and_counts(self):
        for timeout in (-1, float('nan')):
            self.assertRaisesRegex(kpn.KpnError, '0 or more', doubling().stream, timeout=timeout)
        with doubling().stream(timeout=float('inf')) as live:
            self.assertRaisesRegex(kpn.KpnError, '0 or more', live.read, 1, timeout=-1)
            self.assertRaisesRegex(kpn.KpnError, 'at least 0', live.read, -1)
            self.assertRaisesRegex(TypeError, 'whole number', live.read, 1.5)
            live.feed([1])
            self.assertEqual((live.read(1), live.read(0)), ([2], []))
        self.assertRaisesRegex(kpn.KpnError, '`max_commits` is -1: it has to be from 1', doubling().stream,
                               max_commits=-1)

    def test_items_that_are_none(self):
        with tempfile.TemporaryDirectory() as folder:
            path = pathlib.Path(folder, 'program')
            path.write_text('#!/bin/sh\nfor word; do case $word in y=*) echo 1 > ${word#y=}; echo x > ${word#y=};; '
                            'esac; done\n')
            path.chmod(0o700)
            with doubling().stream(timeout=LONG, program=path) as live:
                self.assertRaisesRegex(kpn.KpnError, 'the sink `y` gave something other than items', live.read)


class Callers(unittest.TestCase):
    """The process and the threads around a run."""

    def test_a_start_that_fails_leaves_nothing(self):
        soft, hard = resource.getrlimit(resource.RLIMIT_NOFILE)
        with tempfile.TemporaryDirectory() as folder, unittest.mock.patch('tempfile.tempdir', folder):
            path = pathlib.Path(folder, 'program')
            path.write_text('no program')
            path.chmod(0o700)
            before = descriptors()
            live = doubling().stream(program=path, timeout=LONG)
            self.assertRaisesRegex(kpn.KpnError, f'{path} does not run: Exec format error', live.__enter__)
            self.assertRaisesRegex(kpn.KpnError, 'has not begun', live.finish)
            live, most = doubling().stream(timeout=LONG), max(map(int, before)) + 2
            try:
                while most < 1_000:
                    resource.setrlimit(resource.RLIMIT_NOFILE, (most, hard))
                    try:
                        live.__enter__()
                        break
                    except kpn.KpnError as error:
                        self.assertIn('Too many open files: a run takes two for each', str(error))
                    most += 1
                    self.assertEqual(descriptors(), before)
            finally:
                resource.setrlimit(resource.RLIMIT_NOFILE, (soft, hard))
            live.feed([1])
            self.assertEqual(live.finish()['y'], [2])
            live.__exit__(None, None, None)
            self.assertEqual(descriptors(), before)
            self.assertEqual(os.listdir(folder), ['program'])

    def test_an_interrupt_is_for_the_call(self):
        program = started("""
with DOUBLING.stream() as live:
    live.feed([1])
    try:
        print(live.read(1), flush=True)
        live.read(1)
    except KeyboardInterrupt:
        live.feed([2])
        print(live.read(1), live.finish(), flush=True)
""")
        self.assertEqual(program.stdout.readline(), '[2]\n')
        os.killpg(program.pid, signal.SIGINT)
        self.assertEqual(program.communicate(timeout=LONG), ('[4] <Result ended: 0 items of y>\n', ''))

    def test_it_ends_with_its_parent(self):
        program = started("""
with SPINNING.stream() as live:
    print(live._process.pid, flush=True)
    live.read(1)
""")
        path = pathlib.Path('/proc', program.stdout.readline().strip(), 'stat')
        self.assertIn('kpn', path.read_text())
        program.kill()
        program.communicate()
        end = time.monotonic() + LONG
        while path.exists() and ') Z ' not in path.read_text() and time.monotonic() < end:
            time.sleep(0.01)
        self.assertLess(time.monotonic(), end)

    def test_without_standard_streams(self):
        program = started("""
out = os.dup(1)
os.closerange(0, 3)
with DOUBLING.stream(timeout=60) as live:
    live.feed([1, 2])
    os.write(out, str(live.finish()['y']).encode())
""")
        self.assertEqual(program.communicate(timeout=LONG), ('[2, 4]', ''))

    def test_threads(self):
        with doubling().stream(timeout=LONG) as live:
            said = []

            def read():
                said.append(live.read(1))
            reader = threading.Thread(target=read)
            reader.start()
            while live._lock.acquire(blocking=False):
                live._lock.release()
                time.sleep(0.001)
            for call in (lambda: live.feed([1]), live.read, live.close, live.leave, live.finish):
                self.assertRaisesRegex(kpn.KpnError, 'another thread is in a call of the run', call)
            way = live._sources['x']
            os.write(way.end.fileno(), b'5\n')
            reader.join(LONG)
            self.assertEqual(said, [[10]])

    def test_the_block_ends_in_another_thread(self):
        said = []
        with doubling().stream(timeout=LONG) as live:
            def read():
                try:
                    live.read(1)
                except kpn.KpnError as error:
                    said.append(str(error))
            reader = threading.Thread(target=read)
            reader.start()
            while live._lock.acquire(blocking=False):
                live._lock.release()
                time.sleep(0.001)
        reader.join(LONG)
        self.assertEqual(said, ['the run is over: its block has ended'])

    def test_calls_at_the_wrong_time(self):
        live = doubling().stream(timeout=LONG)
        calls = (lambda: live.feed([1]), lambda: live.read(1), live.close, live.leave, live.finish)
        for call in calls:
            self.assertRaisesRegex(kpn.KpnError, 'has not begun: write `with', call)
        with live:
            live.feed([1])
            self.assertRaisesRegex(kpn.KpnError, 'has one block', live.__enter__)
            self.assertEqual(live.read(1), [2])
        self.assertRaisesRegex(kpn.KpnError, 'has one block', live.__enter__)
        for call in calls:
            self.assertRaisesRegex(kpn.KpnError, 'is over: its block has ended', call)


if __name__ == '__main__':
    unittest.main()
