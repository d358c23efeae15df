"""Traces of both versions, read event by event."""
import pathlib
import tempfile
import unittest

from support import TOP, kpn

TWO = TOP / 'examples/histories/two.trace'


def stored(folder, text):
    """A file with this text."""
    path = pathlib.Path(folder, 'a.trace')
    path.write_text(text)
    return path


class Traces(unittest.TestCase):
    def test_with_names(self):
        net = kpn.Network.from_text((TOP / 'examples/two.kpn').read_text())
        events = list(net.run(trace=True).trace())
        self.assertEqual(events[0], ('put', 'p', 'a', 1))
        self.assertEqual(events[3], ('grow', 'p', 'a', 2))
        self.assertEqual(events[-2:], [('take', None, 'z', 312), ('end', 'q', None, 'done')])
        self.assertEqual(events[1], kpn.Event('wait-empty', 'q', 'b', None))
        self.assertEqual(list(kpn.read_trace(TWO, net)), [it._replace(value=None) if it.kind == 'grow' else it
                                                          for it in events])

    def test_with_numbers(self):
        trace = kpn.read_trace(TWO)
        self.assertEqual((trace.version, trace.policy, trace.grow), (1, 'cycles', 'one'))
        self.assertEqual(next(iter(trace)), ('put', 0, 0, 1))
        self.assertEqual(len(list(trace)), len(TWO.read_text().splitlines()) - 1)

    def test_each_stored_history_is_read(self):
        for file in (TOP / 'examples/histories').glob('*.trace'):
            trace = kpn.read_trace(file)
            lines = file.read_text().splitlines()[trace.version:]
            for event, line in zip(trace, lines):
                shown = ' '.join(str(it) for it in event if it is not None)
                self.assertEqual(shown, line)

    def test_version_2(self):
        with tempfile.TemporaryDirectory() as folder:
            trace = kpn.read_trace(stored(folder, 'kpn-trace 2\npolicy all grow double\ngrow 0 2 8\nclose 0\n'))
            self.assertEqual((trace.version, trace.policy, trace.grow), (2, 'all', 'double'))
            self.assertEqual(list(trace), [('grow', 0, 2, 8), ('close', None, 0, None)])

    def test_version_1(self):
        with tempfile.TemporaryDirectory() as folder:
            trace = kpn.read_trace(stored(folder, 'kpn-trace 1\nwait-full 0 0\ngrow 0 0\nleave 3\n'))
            self.assertEqual((trace.version, trace.policy, trace.grow), (1, 'cycles', 'one'))
            self.assertEqual(list(trace), [('wait-full', 0, 0, None), ('grow', 0, 0, None), ('leave', None, 3, None)])

    def test_no_trace_and_no_event(self):
        with tempfile.TemporaryDirectory() as folder:
            for text in ('', 'kpn-trace 3\n', 'kpn-trace 2\n', 'kpn-trace 2\npolicy all\n', 'kpn-trace 1',
                         'kpn-trace 1\r\n'):
                with self.assertRaises(kpn.KpnError) as caught:
                    kpn.read_trace(stored(folder, text))
                self.assertEqual(caught.exception.error, '31 BadHead')
            for line in ('put 0 0 1', 'put 0 0\n', 'put 00 0 1\n', 'put 0 0 -0\n', 'grow 0 0 0\n', 'end 0 over\n',
                         'x\n', '\n', 'put  0 0 1\n', 'take 0 1\r\n', 'grow 0 0\n'):
                path = stored(folder, 'kpn-trace 2\npolicy all grow one\nclose 0\n' + line)
                with self.assertRaises(kpn.KpnError) as caught:
                    list(kpn.read_trace(path))
                self.assertEqual(caught.exception.error, '30 BadEvent at 4')

    def test_it_holds_no_whole_trace(self):
        with tempfile.TemporaryDirectory() as folder:
            events = iter(kpn.read_trace(stored(folder, 'kpn-trace 1\n' + 'feed 0 1\n' * 100_000 + 'wrong\n')))
            self.assertEqual(next(events), ('feed', None, 0, 1))


if __name__ == '__main__':
    unittest.main()
