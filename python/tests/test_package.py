"""The documents of the package, and its command."""
import contextlib
import inspect
import io
import os
import re
import subprocess
import sys
import tempfile
import types
import unittest
import unittest.mock
import pathlib

from support import GALLERY, TOP, kpn

from kpn import gallery, parts
from kpn.__main__ import main

README = (TOP / 'python/README.md').read_text()


def said(*words):
    """The status of the command and what it wrote."""
    with contextlib.redirect_stdout(io.StringIO()) as out:
        status = main(list(words))
    return status, out.getvalue()


class Documents(unittest.TestCase):
    def test_the_code_of_the_readme_runs(self):
        plotted = []
        plot = types.SimpleNamespace(plot=plotted.append, show=lambda: None)
        modules = {'matplotlib': types.SimpleNamespace(pyplot=plot), 'matplotlib.pyplot': plot}
        names = {}
        with unittest.mock.patch.dict(sys.modules, modules), contextlib.redirect_stdout(io.StringIO()) as out:
            for code in re.findall(r'```python\n(.*?)```', README, re.S):
                exec(code, names)
            print(names['net'].run([1, 2, 3])['sum'])
        self.assertEqual([len(it) for it in plotted], [200, 200])
        self.assertEqual(out.getvalue(), '[3, 6, 9]\n[1, 3]\n[6, 10]\n[1, 3, 6]\n')

    def test_the_error_of_the_readme(self):
        part = kpn.Process.from_text('process gain(in i; out o; par k) { while 1 { read i x; write o (x * j); } }')
        net = kpn.Network()
        net.sink('y', part(net.source('x'), 1))
        with self.assertRaises(kpn.KpnError) as caught:
            net.check()
        first, *lines = str(caught.exception).splitlines()[:3]
        self.assertIn(f'    {first.split(":")[0]}: `j` ', README)
        self.assertIn(''.join(f'    {line}\n' for line in lines), README)

    def test_each_public_thing_is_documented(self):
        things = [getattr(kpn, name) for name in kpn.__all__] + [getattr(parts, name) for name in parts.__all__]
        for thing in list(things):
            things += [it for name, it in vars(thing).items() if inspect.isclass(thing) and not name.startswith('_')
                       and (inspect.isfunction(it) or isinstance(it, (property, classmethod)))]
        for thing in things:
            self.assertTrue(inspect.getdoc(thing), thing)

    def test_what_an_error_is_for_is_documented(self):
        for thing in (kpn.run, kpn.find_program, kpn.read_trace, kpn.Network, kpn.Network.from_text, kpn.Network.check,
                      kpn.Network.stream, kpn.Process, kpn.Process.from_text, kpn.Stream.connect, kpn.Live,
                      kpn.Live.feed, kpn.Live.read, kpn.Live.finish, kpn.Result, kpn.Result.check, kpn.Trace, parts):
            self.assertRegex(inspect.getdoc(thing), r'(?s)[Rr]aises?.*KpnError', thing)

    def test_the_words_of_the_readme(self):
        for word in re.findall(r'`result\.(\w+)', README):
            self.assertTrue(hasattr(kpn.Result, word) or word in ('outcome', 'faults', 'waits'), word)
        for word in re.findall(r'parts\.(\w+)', README):
            self.assertIn(word, parts.__all__)


class Notebook(unittest.TestCase):
    def test_a_network_is_a_picture_if_graphviz_makes_one(self):
        net = kpn.Network()
        net.sink('y', parts.gain(net.source('x'), 2))
        for text, wanted in (('echo "<svg/>"', '<svg/>\n'), ('cat > /dev/null; echo wrong >&2; exit 1', None),
                             ('kill -9 $$', None), (None, None)):
            with self.subTest(text), tempfile.TemporaryDirectory() as folder:
                if text:
                    path = pathlib.Path(folder, 'dot')
                    path.write_text(f'#!/bin/sh\n{text}\n')
                    path.chmod(0o700)
                path = folder if text is None else f'{folder}:{os.environ["PATH"]}'
                with unittest.mock.patch.dict(os.environ, {'KPN_PROGRAM': kpn.find_program(), 'PATH': path}):
                    self.assertEqual(net._repr_svg_(), wanted)


class Command(unittest.TestCase):
    def test_it_lists_parts_and_gallery(self):
        status, text = said()
        self.assertEqual(status, 0)
        for name in (*parts.__all__, *gallery.GALLERY):
            self.assertRegex(text, rf'\n  {name}\b')

    def test_it_runs_the_gallery(self):
        status, text = said('gallery', 'fir', 'matrix', '--samples', '99')
        self.assertEqual(status, 0)
        self.assertEqual(len(text.splitlines()), 2)
        self.assertIn('right: 99 items of y', text)

    def test_it_tells_what_is_wrong(self):
        with unittest.mock.patch.object(gallery.GALLERY['fir'], 'expected', lambda given: {'y': []}):
            status, text = said('gallery', 'fir', '--samples', '9')
        self.assertEqual(status, 1)
        self.assertIn('WRONG', text)

    def test_it_stores_the_texts(self):
        with tempfile.TemporaryDirectory() as folder:
            self.assertEqual(said('store', folder), (0, ''))
            for file in GALLERY.iterdir():
                self.assertEqual(pathlib.Path(folder, file.name).read_text(), file.read_text())

    def test_a_reader_that_has_enough(self):
        end, ours = os.pipe()
        os.close(end)
        for words in ([], ['gallery', 'fir', '--samples', '9']):
            done = subprocess.run([sys.executable, '-m', 'kpn', *words], cwd=TOP / 'python', stdout=ours,
                                  stderr=subprocess.PIPE, text=True)
            self.assertEqual((done.returncode, done.stderr), (141, ''))
        os.close(ours)

    def test_no_standard_output(self):
        for closed, status, told in (('>&-', 1, 'python -m kpn: there is no standard output\n'), ('>&- 2>&-', 1, ''),
                                     ('> /dev/full', 1, 'python -m kpn: [Errno 28] No space left on device\n')):
            done = subprocess.run(['sh', '-c', f'exec "$0" -m kpn {closed}', sys.executable], cwd=TOP / 'python',
                                  stderr=subprocess.PIPE, text=True)
            self.assertEqual((done.returncode, done.stderr), (status, told), closed)

    def test_it_prints_with_the_advised_capacities(self):
        two = TOP / 'examples/two.kpn'
        with tempfile.TemporaryDirectory() as folder:
            trace = str(pathlib.Path(folder, 'two.trace'))
            net = kpn.Network.from_text(two.read_text())
            net.run(trace=trace)
            for kind, caps in (('least', (2, 1, 1)), ('fast', (1024,) * 3)):
                status, text = said('print', str(two), trace, '--capacities', kind)
                self.assertEqual((status, text), (0, str(net.tuned(dict(zip('abz', caps))))))
            with contextlib.redirect_stderr(io.StringIO()) as told:
                self.assertEqual(said('print', str(TOP / 'examples/copy.kpn'), trace, '--capacities', 'fast'), (1, ''))
            self.assertIn('two.trace: illegal at', told.getvalue())
            with contextlib.redirect_stderr(io.StringIO()) as told:
                self.assertEqual(said('print', 'no.kpn', trace, '--capacities', 'least'), (1, ''))
            self.assertIn("/no.kpn` can't be read: there is no such file", told.getvalue())

    def test_a_folder_that_is_not_there(self):
        with contextlib.redirect_stderr(io.StringIO()) as told:
            self.assertEqual(said('store', '/nowhere/at/all'), (1, ''))
        self.assertIn('python -m kpn: ', told.getvalue())
        self.assertIn('/nowhere/at/all', told.getvalue())

    def test_wrong_words(self):
        with contextlib.redirect_stderr(io.StringIO()), self.assertRaises(SystemExit) as caught:
            main(['gallery', 'nothing'])
        self.assertEqual(caught.exception.code, 2)


if __name__ == '__main__':
    unittest.main()
