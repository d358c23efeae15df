"""Compiled networks beside `kpn`: the examples, random networks, wrong bodies, words, streams, sessions."""
import array
import contextlib
import copy
import ctypes
import fcntl
import importlib
import importlib.util
import os
import pathlib
import pickle
import random
import re
import resource
import select
import shutil
import struct
import subprocess
import sys
import tempfile
import unittest
import unittest.mock

from support import GALLERY, PROGRAM, TOP

os.environ.setdefault('CFLAGS', '-std=c11 -O0 -w')

import kpn  # noqa: E402
import random_cells  # noqa: E402
import native  # noqa: E402
import native_fixed  # noqa: E402
import native_lock  # noqa: E402
import native_networks  # noqa: E402
import native_stream  # noqa: E402
from kpn.native import command  # noqa: E402
from native_networks import MARKS  # noqa: E402
from test_applications import module_of  # noqa: E402
from test_language2 import HEAD, MEANINGS, TAIL  # noqa: E402

NETWORKS, PROCESSES, STREAMS = 12, 2, 150
# Wrong bodies: a file of the package, a text that stands there once, what stands there instead, and the random network
# that finds it, by its number and its kind.
WRONG = {
    'a reader wakes no writer': ('network.h', 'if (channel->writer_waits) {', 'if (0) {', 2),
    'a writer wakes no reader': ('network.h', 'if (channel->reader_waits) {',
                                 'if (channel->reader_waits && channel->reader == KPN_OUTSIDE) {', 2),
    'an ended reader wakes no writer': ('network.c', '    }\n    if (channel->writer_waits) {', '    }\n    if (0) {',
                                        2),
    'a wait is written late without its growth': ('network.c', 'if (may_grow(network, c)) {', 'if (0) {', 14),
    'room for one more': ('network.h', 'channel->room - (channel->put', 'channel->room + 1 - (channel->put', 2),
    'two places of a channel inside are one': ('region_text.py', '_{count - first}', '_0', 33),
    'a period with a fault is kept': ('region_text.py', "yield '    break;'",
                                      "yield from [*self.keeping(), '    break;']", 11, 'faults'),
    'items are small without a look': ('vectors.c', 'return all < 65536;', 'return true;', 11, 'small'),
    'a cell past the last one is there': ('c_text.py', '>= {cells.size}U', '> {cells.size}U', 25, 'cells'),
    'a value comes a period too late': ('vectors.py', 'ago + 1, (*path', 'ago + 2, (*path', 6, 'small'),
    'no period comes before vectors': ('region_text.py', 'first = {self.vectors.depth}', 'first = 0', 4, 'small'),
    'the events of a dropped period are kept': ('network.h', 'kpn_history_cut(network->history, mark);',
                                                '(void)mark;', 11, 'faults'),
}


# What tries a network in a process of its own, whose package is another one.
TRY = 'import sys, native; print(native.try_network(int(sys.argv[1]), sys.argv[3:], 20, ["fuse"], sys.argv[2]))'
# The object files of the runtime, which most tests share.
RUNTIME = []


def setUpModule():
    folder = tempfile.TemporaryDirectory(prefix='kpn-')
    unittest.addModuleCleanup(folder.cleanup)
    RUNTIME[:] = native.compile_runtime(folder.name) if shutil.which('cc') else []


class Item(ctypes.Structure):
    """`kpn_item` of kpn.h."""

    _fields_ = [('channel', ctypes.c_size_t), ('item', ctypes.c_int64)]


class Wanted(ctypes.Structure):
    """`kpn_wanted`."""

    _fields_ = [('channel', ctypes.c_size_t), ('item', ctypes.c_int64), ('has_item', ctypes.c_bool)]


class Amounts(ctypes.Structure):
    """`kpn_amounts`."""

    _fields_ = [('fed', ctypes.c_size_t), ('commits', ctypes.c_uint64), ('served', ctypes.c_size_t)]


def compiled(text, folder, *options, **more):
    """Compiles a network by the command."""
    (pathlib.Path(folder) / 'net.kpn').write_text(text)
    words = [sys.executable, '-m', 'kpn.native', 'net.kpn', '-o', 'prog', *options]
    return subprocess.run(words, cwd=folder, capture_output=True, text=True, env={**environment(), **more})


def text_of_example(name):
    """The description in an example in C."""
    text = re.search(r'\[\] =\n(.*?);\n\n', (TOP / f'examples/c/{name}.c').read_text(), re.S)[1]
    return ''.join(re.findall(r'"(.*)"', text)).replace('\\n', '\n')


def environment(package=TOP / 'python'):
    return {**os.environ, 'KPN_PROGRAM': PROGRAM, 'PYTHONPATH': str(package)}


class WithFolder(unittest.TestCase):
    def setUp(self):
        made = tempfile.TemporaryDirectory(prefix='kpn-')
        self.addCleanup(made.cleanup)
        self.folder = pathlib.Path(made.name)

    def build(self, text):
        """Makes a network the program `prog`, with the runtime that is compiled already."""
        (self.folder / 'net.kpn').write_text(text)
        canonical = subprocess.run([PROGRAM, 'print', 'net.kpn'], cwd=self.folder, capture_output=True, text=True,
                                   check=True).stdout
        c = command.c_of(canonical, command.SCHEDULES[0], text.encode())
        self.assertEqual(command.build(c, PROGRAM, str(self.folder / 'prog'), RUNTIME[:-1]), 0)

    def call(self, *words, **more):
        done = subprocess.run(words, cwd=self.folder, capture_output=True, text=True, env=environment(), **more)
        return done.returncode, done.stdout, done.stderr


@unittest.skipUnless(shutil.which('cc'), 'there is no C compiler')
class Equal(WithFolder):
    def test_examples(self):
        folders = (TOP / 'examples', TOP / 'examples/worked', TOP / 'examples/language2', GALLERY)
        files = sorted(file for folder in folders for file in folder.glob('*.kpn')
                       if self.call(PROGRAM, 'check', str(file))[0] == 0)
        for file in files:
            with self.subTest(file=file.name), tempfile.TemporaryDirectory(prefix='kpn-') as folder:
                text, chosen = file.read_text(), random.Random(file.name)
                lists = {line.split()[1].rstrip(';'): [chosen.randrange(-50, 50) for _ in range(40)]
                         for line in text.replace(';', ';\n').splitlines() if line.split()[:1] == ['source']}
                trial = native.Trial(folder, text, lists, RUNTIME)
                for options in ([], ['--take', '6']):
                    trial.judge(options)

    def test_applications(self):
        for path, words, count in (('audio/chain', [2], 300), ('fm/receiver', [], 240), ('jpeg/encode', [16, 8], 128)):
            net, chosen = module_of(path).build(*words), random.Random(path)
            lists = {name: [chosen.randrange(256) for _ in range(count)] for name in net.layout().sources}
            with self.subTest(path=path), tempfile.TemporaryDirectory(prefix='kpn-') as folder:
                trial = native.Trial(folder, str(net), lists, RUNTIME)
                self.assertEqual([trial.judge(options) for options in ([], ['--take', '6'])], ['ended', 'enough'])

    def test_no_warnings(self):
        """With the usual flags the compiler has nothing to say of the C of the applications."""
        for path, words in (('audio/chain', [2]), ('fm/receiver', []), ('jpeg/encode', [16, 8])):
            canonical = kpn.program.answer('print', str(module_of(path).build(*words)))
            (self.folder / 'net.c').write_text(command.c_of(canonical, command.SCHEDULES[0]))
            words = [*command.compiler(['cc', *command.FLAGS]), '-Werror', '-fsyntax-only', 'net.c']
            self.assertEqual(self.call(*words), (0, '', ''))

    def test_the_rules_of_misra(self):
        """Each body has braces, no comma stands between expressions or variables, no conversion is tacit; and cppcheck,
        if it is there, finds `goto` only, beside what loops of periods and vectors need."""
        for name, text, fixed, found in (('loop', text_of_example('loop'), 4, {'15.1'}),
                                         ('mean', (TOP / 'examples/moving_average.kpn').read_text(), 0,
                                          {'15.1', '15.4', '8.14'})):
            canonical = kpn.program.answer('print', text)
            c = command.c_of(canonical, command.SCHEDULES[0], fixed=fixed, is_session=fixed > 0)
            (self.folder / f'{name}.c').write_text(c)
            statements = [line for line in c.splitlines() if not line.lstrip().startswith(('"', '/*', '#'))]
            for line in statements:
                self.assertNotRegex(line, r'\b(if|else|while|for)\b(?! \(.*\) \{| \{)')
                if line.startswith('  ') and line.endswith((';', '{')) and '= {' not in line and '};' not in line:
                    while line != (line := re.sub(r'\([^()]*\)', '', line)):
                        pass
                    self.assertNotIn(',', line)
            folders = [f'-I{it}' for it in command.HEADERS]
            words = ['cc', *command.FLAGS, '-Wconversion', '-Werror', '-fsyntax-only', *folders]
            self.assertEqual(self.call(*words, f'{name}.c'), (0, '', ''))
            if shutil.which('cppcheck'):
                words = ['cppcheck', '--addon=misra', '--enable=style', '--suppress=*:*.h', *folders,
                         '-DINT64_MIN=(-9223372036854775807-1)']
                told = self.call(*words, f'{name}.c')[2]
                self.assertEqual(set(re.findall(r'misra-c2012-([\d.]+)', told)), found, name)

    def test_operators(self):
        """Each operator on operands at the edges; a process faults, or its sink gives the value."""
        edges = (-2**63, -2**63 + 1, -1, 0, 1, 2**63 - 1)
        for marks in (MARKS[:5], MARKS[5:10], MARKS[10:]):
            text, network = '', ''
            for number, mark in enumerate(marks):
                text += f'process f{number}(out o; par a, b, c, d) {{ x = (a - c); y = (b - d); ' \
                        f'write o (x {mark} y); write o (-x {mark} !y); }}\n'
                for k, (x, y) in enumerate((x, y) for x in edges for y in edges):
                    name = f'z{number}_{k}'
                    values = max(x, -2**63 + 1), max(y, -2**63 + 1), int(x == -2**63), int(y == -2**63)
                    network += f'sink {name} cap 1; {name} = f{number}(; {name}; {", ".join(map(str, values))});\n'
            with self.subTest(marks=marks), tempfile.TemporaryDirectory(prefix='kpn-') as folder:
                native.Trial(folder, f'{text}network {{\n{network}}}\n', {}, RUNTIME).judge([])

    def test_cells(self):
        """Random processes with arrays and tables, and each of some faults of cells by its order."""
        networks = [random_cells.network(random.Random(seed)) for seed in range(8)]
        networks += [(HEAD + statements + TAIL, {}) for statements, _, _ in MEANINGS]
        for number, (text, lists) in enumerate(networks):
            with self.subTest(number=number), tempfile.TemporaryDirectory(prefix='kpn-') as folder:
                native.Trial(folder, text, lists, RUNTIME).judge([])

    def test_random_networks(self):
        found = native.try_networks(NETWORKS, 1, PROCESSES, runtime=RUNTIME)
        self.assertNotIsInstance(found, str, found)

    def objects_of(self, package, edited):
        """The object files of the runtime of a package in which this file is edited, a header only for the files that
        make turns."""
        objects, folder = [], package / 'kpn/native/runtime'
        for path in map(pathlib.Path, RUNTIME):
            source = folder / f'{path.stem}.c'
            if source == edited or (edited.suffix == '.h' and path.stem in ('network', 'regions', 'run')):
                path = package / path.name
                subprocess.run([*command.compiler(), '-c', str(source), '-o', str(path)], check=True)
            objects.append(str(path))
        return objects

    def test_wrong_bodies(self):
        shutil.copytree(TOP / 'include', self.folder / 'include')
        for name, (file, old, new, number, *kind) in WRONG.items():
            with self.subTest(name=name):
                package = self.folder / name.replace(' ', '_')
                shutil.copytree(TOP / 'python/kpn', package / 'kpn', ignore=shutil.ignore_patterns('__pycache__'))
                [edited] = (package / 'kpn/native').rglob(file)
                text = edited.read_text()
                self.assertEqual(text.count(old), 1, name)
                edited.write_text(text.replace(old, new))
                words = [str(number), *(kind or ['']), *self.objects_of(package, edited)]
                path = os.pathsep.join(map(str, (package, TOP / 'bench/stress')))
                done = subprocess.run([sys.executable, '-c', TRY, *words], capture_output=True, text=True, cwd=package,
                                      env=environment(path))
                self.assertRegex(done.stdout, f'^network {number}: ', f'{name}: {done.stderr}')

    def test_the_right_body(self):
        """No network finds anything in the package that finds a wrong body."""
        for number, *kind in sorted({it[3:] for it in WRONG.values()}):
            found = native.try_network(number, RUNTIME, 20, ['fuse'], *(kind or ['']))
            self.assertNotIsInstance(found, str, found)


@unittest.skipUnless(shutil.which('cc'), 'there is no C compiler')
class Words(WithFolder):
    DOUBLE = 'process double(in i; out o) { while 1 { read i x; write o (x * 2); } }\n' \
             'network { source s; sink z cap 1; d = double(s; z); }\n'

    def setUp(self):
        super().setUp()
        self.build(self.DOUBLE)
        (self.folder / 'in').write_text('1\n-2\n4611686018427387904\n')
        self.report = 'sink z: 2 -4\nfault d overflow\nended\n'

    def run_it(self, *words):
        return self.call('./prog', 'run', '--source', 's=in', *words)

    def test_report_says_that_nothing_is_proved(self):
        told = 'kpn: compiled: nothing is proved of the program that runs here\n'
        self.assertEqual(compiled(self.DOUBLE, self.folder).returncode, 0)
        self.assertEqual(self.run_it(), (0, self.report, told))

    def test_certified(self):
        status, out, told = self.run_it('--certify', '--check', 'items')
        self.assertEqual((status, out), (0, self.report))
        self.assertIn('kpn: certified: legal, exact\nkpn: checked: the report is that of `kpn run`\n', told)
        self.assertIn('certified: legal, the first 4 of', self.run_it('--certify', '--events', '4')[2])

    def test_a_checked_run_has_a_limit(self):
        for words, status, told in ((['--max-commits', '1'], 0, 'checked: the report'),
                                    (['--take', '2', '--max-commits', '1'], 0, 'checked: the report')):
            found = self.run_it('--check', 'items', *words)
            self.assertEqual((found[0], f'kpn: {told}' in found[2]), (status, True), found)
        self.build('process p(out o) { while 1 { write o 1; } }\nnetwork { sink z cap 1; a = p(; z); }\n')
        found = self.call('./prog', 'run', '--max-commits', '1', '--check', 'items')
        self.assertEqual((found[:2], 'kpn: not checked: the run was stopped' in found[2]), ((5, 'stopped\n'), True))

    def test_what_kpn_does_not_confirm_is_not_reported(self):
        for program in ('/bin/true', '/bin/echo', '/nowhere/kpn'):
            for words in (['--certify'], ['--check', 'items']):
                done = subprocess.run(['./prog', 'run', '--source', 's=in', *words], cwd=self.folder,
                                      capture_output=True, text=True, env={**os.environ, 'KPN_PROGRAM': program})
                self.assertEqual((done.returncode, done.stdout), (9, ''))
                self.assertRegex(done.stderr, 'kpn: not (certified|checked): ')

    def test_wrong_words(self):
        for words in (['--workers', '2'], ['--take', '0'], ['--take'], ['--tak', '1'], ['--trace', 'in'],
                      ['--sink', 'z=in'], ['--sink', 'z'], ['--check', 'all'], ['--take', '1', '--take', '1'],
                      ['--trace', 'o', '--sink', 'z=o'], ['--trace', 'o', '--sink', 'z=o.kpn-part']):
            status, out, told = self.run_it(*words)
            self.assertEqual((status, out), (2, ''), words)
            self.assertIn('kpn: usage: ', told)

    def test_refused_inputs(self):
        (self.folder / 'bad').write_text('1\n2x\n')
        for words, line in ((['--source', 's=bad'], '25 BadItem at 2'), (['--source', 's=nope'], '26 Read'),
                            (['--source', 't=in'], '22 UnknownName at 0'), (['--trace', 'no/where'], '27 Write'),
                            (['--source', 's=in', '--source', 's=in'], '23 DoubleName at 1'),
                            (['--sink', 's=o'], '22 UnknownName at 0')):
            status, out, told = self.call('./prog', 'run', *words)
            self.assertEqual((status, out), (1, ''), words)
            self.assertTrue(told.endswith(f'kpn: {line}\n'), told)

    def test_outputs(self):
        (self.folder / 'old').write_text('old')
        (self.folder / 'link').symlink_to('old')
        self.assertEqual(self.run_it('--trace', 'trace', '--sink', 'z=link')[:2], (0, self.report))
        self.assertEqual((self.folder / 'old').read_text(), '2\n-4\n')
        self.assertTrue((self.folder / 'link').is_symlink())
        self.assertEqual(list(self.folder.glob('*part')), [])
        wanted = self.call(PROGRAM, 'audit', 'net.kpn', 'trace')[1]
        self.assertTrue(wanted.startswith('legal\nexact yes\n'), wanted)

    def test_quiet_and_strict(self):
        """What is left out of a report, and what the status tells, is as by `kpn run`."""
        for name, source in (('fault', ['--source', f'signal={TOP}/examples/signal']), ('deadlock', []), ('two', [])):
            text = (TOP / f'examples/{name}.kpn').read_text()
            self.build(text)
            sink = re.search(r'sink (\w+)', text)
            stored = ['--sink', f'{sink[1]}=stored'] if sink else []
            for words in ([], ['--strict'], ['--quiet'], ['--quiet', *stored], ['--strict', *stored, '--quiet']):
                wanted, found = (self.call(*first, *source, *words) for first in ((PROGRAM, 'run', 'net.kpn'),
                                                                                  ('./prog', 'run')))
                self.assertEqual(found[:2], wanted[:2], (name, words))
        self.assertEqual(self.call('./prog', 'stream', '--strict')[0], 2)

    def test_full_device(self):
        with open('/dev/full', 'w') as full:
            done = subprocess.run(['./prog', 'run'], cwd=self.folder, stdout=full, stderr=subprocess.PIPE, text=True)
        self.assertEqual(done.returncode, 1)
        self.assertTrue(done.stderr.endswith('kpn: 27 Write\n'), done.stderr)

    def test_a_pipe_that_nobody_reads(self):
        reads, writes = os.pipe()
        os.close(reads)
        for words in (['run'], ['--help']):
            done = subprocess.run(['./prog', *words], cwd=self.folder, stdout=writes, stderr=subprocess.PIPE, text=True)
            self.assertEqual((done.returncode, done.stderr[-14:]), (1, 'kpn: 27 Write\n'))
        os.close(writes)

    def test_refused_memory(self):
        text = 'process p(out o) { while 1 { write o 1; } }\nnetwork { sink z cap 1; a = p(; z); }\n'
        self.build(text)
        least = 1 << 26
        for words in (['--take', '1000000000'], ['--trace', 'trace', '--take', '1000000000']):
            status, out, told = self.call('./prog', 'run', *words, preexec_fn=lambda: resource.setrlimit(
                resource.RLIMIT_AS, (least, least)))
            self.assertEqual((status, out), (6, ''))
            self.assertTrue(told.endswith('kpn: 42 NoMemory\n'), told)
        self.assertFalse((self.folder / 'trace').exists())

    def test_no_compiler(self):
        for words, cc in ((['net.kpn', '-o', 'prog'], '/nowhere/cc'), (['net.kpn', '--c', '-o', 'no/where'], 'cc')):
            done = subprocess.run([sys.executable, '-m', 'kpn.native', *words], cwd=self.folder, capture_output=True,
                                  text=True, env={**environment(), 'CC': cc})
            self.assertEqual(done.returncode, 70)
            self.assertRegex(done.stderr, r'^kpn: there is no file or program (/nowhere/cc|no/where); .*\n$')

    def test_refused_description(self):
        for words, told in (([], 'net.kpn:1:16: `z` has no writer [13 NoWriter at 0]\n'), (['--words', 'never'], '')):
            done = compiled('network { sink z cap 0; }\n', self.folder, *words)
            self.assertEqual((done.returncode, done.stderr[:len(told) + 22]), (1, f'kpn: 13 NoWriter at 0\n{told}'))


@unittest.skipUnless(shutil.which('cc'), 'there is no C compiler')
class Streams(WithFolder):
    """Streams beside `kpn stream`: outputs, what is told, statuses."""
    QUOTIENTS = 'process d(in a, b; out o, p) { while 1 { read a x; read b y; write o (x + y); write p (x / y); } }\n' \
                'network { source a; source b; sink o cap 1; sink p cap 2; d = d(a, b; o, p); }\n'

    def compare(self, words, given=b''):
        """Runs both programs."""
        answers = []
        for program in ([PROGRAM, 'stream', 'net.kpn'], ['./prog', 'stream']):
            (self.folder / 'out').unlink(missing_ok=True)
            done = subprocess.run([*program, *words], cwd=self.folder, input=given, capture_output=True, timeout=60)
            out = (self.folder / 'out').read_bytes() if (self.folder / 'out').exists() else None
            told = done.stderr.replace(b'kpn: compiled: nothing is proved of the program that runs here\n', b'')
            if b'\nat --sink ' in told:
                # how far processes are then depends on the order of turns
                told = re.sub(rb'(?m)^waits .*\n', b'', told)
            answers.append((done.returncode, done.stdout, told, out))
        self.assertEqual(*answers, words)

    def test_two_sources(self):
        self.build(self.QUOTIENTS)
        for name, text in (('one', '1\n'), ('three', '1\n2\n0\n'), ('bad', '1\n2\nx\n')):
            (self.folder / name).write_text(text)
        ends = ['--sink', 'o=-', '--sink', 'p=out']
        for a, b in (('one', 'three'), ('three', 'three'), ('three', 'bad'), ('bad', 'one'), ('-', 'three'), ('-', '-'),
                     ('nope', 'one'), ('out', 'one')):
            self.compare(['--source', f'a={a}', '--source', f'b={b}', *ends], b'5\n6\n7')
        self.compare([])
        self.compare(['--source', 'a=one', '--source', 'b=one', '--sink', 'o=/dev/full', '--sink', 'p=out', '--quiet'])
        self.compare(['--source', 'a=one', '--source', 'b=one', '--sink', 'o=no/x', '--sink', 'p=out'])
        self.compare(['--source', 'a=one', '--source', 'c=one', *ends])
        self.compare(['--source', 'a=one', '--source', 'b=one', '--sink', 'o=-', '--sink', 'p=-'])

    def test_random_streams(self):
        found = native_stream.try_streams(STREAMS, 1, ['fuse'], RUNTIME[:-1])
        self.assertNotIsInstance(found, str, found)
        self.assertLessEqual({'status 0', 'status 1 25', 'status 1 29', 'status 1 54', 'status 2 usage:'}, set(found))

    def test_rings(self):
        """A ring is told and has a status of its own, except under `enough`."""
        text = 'process copy(in i; out o) { read i x; write o x; }\n' \
               'process both(in i, j; out o, p) { while 1 { read i x; write o x; read j y; write p y; } }\n' \
               'network { source s; channel b cap 1; channel c cap 1; channel d cap 1; channel e cap 1; sink z cap 1;' \
               ' q = copy(e; d); r = both(s, b; z, c); t = copy(c; b); u = copy(d; e); }\n'
        self.build(text)
        for given in (b'', b'1\n', b'1\n2\n'):
            self.compare([], given)

    def test_stats(self):
        self.build('process copy(in i; out o) { while 1 { read i x; write o x; } }\n'
                   'network { source s; channel m cap 4; sink z cap 1; p = copy(s; m); q = copy(m; z); }\n')
        tables = []
        for program in ([PROGRAM, 'stream', 'net.kpn'], ['./prog', 'stream']):
            done = subprocess.run([*program, '--stats', '--quiet'], cwd=self.folder, input=b'1\n2\n3\n',
                                  capture_output=True, timeout=60)
            tables.append([line.split()[:4] for line in done.stderr.decode().splitlines()])
        self.assertEqual(tables[1], tables[0])

    def test_sound(self):
        self.build('process half(in i; out o) { while 1 { read i x; read i y; write o (x + y); } }\n'
                   'network { source s; sink z cap 1; p = half(s; z); }\n')
        for name, width, channels, samples in (('mono', 2, 1, struct.pack('<4h', 1, 2, 3, 4)), ('8', 1, 1, b'\x80\x82'),
                                               ('stereo', 2, 2, struct.pack('<4h', 1, 20, 3, 40))):
            kind = struct.pack('<HHIIHH', 1, channels, 16000, 16000 * width * channels, width * channels, 8 * width)
            (self.folder / name).write_bytes(b'RIFF\0\0\0\0WAVEfmt \x10\0\0\0' + kind + b'data'
                                             + struct.pack('<I', len(samples)) + samples)
        for source, status, wanted in (('mono', 0, [3, 7]), ('8', 0, [2]), ('stereo', 1, []), ('stereo:1', 0, [60]),
                                       ('stereo:2', 1, [])):
            words = ['./prog', 'stream', '--sound', '--format', 'wav', '--source', f's={source}', '--sink', 'z=out']
            done = self.call(*words)
            self.assertEqual((done[0], 'kpn: 55 BadHead at 22\n' in done[2]), (status, status == 1), done)
            found, size = (self.folder / 'out').read_bytes(), 2 * len(wanted)
            rate = 8000 if wanted else 48000
            self.assertEqual((found[4:8], found[24:28], found[40:]), (
                struct.pack('<I', 36 + size), struct.pack('<I', rate), struct.pack(f'<I{size // 2}h', size, *wanted)))

    def test_beside_kpn_stream(self):
        self.build(self.QUOTIENTS)
        (self.folder / 'b').write_text('1\n2\n')
        words = ['./prog', 'stream', '--source', 'a=-', '--source', 'b=b', '--sink', 'o=-', '--sink', 'p=out', '--check',
                 'items']
        for given, program, status, told in (
                ('4\n9\n', PROGRAM, 0, 'checked: the items and the end are those'),
                ('4\nx\n', PROGRAM, 1, 'checked: the items are those'),
                # the two sinks are compared side by side: either may be the first that differs
                ('4\n9\n', '/bin/true', 9, 'not checked: the items of the sink `'),
                ('4\n9\n', '/nowhere/kpn', 9, 'not checked: the items of the sink `')):
            done = subprocess.run(words, cwd=self.folder, input=given, capture_output=True, text=True, timeout=60,
                                  env={**os.environ, 'KPN_PROGRAM': program})
            self.assertEqual((done.returncode, f'kpn: {told}' in done.stderr), (status, True), done.stderr)
            self.assertEqual(done.stdout[:2], '5\n')

    def test_formats(self):
        self.build(Words.DOUBLE)
        for given in (b'', b'\n', b'1\r\n2\r', b'-9223372036854775809', b'0' * 30, b'007\n-0\n1',
                      b'4611686018427387904'):
            self.compare([], given)
        whole = bytes(range(256)) * 3
        for format in ('s8', 's16le', 's24le', 's32le', 's64le', 'f32le'):
            for length in (0, 1, 2, 3, 7, 8, 19):
                self.compare(['--format', format, '--sink', 'z=out'], whole[-length:])
        self.compare(['--format=u8', '--clip', '--format', 's=s8'], whole)
        self.compare(['--format', 's=u8', '--format', 's=u8'])
        self.compare(['--format', 'z=s24le'], b'4194303\n-4194304\n4194304\n')
        self.compare(['--format', 'z=f32le'], b'4611685880988434431\n4611685880988434432\n')
        for given in (-2**48, 2**48, -2**48 - 2**25):
            self.compare(['--format', 's=f32le'], struct.pack('<f', given))

    def test_cut_at_each_byte(self):
        """A stream that ends after any byte, and one that waits there and then goes on."""
        self.build(Words.DOUBLE)
        given, wanted = b'-12\r\n7\n0033\n', b'-24\n14\n66\n'
        for length in range(len(given) + 1):
            self.compare([], given[:length])
            lines = given[:length].count(b'\n')
            first = b''.join(wanted.splitlines(keepends=True)[:lines])
            with subprocess.Popen(['./prog', 'stream', '--quiet'], cwd=self.folder, stdin=subprocess.PIPE,
                                  stdout=subprocess.PIPE, bufsize=0) as child:
                child.stdin.write(given[:length])
                self.assertEqual(child.stdout.read(len(first)) if first else b'', first)
                self.assertEqual(child.communicate(given[length:])[0], wanted[len(first):])

    def test_all_leaves_before_a_wait(self):
        text = 'process mean(in i; out o) { while 1 { read i x; s = (s + x); n = (n + 1); write o (s / n); } }\n' \
               'process copy(in i; out o) { while 1 { read i x; write o x; } }\n' \
               'network { source i; channel c cap 9; sink o cap 1; m = mean(i; c); k = copy(c; o); }\n'
        self.build(text)
        with subprocess.Popen(['./prog', 'stream', '--quiet'], cwd=self.folder, stdin=subprocess.PIPE,
                              stdout=subprocess.PIPE, bufsize=0) as child:
            for given, wanted in ((b'4\n', b'4\n'), (b'8\n', b'6\n'), (b'0\n' * 9, b'4\n3\n'), (b'1', b'')):
                child.stdin.write(given)
                child.stdin.flush()
                got = child.stdout.read(len(wanted))
                self.assertEqual(got, wanted)
            self.assertEqual(child.communicate()[0], b'2\n2\n1\n1\n1\n1\n1\n1\n')

    def test_beside_a_process_that_never_rests(self):
        text = 'process spin(out o) { x = 1; while x { x = ((x % 7) + 1); } write o x; }\n' \
               'process copy(in i; out o) { while 1 { read i x; write o x; } }\n' \
               'network { source i; sink o cap 1; sink p cap 1; s = spin(; p); k = copy(i; o); }\n'
        self.build(text)
        with subprocess.Popen(['./prog', 'stream', '--quiet', '--sink', 'o=-', '--sink', 'p=out'], cwd=self.folder,
                              stdin=subprocess.PIPE, stdout=subprocess.PIPE, bufsize=0) as child:
            self.addCleanup(child.kill)
            for line in (b'4\n', b'-5\n', b'6\n'):
                child.stdin.write(line)
                ready, _, _ = select.select([child.stdout], [], [], 60)
                self.assertEqual(child.stdout.read(len(line)) if ready else b'', line)
            child.kill()

    PAIR = 'process copy(in i; out o) { while 1 { read i x; write o x; } }\n' \
           'network { source a; source b; sink y cap 4; sink z cap 4; c = copy(a; y); d = copy(b; z); }\n'

    def test_of_two_sources_that_is_read_whose_item_has_come(self):
        self.build(self.PAIR)
        one, to_one = os.pipe()
        words = ['--source', f'a=/dev/fd/{one}', '--source', 'b=-', '--sink', 'y=out', '--sink', 'z=-']
        with open(to_one, 'wb') as late, subprocess.Popen(
                ['./prog', 'stream', '--quiet', *words], cwd=self.folder, stdin=subprocess.PIPE,
                stdout=subprocess.PIPE, pass_fds=[one], bufsize=0) as child:
            os.close(one)
            child.stdin.write(b'5\n')
            ready, _, _ = select.select([child.stdout], [], [], 60)
            self.assertEqual(child.stdout.read(2) if ready else b'', b'5\n')
            late.write(b'3\n4')
            late.close()
            self.assertEqual((child.communicate()[0], child.returncode), (b'', 0))
        self.assertEqual((self.folder / 'out').read_text(), '3\n4\n')

    def test_ends_that_do_not_wait(self):
        self.build(Words.DOUBLE)
        (given, to_given), (out, to_out) = os.pipe(), os.pipe()
        os.set_blocking(given, False)
        os.set_blocking(to_out, False)
        with subprocess.Popen(['./prog', 'stream', '--quiet'], cwd=self.folder, stdin=given, stdout=to_out) as child:
            os.close(given)
            os.close(to_out)
            with open(to_given, 'wb') as lines:
                lines.write(b'123456\n')
                lines.flush()
                lines.write(b'1234\n' * 12_000)
            with open(out, 'rb') as found:
                self.assertEqual(found.read(), b'246912\n' + b'2468\n' * 12_000)
        self.assertEqual(child.returncode, 0)

    def test_files_that_are_kept(self):
        """A stream that is refused leaves its files as they are; a file has one stream at a time."""
        self.build(self.PAIR)
        (self.folder / 'one').write_text('1\n')
        (self.folder / 'kept').write_text('old')
        ends = ['--source', 'a=one', '--source', 'b=one', '--sink', 'y=kept']
        self.compare([*ends, '--sink', 'z=no/where'])
        with open(self.folder / 'kept', 'a') as locked:
            fcntl.flock(locked, fcntl.LOCK_EX)
            self.compare([*ends, '--sink', 'z=out'])
        self.assertEqual((self.folder / 'kept').read_text(), 'old')
        self.compare([*ends, '--sink', 'z=out'])
        self.assertEqual((self.folder / 'kept').read_text(), '1\n')
        self.assertEqual(self.call('./prog', 'stream', '--clip', '--clip')[::2], (2, 'kpn: usage: --clip once\n'))

    def test_reader_has_gone(self):
        self.build(Words.DOUBLE)
        done = subprocess.run('yes 1 | ./prog stream --trace trace | head -n 3; exit ${PIPESTATUS[1]}', shell=True,
                              executable='/bin/bash', cwd=self.folder, capture_output=True, text=True)
        self.assertEqual((done.returncode, done.stdout), (0, '2\n2\n2\n'))
        self.assertTrue(self.call(PROGRAM, 'audit', 'net.kpn', 'trace')[1].startswith('legal\n'))


@unittest.skipUnless(shutil.which('cc'), 'there is no C compiler')
class Sessions(WithFolder):
    """The session of kpn.h, called through a shared object."""
    TEXT = 'process mix(in a, b; out o, p) { while 1 { read a x; write p x; read b y; write o (x + y); } }\n' \
           'process delay(in i; out o) { write o 0; while 1 { read i x; write o x; } }\n' \
           'process quit(in i; out o) { k = 0; while (k < 40) { read i x; write o x; k = (k + 1); } }\n' \
           'network { source a; source b; channel c cap 2; channel d cap 1; sink o cap 2; sink p cap 3;\n' \
           '  m = mix(a, d; o, c); e = delay(b; d); q = quit(c; p); }\n'

    def setUp(self):
        super().setUp()
        done = compiled(self.TEXT, self.folder, '--library')
        self.assertEqual((done.returncode, done.stderr), (0, ''))
        whole = ['-Wl,--whole-archive', 'prog', '-Wl,--no-whole-archive']
        subprocess.run(['cc', '-shared', '-o', 'prog.so', *whole], cwd=self.folder, check=True)
        self.library = ctypes.CDLL(str(self.folder / 'prog.so'))
        self.session, self.place = ctypes.c_void_p(), ctypes.create_string_buffer(16)
        self.assertEqual(self.ask('open', b'', 0, ctypes.byref(self.session), self.place, has_session=False), 0)

    def ask(self, name, *rest, has_session=True):
        before = [ctypes.byref(self.session)] if has_session else []
        return getattr(self.library, f'kpn_{name}')(*before, *rest)

    def told(self, name, *rest, kind=ctypes.c_size_t):
        """What a call tells by the word after its other ones."""
        told = kind()
        self.assertEqual(self.ask(name, *rest, ctypes.byref(told)), 0, name)
        return told.value

    def channel(self, name):
        return self.told('channel', name.encode(), ctypes.c_size_t(len(name)))

    def take(self, sink, room):
        items = (ctypes.c_int64 * room)()
        return items[:self.told('take', ctypes.c_size_t(sink), items, ctypes.c_size_t(room))]

    def test_fed_piece_by_piece(self):
        self.assertEqual(self.ask('keep_trace'), 0)
        chosen, given, got = random.Random(2), {'a': [], 'b': []}, {'o': [], 'p': []}
        for _ in range(200):
            name = chosen.choice('ab')
            items = [chosen.randrange(-2**62, 2**62) for _ in range(chosen.randrange(4))]
            given[name] += items
            array = (ctypes.c_int64 * len(items))(*items)
            self.assertEqual(self.told('feed', ctypes.c_size_t(self.channel(name)), array, ctypes.c_size_t(len(items))),
                             len(items))
            self.told('step', ctypes.c_uint64(chosen.choice((1, 7, 10000))), kind=ctypes.c_uint64)
            for sink in got:
                got[sink] += self.take(self.channel(sink), chosen.randrange(4))
        for name in given:
            self.assertEqual(self.ask('close_source', ctypes.c_size_t(self.channel(name))), 0)
            self.assertEqual(self.ask('close_source', ctypes.c_size_t(self.channel(name))), 44)
        while self.told('step', ctypes.c_uint64(10000), kind=ctypes.c_uint64):
            for sink in got:
                got[sink] += self.take(self.channel(sink), 100)
        self.judge(given, got)

    def judge(self, given, got):
        """The items are those of `kpn run`, and the trace is legal."""
        words = []
        for name, items in given.items():
            (self.folder / f'{name}.in').write_text(''.join(f'{it}\n' for it in items))
            words += ['--source', f'{name}={name}.in']
        outcome = self.call(PROGRAM, 'run', 'net.kpn', *words, '--sink', 'o=o.out', '--sink', 'p=p.out')[1].split()[-1]
        for name, items in got.items():
            self.assertEqual((self.folder / f'{name}.out').read_text(), ''.join(f'{it}\n' for it in items))
        self.assertEqual((outcome, self.told('verdict', kind=ctypes.c_uint32)), ('clogged', 2))
        self.assertTrue(self.told('is_complete', ctypes.c_size_t(self.channel('p')), kind=ctypes.c_bool))
        length = ctypes.c_size_t()
        self.assertEqual(self.ask('trace', b'', ctypes.c_size_t(0), ctypes.byref(length)), 61)
        text = ctypes.create_string_buffer(length.value)
        self.assertEqual(self.told('trace', text, length), length.value)
        (self.folder / 'trace').write_bytes(text.raw)
        self.assertTrue(self.call(PROGRAM, 'audit', 'net.kpn', 'trace')[1].startswith('legal\n'))
        self.assertEqual((self.ask('free'), self.ask('free')), (0, 62))

    def test_moved(self):
        """What a call of kpn_move does is what the calls for its parts do."""
        a, b, o, p = (self.channel(name) for name in 'abop')
        amounts, most, wanted = Amounts(), ctypes.c_uint64(10000), (Wanted * 3)(Wanted(p), Wanted(o), Wanted(p))
        for of_a, of_b, sum_of_o in ((4, 5, 4), (6, 7, 11)):
            items = (Item * 2)(Item(a, of_a), Item(b, of_b))
            self.assertEqual(self.ask('move', items, ctypes.c_size_t(2), most, wanted, ctypes.c_size_t(3),
                                      ctypes.byref(amounts)), 0)
            self.assertEqual((amounts.fed, amounts.served, amounts.commits > 0), (2, 3, True))
            self.assertEqual([it.item if it.has_item else None for it in wanted], [of_a, sum_of_o, None])
        bad = (Item * 2)(Item(a, 1), Item(o, 1))
        self.assertEqual(self.ask('move', bad, ctypes.c_size_t(2), most, wanted, ctypes.c_size_t(3),
                                  ctypes.byref(amounts)), 43)
        self.assertEqual((amounts.fed, amounts.commits, amounts.served), (1, 0, 0))
        self.assertEqual(self.ask('move', None, ctypes.c_size_t(1), most, None, ctypes.c_size_t(0),
                                  ctypes.byref(amounts)), 63)

    def test_faults(self):
        none, number = ctypes.byref(ctypes.c_size_t()), ctypes.c_size_t
        self.assertEqual(self.ask('feed', number(4), b'', number(0), none), 43)
        self.assertEqual(self.ask('take', number(0), b'', number(0), none), 43)
        self.assertEqual(self.ask('channel', b'x', number(1), none), 64)
        self.assertEqual(self.ask('channel', b'x', number(1), None), 63)
        self.assertEqual(self.ask('trace', b'', number(0), none), 66)
        self.told('step', ctypes.c_uint64(9), kind=ctypes.c_uint64)
        self.assertEqual(self.ask('keep_trace'), 66)
        for text, answer in ((self.TEXT.encode(), 0), (b'network {\n}\n', 65)):
            other = ctypes.c_void_p()
            self.assertEqual(self.ask('open', text, number(len(text)), ctypes.byref(other), self.place,
                                      has_session=False), answer)
        self.assertEqual(self.ask('free'), 0)
        words = None, number(0), ctypes.byref(self.session), self.place
        self.assertEqual(self.ask('open_forgetting', *words, has_session=False), 0)
        self.assertEqual((self.ask('keep_trace'), self.ask('trace', b'', number(0), none)), (66, 66))
        self.assertEqual(self.ask('free'), 0)


    def test_a_fault_is_told(self):
        b, a, number = self.channel('b'), self.channel('a'), ctypes.c_size_t
        items = (ctypes.c_int64 * 1)(2**63 - 1)
        for channel in (a, a, b, b):
            self.told('feed', number(channel), items, number(1))
        states, count, commits = (State * 3)(), number(), ctypes.c_uint64()
        self.assertEqual(self.told('verdict', kind=ctypes.c_uint32), 0)
        self.assertEqual(self.ask('step', ctypes.c_uint64(10**6), ctypes.byref(commits)), 68)
        self.assertEqual(self.take(self.channel('o'), 9), [2**63 - 1])
        self.assertEqual(self.ask('step', ctypes.c_uint64(10**6), ctypes.byref(commits)), 0)
        self.assertEqual(self.ask('tell_processes', states, number(2), ctypes.byref(count)), 61)
        self.assertEqual(self.told('tell_processes', states, number(3)), 3)
        wanted = [(4, 0), (1, b), (1, self.channel('c'))]
        self.assertEqual([(it.state, it.channel) for it in states], wanted)
        for channel in (a, b):
            self.assertEqual(self.told('verdict', kind=ctypes.c_uint32), 0)
            self.assertEqual(self.ask('close_source', number(channel)), 0)
        self.take(self.channel('p'), 9)
        self.assertEqual(self.told('verdict', kind=ctypes.c_uint32), 1)

    def test_an_idle_session_has_no_verdict(self):
        """As of libkpn: it has one once all sources are closed, and all sinks are empty or left."""
        a, b, o, p = (self.channel(name) for name in 'abop')
        items = (ctypes.c_int64 * 1)(5)
        found = []
        for calls in ((), ((a, 'feed'),), ((b, 'feed'),), ((a, 'close_source'), (b, 'close_source')), ((o, 'take'),),
                      ((p, 'leave_sink'),)):
            for channel, name in calls:
                if name == 'feed':
                    self.told('feed', ctypes.c_size_t(channel), items, ctypes.c_size_t(1))
                elif name == 'take':
                    self.assertEqual(self.take(channel, 9), [5])
                else:
                    self.assertEqual(self.ask(name, ctypes.c_size_t(channel)), 0)
            self.told('step', ctypes.c_uint64(10**6), kind=ctypes.c_uint64)
            found.append(self.told('verdict', kind=ctypes.c_uint32))
        self.assertEqual(found, [0, 0, 0, 0, 0, 1])


class State(ctypes.Structure):
    """`kpn_process_state`."""

    _fields_ = [('state', ctypes.c_uint32), ('channel', ctypes.c_size_t)]


@unittest.skipUnless(shutil.which('cc'), 'there is no C compiler')
class Objects(WithFolder):
    """Objects with the calls of a session, in programs in C and C++."""
    MEAN = 'process mean(in s; out m) { while 1 { read s x; sum = (sum + x); n = (n + 1); write m (sum / n); } }\n' \
           'network { limit 64; source s; sink m cap 1; r = mean(s; m); }\n'
    BOTH = """#include <stdio.h>
#include "one.h"
#include "two.h"
int main(void) {
  kpn_session one, two;
  kpn_place place;
  size_t count;
  uint64_t commits;
  int64_t item = 7, other = 9;
  one_open("", 0, &one, &place), two_open("", 0, &two, &place);
  one_feed(&one, 0, &item, 1, &count), two_feed(&two, 0, &item, 1, &count);
  one_step(&one, 99, &commits), two_step(&two, 99, &commits);
  one_take(&one, 1, &item, 1, &count), two_take(&two, 1, &other, 1, &count);
  return printf("%d %d %s\\n", (int)item, (int)other, two_fault_name(two_close_source(&two, 1))) < 0;
}
"""

    def link(self, *words, compiler='cc'):
        return self.call(compiler, '-I', str(TOP / 'include'), *words, '-o', 'linked')

    def test_examples(self):
        """The examples run by each kind of object as by the library, if that is there."""
        library = TOP / 'out/c/libkpn.a'
        for name, last in (('plant', 'step 200'), ('tanks', '299 '), ('loop', 'step 400')):
            file, told = TOP / f'examples/c/{name}.c', []
            for options in (['--library'], ['--fixed', '4']):
                self.assertEqual(compiled(text_of_example(name), self.folder, *options).returncode, 0)
                self.assertEqual(self.link(str(file), 'prog'), (0, '', ''))
                told.append(self.call('./linked')[1])
            if library.exists():
                self.link(str(file), str(library))
                told.append(self.call('./linked')[1])
            self.assertEqual(set(told), {told[0]}, name)
            self.assertTrue(told[0].splitlines()[-1].startswith(last), told[0])

    @unittest.skipUnless(shutil.which('c++'), 'there is no C++ compiler')
    def test_in_cpp(self):
        for options, more in ((['--library'], []), (['--fixed', '8'], ['-DKPN_FIXED'])):
            self.assertEqual(compiled(self.MEAN, self.folder, *options).returncode, 0)
            words = ['-std=c++17', '-Wall', '-Wextra', '-Werror', '-include', 'kpn_native.h', *more]
            self.assertEqual(self.link(*words, str(TOP / 'c/wrapper.cpp'), 'prog', compiler='c++'), (0, '', ''))
            self.assertEqual(self.call('./linked'), (0, 'wrapper: as by hand\n', ''))

    def test_two_networks(self):
        """They have prefixes, or the linker refuses them."""
        (self.folder / 'both.c').write_text(self.BOTH)
        for number, (name, text) in enumerate((('one', self.MEAN), ('two', Words.DOUBLE))):
            options = ['--fixed', '4'] if name == 'one' else ['--library']
            for more in (['--prefix', name], []):
                done = compiled(text, self.folder, *options, *more, CFLAGS='-std=c11 -O0 -Wall -Wextra -Werror')
                self.assertEqual((done.returncode, done.stderr), (0, ''))
                (self.folder / 'prog').rename(self.folder / f'{name}{"" if more else "-plain"}.a')
        self.assertEqual(self.link('-I.', 'both.c', 'one.a', 'two.a'), (0, '', ''))
        self.assertEqual(self.call('./linked'), (0, '7 14 NoSuchEnd\n', ''))
        status, _, told = self.link(str(TOP / 'examples/c/plant.c'), 'one-plain.a', 'two-plain.a')
        self.assertEqual((status, 'multiple definition of `kpn_open' in told), (1, True), told)
        if shutil.which('nm'):
            for name in ('one', 'two'):
                lines = self.call('nm', '-g', '--defined-only', f'{name}.a')[1].splitlines()
                defined = [it.split()[-1] for it in lines]
                self.assertEqual([it for it in defined if not it.startswith(f'{name}_')], [])
        for prefix in ('', '1x', 'kpn_x', 'a-b'):
            self.assertEqual(compiled(self.MEAN, self.folder, '--library', '--prefix', prefix).returncode, 2)
        self.assertEqual(compiled(self.MEAN, self.folder, '--prefix', 'one').returncode, 2)


@unittest.skipUnless(shutil.which('cc'), 'there is no C compiler')
class LockStep(WithFolder):
    """Sessions in lock step beside sessions whose processes make turns."""
    # Wrong bodies of lock.c.
    WRONG = (('channel->got += (size_t)since_entry(network, plan->lock->gots, plan->channel_count, c);', ''),
             ('*slot_of(network, c, k) = channel->ring', '*slot_of(network, c, k) = 1 + channel->ring'))
    TRY = 'import sys, native_lock, random; print(native_lock.try_network(sys.argv[1], random.Random(1)))'

    def test_example(self):
        """The loop of the example, of two phases, by both kinds of objects."""
        for fixed in (0, native_lock.ITEMS):
            self.assertEqual(native_lock.try_network(text_of_example('loop'), random.Random(1), fixed), 'the same')

    def test_random_networks(self):
        for seed, kind in ((4, 'faults'), (9, 'small')):
            text, _ = native_networks.network(random.Random(seed), kind)
            self.assertEqual(native_lock.try_network(text, random.Random(seed)), 'the same')

    def test_wrong_bodies(self):
        shutil.copytree(TOP / 'include', self.folder / 'include')
        for number, (old, new) in enumerate(self.WRONG):
            package = self.folder / str(number)
            shutil.copytree(TOP / 'python/kpn', package / 'kpn', ignore=shutil.ignore_patterns('__pycache__'))
            edited = package / 'kpn/native/runtime/lock.c'
            self.assertEqual(edited.read_text().count(old), 1)
            edited.write_text(edited.read_text().replace(old, new))
            path = os.pathsep.join(map(str, (package, TOP / 'bench/stress')))
            done = subprocess.run([sys.executable, '-c', self.TRY, text_of_example('loop')], capture_output=True,
                                  text=True, cwd=package, env=environment(path))
            self.assertIn('native.Difference: ', done.stderr, old)


@unittest.skipUnless(shutil.which('cc'), 'there is no C compiler')
class Fixed(WithFolder):
    """Archives with static memory."""
    LOOP = 'process add(in i, b; out o, c) { while 1 { read i x; read b y; write o (x + y); write c (x + y); } }\n' \
           'process delay(in i; out o) { write o 0; while 1 { read i x; write o (x % 1000); } }\n' \
           'network { limit 8; source s; channel b cap 1; channel c cap 1; sink z cap 3; a = add(s, b; z, c);' \
           ' d = delay(c; b); }\n'
    # Two items a lap wait where there is room for one: the channel grows.
    GROWS = 'process two(in i; out o, p) { while 1 { read i x; write o x; write o x; write p x; } }\n' \
            'process join(in o, p; out z) { while 1 { read p x; read o y; read o y; write z (x / (y - 5)); } }\n' \
            'network { limit 4; source s; channel o cap 1; channel p cap 1; sink z cap 1; t = two(s; o, p);' \
            ' j = join(o, p; z); }\n'

    def test_sessions(self):
        for text in (self.LOOP, self.GROWS):
            self.assertEqual(native_fixed.try_network(text, {'s': [9, -1, 8, 7, 6, 40, 5, 3] * 5}), 'ended')

    @unittest.skipUnless(shutil.which('nm'), 'there is no nm')
    def test_nothing_takes_memory_or_writes(self):
        self.assertEqual(compiled(self.LOOP, self.folder, '--fixed', '8').returncode, 0)
        lines = [line.split() for line in self.call('nm', 'prog')[1].splitlines()]
        wanted = {line[-1] for line in lines if line[:1] == ['U']}
        own = {line[-1] for line in lines if len(line) == 3}
        self.assertLessEqual(wanted - own, {'memcpy', 'memcmp', 'memset', 'strlen', '_GLOBAL_OFFSET_TABLE_'})
        self.assertIn('kpn_step', own)

    def test_sizes(self):
        done = compiled(self.LOOP, self.folder, '--fixed', '8', '--sizes')
        self.assertRegex(done.stdout, r'^\d+ bytes of code and constants, \d+ bytes of memory, (\d+ bytes|and a) ')
        found = [int(it) for it in re.findall(r'\d+', done.stdout)][:2]
        if shutil.which('size'):
            text, data, bss = map(int, self.call('size', 'prog')[1].splitlines()[1].split()[:3])
            self.assertEqual(found, [text, data + bss])

    def test_refused(self):
        for options, status, told in ((['--fixed', '8'], 2, 'kpn: usage: net.kpn:2:1: --fixed wants `limit N;`'),
                                      (['--fixed', '0'], 2, 'a number from 1 to 1048576, and not 0')):
            done = compiled(Words.DOUBLE, self.folder, *options)
            self.assertEqual(done.returncode, status)
            self.assertIn(told, done.stderr)


@unittest.skipUnless(shutil.which('cc'), 'there is no C compiler')
class Compiles(WithFolder):
    def test_arrays(self):
        """Runs in this process read arrays where they lie, and have the results of `net.run`."""
        net = kpn.Network()
        net.sink('y', kpn.parts.fir(net.source('x'), [1, 4, 6, 4, 1]))
        program, given = net.compile(cache=self.folder), list(range(-20, 5000))
        kinds = [given, array.array('q', given)]
        with contextlib.suppress(ImportError):
            numpy = importlib.import_module('numpy')
            kinds += [numpy.array(given), numpy.repeat(given, 2)[::2], numpy.array(given, numpy.int16)]
        for items in kinds:
            for options in ({}, {'take': 7}):
                wanted, found = net.run(items, **options), program.run(items, **options)
                self.assertIs(type(found['y']), type(wanted['y']))
                self.assertEqual((list(found['y']), found.outcome, found.waits, found.complete),
                                 (list(wanted['y']), wanted.outcome, wanted.waits, wanted.complete))
        faulted = program.run([2**62] * 9)
        self.assertEqual(faulted.faults, {'fir': 'overflow'})
        self.assertEqual(str(faulted.fault_places['fir']), str(net.run([2**62] * 9).fault_places['fir']))
        for bad, error in (([0.5], TypeError), ([2**63], kpn.KpnError), ({'z': []}, kpn.KpnError)):
            self.assertRaises(error, program.run, bad)

    @unittest.skipUnless(importlib.util.find_spec('numpy'), 'NumPy is not there')
    def test_masked_cells(self):
        """They are no items, whatever lies there."""
        numpy = importlib.import_module('numpy')
        net = kpn.Network()
        net.sink('y', kpn.parts.gain(net.source('x'), 1))
        program = net.compile(cache=self.folder)
        given = numpy.ma.array([1, 2, 3], mask=[0, 1, 0])
        for run in (net.run, program.run):
            for more in ({}, {'scale': 2}):
                self.assertRaisesRegex(TypeError, 'item 1 of the source `x` is None', run, given, **more)
            self.assertEqual(list(run(numpy.ma.array([4, 5]))['y']), [4, 5])
        self.assertRaisesRegex(TypeError, 'item 1 .* is None', net.run, given / 2, scale=2)

    def test_a_pickle(self):
        """It has the network, and loads the shared object again."""
        net = kpn.Network()
        net.sink('y', kpn.parts.gain(net.source('x'), 2))
        program = net.compile(cache=self.folder)
        self.assertEqual(program.run([1])['y'], [2])
        again = pickle.loads(pickle.dumps(program))
        self.assertEqual((again.run([3])['y'], again.path, again.runs), ([6], program.path, 2))
        self.assertEqual(copy.copy(program).run([4])['y'], [8])

    def test_schedules(self):
        net = kpn.Network()
        net.sink('y', net.source('x'))
        self.assertRaisesRegex(kpn.KpnError, "`schedule` is 'x': it has to be one of fuse, batch, kpn", net.compile,
                               schedule='x', cache=self.folder)

    def test_regions_of_large_networks(self):
        """Their rows are bounded, since the C compiler takes long for them."""
        text = 'process p(in i; out o) { while 1 { read i x; write o x; } } network { ' + ''.join(
            f'source x{n}; channel c{n} cap 2; sink y{n} cap 2; p{n} = p(x{n}; c{n}); q{n} = p(c{n}; y{n}); '
            for n in range(3)) + '}'
        canonical = kpn.program.answer('print', text)
        for most, count in ((12, 3), (11, 2), (4, 1), (3, 0)):
            with unittest.mock.patch('kpn.native.regions.MOST_OF_ALL', most):
                self.assertEqual(command.c_of(canonical, 'fuse').count('any_region_'), 3 * count)

    def test_live(self):
        """Runs that are fed and read in blocks give what one run gives, and refuse what `net.stream` does."""
        net = kpn.Network()
        net.sink('y', kpn.parts.fir(net.source('x'), [1, 4, 6, 4, 1]))
        program, given = net.compile(cache=self.folder), list(range(-20, 3000))
        wanted = net.run(given)
        for kind in (list, lambda it: array.array('q', it)):
            with program.stream() as live:
                found = live.process(kind(given[:7]))
                self.assertEqual((type(found), list(found)), (type(kind([])), wanted['y'][:7]))
                live.feed(kind(given[7:100]))
                self.assertEqual(list(live.read(50)), wanted['y'][7:57])
                with self.assertRaisesRegex(TimeoutError, 'the sink `y` has 43 items, and not 44: feed more'):
                    live.read(44)
                live.feed(kind(given[100:]))
                result = live.finish()
                self.assertEqual((list(result['y']), result.outcome, result.waits, result.complete),
                                 (wanted['y'][57:], wanted.outcome, wanted.waits, wanted.complete))
                self.assertRaises(kpn.KpnError, live.feed, [1])
                self.assertRaises(kpn.KpnError, live.read, 1, 'x')
            self.assertRaises(kpn.KpnError, live.read)
        with program.stream() as live:
            live.feed([2**62] * 9)
            live.feed(iter([1, 2]))
            result = live.finish()
            self.assertEqual(result.faults, {'fir': 'overflow'})
            self.assertEqual(str(result.fault_places['fir']), str(net.run([2**62] * 9).fault_places['fir']))
        with program.stream() as live:
            live.leave()
            self.assertEqual(live.process([1, 2]), [])

    def test_each_nth_run_is_judged(self):
        net = kpn.Network()
        net.sink('y', net.source('x'))
        program = net.compile(cache=self.folder, certify_each=3)
        self.assertEqual([program.run([1, 2]).certified for _ in range(6)], [None, None, 'legal, exact'] * 2)
        self.assertEqual(program.run([1, 2], certify=True, take=1).certified, 'legal, not exact')

    def test_from_python(self):
        net = kpn.Network()
        net.sink('y', kpn.parts.fir(net.source('x'), [1, 4, 6, 4, 1]))
        program = net.compile(cache=self.folder)
        self.assertEqual(net.compile(cache=self.folder).path, program.path)
        self.assertEqual(sorted(it.suffix for it in self.folder.iterdir()), ['', '.so'])
        given = list(range(50))
        wanted = net.run(given, trace=True)
        for certify in (False, True):
            found = program.run(given, trace=True, certify=certify)
            self.assertEqual((dict(found), found.outcome, found.waits), (dict(wanted), wanted.outcome, wanted.waits))
        self.assertEqual([row['put'] for row in found.stats.channels], [row['put'] for row in wanted.stats.channels])
        with self.assertRaisesRegex(kpn.KpnError, 'no --workers'):
            program.run(given, workers=2)
        with self.assertRaisesRegex(kpn.KpnError, 'has no sink|no writer'):
            net.sink('z')
            net.compile(cache=self.folder)


if __name__ == '__main__':
    unittest.main()
