"""What `./kpn install` and tools/release.py put together, without the library for C: tools/clib.py tests that."""
import os
import pathlib
import shutil
import subprocess
import sys
import tempfile
import unittest
import zipfile

TOP = pathlib.Path(__file__).resolve().parent.parent.parent
sys.path += [str(TOP / 'tools'), str(TOP / 'python')]

import install  # noqa: E402
import pages  # noqa: E402
import wheel_builder  # noqa: E402

PROGRAM = pathlib.Path(os.environ.get('KPN_PROGRAM', pages.PROVED))
DOUBLES = 'import kpn; print(kpn.find_program()); print(kpn.Network.from_text(open("two.kpn").read()).run()["z"])'

# A program with two networks, the second in static memory.
PROJECT = '''cmake_minimum_required(VERSION 3.16)
project(both C CXX)
set(CMAKE_CXX_STANDARD 17)
find_package(kpn REQUIRED)
kpn_add_network(two two.kpn)
kpn_add_network(twice double.kpn --fixed 4)
add_executable(main main.cpp)
target_link_libraries(main two twice)
'''
DOUBLE = 'process d(in i; out o) { while 1 { read i x; write o (x * 2); } }\n' \
         'network { limit 4; source s; sink z cap 1; d = d(s; z); }\n'
BOTH = '''#include "two.h"
#include "twice.h"
#include "kpn.hpp"
#include <iostream>
int main() {
  kpn::basic_session<two_calls> one("");
  kpn::basic_session<twice_calls> other("");
  std::int64_t room[1], doubled[1];
  one.step();
  other.feed(other.channel("s"), 7);
  other.step();
  if (one.take(one.channel("z"), room) == 1 && other.take(other.channel("z"), doubled) == 1) {
    std::cout << room[0] << " " << doubled[0] << "\\n";
  }
}
'''


def said(*words, **more):
    return subprocess.run(words, check=True, capture_output=True, text=True, **more).stdout


class Installed(unittest.TestCase):
    def setUp(self):
        room = tempfile.TemporaryDirectory()
        self.addCleanup(room.cleanup)
        self.room = pathlib.Path(room.name)

    def test_program(self):
        install.tree_of(PROGRAM, None, '').write(self.room / 'prefix')
        (self.room / 'link').symlink_to('prefix/bin/kpn')
        two = self.room / 'prefix' / install.DOCUMENTS / 'examples/two.kpn'
        self.assertEqual(said(self.room / 'link', 'run', two), 'sink z: 312\nended\n')

    def test_settings(self):
        install.tree_of(PROGRAM, None, '').write(self.room)
        (self.room / 'lib/kpn/kpn').write_text('#!/bin/sh\necho "$GLIBC_TUNABLES $1"\n')
        settings = 'glibc.malloc.hugetlb=1:glibc.malloc.mmap_threshold=4194304'
        plain = {it: value for it, value in os.environ.items() if it != 'GLIBC_TUNABLES'}
        self.assertEqual(said(self.room / 'bin/kpn', 'a b', env=plain), f'{settings} a b\n')
        self.assertEqual(said(self.room / 'bin/kpn', 'a b', env={**plain, 'GLIBC_TUNABLES': ''}), ' a b\n')

    def test_compile(self):
        """A compiled network by the command, and two by the package of CMake, in a program in C++."""
        if not shutil.which('cc'):
            self.skipTest('there is no C compiler')
        install.tree_of(PROGRAM, None, '').write(self.room / 'prefix')
        command, two = self.room / 'prefix/bin/kpn', self.room / 'prefix' / install.DOCUMENTS / 'examples/two.kpn'
        self.assertIn('\n  compile  ', said(command, '--help'))
        said(command, 'compile', two, '-o', 'two', cwd=self.room)
        self.assertEqual(said(self.room / 'two', 'run', cwd=self.room), 'sink z: 312\nended\n')
        done = subprocess.run([command, '--words', 'never', 'compile', 'none', '-o', 'x'], capture_output=True)
        self.assertEqual((done.stderr, done.returncode), (b'kpn: 26 Read\n', 1))
        if shutil.which('cmake') and shutil.which('c++'):
            self.try_cmake(two)

    def try_cmake(self, two):
        (self.room / 'CMakeLists.txt').write_text(PROJECT)
        (self.room / 'main.cpp').write_text(BOTH)
        (self.room / 'two.kpn').write_bytes(two.read_bytes())
        (self.room / 'double.kpn').write_text(DOUBLE)
        said('cmake', '-S', '.', '-B', 'build', f'-DCMAKE_PREFIX_PATH={self.room}/prefix', cwd=self.room)
        said('cmake', '--build', 'build', cwd=self.room)
        self.assertEqual(said(self.room / 'build/main'), '312 14\n')

    def test_again(self):
        """A second time replaces what is there, also where another file led elsewhere."""
        (self.room / 'bin').mkdir()
        (self.room / 'mine').write_text('mine')
        (self.room / 'bin/kpn').symlink_to('../mine')
        for _ in range(2):
            install.tree_of(PROGRAM, None, '').write(self.room)
        self.assertEqual((self.room / 'mine').read_text(), 'mine')
        self.assertEqual(said(self.room / 'bin/kpn', '--version'), said(PROGRAM, '--version'))

    def test_programs_that_are_none(self):
        changes = self.room / 'changes'
        changes.write_text(f'#!/bin/sh\necho >> "$0"\nexec {PROGRAM.resolve()} "$@"\n')
        changes.chmod(0o755)
        for program, why in (('/bin/true', '/bin/true is not the program kpn'),
                             (changes, f'kpn: {changes} has changed meanwhile: call this once more'),
                             (self.room / 'none', f'kpn: {self.room}/none: No such file or directory'),
                             (self.room, f'kpn: {self.room}: Permission denied')):
            words = [sys.executable, TOP / 'tools/install.py', self.room / 'prefix', '--program', program]
            done = subprocess.run(words, capture_output=True, text=True)
            self.assertEqual((done.returncode, done.stdout, done.stderr), (1, '', f'{why}\n'))
        self.assertFalse((self.room / 'prefix').exists())

    def test_prefix_that_takes_no_files(self):
        tree = install.tree_of(PROGRAM, None, '')
        (self.room / 'bin/kpn').mkdir(parents=True)
        with self.assertRaises(OSError) as caught:
            tree.write(self.room)
        self.assertEqual(caught.exception.filename, self.room / 'bin/kpn')
        self.assertEqual(list(self.room.rglob('.*')), [])

    def test_licences(self):
        tree = install.tree_of(PROGRAM, None, '')
        text = tree.files[f'{install.DOCUMENTS}/licences/README'].decode()
        self.assertIn('The licence of Combrieks itself is not chosen yet', text)
        self.assertIn('Unicode License v3', tree.files[f'{install.DOCUMENTS}/licences/core/NOTICES'].decode())
        self.assertIn(f'{install.DOCUMENTS}/licences/core/LICENSE-UNICODE', tree.files)
        for crate in ('clap', 'strsim', 'indexmap'):
            self.assertIn(f'- {crate}\n', text)
            self.assertTrue(any(path.startswith(f'{install.DOCUMENTS}/licences/{crate}/') for path in tree.files))

    def test_version(self):
        self.assertEqual(wheel_builder.VERSION, pages.version_of(PROGRAM))

    def test_wheel(self):
        name = wheel_builder.build_with_program(self.room, PROGRAM.read_bytes(), {'licenses/x': b''}, 'any', '0')
        with zipfile.ZipFile(self.room / name) as wheel:
            wheel.extractall(self.room / 'site')
            self.assertEqual(wheel.getinfo(wheel_builder.INSIDE).external_attr >> 16, 0o100755)
            self.assertIn('Tag: py3-none-any', wheel.read('kpn-0.dist-info/WHEEL').decode())
        inside = self.room / 'site' / wheel_builder.INSIDE
        inside.chmod(0o755)
        (self.room / 'two.kpn').write_bytes((TOP / 'examples/two.kpn').read_bytes())
        env = {it: value for it, value in os.environ.items() if it != 'KPN_PROGRAM'}
        env['PYTHONPATH'] = str(self.room / 'site')
        told = said(sys.executable, '-c', DOUBLES, cwd=self.room, env=env)
        self.assertEqual(told, f'{inside}\n[312]\n')
        for words, first in ((['check', 'two.kpn'], 'ok: 2'), (['compile', 'two.kpn', '--c', '-o', 'two.c'], ''),
                             (['--words', 'never', 'compile', 'two.kpn', '--c', '-o', 'two.c'], ''),
                             (['print', 'two.kpn'], 'process p('),
                             (['print', '--capacities', 'fast', '--help'], 'usage: python -m kpn print')):
            told = said(sys.executable, '-c', 'import kpn.program as it; it.main()', *words, cwd=self.room, env=env)
            self.assertTrue(told.startswith(first), told)
        self.assertTrue((self.room / 'two.c').exists())


if __name__ == '__main__':
    unittest.main()
