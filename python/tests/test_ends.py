"""The ends of streams: the quick cases of bench/files/stream.py, for `kpn stream`, for compiled programs and, where the
library for C is built, for `kpn-mpi`."""
import importlib.util
import os
import shutil
import subprocess
import unittest

from support import PROGRAM, TOP

os.environ.setdefault('CFLAGS', '-std=c11 -O0 -w')
spec = importlib.util.spec_from_file_location('ends', TOP / 'bench/files/stream.py')
ends = importlib.util.module_from_spec(spec)
spec.loader.exec_module(ends)


class Ends(unittest.TestCase):
    def try_all(self, kind, program=PROGRAM):
        for case in ends.use(program, kind):
            if case in ends.quick_ones:
                with self.subTest(case=case.__name__):
                    self.assertEqual(ends.attempt(case), '')

    def test_kpn_stream(self):
        self.try_all('stream')

    @unittest.skipUnless(shutil.which('cc'), 'there is no C compiler')
    def test_compiled(self):
        self.try_all('compiled')

    @unittest.skipUnless((TOP / 'out/c/libkpn.a').exists() and shutil.which('make'), 'tools/clib.py build was not run')
    def test_kpn_mpi(self):
        subprocess.run(['make', '-s', '-C', TOP / 'mpi', 'simulator'], check=True)
        self.try_all('mpi', TOP / 'out/mpi/kpn-mpi-simulator')


if __name__ == '__main__':
    unittest.main()
