"""Runs and streams that keep no more than they need: under a limit of memory that a whole history would break."""
import io
import pathlib
import resource
import subprocess
import tempfile
import unittest

from support import kpn

# What the program may take, its own text and stack included.
LIMIT = 48 * 2**20
CHAIN = """process copy(in i; out o) { while 1 { read i x; write o x; } }
network {
  source s;
  channel a cap 64;
  channel b cap 64;
  channel c cap 64;
  sink z cap 64;
  p = copy(s; a);
  q = copy(a; b);
  r = copy(b; c);
  t = copy(c; z);
}
"""


class MemoryTest(unittest.TestCase):
    """A chain of four processes, over which each item makes eight events."""

    @classmethod
    def setUpClass(cls):
        kept = tempfile.TemporaryDirectory()
        cls.addClassCleanup(kept.cleanup)
        cls.folder = pathlib.Path(kept.name)
        (cls.folder / 'chain.kpn').write_text(CHAIN)

    def call(self, items, *words):
        """The status, the output and what was told of the program with these words, under the limit."""
        file = self.folder / 'items'
        with file.open('w') as out:
            out.writelines(f'{item}\n' for item in range(items))
        limit = lambda: resource.setrlimit(resource.RLIMIT_AS, (LIMIT, LIMIT))  # noqa: E731
        with file.open() as given:
            ran = subprocess.run([kpn.find_program(), *words], stdin=given, capture_output=True, cwd=self.folder,
                                 preexec_fn=limit, timeout=300, check=False)
        return ran.returncode, ran.stdout.decode(), ran.stderr.decode()

    def expected(self, items):
        text = io.StringIO()
        text.writelines(f'{item}\n' for item in range(items))
        return text.getvalue()

    def test_a_stream_keeps_nothing(self):
        status, out, told = self.call(1_000_000, 'stream', 'chain.kpn')
        self.assertEqual(status, 0)
        self.assertEqual(told.splitlines()[0], 'sink z: 1000000 items, complete')
        self.assertEqual(out, self.expected(1_000_000))

    def test_a_stream_with_a_trace_keeps_all(self):
        status, out, told = self.call(1_000_000, 'stream', 'chain.kpn', '--trace', 'trace')
        self.assertEqual(status, 6)
        self.assertIn('42 NoMemory', told)
        self.assertTrue(self.expected(1_000_000).startswith(out))

    def test_a_run_keeps_what_its_report_shows(self):
        for workers in ([], ['--workers', '1']):
            status, out, told = self.call(150_000, 'run', 'chain.kpn', '--source', 's=items', '--sink', 'z=out',
                                          '--max-commits', '100000000', *workers)
            self.assertEqual((status, told), (0, ''), workers)
            self.assertEqual((self.folder / 'out').read_text(), self.expected(150_000))

    def test_a_run_with_a_trace_keeps_all(self):
        status, _, told = self.call(300_000, 'run', 'chain.kpn', '--source', 's=items', '--trace', 'trace',
                                    '--max-commits', '100000000')
        self.assertEqual((status, told), (6, 'kpn: 42 NoMemory\n'))


if __name__ == '__main__':
    unittest.main()
