"""Each script tells its usage for `--help`, and does nothing else."""
import os
import pathlib
import re
import subprocess
import sys
import tempfile
import unittest

TOP = pathlib.Path(__file__).resolve().parent.parent.parent


def scripts():
    """The programs among the files of Python, but tests, and what `python3 -m` calls."""
    for folder in ('tools', 'bench', 'python/tests'):
        for file in sorted((TOP / folder).rglob('*.py')):
            is_program = re.search("^if __name__ == '__main__':", file.read_text(), re.M)
            if is_program and not file.name.startswith('test_'):
                yield file


class Help(unittest.TestCase):
    def test_scripts(self):
        files = list(scripts())
        self.assertGreater(len(files), 40)
        for file in files:
            with self.subTest(file=file), tempfile.TemporaryDirectory() as room:
                done = subprocess.run([sys.executable, file, '--help'], cwd=room, capture_output=True, text=True,
                                      stdin=subprocess.DEVNULL)
                self.assertEqual((done.returncode, done.stderr), (0, ''))
                self.assertRegex(done.stdout, '^usage: |\nusage: |Words:')
                self.assertEqual(os.listdir(room), [])

    def test_commands_of_the_launcher(self):
        with tempfile.TemporaryDirectory() as room:
            for command in ('install', 'compile'):
                for words, status in (([], 2), (['--help'], 0), (['-h'], 0)):
                    done = subprocess.run([TOP / 'kpn', command, *words], cwd=room, capture_output=True, text=True)
                    self.assertEqual(done.returncode, status, done.stderr)
                    self.assertIn('usage: ', done.stdout + done.stderr)


if __name__ == '__main__':
    unittest.main()
