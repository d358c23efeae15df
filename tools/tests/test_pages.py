"""The manual pages and the completions beside the help of `kpn`. Shells and `man` that are not there are left out."""
import os
import pathlib
import pty
import re
import select
import shutil
import subprocess
import sys
import tempfile
import time
import unittest

sys.path.append(str(pathlib.Path(__file__).resolve().parent.parent))

import pages  # noqa: E402

PROGRAM = pathlib.Path(os.environ.get('KPN_PROGRAM', pages.PROVED))
COMMANDS = re.findall(r'^  (\w+)  ', pages.said(PROGRAM, '--help'), re.M)
# Beginnings of lines, and what a shell has to offer for the last word.
OFFERED = {'st': {'stream', 'stats'}, 'stats --tsv ': {'channels', 'processes'}, 'alone ': {'copy', 'double', 'sum'},
           'stream --format s': {'s8', 's16le', 's24le', 's32le', 's64le'}, 'help a': {'alone', 'audit'}}
# The most seconds that zsh may take to offer something.
PATIENCE = 20


def help_of(name):
    return pages.said(PROGRAM, 'help', name) if name else pages.said(PROGRAM, '--help')


def flags_in(text):
    """The options that a help names, read in another way than pages.py reads them."""
    return set(re.findall(r'(?<![\w-])--?\w[\w-]*', ' '.join(re.findall(r'^ {2,}(-.*?) {2}', text, re.M))))


def offered_by_help():
    """OFFERED, and for each command the long options that its help names."""
    flags = {f'{it} --': flags_in(help_of(it)) for it in COMMANDS if it != 'help'}
    return {**OFFERED, **{line: {it for it in found if it.startswith('--')} for line, found in flags.items()}}


def plain(page):
    """The words of a manual page without its marks."""
    text = re.sub(r'^\.(SH|TP|TH|PP|nf|fi|BR|B) ?', '', page, flags=re.M).replace('\\&', '')
    for mark, what in (('\\-', '-'), ('\\(aq', "'"), ('\\(ga', '`'), ('\\e', '\\')):
        text = text.replace(mark, what)
    return text.split()


class Pages(unittest.TestCase):
    @classmethod
    def setUpClass(cls):
        cls.room = tempfile.TemporaryDirectory()
        cls.folder = pathlib.Path(cls.room.name)
        cls.files, cls.wanted = pages.files(PROGRAM, '1', ''), offered_by_help()
        for path, text in cls.files.items():
            (cls.folder / path).parent.mkdir(parents=True, exist_ok=True)
            (cls.folder / path).write_text(text)

    @classmethod
    def tearDownClass(cls):
        cls.room.cleanup()

    def test_help_is_read_whole(self):
        for name, given in zip(['', *COMMANDS], pages.read_help(PROGRAM), strict=True):
            self.assertEqual(given.text(), help_of(name))

    def test_pages_have_all_words_of_the_help(self):
        for name in ['', *(it for it in COMMANDS if it != 'help')]:
            page = self.files[f'{pages.PAGES}/{f"kpn-{name}" if name else "kpn"}.1']
            headings = {'Usage:', 'Commands:', 'Arguments:', 'Options:', 'Statuses:'}
            first = help_of(name).split(maxsplit=1)[0]
            missing = set(help_of(name).split()) - set(plain(page)) - headings - {first}
            self.assertEqual(missing, set(), name)
            self.assertIn(first.lower(), plain(page))

    @unittest.skipUnless(shutil.which('man'), 'there is no man')
    def test_man_warns_of_nothing(self):
        for file in sorted((self.folder / pages.PAGES).iterdir()):
            done = subprocess.run(['man', '--warnings', '-l', file], capture_output=True, text=True,
                                  env={**os.environ, 'MANPAGER': 'cat'})
            self.assertEqual((done.returncode, done.stderr), (0, ''), file)


    def test_bash(self):
        script = f'. {self.folder}/share/bash-completion/completions/kpn\n'
        for line in self.wanted:
            words = [f"'{it}'" for it in ['kpn', *line.split(' ')]]
            script += f'COMP_WORDS=({" ".join(words)}); COMP_CWORD={len(words) - 1}; _kpn; echo "${{COMPREPLY[@]}}"\n'
        told = subprocess.run(['bash', '-c', script], check=True, capture_output=True, text=True).stdout
        for (line, wanted), offered in zip(self.wanted.items(), told.splitlines(), strict=True):
            self.assertEqual(set(offered.split()), wanted, line)

    @unittest.skipUnless(shutil.which('fish'), 'there is no fish')
    def test_fish(self):
        script = f'source {self.folder}/share/fish/vendor_completions.d/kpn.fish\n'
        script += ''.join(f"complete -C 'kpn {line}'; echo END\n" for line in self.wanted)
        told = subprocess.run(['fish', '--no-config', '-c', script], check=True, capture_output=True, text=True).stdout
        for (line, wanted), offered in zip(self.wanted.items(), told.split('END\n')[:-1], strict=True):
            self.assertEqual({it.split('\t')[0] for it in offered.splitlines()}, wanted, line)

    @unittest.skipUnless(shutil.which('zsh'), 'there is no zsh')
    def test_zsh(self):
        child, terminal = pty.fork()
        if child == 0:
            os.execvpe('zsh', ['zsh', '-f', '-i'], {**os.environ, 'TERM': 'dumb', 'PS1': '', 'COLUMNS': '200'})
        told = b''

        def says(wanted):
            """Reads until all that is wanted was told."""
            nonlocal told
            until = time.monotonic() + PATIENCE
            while not all(it.encode() in told for it in wanted):
                self.assertTrue(select.select([terminal], [], [], max(0, until - time.monotonic()))[0], (wanted, told))
                told += os.read(terminal, 1 << 16)

        start = f'fpath=({self.folder}/share/zsh/site-functions $fpath); autoload -Uz compinit; compinit -u -D; '
        os.write(terminal, f'{start} LISTMAX=1000; echo BE""GUN\n'.encode())
        says(['BEGUN'])
        for line, wanted in self.wanted.items():
            told = b''
            os.write(terminal, f'kpn {line}\t'.encode())
            says(wanted)
            # empties the line
            os.write(terminal, b'\x15')
        os.write(terminal, b'\x15exit\n')
        os.close(terminal)
        os.waitpid(child, 0)


if __name__ == '__main__':
    unittest.main()
