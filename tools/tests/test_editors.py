"""The grammars in editors/ beside one another, beside the tokens that rounds.py finds, and beside what `kpn` refuses.

Each says of each byte of a text what it is: a comment, a word of the language, a number, an operator, a mark, a name,
or wrong. Pygments and vim are left out if they are not there. The TextMate grammar is applied by Python's `re`.
"""
import functools
import json
import os
import pathlib
import random
import re
import shutil
import subprocess
import sys
import tempfile
import unittest

TOP = pathlib.Path(__file__).resolve().parent.parent.parent
sys.path += [str(TOP / it) for it in ('tools', 'python', 'editors')]

from kpn.language import RESERVED, RESERVED_IN_TWO  # noqa: E402
from rounds import TOKEN  # noqa: E402

PROGRAM = os.environ.get('KPN_PROGRAM', TOP / 'crates/kpn/out/kpn')
EXAMPLES = sorted((TOP / 'examples').glob('*.kpn')) + sorted((TOP / 'examples').glob('[glw]*/*.kpn'))
REFUSED = sorted((TOP / 'examples/refused').iterdir())
TRIED = 40
# Without the marks of language 2, which are operators in any text.
WRONG = b'$@"\x00\x80\xff_9az#\n'
MARKS = set('(){}[];,')
# What the names of scopes, of tokens and of vim's groups begin with.
SCOPES = {'comment': 'comment', 'keyword.operator': 'operator', 'keyword': 'word', 'constant.numeric': 'number',
          'punctuation': 'mark', 'invalid': 'wrong', 'variable': 'name', 'entity': 'name', 'constant.language': 'name'}
TOKENS = {'Comment': 'comment', 'Operator': 'operator', 'Keyword.Constant': 'name', 'Keyword': 'word',
          'Literal.Number': 'number', 'Punctuation': 'mark', 'Error': 'wrong', 'Name': 'name', 'Text': ''}
GROUPS = {'kpnComment': 'comment', 'kpnOperator': 'operator', 'kpnKeyword': 'word', 'kpnStatement': 'word',
          'kpnNumber': 'number', 'kpnPunctuation': 'mark', 'kpnError': 'wrong', 'kpnName': 'name',
          'kpnFunction': 'name', 'kpnConstant': 'name', '': ''}
IN_VIM = '''
function! Show(name)
  let told = []
  for line in range(1, line('$'))
    call add(told, join(map(range(1, len(getline(line))), 'synIDattr(synID(line, v:val, 0), "name")'), ' '))
  endfor
  call writefile(told, a:name . '.groups')
endfunction
set nocompatible encoding=latin1 fileencodings=latin1 fileformats=unix runtimepath^={editors}/vim
filetype on
syntax on
for name in {names}
  execute 'edit ' . name
  call Show(name)
endfor
qall!
'''


def kind(name, kinds):
    """The kind of the longest beginning that fits."""
    return kinds[max((it for it in kinds if name.startswith(it)), key=len)]


def by_tokens(text):
    """The kinds by rounds.py, of a right text."""
    kinds = []
    is_second = re.match(r'(?:\s|#[^\n]*\n)*language 2;', text)
    reserved = RESERVED | RESERVED_IN_TWO if is_second else RESERVED
    for found in TOKEN.finditer(text):
        token = found[1]
        if token is None:
            what = 'comment' if found[0][0] == '#' else ''
        elif re.match(r"[\d']", token):
            what = 'number'
        elif token in reserved:
            what = 'word'
        else:
            what = 'name' if re.match(r'\w', token) else 'mark' if token in MARKS else 'operator'
        kinds += [what] * len(found[0])
    return kinds


def by_textmate(text):
    grammar = json.loads((TOP / 'editors/vscode/kpn.tmLanguage.json').read_text())
    rules = [(re.compile(it['match']), it) for it in grammar['patterns']]
    kinds = []
    for line in text.split('\n'):
        told, place = [''] * len(line), 0
        while found := [(match.start(), k) for k, (rule, _) in enumerate(rules)
                        if (match := rule.search(line, place)) and match[0]]:
            start, k = min(found)
            rule, what = rules[k]
            match = rule.match(line, start)
            scopes = [(0, what)] if 'name' in what else [(int(n), it) for n, it in what['captures'].items()]
            for number, scope in scopes:
                first, last = match.span(number)
                told[first:last] = [kind(scope['name'], SCOPES)] * (last - first)
            place = match.end()
        kinds += [*told, '']
    return kinds[:-1]


def by_pygments(text):
    import kpn_lexer
    kinds = []
    for _, token, part in kpn_lexer.KpnLexer().get_tokens_unprocessed(text):
        kinds += [kind('.'.join(token), TOKENS)] * len(part)
    return kinds


def by_vim(files):
    """The kinds of each of some files."""
    with tempfile.TemporaryDirectory() as room:
        names = []
        for number, file in enumerate(files):
            names.append(f'{room}/{number}.kpn')
            shutil.copyfile(file, names[-1])
        script = pathlib.Path(room, 'script.vim')
        script.write_text(IN_VIM.replace('{editors}', str(TOP / 'editors')).replace('{names}', str(names)))
        subprocess.run(['vim', '-e', '-s', '-u', 'NONE', '-i', 'NONE', '-n', '-S', script], check=True,
                       stdin=subprocess.DEVNULL, stdout=subprocess.DEVNULL)
        for name in names:
            lines = pathlib.Path(f'{name}.groups').read_text().split('\n')[:-1]
            yield [[kind(it, GROUPS) for it in line.split(' ')] if line else [] for line in lines]


@functools.cache
def wrong_at(text):
    """The byte at which `kpn` finds no token, or a name that is too long; None if its tokens are right."""
    with tempfile.NamedTemporaryFile(suffix='.kpn') as file:
        file.write(text.encode('latin-1'))
        file.flush()
        told = subprocess.run([PROGRAM, 'check', file.name], capture_output=True, text=True).stderr
    found = re.search(r'(?:20 Token|24 TooLong) at (\d+)', told)
    # A number of 19 digits that is too large has no colour of its own.
    if found and re.match(r'\d{19}(?!\d)', text[int(found[1]):]):
        return None
    return int(found[1]) if found else None


def mutants():
    chance = random.Random(1)
    for _ in range(TRIED):
        text = chance.choice(EXAMPLES[:14]).read_bytes()
        place = chance.randrange(len(text))
        byte = bytes([chance.choice(WRONG)]) * chance.choice([1, 1, 2, 33])
        yield (text[:place] + byte + text[place:]).decode('latin-1')


class Editors(unittest.TestCase):
    def check_all(self, kinds_of):
        for file in EXAMPLES:
            text = file.read_text()
            self.assertEqual(kinds_of(text), by_tokens(text), file)
        for text in [*(it.read_text('latin-1') for it in REFUSED), *mutants()]:
            kinds = kinds_of(text)
            self.assertEqual(len(kinds), len(text))
            self.assertEqual(kinds.index('wrong') if 'wrong' in kinds else None, wrong_at(text), text)

    def test_textmate(self):
        self.check_all(by_textmate)

    def test_pygments(self):
        try:
            import pygments  # noqa: F401
        except ImportError:
            self.skipTest('there is no Pygments')
        self.check_all(by_pygments)

    @unittest.skipUnless(shutil.which('vim'), 'there is no vim')
    def test_vim(self):
        # The two largest would take vim as long as all others.
        files = [it for it in [*EXAMPLES, *REFUSED] if it.stat().st_size < 10_000]
        for file, lines in zip(files, by_vim(files), strict=True):
            kinds = by_textmate(file.read_text('latin-1').removesuffix('\n'))
            self.assertEqual([it for line in lines for it in [*line, '']][:-1], kinds, file)


if __name__ == '__main__':
    unittest.main()
