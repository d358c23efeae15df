"""Mutated texts of networks: the package reads each as `kpn print` does, or refuses it as that does.

    python3 python/tests/mutated_texts.py [ROUNDS [FIRST SEED]]
"""
import argparse
import pathlib
import random
import re
import sys
import tempfile

from support import GALLERY, TOP, kpn

from kpn.language import tokens_of
import random_cells
from kpn.program import as_bytes, call
from random_networks import Maker

TEXTS = [file.read_text() for folder in (TOP / 'examples', TOP / 'examples/language2', GALLERY)
         for file in sorted(folder.glob('*.kpn'))]
TOKENS = ('(', ')', '{', '}', ';', ',', '=', '-', '0', '1', '007', '1048577', '9223372036854775808', 'x', 'cap',
          'limit', 'policy', 'grow', 'all', 'double', 'source', 'sink', 'channel', 'read', 'in', 'out', '_' * 33, '&',
          '~', '?', ':', '<<', '+', '==', 'language', 'table', 'array', '[', ']', 'if', 'else', '0xfF', '0b1_0', '1_',
          '12ab', "'A'", "'\\n'", "'", 'const', 'for', '+=', '<<=', 'const N = 3;', 'const _ = -1;', 'x ^= 2;',
          'a[0] += 1;', 'cap 2;', 'min', 'max', 'min(x, 1)', '..', 'to', 'item', 'to_', 'for k in 0..3 {',
          'for to in x..y { }', 'read i a[1];')
CHARACTERS = ('', *'(){}[];,=-1x#\n\r\t\x00\x0b&', '\u00b2', '\ufeff', '\udc80', '# \u00e9 \ud800\n', '\r\n')
PARTS = re.compile(r'(\w+ = \w+\()([^;)]*);([^;)]*)(;[^;)]*)?\);')


def by_characters(numbers, text):
    """Some characters are cut out or put in."""
    place, size = numbers.randrange(len(text)), numbers.choice((0, 0, 1, 5))
    other = numbers.randrange(len(text))
    return text[:place] + numbers.choice((*CHARACTERS, text[other:other + 5])) + text[place + size:]


def by_tokens(numbers, text):
    """A token is left out, doubled, moved or another one."""
    tokens = [it.text for it in tokens_of(text, 1 + text.startswith('language 2;'))][:-1] or ['x']
    place, other = numbers.randrange(len(tokens)), numbers.randrange(len(tokens))
    kind = numbers.randrange(5)
    if kind == 0:
        del tokens[place]
    elif kind == 1:
        tokens.insert(place, tokens[place])
    elif kind == 2:
        tokens[place], tokens[other] = tokens[other], tokens[place]
    else:
        tokens[place] = tokens[other] if kind == 3 else numbers.choice(TOKENS)
    return re.sub(r'([-+*/%&|^]|<<|>>) =(?!=)', r'\1=', ' '.join(tokens))


def by_lines(numbers, text):
    """A line, such as a channel or an instance, is left out, doubled or moved."""
    lines = text.splitlines(keepends=True)
    line = numbers.choice(lines)
    if numbers.randrange(2):
        lines.remove(line)
    if numbers.randrange(2):
        lines.insert(numbers.randrange(len(lines) + 1), line)
    return ''.join(lines)


def by_ports(numbers, text):
    """An instance has a channel or a value more or less."""
    found = numbers.choice([*PARTS.finditer(text)] or [None])
    if not found:
        return text
    parts = [[it.strip() for it in (part or '').strip('; ').split(',') if it.strip()] for part in found.groups()[1:]]
    changed = numbers.choice(parts)
    if changed and numbers.randrange(2):
        changed.remove(numbers.choice(changed))
    else:
        changed.append(numbers.choice([it for part in parts for it in part] + ['-3']))
    ins, outs, values = (', '.join(part) for part in parts)
    new = f'{found[1]}{ins}; {outs}{"; " if values else ""}{values});'
    return text[:found.start()] + new + text[found.end():]


def by_processes(numbers, text):
    """A process stands there twice, or has another head."""
    heads = [*re.finditer(r'process (\w+)\(([^)]*)\)', text)]
    if not heads:
        return text
    one, two = numbers.choice(heads), numbers.choice(heads)
    if numbers.randrange(2):
        return f'process {one[1]}({two[2]}) {{ }}\n{text}'
    return text[:one.start(2)] + two[2] + text[one.end(2):]


def mutant(numbers):
    """A text of a random network, or of one that is stored, with some mutations."""
    kind = numbers.randrange(4)
    text = random_cells.network(numbers)[0] if kind == 1 else str(Maker(numbers).network()) if kind else \
        numbers.choice(TEXTS)
    for _ in range(numbers.randrange(4)):
        text = numbers.choice((by_characters, by_tokens, by_lines, by_ports, by_processes))(numbers, text) or 'x'
    return text + f'\n#{"x" * 1_048_576}' if numbers.randrange(100) == 0 else text


def read(text):
    """What the package makes of a text: that of its network, or the error, and whether that is of the text itself."""
    try:
        net = kpn.Network.from_text(text)
    except kpn.KpnError as error:
        return '', error.error, True
    try:
        net.check()
    except kpn.KpnError as error:
        return '', error.error, False
    return str(net), None, True


def compare(text):
    """How the package and `kpn print` differ on a text, '' if they do not; and whether the package refuses it."""
    with tempfile.TemporaryDirectory() as folder:
        pathlib.Path(folder, 'text').write_bytes(as_bytes(text))
        done = call(['print', 'text'], None, folder, is_kpn=False)
    wanted = done.stderr.strip()[len('kpn: '):] or None
    printed, error, is_of_text = read(text)
    is_refused = error is not None
    if not is_of_text:
        # The place is in the text that the package has made.
        error, wanted = (it and it.split(' at ')[0] for it in (error, wanted))
    if (printed, error) == (done.stdout, wanted):
        return '', is_refused
    return f'{wanted or done.stdout}\nis for the package\n{error or printed}', is_refused


def main(rounds, first):
    """Compares this many texts; gives the status."""
    refused = 0
    for seed in range(first, first + rounds):
        text = mutant(random.Random(seed))
        found, is_refused = compare(text)
        if found:
            print(f'seed {seed}: {text[:4_000]!r}\n{found[:4_000]}')
            return 1
        refused += is_refused
    print(f'{rounds} texts, {refused} of them refused: the package reads them as `kpn` does')
    return 0


if __name__ == '__main__':
    parser = argparse.ArgumentParser(description=__doc__, formatter_class=argparse.RawDescriptionHelpFormatter)
    parser.add_argument('rounds', nargs='?', default=5_000, type=int)
    parser.add_argument('first', nargs='?', default=0, type=int)
    sys.exit(main(**vars(parser.parse_args())))
