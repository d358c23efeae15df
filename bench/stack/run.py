#!/usr/bin/env python3
"""The least stack with which the rows of check_examples, and commands on the deepest description, come to their right
answers.

Each runs with less and less stack, and its answer is compared with that of a run on all stack. A worker has as much
stack as the calling thread. A stack begins at random, by some KiB, so each is tried several times. The environment lies
on the stack too. It is no part of the gate. Words: the program, by default crates/kpn/out/kpn; a number N, if only every
N-th row is to run; and how many bytes more the environment has.
"""
import os
import pathlib
import resource
import shutil
import subprocess
import sys
import tempfile

TOP = pathlib.Path(__file__).resolve().parent.parent.parent
sys.path.append(str(TOP / 'bench'))

import measure  # noqa: E402

CASES = TOP / 'crates/check_examples'

# the stack that is enough for each row, in KiB, and the step of the search
MOST, STEP = 1_024, 4

# how often a stack is tried
TRIES = 8

# how many levels of blocks and of expressions a description may have
LEVELS = 32


def text_of(word):
    return word.replace('\\n', '\n').replace('\\r', '\r').replace('\\0', '\0')


def answer(words, folder, stack):
    """What a command writes on both outputs, and its status, with this many KiB of stack."""
    def limit():
        resource.setrlimit(resource.RLIMIT_STACK, (stack * 1024, stack * 1024))
    given = folder / 'input'
    done = subprocess.run([PROGRAM, *words], cwd=folder, capture_output=True, preexec_fn=limit, env=ENVIRONMENT,
                          input=given.read_bytes() if given.exists() else b'')
    return done.stdout, done.stderr, done.returncode


def least(words, folder):
    """The least stack, in KiB, with which a command answers as with all, and the answer."""
    wanted = answer(words, folder, MOST)
    low, high = 0, MOST
    while high - low > STEP:
        middle = (low + high) // 2
        if all(answer(words, folder, middle) == wanted for _ in range(TRIES)):
            high = middle
        else:
            low = middle
    return high


def rows(folder):
    """The command lines of the compared run, each with the files that are there when it runs."""
    for line in (CASES / 'stdin').read_text().splitlines():
        word, _, rest = line.partition(' ')
        if word == 'first':
            word, _, rest = rest.partition(' ')[2].partition(' ')
        if word == 'file':
            name, _, text = rest.partition(' ')
            (folder / name).write_text(text_of(text))
        elif word == 'many':
            name, count, text = rest.split(' ', 2)
            with open(folder / name, 'a') as file:
                file.write(text_of(text) * int(count))
        elif word == 'kpn':
            yield rest.split()


def note(found, words, folder):
    """Notes the stack of a command line if no other of its kind needs more."""
    options = [word for word in ('--workers', '--trace') if word in words]
    kind = ' '.join([*words[:1], *options])
    stack = least(words, folder)
    if stack > found.get(kind, (0, ''))[0]:
        found[kind] = stack, ' '.join(words)


def deepest():
    """A description whose one process has all levels of blocks and of expressions, each of which a run enters."""
    expression, block = 'x', ''
    for _ in range(LEVELS - 1):
        expression = f'({expression} + 1)'
    block = f'x = {expression};'
    for _ in range(LEVELS - 1):
        block = f'if 1 {{ {block} }} else {{ }}'
    return f'process deep(out o) {{ {block} write o x; }}\nnetwork {{ sink z cap 1; d = deep(; z); }}\n'


def deep_rows(folder):
    """Command lines on the deepest description, and on one that has a level too many."""
    (folder / 'deepest').write_text(deepest())
    (folder / 'deeper').write_text(deepest().replace('if 1', 'if 1 { if 1', 1).replace('write', 'else { } } write'))
    for command in ('check', 'explain', 'print', 'draw', 'run'):
        yield [command, 'deepest']
        yield [command, 'deeper']
    yield ['rounds', 'deepest', '3']
    yield ['run', 'deepest', '--workers', '2', '--trace', 'deep.trace']
    for command in ('audit', 'stats', 'explain'):
        yield [command, 'deepest', 'deep.trace']


def main(every):
    found = {}
    with tempfile.TemporaryDirectory(prefix='kpn-stack-') as name:
        folder = pathlib.Path(name) / 'data'
        shutil.copytree(CASES / 'data', folder)
        for number, words in enumerate(rows(folder)):
            if number % every == 0:
                note(found, words, folder)
        for words in deep_rows(folder):
            note(found, words, folder)
    for kind, (stack, words) in sorted(found.items(), key=lambda pair: -pair[1][0]):
        print(f'{stack:6} KiB  {kind}: {words[:80]}')


if __name__ == '__main__':
    asked = measure.asked(__doc__, {'program': str(TOP / 'crates/kpn/out/kpn'), 'every': 1, 'padding': 0})
    PROGRAM = os.path.abspath(asked.program)
    ENVIRONMENT = {**os.environ, **({'PADDING': 'x' * asked.padding} if asked.padding else {})}
    main(asked.every)
