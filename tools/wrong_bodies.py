#!/usr/bin/env python3
"""Tries the wrong bodies that no must-fail edit has: those that a compared run or a test refuses, and those that the
gate leaves out for their time.

usage: tools/wrong_bodies.py [NAME ..]

Each stands in a file CRATE/must-fail/NAME.md. Its first line says whether a clause refuses it too. Then come lines
`file:`, `old:` and `new:` as in an edit, and a line `refused by:` that begins with the crate whose run or tests refuse
it, if any do. The gate runs these as they are. This puts a wrong body into a copy and runs them unproved: what comes
out has to differ. Where a clause alone refuses it, the prover has to, over the libraries that `tools/check.py` takes.
With a NAME it tries those whose names contain one.
"""
import pathlib
import shutil
import subprocess
import sys
import tempfile

import check
import prover
from check import TOP, edited

REFUSED_BY = 'refused by: '
# So begins the first line of one that a clause refuses, whether or not a run does.
BY_CLAUSE = 'Refused by '


def copy_of(crate, wrong_body, top):
    """Copies the repository into the folder `top`, with the wrong body. Returns why it can't be put in, if so."""
    for name in ('crates.txt', 'HANDLES'):
        shutil.copy(TOP / name, top)
    for folder in (TOP / 'crates').iterdir():
        if folder.name != crate.name:
            shutil.copytree(folder, top / 'crates' / folder.name, ignore=shutil.ignore_patterns('out'))
    return edited(crate, wrong_body, top / 'crates' / crate.name)


def words_of_run(crate):
    """The words that run a program on its data."""
    data, words = crate.folder / 'data', crate.folder / 'args'
    # `--data NAME=FILE` can't give a file with `=` in its name. The rows that read such files make them first.
    files = [file for file in sorted(data.rglob('*')) if file.is_file() and '=' not in file.name]
    flags = [it for file in files for it in ('--data', f'{file.relative_to(data)}={file}')]
    return ['rt', 'try', *flags, '--', *(words.read_text().splitlines() if words.exists() else [])]


def has_tests(crate):
    return any('#[test]' in file.read_text() for file in (crate.folder / 'src').rglob('*.rt'))


def run_on(crate):
    """Runs a program and the tests of a crate, unproved, as far as it has them. Returns what comes of it."""
    # A wrong body may keep a run from its end: `rt try` ends it after a minute.
    def run(words, given=b''):
        done = subprocess.run(words, cwd=crate.folder, capture_output=True, input=given)
        known.append(b'run=none' not in done.stderr)
        return done

    known, right = [], []
    if crate.is_program:
        given = crate.folder / 'stdin'
        done = run(words_of_run(crate), given.read_bytes() if given.exists() else b'')
        right.append(done.stdout == (crate.folder / 'stdout').read_bytes())
    if has_tests(crate):
        right.append(run(['rt', 'try', '--test']).returncode == 0)
    if not all(known):
        return 'NOT TRIED: it does not compile'
    return 'NOT REFUSED' if all(right) else 'refused'


def by_prover(crate, wrong_body):
    kit = prover.find_kit()
    with tempfile.TemporaryDirectory(prefix='kpn-check-') as folder:
        verdict, _ = check.verdict_on(crate, wrong_body, kit, check.view_of(crate, pathlib.Path(folder)))
    return f'{verdict}, by a clause'


def verdict_on(crate, wrong_body):
    lines = wrong_body.read_text().splitlines()
    tellers = [line for line in lines if line.startswith(REFUSED_BY)]
    if not tellers and lines[0].startswith(BY_CLAUSE):
        return by_prover(crate, wrong_body)
    if not tellers:
        return f'NOT TRIED: it has no line `{REFUSED_BY}`'
    teller = tellers[0].removeprefix(REFUSED_BY).split()[0].rstrip(',:')
    with tempfile.TemporaryDirectory(prefix='kpn-wrong-') as folder:
        top = pathlib.Path(folder)
        why = copy_of(crate, wrong_body, top)
        return f'NOT TRIED: {why}' if why else f'{run_on(prover.read_crates(top)[teller])}, by {teller}'


def main():
    names = sys.argv[1:]
    if names[:1] in (['-h'], ['--help']):
        print(__doc__)
        return 0
    found = []
    for crate in prover.read_crates(TOP).values():
        for file in sorted((crate.folder / 'must-fail').glob('*.md')):
            if not names or any(name in file.stem for name in names):
                found.append(verdict_on(crate, file))
                print(f'{crate.name}/{file.stem}: {found[-1]}', flush=True)
    if not found:
        sys.exit(f'there is no wrong body whose name contains {" or ".join(names)}')
    return 0 if all(it.startswith('refused') for it in found) else 1


if __name__ == '__main__':
    sys.exit(main())
