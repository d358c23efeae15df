#!/usr/bin/env python3
"""Checks one crate over libraries that are there, and proves no crate below it.

usage: tools/check.py CRATE [--library | --edits [NAME ..]] [FLAG ..]
       tools/check.py --changed

It takes the libraries that `tools/build.py` has made, here or in the tree of KPN_BASE. What it makes and finds out it
keeps for the next check outside the tree, since the gate refuses sources that no check reads. Flags go to `rattle
check`, as --only PATH, --allow-holes, --start F, --test and --jobs N; without --jobs it uses two. If a crate below has
changed here, make its library first, and those of the crates between, by --library. --edits tries the edits of the
crate, or the wrong bodies whose names contain a NAME, and prints what refuses each; one that can't be put in, or does
not compile, is not tried. --changed is the quick gate for every day, as changed.py says: all that has changed, what
stands on it, and the rows and tests above.
"""
import os
import pathlib
import shutil
import subprocess
import sys
import tempfile

import prover

TOP = pathlib.Path(__file__).resolve().parent.parent
BASE = pathlib.Path(os.environ.get('KPN_BASE', TOP))
ROOM = pathlib.Path(tempfile.gettempdir()) / 'kpn-checks' / str(TOP).strip('/').replace('/', '-')
OWN, KEPT = ROOM / 'libraries', ROOM / 'checks'


def view_of(crate, room):
    """A folder with the library of each crate below: the one made here, or else the one of the base."""
    own = {file.stem for file in OWN.glob('*.rlib')}
    for low in crate.below:
        if low.name in own:
            (room / f'{low.name}.rlib').symlink_to(OWN / f'{low.name}.rlib')
        elif any(it.name in own for it in low.below):
            sys.exit(f'{low.name} stands on a library made here: call tools/check.py {low.name} --library first')
        else:
            made = BASE / 'out/libraries' / f'{low.name}.tar'
            if not made.exists():
                sys.exit(f'{made} is missing: call tools/build.py --below {crate.name} in {BASE}')
            shutil.unpack_archive(made, room)
    return room


def words(verb, crate, kit, room, flags):
    jobs = [] if '--jobs' in flags else ['--jobs', '2']
    return prover.words_of(verb, crate, kit, room, '--logic-built', kit / 'logic_built', *jobs, *flags)


def kept_of(name, flags):
    kept = KEPT / (name + ('_test' if '--test' in flags else ''))
    kept.mkdir(parents=True, exist_ok=True)
    return ['--incremental', kept]


def edited(crate, edit, folder):
    """Copies a crate with an edit into a folder, and returns why it can't be applied, if it can't."""
    for part in prover.PARTS:
        if (crate.folder / part).is_dir():
            shutil.copytree(crate.folder / part, folder / part)
    for line in edit.read_text().splitlines():
        word, _, text = line.partition(': ')
        if word == 'file':
            file = folder / text.strip()
        elif word == 'old':
            old = text
        elif word == 'new' or line == 'new:':
            source = file.read_text()
            if source.count(old) != 1:
                return f'the old text stands {source.count(old)} times in {file.relative_to(folder)}, not once'
            file.write_text(source.replace(old, text))
    return None


def verdict_on(crate, edit, kit, room):
    """What the prover makes of a crate with an edit, and the first lines that it says of it."""
    with tempfile.TemporaryDirectory() as name:
        folder = pathlib.Path(name)
        why = edited(crate, edit, folder)
        if why:
            return 'NOT TRIED', [why]
        done = subprocess.run(words('check', crate, kit, room, kept_of(crate.name, [])), capture_output=True,
                              cwd=folder, text=True)
    lines = (done.stdout + done.stderr).splitlines()
    said = [it for it in lines if ': error' in it or it.startswith('note: ')]
    if done.returncode == 0:
        return 'NOT REFUSED', said
    # A text that does not compile is refused before any contract is looked at.
    is_judged = any(it.startswith('logic=not-proved') for it in lines)
    return 'refused' if is_judged else 'NOT TRIED', said


def try_edits(crate, kit, room, names):
    """Tries the edits of a crate, and returns whether all are refused."""
    bodies = sorted((crate.folder / 'must-fail').glob('*'))
    chosen = [it for it in bodies if (any(name in it.stem for name in names) if names else it.suffix == '.edit')]
    if not chosen:
        sys.exit(f'{crate.name} has no such wrong body')
    found = []
    for edit in chosen:
        verdict, said = verdict_on(crate, edit, kit, room)
        found.append(verdict)
        print(f'{edit.stem}: {verdict}', *said[:2], sep='\n  ', flush=True)
    return set(found) == {'refused'}


def main():
    if sys.argv[1:2] in (['-h'], ['--help']):
        print(__doc__)
        return 0
    if len(sys.argv) < 2:
        sys.exit(__doc__)
    if sys.argv[1:] == ['--changed']:
        import changed
        return changed.main()
    name, *flags = sys.argv[1:]
    crates, kit = prover.read_crates(TOP), prover.find_kit()
    if name not in crates:
        sys.exit(f'there is no crate {name} in crates.txt')
    crate = crates[name]
    with tempfile.TemporaryDirectory(prefix='kpn-check-') as folder:
        room = view_of(crate, pathlib.Path(folder))
        if flags[:1] == ['--edits']:
            return 0 if try_edits(crate, kit, room, flags[1:]) else 1
        if flags[:1] == ['--library']:
            OWN.mkdir(parents=True, exist_ok=True)
            flags = ['--empty-contracts', '--statements', '-o', OWN / f'{name}.rlib', *flags[1:]]
            return subprocess.run(words('build', crate, kit, room, flags), cwd=crate.folder).returncode
        return subprocess.run(words('check', crate, kit, room, [*kept_of(name, flags), *flags]),
                              cwd=crate.folder).returncode


if __name__ == '__main__':
    sys.exit(main())
