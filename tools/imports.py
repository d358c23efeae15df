#!/usr/bin/env python3
"""Says within seconds what a rename has left behind in specs and proofs, where a check of all crates takes an hour.

usage: tools/imports.py

It reads each import of this repository's definitions, lemmas, types and constants, and each folder of proofs that is
named for a type. It prints those that name nothing, and ends with 1 then. Goals are not looked at: they are named for
functions, clauses, variables and constants.
"""
import argparse
import functools
import pathlib
import re
import sys

TOP = pathlib.Path(__file__).resolve().parent.parent
CRATES = TOP / 'crates'
IMPORT = re.compile(r'^\s*(?:pub )?(?:ghost )?use Rattle\.(\w+)\.(specs|proofs)\.([\w.]+?)\.\{([^}]*)\}', re.M)
WHOLE = re.compile(r'^\s*(?:ghost )?use Rattle\.(\w+)\.(specs|proofs)\.(\w+) as (\w+);?$', re.M)
ALIAS = re.compile(r'^\s*(?:ghost )?use Rattle\.\w+\.specs\.declared\.[\w.]+\.([A-Z]\w*) as (\w+)', re.M)
TYPE = r'\b(?:struct|enum|trait|type)\s+{}\b'
IMPL = re.compile(r'^\s*(?:unsafe )?impl(?:<[^{]*?>)?\s+(?:([\w:]+)(?:<[^{]*?>)?\s+for\s+)?([\w:]+)', re.M)


@functools.cache
def text_of(file):
    """The text of a file without the comments of definitions."""
    return re.sub(r'(?m)(?:^| )-- .*$', '', file.read_text()) if file.exists() else None


def names_in(words):
    """The names of an import, without what they are called here and without operators."""
    names = [it.strip().split(' as ')[0].strip() for it in words.split(',')]
    return [it for it in names if it and '◌' not in it and not it.startswith('+')]


def missing_in(crate, part, path, names):
    """Why an import names nothing, if it does."""
    *folder, last = path.split('.')
    if folder[:1] in (['contracts'], ['declared']):
        modules = [it for it in path.split('.')[1:] if it[0].islower()]
        source = text_of(crate / 'src' / ('/'.join(modules) + '.rt'))
        if source is None or last.startswith('The') or last[0].islower():
            return None
        return None if re.search(TYPE.format(last), source) else f'no type {last}'
    text = text_of(crate / part / (path.replace('.', '/') + '.antt'))
    if text is None:
        return None if last == 'Goals' or folder else f'no file {path}'
    lost = [it for it in names if not re.search(rf'(?<!\w){re.escape(it)}(?!\w)', text)]
    return f'no {", ".join(lost)} in {path}' if lost else None


def wrong_imports():
    for file in sorted(it for part in ('specs', 'proofs', 'src') for it in CRATES.glob(f'*/{part}/**/*.*t')):
        text = text_of(file)
        for name, part, path, words in IMPORT.findall(text):
            crate = CRATES / name
            why = missing_in(crate, part, path, names_in(words)) if crate.is_dir() else None
            if why:
                yield f'{file.relative_to(TOP)}: {why} of {name}'
        for name, part, path, alias in WHOLE.findall(text):
            used = ', '.join(set(re.findall(rf"(?<![\w.]){alias}\.([A-Za-z_][\w']*)", text)))
            crate = CRATES / name
            why = missing_in(crate, part, path, names_in(used)) if crate.is_dir() else None
            if why:
                yield f'{file.relative_to(TOP)}: {why} of {name}'
        for name, alias in ALIAS.findall(text):
            for used in set(re.findall(rf'\b{alias}\.([A-Z]\w*)', text)) - {name, 'Ghosts'}:
                if not name.startswith('The') and name != 'Ledger':
                    yield f'{file.relative_to(TOP)}: {alias}.{used}, and {alias} is {name}'


def wrong_folders():
    for folder in sorted(it for it in CRATES.glob('*/proofs/**/[A-Z]*') if it.is_dir()):
        crate, *modules = [*folder.relative_to(CRATES).parts[:1], *folder.relative_to(CRATES).parts[2:-1]]
        if any(it[0].isupper() for it in modules):
            continue
        base = CRATES / crate / 'src' / '/'.join(modules)
        texts = [text_of(it) for it in [base.with_suffix('.rt'), *base.glob('**/*.rt')] if it.exists()]
        types = {ty.split('::')[-1] + tr.split('::')[-1] for text in texts for tr, ty in IMPL.findall(text)}
        types |= {name for text in texts for name in re.findall(TYPE.format(r'(\w+)'), text)}
        if not any(folder.name.startswith(it) for it in types):
            yield f'{folder.relative_to(TOP)}: no type of this name in {"/".join(modules)}'


def main():
    argparse.ArgumentParser(description=__doc__, formatter_class=argparse.RawDescriptionHelpFormatter).parse_args()
    wrong = [*wrong_imports(), *wrong_folders()]
    print('\n'.join(wrong) or 'each import and each folder of proofs names something')
    return 1 if wrong else 0


if __name__ == '__main__':
    sys.exit(main())
