#!/usr/bin/env python3
"""Lists the names of types, constants and definitions that stand in two crates of the product with two meanings.

usage: tools/names.py

It reads the sources and the definitions of all crates `kpn..`. A name that stands twice on purpose is in SHARED, with
the reason. It prints the other names, each with its places, and ends with 1 if there is one.
"""
import argparse
import collections
import pathlib
import re
import sys

TOP = pathlib.Path(__file__).resolve().parent.parent
CODE = re.compile(r'^ *(?:pub(?:\([a-z]+\))? )?(?:struct|enum|trait|type|const|static) ([A-Z]\w+)', re.M)
KEYWORDS = {'use', 'pub', 'mod', 'mutual', 'data', 'record', 'abbrev', 'where', 'let', 'in', 'case', 'open', 'module',
            'private'}
# Names that two crates share on purpose, each with the reason.
SHARED = {
    'ALL': 'a constant of a type, with all its values',
    'CHUNK': 'how much is handled at once, in units of the crate: items of a journal, bytes of an input',
    'MOST_TRACED': 'how long a history may be whose trace is to be read: in commits of a run, in events of a stream',
    'Part': 'of a network that is cut, and of the first line of a text, which is private to its file',
    'State': 'of a process in a run, which the specification names; in kpn_lang private to the plain interpreter',
    'run': 'what a program does, and a run of bytes of one kind, each read in its own crate only',
}


def names_of(file):
    """The names that a file of sources or of definitions declares."""
    text = file.read_text()
    if file.suffix == '.rt':
        return set(CODE.findall(text))
    return {found[1] for found in re.finditer(r'^(?:abbrev |pub |data |record |opaque )+([A-Za-z_][\w\']*)', text, re.M)
            if found[1] not in KEYWORDS}


def places():
    """For each name the files that declare it, by crate."""
    found = collections.defaultdict(lambda: collections.defaultdict(set))
    for crate in sorted((TOP / 'crates').glob('kpn*')):
        for part, pattern in (('src', '*.rt'), ('specs', '*.antt')):
            for file in sorted((crate / part).rglob(pattern)):
                for name in names_of(file):
                    found[name][crate.name].add(str(file.relative_to(crate)))
    return found


def main():
    argparse.ArgumentParser(description=__doc__, formatter_class=argparse.RawDescriptionHelpFormatter).parse_args()
    twice = {name: crates for name, crates in places().items() if len(crates) > 1 and name not in SHARED}
    for name, crates in sorted(twice.items()):
        print(f'{name}:', ', '.join(f'{crate} ({" ".join(sorted(files))})' for crate, files in crates.items()))
    print(f'{len(twice)} names stand in two crates')
    return 1 if twice else 0


if __name__ == '__main__':
    sys.exit(main())
