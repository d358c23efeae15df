#!/usr/bin/env python3
"""Copies the program, the library for C, headers, `kpn compile`, manual pages, completions, documents and examples
below a prefix.

usage: tools/install.py PREFIX [--program KPN]

The launcher calls it for `./kpn install PREFIX`. With a program that is not the proved one there is no library, since
an unproved one can't be made. tools/release.py packs the same files.
"""
from __future__ import annotations

import argparse
import os
import pathlib
import re
import sys

import clib
import pages
import prover

TOP = pathlib.Path(__file__).resolve().parent.parent
sys.path.append(str(TOP / 'python'))

import wheel_builder  # noqa: E402

DOCUMENTS = 'share/doc/kpn'
# What the kit's sources say of tables that are Unicode's.
UNICODE = 'Unicode License'
# Documents for those who change Combrieks.
FOR_DEVELOPERS = ('ARCHITECTURE.md', 'DECISIONS.md', 'PROVING.md', 'WORDS.md')
WRAPPER = '''#!/bin/sh
# Runs the program `kpn` with settings for its memory.
self=$(readlink -f "$0")
program=${self%/*}/../lib/kpn/kpn
package=${self%/*}/../lib/kpn/python

'''
# In the launcher, the commands of the Python package, the rest of the help, and the settings with the call of the
# program stand between these.
SHARED = (('# Becomes the Python package', '# The same, and `install`.'),
          ('# Of the help', '# Histories and journals'), ('# Histories and journals', None))
CALL = 'call_package "$@"\nmore=\n\n'
PKG_CONFIG = '''prefix=${{pcfiledir}}/../..
Name: kpn
Description: Kahn process networks, run by proved code
Version: {version}
Cflags: -I${{prefix}}/include
Libs: -L${{prefix}}/lib -l:libkpn.a
'''
UNLICENSED = '''The licence of Combrieks itself is not chosen yet: its owner has to choose one. Until then
nobody is given a right to copy, to change or to pass on what is its own here.
'''
LICENCES = UNLICENSED + '''
The program and the libraries also have parts of these crates of the Rattle kit:

{named}

Their licences are in the folders here. The kit states no licence for {others} as a whole.
Sources of {noticed} name licences of what they were made from, in NOTICES here. The program also has start
files of glibc and of GCC. Their licences, the LGPL and the GPL, have exceptions for what is linked
with such files, and the kit has no text of them.
'''


class Tree:
    """Files by their paths below a prefix, with what they hold, and links with what they lead to."""

    def __init__(self) -> None:
        self.files: dict[str, bytes] = {}
        self.links: dict[str, str] = {}

    @staticmethod
    def mode(path: str) -> int:
        return 0o755 if path.startswith('bin/') or path == 'lib/kpn/kpn' else 0o644

    def copy(self, source: pathlib.Path, path: str) -> None:
        """A file, or all files of a folder."""
        for file in sorted(source.rglob('*')) if source.is_dir() else [source]:
            if file.is_file() and '__pycache__' not in file.parts:
                self.files[f'{path}/{file.relative_to(source)}' if source.is_dir() else path] = file.read_bytes()

    def write(self, prefix: pathlib.Path) -> None:
        """Puts all of it below a prefix, in place of what stands there."""
        for path in [*self.files, *self.links]:
            (prefix / path).parent.mkdir(parents=True, exist_ok=True)
            made = (prefix / path).with_name(f'.{os.getpid()}.kpn')
            try:
                self.put(path, made)
                made.replace(prefix / path)
            except OSError as error:
                made.unlink(missing_ok=True)
                raise OSError(error.errno, error.strerror, prefix / path) from None

    def put(self, path: str, made: pathlib.Path) -> None:
        """Makes a file or a link of the tree."""
        made.unlink(missing_ok=True)
        if path in self.links:
            made.symlink_to(self.links[path])
        else:
            made.write_bytes(self.files[path])
            made.chmod(self.mode(path))


def kit_crates(kit: pathlib.Path, roots: list[prover.Crate]) -> list[str]:
    """The crates of the kit that stand below these: those that they list, and those that these use."""
    own = {it.name for root in roots for it in [root, *root.below]}
    crates = {low.name: low for root in roots for low in [root, *root.below]}.values()
    found, left = set(), [name for crate in crates for name in crate.uses if name not in own]
    while left:
        name = left.pop()
        if name not in found:
            found.add(name)
            text = '\n'.join(it.read_text(errors='replace') for it in (kit / 'rattle' / name / 'src').rglob('*.rt'))
            left += [it for it in set(re.findall(r'^use (\w+)', text, re.M)) if (kit / 'rattle' / it).is_dir()]
    return sorted(found)


def notices_of(folder: pathlib.Path) -> str:
    """The comments in the sources of a crate that name a licence, each below the name of its file."""
    found = []
    for file in sorted((folder / 'src').rglob('*.rt')):
        blocks = re.findall(r'(?:^//.*\n)+', file.read_text(errors='replace'), re.M)
        found += [f'{file.relative_to(folder)}\n\n{re.sub(r"^// ?", "", it, flags=re.M)}' for it in blocks
                  if re.search('licen[cs]e', it, re.I)]
    return '\n'.join(found)


def add_licences(tree: Tree, kit: pathlib.Path) -> None:
    known = prover.read_crates(TOP)
    named, others, noticed = [], [], []
    for name in kit_crates(kit, [known['kpn'], known['kpn_c']]):
        folder, place = kit / 'rattle' / name, f'{DOCUMENTS}/licences/{name}'
        texts, notices = sorted(folder.glob('LICENSE*')), notices_of(folder)
        (named if texts else others).append(name)
        for text in texts:
            tree.copy(text, f'{place}/{text.name}')
        if notices and not texts:
            noticed.append(name)
            tree.files[f'{place}/NOTICES'] = notices.encode()
            if UNICODE in notices:
                tree.copy(kit / 'rattle/unicode/LICENSE-UNICODE', f'{place}/LICENSE-UNICODE')
    text = LICENCES.format(named='\n'.join(f'- {it}' for it in named), others=', '.join(others),
                           noticed=', '.join(noticed))
    tree.files[f'{DOCUMENTS}/licences/README'] = text.encode()


def add_documents(tree: Tree) -> None:
    for file in ('README.md', 'python/README.md', 'python/SDF.md', 'bench/RESULTS.md'):
        tree.copy(TOP / file, f'{DOCUMENTS}/{file}')
    for file in sorted((TOP / 'docs').rglob('*')):
        if file.is_file() and file.name not in FOR_DEVELOPERS:
            tree.copy(file, f'{DOCUMENTS}/{file.relative_to(TOP)}')
    tree.copy((TOP / 'examples').resolve(), f'{DOCUMENTS}/examples')
    tree.copy(TOP / 'editors', 'share/kpn/editors')


def add_library(tree: Tree, library: pathlib.Path, version: str) -> None:
    tree.copy(library / 'libkpn.a', 'lib/libkpn.a')
    tree.copy(library / clib.SHARED, f'lib/{clib.SHARED}')
    tree.links['lib/libkpn.so'] = clib.SHARED
    tree.files['lib/pkgconfig/kpn.pc'] = PKG_CONFIG.format(version=version).encode()


def tree_of(program: pathlib.Path, library: pathlib.Path | None, date: str) -> Tree:
    """All that is installed: of a program, and of a library if there is one."""
    tree, version, launcher = Tree(), pages.version_of(program), (TOP / 'kpn').read_text()
    tree.copy(program, 'lib/kpn/kpn')
    package, *rest = (launcher[launcher.index(first):last and launcher.index(last)] for first, last in SHARED)
    tree.files['bin/kpn'] = (WRAPPER + package + CALL + ''.join(rest)).encode()
    tree.files.update({f'lib/kpn/python/{path}': data for path, data in wheel_builder.package().items()})
    tree.copy(TOP / 'include', 'include')
    tree.copy(TOP / 'tools/kpnConfig.cmake', 'lib/cmake/kpn/kpnConfig.cmake')
    tree.files.update({path: text.encode() for path, text in pages.files(program, version, date).items()})
    if program.read_bytes() != tree.files['lib/kpn/kpn']:
        sys.exit(f'kpn: {program} has changed meanwhile: call this once more')
    if library:
        add_library(tree, library, version)
    add_documents(tree)
    add_licences(tree, prover.find_kit())
    return tree


def main() -> None:
    parser = argparse.ArgumentParser(description=__doc__, formatter_class=argparse.RawDescriptionHelpFormatter)
    parser.add_argument('prefix', type=pathlib.Path)
    parser.add_argument('--program', default=pages.PROVED, type=pathlib.Path)
    asked = parser.parse_args()
    library = TOP / 'out/c' if asked.program == pages.PROVED else None
    if library and not clib.build(library):
        sys.exit(1)
    tree = tree_of(asked.program, library, '')
    try:
        tree.write(asked.prefix)
    except OSError as error:
        sys.exit(f'kpn: {error.filename}: {error.strerror}: choose a prefix where you may write, such as ~/.local')
    print(f'kpn: {len(tree.files)} files are installed below {asked.prefix}')
    if not library:
        print('kpn: without the library for C, since an unproved one can\'t be made')
    if str((asked.prefix / 'bin').resolve()) not in os.environ.get('PATH', '').split(':'):
        print(f'kpn: {asked.prefix / "bin"} is not on the PATH: put it there to call kpn')


if __name__ == '__main__':
    prover.end_with(main)
