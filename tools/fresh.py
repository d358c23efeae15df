#!/usr/bin/env python3
"""Types what README.md, python/README.md and documents say, in a fresh clone of the commit, and looks at the answers.

usage: tools/fresh.py [--built TREE | --unproved]

Of README.md and of docs/GUIDE.md and docs/COMPILED.md it runs each block that begins with a command or with `import`,
in their order. Under a `$` the lines below have to come out. Of python/README.md it runs the block that sets up the
package, and all Python there and in python/SDF.md but the lines of matplotlib. It also makes the plant as C++, and
installs all below a prefix. Left out are lines that call `rt`, `tools/check.py` or `./kpn --unproved`, since they only
prove or build again, those about a NET, and those with `dot` and of MPI if it is not there.

It needs git, the kit, `cc` and `c++`, `pkg-config`, and Python with `venv` and `pip`; no network. It is run by hand,
and no part of the gate. The program is proved first, and then the library for C, which takes as long as README says.
With --built it takes both, and the libraries below, of a TREE with the same sources, where `./kpn` and
`tools/clib.py build out/c` have been called. It ends with 1 at once if it would have to prove anything then. With
--unproved it takes the program that `tools/unproved.py` has made here, and leaves out the lines about the library for C.
"""
from __future__ import annotations

import argparse
import filecmp
import os
import pathlib
import re
import shutil
import subprocess
import sys
import tempfile
import time
from typing import Iterator

import clib
import prover

TOP = pathlib.Path(__file__).resolve().parent.parent
COMMAND = re.compile(r'(?:\$ )?(?:\./|tools/|cc |c\+\+ |pip |python3 |export |printf |make |mpirun )')
LEFT_OUT = re.compile(r'\brt |tools/check\.py|--unproved|\bNET\b|libplant')
OF_LIBRARY = re.compile(r'clib\.py|libkpn|/plant|\bmpi\b|pkg-config|PKG_CONFIG|kpn install|installed')
OF_MPI = re.compile(r'\bmpi\b')
# Open MPI asks for these if the user is root, and else takes no more ranks than there are processors.
ENVIRONMENT = {**os.environ, **dict.fromkeys(('OMPI_ALLOW_RUN_AS_ROOT', 'OMPI_ALLOW_RUN_AS_ROOT_CONFIRM',
                                              'OMPI_MCA_rmaps_base_oversubscribe'), '1')}
DOCUMENTS = ('README.md', 'docs/GUIDE.md', 'docs/COMPILED.md')
# What README says in words only.
SAID = [
    'c++ -x c++ -I include examples/c/plant.c -x none out/c/libkpn.a -o plant_cpp',
    './plant_cpp',
    './kpn install $PWD/installed',
    'export PKG_CONFIG_PATH=$PWD/installed/lib/pkgconfig',
    'cc examples/c/plant.c $(pkg-config --cflags --libs kpn) -o plant_installed',
    './plant_installed',
    './installed/bin/kpn check examples/two.kpn',
]
# Names the first crate that is not as its stamp says.
ALL_THERE = '''
import sys
sys.path.insert(0, 'tools')
import build
crates = build.read_crates(build.TOP, build.Target)
kit = build.find_kit()
sys.exit(next((it.name for it in [*crates['kpn'].below, crates['kpn']] if not it.look(kit)), None))
'''


def blocks(text: str) -> Iterator[list[str]]:
    """The blocks of code of a document, without their indent."""
    for block in re.findall(r'(?:^    .*\n(?:\n(?=    ))?)+', text, re.M):
        yield [line[4:] for line in block.splitlines()]


def commands(lines: list[str]) -> Iterator[tuple[str, list[str]]]:
    """The commands of a block, each with the lines that have to come of it; none under a command without a `$`."""
    for k, line in enumerate(lines):
        if not COMMAND.match(line) or LEFT_OUT.search(line) or '| dot' in line and not shutil.which('dot'):
            continue
        below = []
        for told in lines[k + 1:]:
            if not told or told.startswith('$ ') or not line.startswith('$ '):
                break
            below.append(told)
        yield line.removeprefix('$ '), below


def python_of(text: str) -> list[str]:
    """The Python of a document, without the lines that draw."""
    lines = [line for block in re.findall(r'```python\n(.*?)```', text, re.S) for line in block.splitlines()]
    return [line for line in lines if not re.search(r'matplotlib|plt\.', line)]


class Clone:
    """A fresh clone, and an environment of Python for it."""

    def __init__(self, room: pathlib.Path, built: pathlib.Path | None, unproved: bool) -> None:
        self.tree, self.exports, self.wrong, self.has_library = room / 'combrieks', [], 0, not unproved
        subprocess.run(['git', 'clone', '-q', TOP, self.tree], check=True)
        if built:
            self.take(built)
        if unproved:
            self.take_unproved()
        subprocess.run([sys.executable, '-m', 'venv', room / 'python'], check=True)
        self.start = f'cd {self.tree}; PATH={room}/python/bin:$PATH; '

    def take(self, built: pathlib.Path) -> None:
        """Takes what is proved of another tree, or ends if it is not that of this commit."""
        for part in ('crates/kpn/out', 'out'):
            shutil.copytree(built / part, self.tree / part, ignore=shutil.ignore_patterns('unproved'))
        lacks = subprocess.run([sys.executable, '-c', ALL_THERE], cwd=self.tree, capture_output=True, text=True).stderr
        if lacks:
            sys.exit(f'{built} has no such build of the commit: {lacks.strip()}')
        shared, needed = self.tree / 'out/c' / clib.SHARED, built / 'out/c/needed'
        if not prover.is_current(built / 'out/c' / clib.SHARED, needed, built):
            sys.exit(f'{built} has no library for C that is current: call tools/clib.py build out/c there')
        parts = [part for name in needed.read_text().splitlines()
                 for part in [built / name, *(built / name).rglob('*')] if part.is_file()]
        other = [it for it in parts if not filecmp.cmp(it, self.tree / it.relative_to(built), shallow=False)]
        if other:
            sys.exit(f'{other[0]} is not that of the commit')
        shared.touch()

    def take_unproved(self) -> None:
        """Takes the program of this tree that is not proved. It is newer than the sources of the clone."""
        for name, place in (('needed', 'out/needed'), ('kpn', 'crates/kpn/out/kpn')):
            (self.tree / place).parent.mkdir(exist_ok=True)
            shutil.copy(TOP / 'out/unproved' / name, self.tree / place)

    def call(self, command: str, wanted: list[str]) -> None:
        has_all = self.has_library or not OF_LIBRARY.search(command)
        if not has_all or (OF_MPI.search(command) and not shutil.which('mpirun')):
            return
        if command.startswith('export '):
            self.exports.append(command)
            return
        began = time.monotonic()
        script = self.start + ''.join(f'{it}; ' for it in self.exports) + command
        done = subprocess.run(['bash', '-c', script], stdin=subprocess.DEVNULL, stdout=subprocess.PIPE,
                              stderr=subprocess.STDOUT, text=True, env=ENVIRONMENT)
        told = done.stdout.splitlines()
        if command.startswith('mpirun '):
            # It passes on what ranks write on two streams, one before the other or not.
            told, wanted = sorted(told), sorted(wanted)
        is_right = told == wanted if wanted else done.returncode == 0
        self.wrong += not is_right
        print(f'{"ok" if is_right else "WRONG"}  {time.monotonic() - began:7.1f} s  {command}', flush=True)
        if not is_right:
            print(f'status {done.returncode}', *told, sep='\n    ')

    def run_python(self, name: str, lines: list[str]) -> None:
        (self.tree / name).write_text('\n'.join(lines) + '\n')
        self.call(f'python3 {name}', [])

    def type_all(self) -> None:
        """Types all documents. The package is set up first, since a block of README imports it."""
        about_package = (TOP / 'python/README.md').read_text()
        set_up = next(it for it in blocks(about_package) if 'pip install' in '\n'.join(it))
        for command, _ in commands(set_up):
            self.call(command, [])
        for name in DOCUMENTS:
            for number, block in enumerate(blocks((TOP / name).read_text())):
                if block[0].startswith('import '):
                    self.run_python(f'block_{number}.py', block)
                for command, wanted in commands(block):
                    self.call(command, wanted)
        self.run_python('of_package.py', python_of(about_package))
        self.run_python('of_graphs.py', python_of((TOP / 'python/SDF.md').read_text()))
        for command in SAID:
            self.call(command, [])


def main() -> int:
    parser = argparse.ArgumentParser(description=__doc__, formatter_class=argparse.RawDescriptionHelpFormatter)
    which = parser.add_mutually_exclusive_group()
    which.add_argument('--built', type=pathlib.Path)
    which.add_argument('--unproved', action='store_true')
    asked = parser.parse_args()
    with tempfile.TemporaryDirectory(prefix='kpn-fresh-') as name:
        clone = Clone(pathlib.Path(name), asked.built, asked.unproved)
        clone.type_all()
        print(f'{clone.wrong} wrong')
    return 1 if clone.wrong else 0


if __name__ == '__main__':
    prover.end_with(main)
