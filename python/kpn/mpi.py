"""The audit of a run over several ranks of MPI.

    python -m kpn.mpi audit FILE FOLDER [--steps N]

has `kpn join` judge the traces that `kpn-mpi FILE --traces FOLDER` has stored, if all are there and no others. It
writes what `kpn join` writes, and ends with its status.
"""
from __future__ import annotations

import argparse
import pathlib
import sys
from typing import List, NamedTuple, Optional

from .errors import KpnError
from .program import Program, call
from .ranks import MOST_RANKS

ENDINGS = ('kpn', 'trace')


class Audit(NamedTuple):
    """What the audit has found: lines to write, whether it is exact, and the status, which is 0 if all is right."""

    lines: List[str]
    is_exact: bool
    status: int


def rank_count(folder: pathlib.Path) -> int:
    """How many ranks the run had whose traces lie in a folder, with no other."""
    told = (folder / 'ranks').read_text(encoding='ascii', errors='replace').strip()
    count = int(told) if told.isdecimal() and told.isascii() and len(told) < 4 else 0
    if not 1 <= count <= MOST_RANKS:
        raise KpnError(f'{folder / "ranks"} has no number of ranks')
    found = {it.name for ending in ENDINGS for it in folder.glob(f'rank-*.{ending}')}
    wanted = {f'rank-{rank}.{ending}' for rank in range(count) for ending in ENDINGS}
    for name in sorted(found ^ wanted):
        why = 'is of another run' if name in found else 'is not there'
        raise KpnError(f'{folder / name} {why}: the run had {told} ranks')
    return count


def audit(file: pathlib.Path, folder: pathlib.Path, steps: Optional[int] = None, program: Program = None) -> Audit:
    """Has `kpn join` judge the traces of a run over ranks."""
    parts = [str(folder / f'rank-{rank}.{ending}') for rank in range(rank_count(folder)) for ending in ENDINGS]
    more = [] if steps is None else ['--steps', str(steps)]
    done = call(['join', str(file), *parts, *more], program)
    lines = [*done.stdout.splitlines(), *done.stderr.splitlines()]
    return Audit(lines, lines[:2] == ['legal', 'exact yes'], done.returncode)


def main(words: Optional[List[str]] = None) -> int:
    """Does what the words ask, and gives the status."""
    parser = argparse.ArgumentParser(prog='python -m kpn.mpi', description=__doc__,
                                     formatter_class=argparse.RawDescriptionHelpFormatter)
    parser.add_argument('command', choices=['audit'])
    parser.add_argument('file', metavar='FILE', type=pathlib.Path, help='the description')
    parser.add_argument('folder', metavar='FOLDER', type=pathlib.Path, help='what `--traces` was given')
    parser.add_argument('--steps', type=int, metavar='N', help='most steps of a process before an event')
    given = parser.parse_args(words)
    try:
        found = audit(given.file, given.folder, given.steps)
    except (KpnError, OSError) as error:
        print(f'python -m kpn.mpi: {error}', file=sys.stderr)
        return 1
    print('\n'.join(found.lines))
    return found.status


if __name__ == '__main__':
    sys.exit(main())
