"""`python -m kpn`: lists and shows the parts, runs the gallery, writes its texts, makes a page of a run, and prints a
description with capacities that are advised after a run."""
from __future__ import annotations

import argparse
import os
import pathlib
import sys
import time
from typing import List, Optional

from . import KpnError, Network, parts, view
from .gallery import GALLERY, stored_text
from .parts import shown
from .result import stored_run
from .view import stats_of


def first_line(thing: object) -> str:
    """The first line of a text that documents something."""
    return (thing.__doc__ or '').strip().splitlines()[0]


def list_all() -> int:
    """Writes what parts and what networks there are."""
    print('Parts, in kpn.parts (python -m kpn parts NAME tells more):')
    for name in parts.__all__:
        print(f'  {shown.head_of(name)}\n      {first_line(getattr(parts, name))}')
    print('\nNetworks of the gallery (python -m kpn gallery [NAME ..] runs them):')
    for name, module in GALLERY.items():
        print(f'  {name:18} {first_line(module)}')
    return 0


def show_parts(names: List[str], is_page: bool) -> int:
    """Writes the texts of parts with an example, or a page with their pictures."""
    if is_page:
        print(shown.page_of(names or parts.__all__), end='')
    else:
        print('\n'.join(map(shown.text_of, names or parts.__all__)), end='')
    return 0


def run_gallery(names: List[str], count: int) -> int:
    """Runs networks of the gallery, and compares what comes out with plain Python."""
    wrong = 0
    for name in names or GALLERY:
        module = GALLERY[name]
        given = module.inputs(count)
        start = time.perf_counter()
        result = module.build().run(given).check()
        took = time.perf_counter() - start
        is_right = dict(result) == module.expected(given)
        wrong += not is_right
        sinks = ', '.join(f'{len(items)} items of {sink}' for sink, items in result.items())
        print(f'{name:12} {"right" if is_right else "WRONG"}: {sinks} in {1000 * took:.0f} ms')
    return 1 if wrong else 0


def store(folder: str) -> int:
    """Writes the texts of the gallery into a folder."""
    for name in GALLERY:
        pathlib.Path(folder, f'{name}.kpn').write_text(stored_text(name), encoding='ascii')
    return 0


def write_page(file: str, trace: str, steps: Optional[int]) -> int:
    """Writes a page that shows a run."""
    sys.stdout.buffer.write(view.page(file, trace, steps=steps).encode())
    return 0


def print_tuned(file: str, trace: str, kind: str, steps: Optional[int]) -> int:
    """Writes a description with the capacities of this kind that are advised after a run."""
    stats_of(file, trace, steps)
    net = Network.from_text(pathlib.Path(file).read_bytes().decode('utf-8', 'replace'))
    result = stored_run(net, trace)
    print(net.tuned(result.least if kind == 'least' else result.fast), end='')
    return 0


def main(words: Optional[List[str]] = None) -> int:
    """Does what the words ask, and gives the status."""
    try:
        if sys.stdout is None:
            raise KpnError('there is no standard output')
        status = run_command(words)
        sys.stdout.flush()
        return status
    except BrokenPipeError:
        # Whoever read the output has enough of it, as `head` has.
        os.dup2(os.open(os.devnull, os.O_WRONLY), sys.stdout.fileno())
        return 141
    except (KpnError, OSError) as error:
        print(f'python -m kpn: {error}', file=sys.stderr)
        return 1


def run_command(words: Optional[List[str]]) -> int:
    """Does what the words ask, and gives the status."""
    parser = argparse.ArgumentParser(prog='python -m kpn', description='Without a command: lists parts and gallery.')
    commands = parser.add_subparsers(dest='command')
    command = commands.add_parser('gallery', help='run networks, and compare the sinks with plain Python')
    command.add_argument('names', nargs='*', metavar='NAME', help='a network; without one all of them')
    command.add_argument('--samples', type=int, default=10_000, metavar='N', help='items for each source (10000)')
    command = commands.add_parser('parts', help='show parts, each with an example and its network')
    command.add_argument('names', nargs='*', metavar='NAME', help='a part; without one all of them')
    command.add_argument('--html', action='store_true', help='write a page with the pictures that Graphviz makes')
    command = commands.add_parser('store', help='write the texts of the gallery into a folder')
    command.add_argument('folder')
    command = commands.add_parser('view', help='write a page of HTML that shows a run, from its trace')
    command.add_argument('file', metavar='FILE', help='the description')
    command.add_argument('trace', metavar='TRACE', help='what `kpn run --trace` has stored')
    command.add_argument('--steps', type=int, metavar='N', help='most steps of a process before an event')
    command = commands.add_parser('print', help='write a description with capacities that are advised after a run')
    command.add_argument('file', metavar='FILE', help='the description')
    command.add_argument('trace', metavar='TRACE', help='what `kpn run --trace` has stored')
    command.add_argument('--capacities', required=True, choices=('least', 'fast'),
                         help='least memory for a run of the shortest length, or speed of workers and compiled ones')
    command.add_argument('--steps', type=int, metavar='N', help='most steps of a process before an event')
    given = parser.parse_args(words)
    if given.command == 'store':
        return store(given.folder)
    if given.command == 'parts':
        return show_parts(given.names, given.html)
    if given.command == 'view':
        return write_page(given.file, given.trace, given.steps)
    if given.command == 'print':
        return print_tuned(given.file, given.trace, given.capacities, given.steps)
    if given.command == 'gallery':
        unknown = [name for name in given.names if name not in GALLERY]
        if unknown:
            parser.error(f'the gallery has no {unknown[0]}: it has {", ".join(GALLERY)}')
        return run_gallery(given.names, given.samples)
    return list_all()


if __name__ == '__main__':
    sys.exit(main())
