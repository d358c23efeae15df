#!/usr/bin/env python3
"""Draws each of the examples with `./kpn draw` and Graphviz, and checks that Graphviz takes each drawing without a
warning. It is run by hand, and needs the program `dot` (in Debian the package graphviz).

    tools/draw.py [FOLDER]

The pictures go to FOLDER, if there is one. Those of PICTURES, which README and GUIDE show, go to docs/pictures/ too.
"""
import argparse
import pathlib
import subprocess
import tempfile

TOP = pathlib.Path(__file__).resolve().parent.parent
KPN = TOP / 'kpn'
EXAMPLES = TOP / 'examples'
# The pictures of docs/pictures/: the example, and the words of a run whose trace is drawn too.
PICTURES = {
    'kahn': ('kahn.kpn', None),
    'mean': ('mean.kpn', None),
    'moving_average_after_its_run': ('moving_average.kpn', ('--source', f'signal={EXAMPLES / "signal"}')),
}
# those of a run in time, which need no Graphviz
IN_TIME = {'moving_average_in_time': ('moving_average.kpn', ('--source', f'signal={EXAMPLES / "signal"}'))}
MOST_BYTES = 20_000


def kpn(*words):
    """What the program writes."""
    return subprocess.run([KPN, *words], stdout=subprocess.PIPE, text=True, check=True).stdout


def svg(drawing):
    """The picture of a drawing. Graphviz may not warn."""
    made = subprocess.run(['dot', '-Tsvg'], input=drawing, capture_output=True, text=True, check=True)
    assert not made.stderr, made.stderr
    return made.stdout


def drawing_after(example, words):
    """The drawing of an example after a run."""
    return of_run(example, words, 'draw')


def of_run(example, words, command, *more):
    """What a command writes of the trace of a run."""
    with tempfile.TemporaryDirectory() as folder:
        trace = pathlib.Path(folder) / 'trace'
        kpn('run', example, *words, '--trace', trace)
        return kpn(command, example, trace, *more)


def write(path, picture):
    path.parent.mkdir(parents=True, exist_ok=True)
    path.write_text(picture)
    print(path, len(picture))


def main():
    parser = argparse.ArgumentParser(description=__doc__, formatter_class=argparse.RawDescriptionHelpFormatter)
    parser.add_argument('folder', nargs='?', type=pathlib.Path)
    folder = parser.parse_args().folder
    for example in sorted(EXAMPLES.glob('*.kpn')):
        picture = svg(kpn('draw', example))
        if folder:
            write(folder / f'{example.stem}.svg', picture)
    for name, (example, words) in PICTURES.items():
        file = EXAMPLES / example
        picture = svg(kpn('draw', file) if words is None else drawing_after(file, words))
        assert len(picture) <= MOST_BYTES, name
        write(TOP / 'docs/pictures' / f'{name}.svg', picture)
    for name, (example, words) in IN_TIME.items():
        write(TOP / 'docs/pictures' / f'{name}.svg', of_run(EXAMPLES / example, words, 'timeline', '--svg'))


if __name__ == '__main__':
    main()
