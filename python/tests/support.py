"""What the tests share: the package beside them, the second implementation in `tools/`, and the program."""
import pathlib
import sys

TOP = pathlib.Path(__file__).resolve().parents[2]
for folder in ('python', 'tools'):
    sys.path.insert(0, str(TOP / folder))
sys.path += [str(TOP / folder) for folder in ('bench/stress', 'tools/tests')]

import examples  # noqa: E402
import kpn  # noqa: E402
import rounds  # noqa: E402

# Without a program there is nothing to test, and this line is an error of each test module.
PROGRAM = kpn.find_program()
GALLERY = TOP / 'examples/gallery'


def second_canonical(text):
    """The canonical form of a text, by the second implementation."""
    parser = rounds.Parser(text)
    processes, network = parser.description()
    return examples.canonical(processes, *network, parser.language, parser.shared)


def run_one(build, *lists, **options):
    """Runs a part on a source for each list; gives the sinks' items, one list or a tuple of them, and the result."""
    net = kpn.Network()
    made = build(*(net.source(f's{it}') for it in range(len(lists))))
    streams = made if isinstance(made, tuple) else (made,)
    for number, stream in enumerate(streams):
        net.sink(f'z{number}', stream)
    result = net.run({f's{it}': items for it, items in enumerate(lists)}, **options)
    found = tuple(result[f'z{number}'] for number in range(len(streams)))
    return (found if isinstance(made, tuple) else found[0]), result
