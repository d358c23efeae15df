#!/usr/bin/env python3
"""Writes the table of published graphs in python/SDF.md: what the literature says of their least storage, what the
search of `kpn.sdf` finds, and what runs of the proved program show at that and with one token less. It takes two
minutes at most, and ends with 1 if a search and a run disagree, or a search and the literature. On a busy machine the
time for a search may be up, and then the last column says between which sums the least one is.
"""
import argparse
import pathlib
import sys
import time

TOP = pathlib.Path(__file__).resolve().parents[2]
sys.path[:0] = [str(TOP / 'python')]

import kpn  # noqa: E402
from kpn import sdf  # noqa: E402

# The least storage for atomic firings: Stuijk, Geilen and Basten, "Exploring trade-offs in buffer requirements and
# throughput constraints for synchronous dataflow graphs", 2006, where the first graph is called sample rate.
LITERATURE = {'cd2dat': 32, 'h263decoder': 4_753}
HEAD = ('graph', 'firings', 'literature', 'search', 'runs', 'by item', 'most throughput', 'storage for that')
LIMIT = 40


def row_of(graph):
    """The cells of a graph."""
    least, by_item = graph.least_capacities(), graph.least_capacities(by='item')
    for found, by in ((least, 'firing'), (by_item, 'item')):
        print(f'{graph.confirm(found, by)} (by {by})', file=sys.stderr)
    told = LITERATURE.get(graph.name, '')
    if told not in ('', least.total):
        sys.exit(f'{graph.name}: the literature says {told}, and the search {least.total}')
    most = graph.least_capacities('most', limit=LIMIT)
    storage = f'{most.total:,}' if most.exact else f'{most.at_least:,} to {most.total:,}'
    if graph.cycle_ratio(most).time != 1 / most.throughput:
        sys.exit(f'{graph.name}: the cycle ratio is another throughput')
    return [graph.name, f'{sum(graph.repetition.values()):,}', f'{told:,}' if told else '', f'{least.total:,}',
            'end; less deadlocks', f'{by_item.total:,}', str(most.throughput), storage]


def main():
    argparse.ArgumentParser(description=__doc__, formatter_class=argparse.RawDescriptionHelpFormatter).parse_args()
    start = time.time()
    print('| ' + ' | '.join(HEAD) + ' |\n|' + '---|' * len(HEAD))
    for file in sorted((TOP / 'examples/sdf').glob('*.xml')):
        try:
            print('| ' + ' | '.join(row_of(sdf.Graph.read(file))) + ' |', flush=True)
        except kpn.KpnError as error:
            sys.exit(f'{file.name}: {error}')
    print(f'{time.time() - start:.0f} s', file=sys.stderr)


if __name__ == '__main__':
    main()
