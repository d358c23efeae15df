#!/usr/bin/env python3
"""Compares `kpn join` with a second implementation (python/tests/joins.py) on traces of random networks in parts.

usage: bench/stress/joined.py [--networks N] [--mutations M] [--seed S]

N random networks (500) are run by `kpn run`, and cut at random. The trace of the whole is taken apart into those of the
parts: a cut channel is fed at its put, and taken from at its get. Then both have to say the same, and a join that is
legal has to show the journals that an audit of the whole trace shows. The same of M sets of traces (4) for each
network, in one of which a line was changed, left out, repeated, or moved, or whose end was cut off. It takes `kpn`
from KPN_PROGRAM or the repository.
"""
import argparse
import collections
import pathlib
import random
import re
import subprocess
import sys
import tempfile

TOP = pathlib.Path(__file__).resolve().parent.parent.parent
sys.path += [str(TOP / 'python'), str(TOP / 'python/tests')]

import joins  # noqa: E402
import random_networks  # noqa: E402
from kpn import mpi, program  # noqa: E402
from kpn.trace import Trace  # noqa: E402

HEAD = 'kpn-trace 2\npolicy {} grow {}\n'
PLACE = re.compile(r'not joined: event (\d+) of rank (\d+) ')


def same(what, wanted, found):
    if wanted != found:
        sys.exit(f'{what}\nwanted: {wanted}\nfound:  {found}')


def line_of(event, part):
    """The line of an event with the numbers of a part."""
    instances = [name for name, _ in part.description.instances]
    words = [event.kind]
    words += [str(instances.index(event.process))] if event.process is not None else []
    words += [str(part.channels.index(event.channel))] if event.channel is not None else []
    return ' '.join([*words, *([str(event.value)] if event.value is not None else [])]) + '\n'


def taken_apart(events, parts, ranks):
    """The lines of the trace of each part."""
    lines = [[] for _ in parts]
    sources = {name: rank for rank, part in enumerate(parts) for name in part.sources}
    sinks = {name: rank for rank, part in enumerate(parts) for name in part.sinks}
    for event in events:
        name = event.channel
        rank = ranks[event.process] if event.process is not None else sources.get(name, sinks.get(name))
        lines[rank].append(line_of(event, parts[rank]))
        if event.kind == 'put' and name in sinks and name in sources:
            lines[sources[name]].append(line_of(event._replace(kind='feed', process=None), parts[sources[name]]))
        elif event.kind == 'get' and name in sources and name in sinks:
            lines[sinks[name]].append(line_of(event._replace(kind='take', process=None), parts[sinks[name]]))
    return lines


def mutated(chance, lines):
    """The lines of all parts, of which one is changed, left out, repeated or moved, or the last ones are cut off."""
    made = [list(it) for it in lines]
    own = chance.choice([it for it in made if it] or [['']])
    place = chance.randrange(len(own))
    kind = chance.choice(('change', 'drop', 'repeat', 'move', 'cut'))
    if kind == 'change':
        own[place] = re.sub(r'-?\d+$', lambda it: str(int(it[0]) + 1), own[place].rstrip('\n')) + '\n'
    elif kind == 'drop':
        del own[place]
    elif kind == 'repeat':
        own.insert(chance.randrange(len(own) + 1), own[place])
    elif kind == 'move':
        own.insert(chance.randrange(len(own)), own.pop(place))
    else:
        del own[place:]
    return made


def compare(what, folder, lines, head):
    """Whether both say the same of these traces. Returns the lines of `kpn join`."""
    for rank, own in enumerate(lines):
        (folder / f'rank-{rank}.trace').write_text(head + ''.join(own))
    found, wanted = mpi.audit(folder / 'net.kpn', folder), joins.audit(folder / 'net.kpn', folder)
    said = f'{what}\n{lines}\n{found.lines}\n{wanted.lines}'
    same(said, wanted.status, found.status)
    place = PLACE.match(wanted.lines[-1])
    if place:
        same(said, f'not joined at {place[1]} in {folder}/rank-{place[2]}.trace', found.lines[0])
    # The second implementation also wants a process that waits elsewhere to have been fed all.
    same(said, True, found.is_exact or not wanted.is_exact)
    return found.lines, 'exact' if found.is_exact else found.lines[0].split(' at ')[0]


def main():
    parser = argparse.ArgumentParser(description=__doc__, formatter_class=argparse.RawDescriptionHelpFormatter)
    parser.add_argument('--networks', type=int, default=500, metavar='N')
    parser.add_argument('--mutations', type=int, default=4, metavar='M')
    parser.add_argument('--seed', type=int, default=1, metavar='S')
    asked = parser.parse_args()
    kpn, counts = program.find_program(), collections.Counter()
    with tempfile.TemporaryDirectory(prefix='kpn-joined-') as room:
        folder = pathlib.Path(room).resolve()
        for number in range(asked.networks):
            chance = random.Random(f'{asked.seed} {number}')
            text, items = random_networks.network(chance)
            (folder / 'net.kpn').write_text(text)
            words = []
            for name, given in items.items():
                (folder / f'{name}.in').write_text(''.join(f'{it}\n' for it in given))
                words += ['--source', f'{name}={name}.in']
            subprocess.run([kpn, 'run', 'net.kpn', *words, '--max-commits', '400', '--trace', 'trace'], cwd=folder,
                           capture_output=True, check=False)
            net, count = joins.read_description(folder / 'net.kpn'), chance.randrange(1, 5)
            ranks = {name: chance.randrange(count) for name, _ in net.instances}
            parts = [joins.part_of(net, ranks, rank, count == 1) for rank in range(count)]
            for old in folder.glob('rank-*'):
                old.unlink()
            for rank, part in enumerate(parts):
                (folder / f'rank-{rank}.kpn').write_text(part.text())
            (folder / 'ranks').write_text(f'{count}\n')
            (folder / 'cut').write_text(''.join(f'{name}={rank}\n' for name, rank in ranks.items()))
            trace = Trace(folder / 'trace', [it for it, _ in net.instances], [it for _, it, _ in net.channels])
            head = HEAD.format(trace.policy if count == 1 else 'cycles', trace.grow)
            if any(it.kind == 'grow' and it.channel not in parts[ranks[it.process]].channels for it in trace):
                counts['left out: a growth for a process of another part'] += 1
                continue
            lines = taken_apart(trace, parts, ranks)
            found, kind = compare(text, folder, lines, head)
            counts[kind] += 1
            if found[0] == 'legal':
                whole = subprocess.run([kpn, 'audit', 'net.kpn', 'trace'], cwd=folder, capture_output=True, text=True,
                                       check=True).stdout.splitlines()
                journals = [re.sub(r' cap \d+', '', it) for it in whole[2:]]
                same(text, journals, [re.sub(r' cap \d+', '', it) for it in found[2:]])
            for _ in range(asked.mutations):
                counts[f'mutated: {compare(text, folder, mutated(chance, lines), head)[1]}'] += 1
    print(f'{asked.networks} networks, {asked.mutations} mutations of each: no difference;',
          ', '.join(f'{count} {name}' for name, count in sorted(counts.items())))


if __name__ == '__main__':
    main()
