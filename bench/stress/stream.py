#!/usr/bin/env python3
"""Random networks by `kpn stream`, beside `kpn run` and tools/histories.py.

Of two streams of one network, one reads plain files, and the other gets one source by standard input in pieces of
random lengths. If that is the only source, both have to write the same trace; of several, that one is read whose
answer comes first. Each trace has to be legal for the auditor and for tools/histories.py, and each sink's file has to
have what the trace takes there. What two streams, or a stream and a run, put on a sink has to be the same where both
are complete, and else one begins the other. A stream that came to a verdict is made again without a trace and a limit,
from files and by standard input in pieces, and has to write and tell the same. It is no part of the gate. Words: for
how many networks, by default 3,000; where the random numbers begin, else by chance; and the program, if another one
than that of `kpn`.
"""
import collections
import pathlib
import random
import subprocess
import sys
import tempfile
import time

HERE = pathlib.Path(__file__).resolve().parent
sys.dont_write_bytecode = True
sys.path += [str(HERE.parent), str(HERE.parent.parent / 'tools')]

import figures  # noqa: E402
import histories  # noqa: E402
import measure  # noqa: E402
import random_networks  # noqa: E402

# seconds that a run may take, commits of a run, and steps of an audit between two events
MOST, COMMITS, STEPS = 60, 500, 10_000
# those of a stream that has ended, with a fault or a ring or without
STATUSES = 0, 3, 4, 5, 8, 9


def pieces(chance, text):
    """The text cut at random places."""
    while text:
        length = chance.choice((1, 2, 3, 7, 50, 10_000))
        yield text[:length]
        text = text[length:]


class Streams:
    def __init__(self, program, folder, chance):
        self.program, self.folder, self.chance = program, pathlib.Path(folder), chance
        self.counts = collections.Counter()

    def must(self, holds, *told):
        if not holds:
            sys.exit('\n'.join([(self.folder / 'net').read_text(), *map(str, told)]))

    def call(self, *words):
        done = subprocess.run([self.program, *words], cwd=self.folder, capture_output=True, text=True, timeout=MOST)
        return done.returncode, done.stdout, done.stderr

    def in_pieces(self, words, text):
        """A call that gets a text by standard input, in several writes."""
        child = subprocess.Popen([self.program, *words], cwd=self.folder, stdin=subprocess.PIPE,
                                 stdout=subprocess.PIPE, stderr=subprocess.PIPE, bufsize=0)
        try:
            for piece in pieces(self.chance, text.encode()):
                child.stdin.write(piece)
        except BrokenPipeError:
            pass
        wrote, told = child.communicate(timeout=MOST)
        return child.returncode, wrote.decode(), told.decode()

    def sinks_of(self, trace):
        """What a legal history puts on each sink, whether it is complete, and what is taken there."""
        network = histories.Network((self.folder / 'net').read_text())
        audit = figures.replay(network, trace)[0]
        complete = audit.complete()
        taken = collections.defaultdict(list)
        for event in trace.history:
            if event[0] == 'take':
                taken[event[1]].append(event[2])
        return {network.channels[c]: (audit.written[c], complete[c], taken[c]) for c in network.of_kind('sink')}

    def trace(self, name):
        return histories.read_trace((self.folder / name).read_bytes())

    def network(self):
        text, items = random_networks.network(self.chance)
        (self.folder / 'net').write_text(text)
        network = histories.Network(text)
        files = {name: ''.join(f'{number}\n' for number in numbers) for name, numbers in items.items()}
        for name, lines in files.items():
            (self.folder / name).write_text(lines)
        limit = ['--max-commits', str(COMMITS)]
        named = [word for name in files for word in ('--source', f'{name}={name}')]
        sinks = [network.channels[c] for c in network.of_kind('sink')]
        outs = [word for name in sinks for word in ('--sink', f'{name}={name}.out')]
        self.call('run', 'net', *limit, *named, '--trace', 'run.trace')
        status, _, told = self.call('stream', 'net', *limit, *named, *outs, '--trace', 'one.trace')
        self.must(status in STATUSES, status, told)
        self.legal(network, 'one.trace')
        self.compare(self.trace('one.trace'), self.trace('run.trace'), told)
        if 'stopped' not in told:
            self.in_any_order(files, sinks, outs, (status, '', told))
        if files:
            self.again(network, files, [*limit, *outs], (status, '', told))
        self.counts['status', status] += 1

    def in_any_order(self, files, sinks, outs, was):
        """The same stream where nobody sees the order, from files and with one source by standard input."""
        wrote = [(self.folder / f'{name}.out').read_bytes() for name in sinks]
        for piped in [None, *self.chance.sample(list(files), min(1, len(files)))]:
            named = [word for name in files for word in ('--source', f'{name}={"-" if name == piped else name}')]
            words = ['stream', 'net', *outs, *named]
            found = self.in_pieces(words, files[piped]) if piped else self.call(*words)
            self.must(found == was, 'in any order', was, found)
            self.must(wrote == [(self.folder / f'{name}.out').read_bytes() for name in sinks], 'other items')
            self.counts['in any order', 'piped' if piped else 'from files'] += 1

    def again(self, network, files, words, was):
        """The same stream once more, with one source by standard input."""
        name = self.chance.choice(list(files))
        named = [word for other in files for word in ('--source', f'{other}={"-" if other == name else other}')]
        found = self.in_pieces(['stream', 'net', *words, *named, '--trace', 'two.trace'], files[name])
        is_same = (self.folder / 'two.trace').read_bytes() == (self.folder / 'one.trace').read_bytes()
        self.must(found == was if is_same else len(files) > 1, 'another trace', was, found)
        if not is_same:
            self.must(found[0] in STATUSES and not found[1], found)
            self.legal(network, 'two.trace')
            self.compare(self.trace('two.trace'), self.trace('run.trace'), found[2])
            self.compare_items(self.trace('one.trace'), self.trace('two.trace'))
        self.counts['order', 'the same' if is_same else 'another'] += 1

    def legal(self, network, name):
        wanted = histories.audit_text(network, self.trace(name), STEPS)
        found = self.call('audit', 'net', name, '--steps', str(STEPS))[1]
        self.must(wanted.startswith('legal') and wanted == found, wanted, found)

    def compare_items(self, one, two):
        """What two streams put on the sinks."""
        others = self.sinks_of(two)
        for name, (put, is_complete, _) in self.sinks_of(one).items():
            whole, both_complete = others[name][0], is_complete and others[name][1]
            length = min(len(put), len(whole))
            self.must(put[:length] == whole[:length], name, put, whole)
            self.must(put == whole or not both_complete, name, put, whole)

    def compare(self, streamed, run, told):
        others = self.sinks_of(run)
        for name, (put, is_complete, taken) in self.sinks_of(streamed).items():
            wrote = [int(line) for line in (self.folder / f'{name}.out').read_text().split()]
            self.must(wrote == taken, name, wrote, taken)
            says = f'sink {name}: {len(taken)} items, complete\n' in told
            whole, run_complete, _ = others[name]
            length = min(len(put), len(whole))
            self.must(put[:length] == whole[:length], name, put, whole)
            self.must(not (says and run_complete) or put == whole, name, put, whole)
            self.must(not says or taken == put, name, taken, put)
            self.counts['sink', 'complete in both' if says and run_complete else 'not'] += 1


def main():
    asked = measure.asked(__doc__, {'networks': 3_000, 'seed': time.time_ns(), 'program': ''})
    program = pathlib.Path(asked.program).resolve() if asked.program else measure.kpn()
    with tempfile.TemporaryDirectory() as folder:
        streams = Streams(program, folder, random.Random(asked.seed))
        for _ in range(asked.networks):
            streams.network()
    for (what, came), count in sorted(streams.counts.items(), key=str):
        print(f'{what}: {came} {count}')


if __name__ == '__main__':
    main()
