#!/usr/bin/env python3
"""Random networks under each policy and each growth. The program runs and audits them beside tools/histories.py.

Report, trace and audit of the run on one thread have to be the same. So have the audits of its history with one change,
and of a run by workers, which has to be legal. Of each legal history the tables, the timeline, a picture and the
explanation have to be the same, and the tables say which channels are complete. Then the network runs once more by
workers, with other capacities, and perhaps under the other policy and the other growth: what a sink gets there begins
what it has where it is complete. It is no part of the gate. Words: for how many seconds, by default 60; where the
random numbers begin, else by chance; and the program, if another one than that of `kpn`.
"""
import collections
import pathlib
import random
import re
import subprocess
import sys
import tempfile
import time

HERE = pathlib.Path(__file__).resolve().parent
sys.path += [str(HERE.parent), str(HERE.parent.parent / 'tools')]

import figures  # noqa: E402
import histories  # noqa: E402
import measure  # noqa: E402
import random_networks  # noqa: E402
import ticks  # noqa: E402

# seconds that a run may take, commits of a run, and steps of an audit between two events
MOST, COMMITS, STEPS = 60, 500, 10_000
WORKERS = (1, 2, 4, 16)


def changed(chance, network, history):
    """The history without one event, with one event twice, or with a growth before it or in its place."""
    if not history:
        return history
    place = chance.randrange(len(history))
    event = history[place]
    grow = 'grow', *(chance.randrange(len(of)) for of in (network.instances, network.channels)), chance.randint(1, 9)
    return history[:place] + chance.choice([[], [event, event], [grow, event], [grow]]) + history[place + 1:]


def resized(chance, text):
    """The network with other capacities, and perhaps under the other policy and the other growth."""
    most = int(re.search(r'limit (\d+)', text + 'limit 9').group(1))
    text = re.sub(r' cap \d+;', lambda _: f' cap {chance.randint(1, most)};', text)
    head = re.search(r'network \{\n(  limit \d+;\n)?', text).group()
    for line in ('  grow double;\n', '  policy all;\n'):
        has = line in text
        text = text.replace(line, '')
        if has != (chance.random() < 0.5):
            text = text.replace(head, head + line)
    return text


class Beside:
    """The program and a folder, with what came of the networks so far."""

    def __init__(self, program, folder, chance):
        self.program, self.folder, self.chance = program, pathlib.Path(folder), chance
        self.counts = collections.Counter()

    def call(self, *words):
        done = subprocess.run([self.program, *words], cwd=self.folder, capture_output=True, text=True, timeout=MOST)
        return done.stdout + done.stderr

    def same(self, what, wanted, found):
        if wanted != found:
            sys.exit(f'{(self.folder / "net").read_text()}{what}\n{wanted}---\n{found}')

    def audited(self, what, network, history):
        """Both audit a history, and say the same of it."""
        (self.folder / 'audited').write_bytes(histories.trace_text(history, network.growing))
        growing = network.growing
        trace = histories.Trace(2, growing.policy, growing.growth, history)
        wanted = histories.audit_text(network, trace, STEPS)
        self.same(what, wanted, self.call('audit', 'net', 'audited', '--steps', str(STEPS)))
        self.counts[what, wanted.split()[0]] += 1
        if wanted.startswith('legal'):
            self.same(f'{what}: tables', figures.stats_text(network, trace), self.call('stats', 'net', 'audited'))
            waits = figures.replay(network, trace)[0].waits()
            timeline = ticks.timeline_text(network, trace, waits)
            self.same(f'{what}: timeline', timeline, self.call('timeline', 'net', 'audited'))
            self.same(f'{what}: picture', *self.pictures(network, trace, waits))
            self.same(f'{what}: explanation', figures.explained(network, trace), self.call('explain', 'net', 'audited'))
        return wanted

    def pictures(self, network, trace, waits):
        """The picture of some ticks, or of all, by both."""
        first, last = self.chance.choice([(1, 10 ** 9), sorted(self.chance.randint(1, 60) for _ in range(2))])
        found = self.call('timeline', 'net', 'audited', '--svg', '--from', str(first), '--to', str(last))
        return ticks.picture_answer(network, trace, waits, first, last), found

    def sinks(self, history):
        """What is written on each sink, and whether it is complete, after a history of the network in the folder."""
        network = histories.Network((self.folder / 'net').read_text())
        growing = network.growing
        audit = figures.replay(network, histories.Trace(2, growing.policy, growing.growth, history))[0]
        complete = audit.complete()
        return {network.channels[c]: (audit.written[c], complete[c]) for c in network.of_kind('sink')}

    def with_other_capacities(self, text, words, history):
        """A sink that is complete in one run begins with what the other run puts there."""
        found = self.sinks(history)
        (self.folder / 'net').write_text(resized(self.chance, text))
        self.call(*words, '--workers', str(self.chance.choice(WORKERS)))
        others = self.sinks(histories.read_trace((self.folder / 'trace').read_bytes()).history)
        for name in found:
            for (whole, is_complete), (begun, are_both) in ((found[name], others[name]), (others[name], found[name])):
                if is_complete:
                    self.same(f'sink {name}', whole[:None if are_both else len(begun)], begun)
                    self.counts['sink', 'complete in both' if are_both else 'complete in one'] += 1

    def network(self):
        text, items = random_networks.network(self.chance)
        (self.folder / 'net').write_text(text)
        words = ['run', 'net', '--max-commits', str(COMMITS), '--trace', 'trace']
        for name, numbers in items.items():
            (self.folder / name).write_text(''.join(f'{number}\n' for number in numbers))
            words += ['--source', f'{name}={name}']
        network = histories.Network(text)
        run = histories.Run(network, items).go(None, COMMITS)
        self.same('run', histories.report_text(run), self.call(*words))
        trace = histories.trace_text(run.history, network.growing).decode()
        self.same('trace', trace, (self.folder / 'trace').read_text())
        self.audited('audit', network, run.history)
        self.audited('audit of a changed history', network, changed(self.chance, network, run.history))
        report = self.call(*words, '--workers', str(self.chance.choice(WORKERS)))
        history = histories.read_trace((self.folder / 'trace').read_bytes()).history
        self.same('by workers', 'legal', self.audited('audit by workers', network, history).split()[0])
        self.counts[f'policy {network.growing.policy}, grow {network.growing.growth}', report.split()[-1]] += 1
        self.with_other_capacities(text, words, run.history)


def main():
    asked = measure.asked(__doc__, {'seconds': 60.0, 'seed': time.time_ns(), 'program': ''})
    chance = random.Random(asked.seed)
    program = pathlib.Path(asked.program).resolve() if asked.program else measure.kpn()
    with tempfile.TemporaryDirectory() as folder:
        beside = Beside(program, folder, chance)
        end = time.monotonic() + asked.seconds
        while time.monotonic() < end:
            beside.network()
    for (what, came), count in sorted(beside.counts.items()):
        print(f'{what}: {came} {count}')


if __name__ == '__main__':
    main()
