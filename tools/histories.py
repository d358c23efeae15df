#!/usr/bin/env python3
"""Runs of networks on one thread, their histories as text, and whether a history is legal. This is another program than
the proved one. Words: those of `kpn run`, whose workers it knows but does not start, and those of `kpn audit`.

What a run does is kept step by step. What a history must meet is judged from the lists that it leaves. So the two check
each other. It trusts descriptions and item files: it does not check those.
"""
import argparse
import collections
import pathlib
import re
import sys
import typing

import rounds

QUOTA = 1000
MOST_COMMITS = MOST_STEPS = 10_000_000
STATUSES = {'ended': 0, 'enough': 0, 'clogged': 3, 'jammed': 4, 'stopped': 5, 'legal': 0, 'illegal': 1, 'budget': 5}
HEAD_ONE, HEAD_TWO = b'kpn-trace 1\n', b'kpn-trace 2\n'
RULES = re.compile(rb'policy (cycles|all) grow (one|double)\n')

# Where a process is: ('step',), ('read', port), ('write', port, item), ('end', cause); and ('paused',), if it
# made as many steps as it may.
STEP, PAUSED = ('step',), ('paused',)


class Process:
    """One process, from stop to stop."""

    def __init__(self, program, values):
        self.variables, self.steps = program.variables(values), 0
        self.turns = self.block(program.body)
        self.stands_at = None
        self.move()

    def block(self, statements):
        for word, *rest in statements:
            if word == 'read':
                self.variables[rest[1]] = yield 'read', rest[0]
            elif word == 'write':
                yield 'write', rest[0], rounds.value(rest[1], self.variables)
            elif word == 'assign':
                yield STEP
                self.variables[rest[0]] = self.stepped(rounds.value(rest[1], self.variables))
            elif word == 'set':
                yield STEP
                self.stepped(rounds.set_cell(self.variables, *rest))
            elif word == 'if':
                yield STEP
                yield from self.inner(rest[1] if self.stepped(rounds.value(rest[0], self.variables)) else rest[2])
            else:
                yield STEP
                while self.stepped(rounds.value(rest[0], self.variables)):
                    yield from self.inner(rest[1])
                    yield STEP

    def inner(self, statements):
        """A block that a process leaves by a step of its own, unlike the body."""
        yield from self.block(statements)
        yield STEP
        self.stepped()

    def stepped(self, value=None):
        """Counts a step that was made, with its value."""
        self.steps += 1
        return value

    def move(self, item=None):
        """Moves past the place where it is, with the item of a read."""
        try:
            self.stands_at = self.turns.send(item)
        except StopIteration:
            self.stands_at = 'end', 'done'
        except rounds.Fault as fault:
            self.stands_at = 'end', fault.args[0]

    def stop(self, quota):
        """Steps until the next stop, or until as many steps were made as the quota says."""
        made = 0
        while self.stands_at == STEP:
            if made == quota:
                return PAUSED
            self.move()
            made += 1
        return self.stands_at


class Network:
    """The tables of a network, by number; and its processes at their beginnings."""

    def __init__(self, text):
        self.processes, (channels, instances, self.growing) = rounds.Parser(text).description()
        self.channels, self.instances = list(channels), list(instances)
        self.kinds = [kind for kind, _ in channels.values()]
        self.capacities = [capacity for _, capacity in channels.values()]
        self.writers, self.readers = [None] * len(channels), [None] * len(channels)
        self.ends, self.given = [], []
        for p, (program, ins, outs, values) in enumerate(instances.values()):
            parts = self.processes[program].parts
            for c in ins:
                self.readers[self.channels.index(c)] = p
            for c in outs:
                self.writers[self.channels.index(c)] = p
            ports = list(zip(parts['in'], ins)) + list(zip(parts['out'], outs))
            self.ends.append({port: self.channels.index(c) for port, c in ports})
            self.given.append((program, [self.channels.index(c) for c in ins], values))

    def start(self):
        return [Process(self.processes[program], values) for program, _, values in self.given]

    def ins(self, p):
        return self.given[p][1]

    def of_kind(self, kind):
        return [c for c, other in enumerate(self.kinds) if other == kind]

    def may_grow(self, c, capacities):
        """Whether there is this channel, and it is below the limit."""
        return c is not None and capacities[c] < self.growing.limit


def smallest(channels, capacities):
    """The channel of least capacity, and then of least number, if there is one."""
    return min(channels, key=lambda c: (capacities[c], c), default=None)


def smallest_full(network, waits, capacities, p):
    """The smallest full channel in the cycle of waits through p, if there is one. A wait is a pair of `empty` or `full`
    and a channel, or None."""
    full, met, q = [], set(), p
    while q is not None and waits[q] is not None and q not in met:
        met.add(q)
        why, c = waits[q]
        if why == 'full':
            full.append(c)
        q = (network.readers if why == 'full' else network.writers)[c]
    return smallest(full, capacities) if q == p and met else None


def smallest_waited(waits, capacities):
    """The smallest channel on which a process waits as full, if there is one."""
    return smallest([wait[1] for wait in waits if wait is not None and wait[0] == 'full'], capacities)


class Run:
    """A run on one thread. The ready processes are in a queue. Each in turn goes to its next stop, or makes its quota
    of steps, and then does at most one thing to a channel."""

    quota = QUOTA

    def __init__(self, network, lists):
        self.network, self.processes = network, network.start()
        self.unread = [collections.deque() for _ in network.channels]
        self.read_count, self.capacities = [0] * len(network.channels), list(network.capacities)
        self.retired = [False] * len(network.channels)
        self.journals = [[] for _ in network.channels]
        self.waits, self.ended = [None] * len(self.processes), [None] * len(self.processes)
        self.ready = collections.deque(range(len(self.processes)))
        self.history, self.commits, self.outcome = [], 0, None
        for c in network.of_kind('source'):
            for item in lists.get(network.channels[c], []):
                self.append(c, item, 'feed', c, item)
            self.history.append(('close', c))

    def is_full(self, c):
        capacity = self.capacities[c]
        return capacity is not None and not self.retired[c] and len(self.unread[c]) >= capacity

    def append(self, c, item, *event):
        self.history.append(event)
        self.journals[c].append(item)
        self.unread[c].append(item)

    def remove(self, c, word, *who):
        item = self.unread[c].popleft()
        self.read_count[c] += 1
        self.history.append((word, *who, c, item))
        return item

    def wake(self, q, *wait):
        if q is not None and self.waits[q] == wait:
            self.waits[q] = None
            self.ready.append(q)

    def wait(self, p, why, c):
        self.history.append((f'wait-{why}', p, c))
        self.waits[p] = why, c
        d = smallest_full(self.network, self.waits, self.capacities, p)
        if self.network.may_grow(d, self.capacities):
            self.grow(p, d)
        self.grow_if_settled()

    def grow(self, p, d):
        self.capacities[d] = self.network.growing.grown(self.capacities[d])
        self.history.append(('grow', p, d, self.capacities[d]))
        self.wake(self.network.writers[d], 'full', d)

    def grow_if_settled(self):
        """The growth of `policy all`. The sinks are empty and the sources closed."""
        if self.network.growing.policy == 'all' and not self.ready:
            d = smallest_waited(self.waits, self.capacities)
            if self.network.may_grow(d, self.capacities):
                self.grow(self.network.writers[d], d)

    def end(self, p, cause):
        self.history.append(('end', p, cause))
        self.ended[p] = cause
        for c in self.network.ins(p):
            self.retired[c] = True
            self.wake(self.network.writers[c], 'full', c)
        self.grow_if_settled()

    def read(self, p, c):
        if not self.unread[c]:
            return self.wait(p, 'empty', c)
        self.processes[p].move(self.remove(c, 'get', p))
        self.ready.append(p)
        self.wake(self.network.writers[c], 'full', c)

    def write(self, p, c, item):
        if self.is_full(c):
            return self.wait(p, 'full', c)
        self.append(c, item, 'put', p, c, item)
        self.processes[p].move()
        self.ready.append(p)
        self.wake(self.network.readers[c], 'empty', c)

    def commit(self):
        p = self.ready.popleft()
        word, *rest = self.processes[p].stop(self.quota)
        self.commits += 1
        if word == 'paused':
            self.ready.append(p)
        elif word == 'end':
            self.end(p, *rest)
        elif word == 'read':
            self.read(p, self.network.ends[p][rest[0]])
        else:
            self.write(p, self.network.ends[p][rest[0]], rest[1])

    def verdict(self):
        """How a run has stopped; None while a process is ready. The sinks are empty and the sources closed."""
        if self.ready:
            return None
        found = [smallest_full(self.network, self.waits, self.capacities, p) for p in range(len(self.processes))]
        if any(c is not None for c in found):
            return 'jammed'
        return 'clogged' if any(wait and wait[0] == 'full' for wait in self.waits) else 'ended'

    def go(self, take=None, most_commits=MOST_COMMITS):
        sinks = self.network.of_kind('sink')
        while self.outcome is None:
            for c in sinks:
                while self.unread[c]:
                    self.remove(c, 'take')
                    self.wake(self.network.writers[c], 'full', c)
            if take is not None and all(self.read_count[c] >= take for c in sinks):
                self.outcome = 'enough'
            elif self.verdict() is not None:
                self.outcome = self.verdict()
            elif self.commits >= most_commits:
                self.outcome = 'stopped'
            else:
                self.commit()
        return self


def items_text(items):
    return ''.join(f' {item}' for item in items)


def report_text(run, take=None):
    network, lines = run.network, []
    if run.outcome in ('ended', 'enough'):
        for c in network.of_kind('sink'):
            lines.append(f'sink {network.channels[c]}:{items_text(run.journals[c][:run.read_count[c]][:take])}')
    if run.outcome in ('ended', 'clogged', 'jammed'):
        for p, cause in enumerate(run.ended):
            if cause not in (None, 'done'):
                lines.append(f'fault {network.instances[p]} {cause}')
        for p, wait in enumerate(run.waits):
            if wait is not None:
                full = ' full' if wait[0] == 'full' else ''
                lines.append(f'waits {network.instances[p]} {network.channels[wait[1]]}{full}')
    return ''.join(f'{line}\n' for line in [*lines, run.outcome])


# ---- the text of a history

CAUSES = 'done', 'overflow', 'zero-divisor', 'index', 'shift'
NUMBER, ITEM = '(0|[1-9][0-9]{0,4})', '(0|-?[1-9][0-9]{0,18})'
LINES = [re.compile(line.replace('N', NUMBER).replace('V', ITEM).encode()) for line in (
    '(get) N N V', '(put) N N V', '(wait-empty) N N', '(wait-full) N N', f'(end) N ({"|".join(CAUSES)})',
    '(feed) N V', '(close) N', '(take) N V', '(leave) N')]
GROW_ONE, GROW_TWO = (re.compile(line.replace('N', NUMBER).encode()) for line in (
    'grow N N', 'grow N N ([1-9][0-9]{0,6})'))
ITEM_WORDS = 'get', 'put', 'feed', 'take'


def event_text(event):
    return ' '.join(str(part) for part in event)


class Trace(typing.NamedTuple):
    """A history and the rules of its growths. In version 1 a growth has 0 as its new capacity."""
    version: int
    policy: str
    growth: str
    history: list


def trace_text(history, growing):
    """The text of a history, in version 2."""
    rules = f'policy {growing.policy} grow {growing.growth}\n'.encode()
    return HEAD_TWO + rules + ''.join(event_text(event) + '\n' for event in history).encode()


def read_growth(line, version):
    """The growth that a line spells, or None."""
    found = (GROW_ONE if version == 1 else GROW_TWO).fullmatch(line)
    if not found:
        return None
    p, c, *told = (int(part) for part in found.groups())
    right = max(p, c) <= 65535 and all(capacity <= rounds.LARGEST_CAPACITY for capacity in told)
    return ('grow', p, c, *(told or [0])) if right else None


def read_event(line, version):
    """The event that a line spells in this version, or None."""
    if line.startswith(b'grow '):
        return read_growth(line, version)
    for form in LINES:
        found = form.fullmatch(line)
        if found:
            word, *parts = (part.decode() for part in found.groups())
            event = (word, *(part if part in CAUSES else int(part) for part in parts))
            numbers, items = (event[1:-1], event[-1:]) if word in ITEM_WORDS else (event[1:], ())
            right = all(part in CAUSES or part <= 65535 for part in numbers)
            return event if right and all(rounds.SMALLEST <= item <= rounds.LARGEST for item in items) else None
    return None


class BadText(Exception):
    """A text is no trace, or one of other rules than those of the network. It has the program's own words."""


def read_head(text):
    """What the first lines say, as a trace without events, and the lines after them."""
    if text.startswith(HEAD_ONE):
        return Trace(1, 'cycles', 'one', []), text[len(HEAD_ONE):]
    rules = RULES.match(text, len(HEAD_TWO)) if text.startswith(HEAD_TWO) else None
    if not rules:
        raise BadText('kpn: 31 BadHead')
    return Trace(2, *(word.decode() for word in rules.groups()), []), text[rules.end():]


def read_trace(text):
    trace, events = read_head(text)
    *lines, rest = events.split(b'\n')
    for number, line in enumerate(lines, trace.version + 1):
        event = read_event(line, trace.version)
        if event is None:
            raise BadText(f'kpn: 30 BadEvent at {number}')
        trace.history.append(event)
    if rest:
        raise BadText(f'kpn: 30 BadEvent at {len(lines) + trace.version + 1}')
    return trace


# ---- what a history must meet

class Wrong(Exception):
    """No legal history goes on with this event, or a process made its quota of steps without reaching it."""


class Audit:
    """What a history so far says of channels and processes. Of a channel: what was written, how much of it was read,
    the capacity that the growths led to, and whether it was closed or left. Of a process: its last event."""

    def __init__(self, network, quota=MOST_STEPS, policy=None, growth=None):
        self.network, self.quota, self.processes = network, quota, network.start()
        own = network.growing
        self.growing = own._replace(policy=policy or own.policy, growth=growth or own.growth)
        self.written = [[] for _ in network.channels]
        self.read_count, self.capacities = [0] * len(network.channels), list(network.capacities)
        self.closed, self.left = set(), set()
        self.last_event, self.last_of = None, [None] * len(self.processes)

    def has_ended(self, p):
        return self.last_of[p] is not None and self.last_of[p][0] == 'end'

    def reader_lives(self, c):
        reader = self.network.readers[c]
        return c not in self.left if reader is None else not self.has_ended(reader)

    def unread(self, c):
        return self.written[c][self.read_count[c]:]

    def is_empty(self, c):
        return len(self.written[c]) == self.read_count[c]

    def is_full(self, c):
        if self.network.kinds[c] == 'source' or not self.reader_lives(c):
            return False
        return len(self.written[c]) - self.read_count[c] >= self.capacities[c]

    def blocked(self, p):
        """What p is blocked on: its last event is a wait whose cause still holds."""
        last = self.last_of[p]
        if last is None or last[0] not in ('wait-empty', 'wait-full'):
            return None
        why, c = last[0].removeprefix('wait-'), last[2]
        return (why, c) if (self.is_empty(c) if why == 'empty' else self.is_full(c)) else None

    def waits(self):
        return [self.blocked(p) for p in range(len(self.processes))]

    def owed(self):
        """The growth that has to follow, if one has: that of the cycle that a wait has closed, or else the one that is
        owed when all stand still."""
        if self.last_event is not None and self.last_event[0] in ('wait-empty', 'wait-full'):
            p = self.last_event[1]
            d = self.owed_by_cycle(p)
            if d is not None:
                return self.growth(p, d)
        d = self.owed_when_settled()
        return None if d is None else self.growth(self.network.writers[d], d)

    def growth(self, p, d):
        return 'grow', p, d, self.growing.grown(self.capacities[d])

    def told(self, event):
        """A growth of version 1 with the new capacity that it stands for: the first one and the number of growths."""
        if event[0] != 'grow' or event[2] >= len(self.capacities) or self.capacities[event[2]] is None:
            return event
        return *event[:3], self.capacities[event[2]] + 1

    def owed_by_cycle(self, p):
        """The channel that has to grow if p has just come to wait."""
        d = smallest_full(self.network, self.waits(), self.capacities, p)
        return d if self.network.may_grow(d, self.capacities) else None

    def owed_when_settled(self):
        """The channel that has to grow under `policy all`, unless one of a cycle has to."""
        if self.growing.policy != 'all' or not self.is_settled():
            return None
        d = smallest_waited(self.waits(), self.capacities)
        return d if self.network.may_grow(d, self.capacities) else None

    def gets_no_more(self, c, among):
        """Whether nothing more is put on a channel if these processes are finished."""
        writer = self.network.writers[c]
        return c in self.closed if writer is None else writer in among

    def finished(self):
        """The processes that are finished. Of all, those go that have not ended and do not wait for an item of a
        channel that gets no more; and so on, with those that are left."""
        among, waits, left = None, self.waits(), set(range(len(self.processes)))
        while among != left:
            among = left
            left = {p for p in among if self.has_ended(p)
                    or waits[p] and waits[p][0] == 'empty' and self.gets_no_more(waits[p][1], among)}
        return among

    def complete(self):
        """Of each channel whether it is complete."""
        finished = self.finished()
        return [self.gets_no_more(c, finished) for c in range(len(self.network.channels))]

    def is_quiet(self):
        states = [(self.has_ended(p), self.blocked(p)) for p in range(len(self.processes))]
        return all(ended or (wait is not None and wait[0] == 'empty') for ended, wait in states)

    def is_settled(self):
        """Whether nothing happens any more unless the outside feeds, or takes from what it has left."""
        return (all(self.has_ended(p) or self.blocked(p) for p in range(len(self.processes)))
                and all(c in self.closed for c in self.network.of_kind('source'))
                and all(self.is_empty(c) or c in self.left for c in self.network.of_kind('sink')))

    def accept(self, event):
        """Goes on by an event. `Wrong` says why there is no going on."""
        word, owed = event[0], self.owed()
        if (owed is not None or word == 'grow') and event != owed:
            raise Wrong('illegal')
        if word == 'grow':
            self.capacities[event[2]] = event[3]
        elif word in ('feed', 'close', 'take', 'leave'):
            self.accept_of_outside(word, *event[1:])
        else:
            self.accept_of_process(event, word, *event[1:])
        self.last_event = event

    def accept_of_outside(self, word, c, item=None):
        kind = 'source' if word in ('feed', 'close') else 'sink'
        if c >= len(self.network.channels) or self.network.kinds[c] != kind or c in self.closed | self.left:
            raise Wrong('illegal')
        if word == 'feed':
            self.written[c].append(item)
        elif word == 'close':
            self.closed.add(c)
        elif word == 'leave':
            self.left.add(c)
        else:
            self.take_out(c, item)

    def take_out(self, c, item):
        if self.unread(c)[:1] != [item]:
            raise Wrong('illegal')
        self.read_count[c] += 1

    def accept_of_process(self, event, word, p, *rest):
        channels = [] if word == 'end' else rest[:1]
        if p >= len(self.processes) or any(c >= len(self.network.channels) for c in channels):
            raise Wrong('illegal')
        if self.has_ended(p) or self.blocked(p):
            raise Wrong('illegal')
        stop = self.processes[p].stop(self.quota)
        if stop == PAUSED:
            raise Wrong('budget')
        if not self.asks(p, stop, word, *rest):
            raise Wrong('illegal')
        if word == 'get':
            self.take_out(*rest)
            self.processes[p].move(rest[1])
        elif word == 'put':
            self.written[rest[0]].append(rest[1])
            self.processes[p].move()
        self.last_of[p] = event

    def asks(self, p, stop, word, *rest):
        """Whether the process is at the statement that says this, and the channel is ready for the event."""
        if word == 'end':
            return stop == ('end', *rest)
        if stop[0] == 'end' or self.network.ends[p][stop[1]] != rest[0]:
            return False
        if word in ('get', 'wait-empty'):
            return stop[0] == 'read' and (word == 'get' or self.is_empty(rest[0]))
        if word == 'wait-full':
            return stop[0] == 'write' and self.is_full(rest[0])
        return stop == ('write', stop[1], rest[1]) and not self.is_full(rest[0])

    def text(self):
        lines = ['legal', f'exact {"yes" if self.is_quiet() else "no"}']
        for c, name in enumerate(self.network.channels):
            capacity = '' if self.network.kinds[c] == 'source' else f' cap {self.capacities[c]}'
            lines.append(f'{name}{capacity}:{items_text(self.written[c])}')
        return ''.join(f'{line}\n' for line in lines)


def audit_text(network, trace, quota=MOST_STEPS):
    """The answer, whose first word decides the status. A trace of version 1 has rules of its own, whatever the network
    says."""
    if trace.version == 2 and (trace.policy, trace.growth) != network.growing[:2]:
        raise BadText('kpn: 53 PolicyDiffers')
    audit = Audit(network, quota, trace.policy, trace.growth)
    for place, event in enumerate(trace.history):
        try:
            audit.accept(audit.told(event) if trace.version == 1 else event)
        except Wrong as wrong:
            return f'{wrong} at {place}\n'
    return audit.text()


def status_of(text):
    """The exit status: a report's last word decides it, or an audit's first."""
    first, last = text.split()[0], text.split()[-1]
    return STATUSES[first if first in ('legal', 'illegal', 'budget') else last]


# ---- the two commands

def run_command(words):
    lists = {}
    for word in words.source:
        name, _, items = word.partition('=')
        lists[name] = [int(line) for line in pathlib.Path(items).read_text().split()]
    network = Network(pathlib.Path(words.file).read_text())
    run = Run(network, lists).go(words.take, words.max_commits)
    if words.trace:
        pathlib.Path(words.trace).write_bytes(trace_text(run.history, network.growing))
    return report_text(run, words.take)


def audit_command(words):
    network = Network(pathlib.Path(words.file).read_text())
    return audit_text(network, read_trace(pathlib.Path(words.history).read_bytes()), words.steps)


def read_words(words):
    parser = argparse.ArgumentParser(description='kpn run and kpn audit, computed by another program.')
    commands = parser.add_subparsers(required=True)
    run = commands.add_parser('run')
    run.add_argument('file')
    run.add_argument('--source', action='append', default=[], metavar='NAME=FILE')
    run.add_argument('--workers', type=int)
    run.add_argument('--take', type=int)
    run.add_argument('--max-commits', type=int, default=MOST_COMMITS)
    run.add_argument('--trace')
    run.set_defaults(command=run_command)
    audit = commands.add_parser('audit')
    audit.add_argument('file')
    audit.add_argument('history')
    audit.add_argument('--steps', type=int, default=MOST_STEPS)
    audit.set_defaults(command=audit_command)
    return parser.parse_args(words)


def answer(words):
    """What a command writes on standard output and on standard error, and its status."""
    found = read_words(words)
    try:
        text = found.command(found)
    except BadText as bad:
        return '', f'{bad}\n', 1
    return text, '', status_of(text)


def main():
    out, told, status = answer(sys.argv[1:])
    sys.stdout.write(out)
    sys.stderr.write(told)
    return status


if __name__ == '__main__':
    sys.exit(main())
