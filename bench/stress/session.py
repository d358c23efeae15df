#!/usr/bin/env python3
"""Random sessions of the C library, each beside others and beside a model.

usage: bench/stress/session.py LIBRARY [SESSIONS [SEED]]

LIBRARY is a libkpn.so. Three sessions of a random network get the same random calls: one by `kpn_move`, one by
`kpn_feed`, `kpn_step` and `kpn_take`, and one by `kpn_move` that forgets. Each call has to tell the same of all, and
the traces of the first two have to be equal. What the sessions tell of processes and channels has to be what a model
computes from the trace, and the words of a text that is cut off have to be those that docs/ERRORS.md has. It ends with
1 at the first difference, and prints the network. It is no part of the gate.
"""
import argparse
import ctypes
import pathlib
import random
import re
import sys

TOP = pathlib.Path(__file__).resolve().parents[2]
sys.path.append(str(TOP / 'bench/stress'))

import random_networks  # noqa: E402

SIZE, LONG, TOO_SMALL, NO_TRACE = ctypes.c_size_t, ctypes.c_uint64, 61, 66
OUTSIDE = 2**64 - 1


class Difference(Exception):
    """One session has told something else than the other."""


class Place(ctypes.Structure):
    _fields_ = [('has_place', ctypes.c_bool), ('place', SIZE)]


class Item(ctypes.Structure):
    _fields_ = [('channel', SIZE), ('item', ctypes.c_int64)]


class Wanted(ctypes.Structure):
    _fields_ = [('channel', SIZE), ('item', ctypes.c_int64), ('has_item', ctypes.c_bool)]


class Amounts(ctypes.Structure):
    _fields_ = [('fed', SIZE), ('commits', LONG), ('served', SIZE)]


class Counts(ctypes.Structure):
    _fields_ = [('processes', SIZE), ('channels', SIZE)]


class Channel(ctypes.Structure):
    _fields_ = [('writer', SIZE), ('reader', SIZE), ('got', SIZE), ('unread', SIZE), ('is_closed', ctypes.c_bool),
                ('is_left', ctypes.c_bool)]


class State(ctypes.Structure):
    _fields_ = [('state', ctypes.c_uint32), ('channel', SIZE)]


def told_text(call, room=0):
    """The fault of a call that tells a text, and the text. If there is no room it has to tell how much it wants."""
    length, text = SIZE(), ctypes.create_string_buffer(b'#' * room, room + 1)
    fault = call(text, SIZE(room), ctypes.byref(length))
    if fault == TOO_SMALL:
        if length.value <= room or text.raw[:room] != b'#' * room:
            raise Difference(f'too small: {room} and not {length.value}')
        return told_text(call, length.value)
    return fault, text.raw[:length.value].decode()


class Session:
    """A session of the library."""

    def __init__(self, library, text, how='kpn_open'):
        self.library, self.at, place = library, ctypes.c_void_p(), Place()
        fault = getattr(library, how)(text, SIZE(len(text)), ctypes.byref(self.at), ctypes.byref(place))
        if fault:
            raise Difference(f'open: {fault}')

    def ask(self, name, *rest):
        return getattr(self.library, f'kpn_{name}')(ctypes.byref(self.at), *rest)

    def feed(self, source, items):
        count = SIZE()
        fault = self.ask('feed', SIZE(source), (ctypes.c_int64 * len(items))(*items), SIZE(len(items)),
                         ctypes.byref(count))
        return fault, count.value

    def step(self, most):
        count = LONG()
        return self.ask('step', LONG(most), ctypes.byref(count)), count.value

    def take(self, sink, room):
        items, count = (ctypes.c_int64 * room)(), SIZE()
        fault = self.ask('take', SIZE(sink), items, SIZE(room), ctypes.byref(count))
        return fault, items[:count.value]

    def move(self, items, most, sinks):
        """The fault, the amounts, and for each place its item or None; '-' stands for a place that was not served."""
        given, places, done = (Item * len(items))(*items), (Wanted * len(sinks))(), Amounts()
        for place, sink in zip(places, sinks):
            place.channel, place.item, place.has_item = sink, 77, True
        fault = self.ask('move', given, SIZE(len(items)), LONG(most), places, SIZE(len(sinks)), ctypes.byref(done))
        told = [it.item if it.has_item else None for it in places[:done.served]]
        for place, sink in zip(places, sinks):
            if place.channel != sink or not place.has_item and place.item != 77:
                raise Difference('a place has changed')
        if any((it.item, it.has_item) != (77, True) for it in places[done.served:]):
            raise Difference('a place that was not served has changed')
        return fault, done.fed, done.commits, told

    def move_by_parts(self, items, most, sinks):
        """The same by the calls that each do a part."""
        for number, (source, item) in enumerate(items):
            fault, _ = self.feed(source, [item])
            if fault:
                return fault, number, 0, []
        fault, commits = self.step(most)
        told = []
        for sink in sinks:
            fault, got = self.take(sink, 1)
            if fault:
                return fault, len(items), commits, told
            told.append(got[0] if got else None)
        return fault, len(items), commits, told

    def trace(self):
        return told_text(lambda *room: self.ask('trace', *room))

    def verdict(self):
        told = ctypes.c_uint32()
        return self.ask('verdict', ctypes.byref(told)), told.value

    def counts(self):
        counts = Counts()
        return self.ask('count', ctypes.byref(counts)), counts.processes, counts.channels

    def name(self, kind, number):
        return told_text(lambda *room: self.ask(f'{kind}_name', SIZE(number), *room))

    def channel(self, number):
        told = Channel()
        fault = self.ask('tell_channel', SIZE(number), ctypes.byref(told))
        return fault, *(getattr(told, name) for name, _ in Channel._fields_)


    def states(self, room):
        """The states of the processes, or how many there are if there is no room."""
        states, count = (State * (room + 1))(), SIZE()
        fault = self.ask('tell_processes', states, SIZE(room), ctypes.byref(count))
        return fault, count.value, [(it.state, it.channel) for it in states[:0 if fault else count.value]]

    def look(self, channel, room):
        items, count = (ctypes.c_int64 * (room + 1))(*[77] * (room + 1)), SIZE()
        fault = self.ask('look', SIZE(channel), items, SIZE(room), ctypes.byref(count))
        if any(it != 77 for it in items[count.value:]):
            raise Difference('a place after what was shown has changed')
        return fault, items[:count.value]


class Model:
    """What a network is, and what has happened in it by a trace."""

    def __init__(self, text):
        body = text[text.index('network {'):]
        declared = re.findall(r'\b(channel|source|sink) (\w+)', body)
        self.kinds, self.channels = [kind for kind, _ in declared], [name for _, name in declared]
        instances = re.findall(r'(\w+) = \w+\(([^;)]*);([^;)]*)\);', body)
        self.processes = [name for name, _, _ in instances]
        self.readers, self.writers = ({name.strip(): p for p, it in enumerate(instances) for name in it[k].split(',')}
                                      for k in (1, 2))

    def ends(self, c):
        return self.writers.get(self.channels[c], OUTSIDE), self.readers.get(self.channels[c], OUTSIDE)

    def follow(self, trace):
        """Goes through a trace from its start."""
        count = len(self.channels)
        self.put, self.got = [[] for _ in range(count)], [0] * count
        self.closed, self.left, self.states = set(), set(), [(0, 0)] * len(self.processes)
        for line in trace.splitlines():
            kind, *numbers = line.split()
            if kind in self.EVENTS:
                self.EVENTS[kind](self, *(int(it) if it.lstrip('-').isdigit() else it for it in numbers))

    def wake(self, channel, state):
        """Who waits so on this channel is ready."""
        self.states = [(0, 0) if it == (state, channel) else it for it in self.states]

    def puts(self, channel, item):
        self.put[channel].append(item)
        self.wake(channel, 1)

    def gets(self, channel):
        self.got[channel] += 1
        self.wake(channel, 2)

    def waits(self, process, state, channel):
        self.states[process] = state, channel

    def ends_by(self, process, how):
        self.states[process] = {'done': 3, 'overflow': 4, 'zero-divisor': 5, 'index': 6, 'shift': 7}[how], 0
        for c in range(len(self.channels)):
            if self.ends(c)[1] == process:
                self.leaves(c)

    def leaves(self, channel):
        self.left.add(channel)
        self.wake(channel, 2)

    EVENTS = {
        'put': lambda self, p, c, item: self.puts(c, item), 'feed': lambda self, c, item: self.puts(c, item),
        'get': lambda self, p, c, item: self.gets(c), 'take': lambda self, c, item: self.gets(c),
        'wait-empty': lambda self, p, c: self.waits(p, 1, c), 'wait-full': lambda self, p, c: self.waits(p, 2, c),
        'end': ends_by, 'close': lambda self, c: self.closed.add(c), 'leave': leaves,
        'grow': lambda self, p, c, capacity: self.wake(c, 2),
    }

    def channel(self, c):
        if c >= len(self.channels):
            return 64, 0, 0, 0, 0, False, False
        return 0, *self.ends(c), self.got[c], len(self.put[c]) - self.got[c], c in self.closed, c in self.left

    def look(self, c, room):
        if c >= len(self.channels):
            return 64, []
        return 0, [] if c in self.left else self.put[c][self.got[c]:][:room]

    def name(self, kind, number):
        names, lacks = (self.channels, 64) if kind == 'channel' else (self.processes, 67)
        return (0, names[number]) if number < len(names) else (lacks, '')


def fault_names():
    """The name of each fault by its number, and the word for its place if it has one."""
    names, table = {}, (TOP / 'docs/ERRORS.md').read_text()
    for row, place in re.findall(r'^\| (\d.*?) \| (.*?) \|$', table, re.M):
        for number, name in re.findall(r'(\d+) (\w+)', row):
            names.setdefault(int(number), (name, place.removeprefix('number of the ')))
    return names


FAULTS = fault_names()


def explained(library, text):
    """What is told of a text by `kpn_explain`, and what it has to be by what `kpn_check` tells."""
    place = Place()
    fault = library.kpn_check(text, SIZE(len(text)), ctypes.byref(place))
    told = told_text(lambda *room: library.kpn_explain(text, SIZE(len(text)), *room))
    if not fault:
        return told, (0, '')
    name, kind = FAULTS[fault]
    words = f'{fault} {name}' + (f' at {kind} {place.place}' if place.has_place else '')
    if kind == 'byte':
        before = text[:place.place]
        words += f', line {before.count(10) + 1}, column {len(before) - before.rfind(10)}'
    return told, (0, words)


def same(what, wanted, found):
    if wanted != found:
        raise Difference(f'{what}: {wanted} and not {found}')


class Trial:
    """A random network in three sessions. The third one forgets."""

    def __init__(self, library, chance):
        self.library, self.chance, self.text = library, chance, random_networks.network(chance)[0]
        self.one, self.two = (Session(library, self.text.encode()) for _ in range(2))
        self.three = Session(library, self.text.encode(), 'kpn_open_forgetting')
        self.all, self.model = (self.one, self.two, self.three), Model(self.text)
        kinds = re.findall(r'\b(channel|source|sink) \w+', self.text[self.text.index('network {'):])
        self.count = len(kinds)
        self.sources, self.sinks = ([c for c, it in enumerate(kinds) if it == kind] for kind in ('source', 'sink'))

    def some(self, ends, most):
        """Some ends, now and then a number that is none."""
        numbers = ends * 8 + [self.chance.randrange(self.count + 1)] if ends else []
        return [self.chance.choice(numbers) for _ in range(self.chance.randrange(most))] if numbers else []

    def move(self):
        items = [(c, self.chance.randrange(-9, 10)) for c in self.some(self.sources, 5)]
        most, sinks = self.chance.choice((0, 1, 7, 500)), self.some(self.sinks, 5)
        wanted = self.two.move_by_parts(items, most, sinks)
        for it in (self.one, self.three):
            same(f'move {items} {most} {sinks}', wanted, it.move(items, most, sinks))

    def by_all(self, what, wanted, call):
        for it in self.all:
            same(what, wanted, call(it))

    def close(self):
        for c in self.some(self.sources, 2):
            self.by_all('close', 0 if c in self.sources else 43, lambda it: it.ask('close_source', SIZE(c)))

    def leave(self):
        for c in self.some(self.sinks, 2):
            self.by_all('leave', 0 if c in self.sinks else 43, lambda it: it.ask('leave_sink', SIZE(c)))

    def tell(self):
        """What is told of processes and channels is what the model has."""
        self.model.follow(self.two.trace()[1])
        count, room = len(self.model.processes), self.chance.randrange(4)
        self.by_all('states', (0, count, self.model.states), lambda it: it.states(count + room))
        self.by_all('too small', (TOO_SMALL, count, []), lambda it: it.states(count - 1))
        for c in range(self.count + 1):
            self.by_all(f'channel {c}', self.model.channel(c), lambda it: it.channel(c))
            self.by_all(f'look {c}', self.model.look(c, room), lambda it: it.look(c, room))

    def tell_parts(self):
        processes, channels = len(self.model.processes), len(self.model.channels)
        self.by_all('counts', (0, processes, channels), lambda it: it.counts())
        for kind, count in (('channel', channels), ('process', processes)):
            for number in range(count + 2):
                wanted = self.model.name(kind, number)
                self.by_all(f'name of {kind} {number}', wanted, lambda it: it.name(kind, number))

    def explain(self):
        text = self.text.encode()
        at = self.chance.randrange(len(text))
        same('explain', *explained(self.library, self.chance.choice((text, text[:at], text[:at] + text[at + 1:]))))

    def go(self):
        self.tell_parts()
        for _ in range(self.chance.randrange(30)):
            self.chance.choice([self.move] * 8 + [self.close, self.leave] + [self.tell] * 4 + [self.explain])()
            same('traces', self.two.trace(), self.one.trace())
            same('no trace', (NO_TRACE, ''), self.three.trace())
        self.tell()
        self.by_all('verdict', self.two.verdict(), lambda it: it.verdict())
        for it in self.all:
            same('free', (0, 62), (it.ask('free'), it.ask('free')))


def main():
    parser = argparse.ArgumentParser(description=__doc__, formatter_class=argparse.RawDescriptionHelpFormatter)
    parser.add_argument('library')
    parser.add_argument('sessions', nargs='?', default=1000, type=int)
    parser.add_argument('seed', nargs='?', default=1, type=int)
    asked = parser.parse_args()
    library, chance = ctypes.CDLL(asked.library), random.Random(asked.seed)
    for number in range(asked.sessions):
        trial = Trial(library, chance)
        try:
            trial.go()
        except Difference as difference:
            sys.exit(f'session {number}: {difference}\n{trial.text}')
    print(f'{asked.sessions} sessions: the same by all')


if __name__ == '__main__':
    main()
