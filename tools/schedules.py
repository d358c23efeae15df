#!/usr/bin/env python3
"""Searches all schedules of small random networks: whether each has one end, and how far behind the run in order is.

usage: tools/schedules.py [NETWORKS [SEED]] [--states N] [--diamonds] [--beside N]

A schedule is a legal history: any order of the events of processes and of the caller, who feeds, closes, takes and
leaves when he likes. The search goes over the states that histories lead to, each once, in order of the number of
events of processes. It checks of each network:

- One end. In two states in which every process has ended or waits, and the caller has done the same (fed as many items,
  closed the same sources, taken as many items of each sink, left the same sinks), everything is the same: journals,
  reads, ends, waits, capacities.
- Progress. What C events of processes have led to, the run in order on one thread has made after C * P commits, for P
  processes. Each pause on the way to an event counts as an event too. That run feeds all lists, closes the
  sources, and takes what comes.

With `--diamonds` it also checks why that is so, in each state. A move is an event with the growth that it owes. Two
moves, of two processes, of one and the caller, or of the caller at two channels, can be made in both orders and lead to
one state. Or one is a wait, which the other one ends: that leads to the same state with the wait and without it.

With `--beside N` the first N networks are also tried beside the program `kpn`, which KPN_PROGRAM names. The trace of
`kpn run` has to be one of the schedules, and to lead to the end that the search found. `kpn audit` has to find random
schedules legal, with these journals and capacities, and others with a growth too few, too many or elsewhere illegal.

A network with more than `--states` states is searched up to there, which it says. It ends with 1 at the first network
with another end or less progress, and prints it with the two histories as traces.
"""
import argparse
import collections
import itertools
import os
import pathlib
import random
import subprocess
import sys
import tempfile
import typing

import histories

TOP = pathlib.Path(__file__).resolve().parent.parent
PROGRAM = os.environ.get('KPN_PROGRAM', TOP / 'crates/kpn/out/kpn')
# The most steps that a process makes from one event to the next. One that makes more never comes to an event.
STEPS = 1000
READY, WAITS, ENDED = range(3)
Event = typing.Tuple[typing.Any, ...]


class Place:
    """Where a process is after some gets and puts: at a read, a write or its end. It is made anew from its beginning,
    by the items that it got."""

    def __init__(self, network: histories.Network, p: int, quota: int,
                 talk: typing.Tuple[typing.Optional[int], ...] = ()) -> None:
        self.network, self.p, self.quota, self.talk = network, p, quota, talk
        # Of each channel how many items the process got, and which it put.
        self.gets = [0] * len(network.channels)
        self.puts: typing.List[typing.List[int]] = [[] for _ in network.channels]
        # How often a process pauses on its way here, each time after its quota of steps.
        process, self.pauses = self.replayed(), 0
        word, *rest = process.stop(quota)
        while word == 'paused' and self.pauses * quota < STEPS:
            self.pauses += 1
            word, *rest = process.stop(quota)
        self.stop: Event = (word, network.ends[p][rest[0]], *rest[1:]) if word in ('read', 'write') else (word, *rest)
        self.following: typing.Dict[typing.Optional[int], 'Place'] = {}

    def replayed(self) -> histories.Process:
        """The process after its gets and puts."""
        program, _, values = self.network.given[self.p]
        process = histories.Process(self.network.processes[program], values)
        for item in self.talk:
            word, port, *put = process.stop(STEPS)
            c = self.network.ends[self.p][port]
            self.gets[c] += word == 'read'
            self.puts[c] += put
            process.move(item)
        return process

    def after(self, item: typing.Optional[int] = None) -> 'Place':
        """Where it is after one event more: the get of an item, or the put."""
        if item not in self.following:
            self.following[item] = Place(self.network, self.p, self.quota, (*self.talk, item))
        return self.following[item]


class State(typing.NamedTuple):
    """What a history that owes nothing has led to. All else follows from it: the journals and the reads of channels
    are those of the places and of the caller."""

    places: typing.Tuple[Place, ...]
    statuses: typing.Tuple[int, ...]
    capacities: typing.Tuple[typing.Optional[int], ...]
    # Of each source the items fed, and of each sink those taken; and which sources are closed, and sinks left.
    counts: typing.Tuple[int, ...]
    are_over: typing.Tuple[bool, ...]


# A state, and the event that leads to it with the growth that it owes.
Move = typing.Tuple[State, typing.List[Event]]


def changed(values: typing.Tuple[typing.Any, ...], at: int, value: typing.Any) -> typing.Tuple[typing.Any, ...]:
    return (*values[:at], value, *values[at + 1:])


class Model:
    """A network with lists for its sources, as a relation between states."""

    def __init__(self, text: str, lists: typing.Dict[str, typing.List[int]], quota: int = histories.QUOTA) -> None:
        self.text, self.lists, self.quota = text, lists, quota
        self.network = network = histories.Network(text)
        self.kinds, self.growing = network.kinds, network.growing
        self.items = [lists.get(name, []) for name in network.channels]
        self.processes = range(len(network.instances))
        self.sources, self.sinks = network.of_kind('source'), network.of_kind('sink')
        count, places = len(self.kinds), tuple(Place(network, p, quota) for p in self.processes)
        # What channels have grown for.
        self.grown: typing.Set[str] = set()
        # The state of the empty history.
        self.start = State(places, (READY,) * len(places), tuple(network.capacities), (0,) * count, (False,) * count)

    # ---- what a state says of channels and processes

    def journal(self, state: State, c: int) -> typing.List[int]:
        writer = self.network.writers[c]
        return self.items[c][:state.counts[c]] if writer is None else state.places[writer].puts[c]

    def read_count(self, state: State, c: int) -> int:
        reader = self.network.readers[c]
        return state.counts[c] if reader is None else state.places[reader].gets[c]

    def unread(self, state: State, c: int) -> int:
        writer = self.network.writers[c]
        written = state.counts[c] if writer is None else len(state.places[writer].puts[c])
        return written - self.read_count(state, c)

    def is_full(self, state: State, c: int) -> bool:
        reader, capacity = self.network.readers[c], state.capacities[c]
        is_gone = state.are_over[c] if reader is None else state.statuses[reader] == ENDED
        return not is_gone and capacity is not None and self.unread(state, c) >= capacity

    def blocks(self, state: State, p: int) -> bool:
        """Whether the process is at a read of an empty channel, or at a write of a full one."""
        word, *rest = state.places[p].stop
        return word == 'read' and not self.unread(state, rest[0]) or word == 'write' and self.is_full(state, rest[0])

    def waits(self, state: State) -> typing.List[typing.Optional[typing.Tuple[str, int]]]:
        """The table of waits."""
        return [('empty' if place.stop[0] == 'read' else 'full', place.stop[1]) if status == WAITS else None
                for place, status in zip(state.places, state.statuses)]

    def is_settled(self, state: State) -> bool:
        return (READY not in state.statuses and all(state.are_over[c] for c in self.sources)
                and all(state.are_over[c] or not self.unread(state, c) for c in self.sinks))

    # ---- events

    def woken(self, state: State) -> State:
        """Nobody waits whose channel has an item, or room."""
        if WAITS not in state.statuses:
            return state
        woken = [p for p, status in enumerate(state.statuses) if status == WAITS and not self.blocks(state, p)]
        return state._replace(statuses=tuple(READY if p in woken else it for p, it in enumerate(state.statuses)))

    def owed(self, state: State, waiting: typing.Optional[int]) -> typing.Optional[Event]:
        """The growth that the last event owes: for the cycle of the process that has come to wait, or for a stop."""
        network, capacities, growing = self.network, state.capacities, self.growing
        if waiting is not None:
            d = histories.smallest_full(network, self.waits(state), capacities, waiting)
            if network.may_grow(d, capacities):
                self.grown.add('a cycle')
                return 'grow', waiting, d, growing.grown(capacities[d])
        if growing.policy == 'all' and self.is_settled(state):
            d = histories.smallest_waited(self.waits(state), capacities)
            if network.may_grow(d, capacities):
                self.grown.add('a stop')
                return 'grow', network.writers[d], d, growing.grown(capacities[d])
        return None

    def move(self, event: Event, state: State, waiting: typing.Optional[int] = None) -> Move:
        """An event, what it has changed, and after that whom it wakes and the growth that it owes."""
        state = self.woken(state)
        growth = self.owed(state, waiting)
        if growth is None:
            return state, [event]
        _, _, d, capacity = growth
        grown = state._replace(capacities=changed(state.capacities, d, capacity))
        return self.woken(grown), [event, growth]

    def of_process(self, state: State, p: int) -> typing.Optional[Move]:
        """The next event of a process, if it has one."""
        places, statuses, capacities, counts, are_over = state
        word, *rest = places[p].stop
        if statuses[p] != READY or word == 'paused':
            return None
        if word == 'end':
            after = State(places, changed(statuses, p, ENDED), capacities, counts, are_over)
            return self.move(('end', p, rest[0]), after)
        c = rest[0]
        if self.blocks(state, p):
            after = State(places, changed(statuses, p, WAITS), capacities, counts, are_over)
            return self.move(('wait-empty' if word == 'read' else 'wait-full', p, c), after, p)
        if word == 'read':
            item = self.journal(state, c)[places[p].gets[c]]
            event, place = ('get', p, c, item), places[p].after(item)
        else:
            event, place = ('put', p, *rest), places[p].after()
        return self.move(event, State(changed(places, p, place), statuses, capacities, counts, are_over))

    def moves(self, state: State) -> typing.Dict[typing.Tuple[str, int], Move]:
        """All moves from a state, by who makes them: a process, or the caller at a channel."""
        found = {('process', p): made for p in self.processes if (made := self.of_process(state, p)) is not None}
        for made in self.of_caller(state):
            word, c, *_ = made[1][0]
            found['leave' if word == 'leave' else 'caller', c] = made
        return found

    def of_caller(self, state: State) -> typing.Iterator[Move]:
        """What the caller may do next: feed a list in order and close it then, take from a sink, leave it."""
        for c in (*self.sources, *self.sinks):
            count, is_source = state.counts[c], self.kinds[c] == 'source'
            if state.are_over[c]:
                continue
            has_item = count < len(self.items[c]) if is_source else self.unread(state, c) > 0
            if has_item:
                item = self.items[c][count] if is_source else self.journal(state, c)[count]
                after = state._replace(counts=changed(state.counts, c, count + 1))
                yield self.move(('feed' if is_source else 'take', c, item), after)
            if not is_source or not has_item:
                after = state._replace(are_over=changed(state.are_over, c, True))
                yield self.move(('close' if is_source else 'leave', c), after)


# States to look at, each with the state and the events before it.
Left = typing.DefaultDict[int, typing.List[typing.Tuple[State, typing.Optional[Move]]]]


class Different(Exception):
    """Two schedules end in two ways, or the run in order lacks what another schedule has."""


def is_wait(move: Move) -> bool:
    return move[1][0][0] in ('wait-empty', 'wait-full')


class Search:
    """All states of a network, in order of the least number of events of processes that lead there. A pause counts as
    one. Each state has the one before it, and the events between."""

    def __init__(self, model: Model, most: int, has_diamonds: bool = False) -> None:
        self.model, self.most, self.has_diamonds = model, most, has_diamonds
        self.before: typing.Dict[State, typing.Optional[Move]] = {}
        self.ends: typing.Dict[typing.Any, State] = {}
        self.is_whole = True
        self.in_order = InOrder(model)
        # The largest part of the bound on commits that was needed, and how many events of processes were made.
        self.part, self.count = 0.0, 0
        # The states to look at, by the number of events.
        self.left: Left = collections.defaultdict(list, {0: [(model.start, None)]})
        while self.left:
            for state, before in self.left[self.count]:
                if state not in self.before and self.has_room():
                    self.before[state] = before
                    self.look(state)
                    self.look_at_diamonds(state)
                    self.go_on(state)
            del self.left[self.count]
            self.count += 1

    def has_room(self) -> bool:
        self.is_whole &= len(self.before) < self.most
        return self.is_whole

    def go_on(self, state: State) -> None:
        """What the caller may do next counts nothing. So it is looked at among the states of the same number."""
        for after, events in self.model.of_caller(state):
            self.left[self.count].append((after, (state, events)))
        for p in self.model.processes:
            found = self.model.of_process(state, p)
            if found is not None and found[0] not in self.before:
                self.left[self.count + 1 + state.places[p].pauses].append((found[0], (state, found[1])))

    def look(self, state: State) -> None:
        """Checks one end and progress of a state."""
        bound = self.count * len(state.places)
        needed = self.in_order.needed(state, bound)
        if needed > bound:
            raise Different(f'{needed} commits in order for {bound}\n{self.trace(state)}')
        if bound:
            self.part = max(self.part, needed / bound)
        if READY not in state.statuses:
            other = self.ends.setdefault((state.counts, state.are_over), state)
            if other != state:
                raise Different(f'two ends\n{self.trace(other)}\n{self.trace(state)}')

    def look_at_diamonds(self, state: State) -> None:
        """Checks each two moves from a state but those of the caller at one sink, of which leaving it comes last."""
        moves = self.model.moves(state) if self.has_diamonds else {}
        after = {who: self.model.moves(made[0]) for who, made in moves.items()}
        for (p, first), (q, second) in itertools.combinations(moves.items(), 2):
            both, swapped = after[p].get(q), after[q].get(p)
            is_same = both is not None and swapped is not None and both[0] == swapped[0]
            is_vain = is_wait(first) and both is not None and both[0] == second[0] \
                or is_wait(second) and swapped is not None and swapped[0] == first[0]
            if not is_same and not is_vain and (p[1] != q[1] or 'process' in (p[0], q[0])):
                raise Different(f'{first[1]} and {second[1]} are no diamond\n{self.trace(state)}')

    def history(self, state: State) -> typing.List[Event]:
        events: typing.List[Event] = []
        step = self.before[state]
        while step is not None:
            state, made = step
            events[:0] = made
            step = self.before[state]
        return events

    def trace(self, state: State) -> str:
        return histories.trace_text(self.history(state), self.model.growing).decode()


class InOrder(histories.Run):
    """The run in order, with the number of commits after which each process has made each of its gets, puts and ends.
    It goes only as far as somebody asks."""

    def __init__(self, model: Model) -> None:
        super().__init__(model.network, model.lists)
        self.quota = model.quota
        self.made: typing.List[typing.List[int]] = [[] for _ in model.processes]
        self.seen = len(self.history)

    def step(self) -> bool:
        """Makes one commit; whether there was one to make."""
        made = self.commits
        self.go(most_commits=made + 1)
        for word, p, *_ in self.history[self.seen:]:
            if word in ('get', 'put', 'end'):
                self.made[p].append(self.commits)
        self.seen = len(self.history)
        if self.outcome == 'stopped':
            self.outcome = None
        return self.commits > made

    def needed(self, state: State, most: int) -> int:
        """After how many commits the run has made what a state has, or a number above the most if not by then."""
        needed = 0
        for p, (place, status) in enumerate(zip(state.places, state.statuses)):
            count = len(place.talk) + (status == ENDED)
            while len(self.made[p]) < count:
                if self.commits > most or not self.step():
                    return most + 1
            needed = max(needed, self.made[p][count - 1] if count else 0)
        return needed


# ---- random networks

# The reads and writes of all processes of a network together, and what is written.
STATEMENTS = 12
WRITTEN = ('x', 'x', '1', '2', '(x + y)', '(x - y)', '(6 / x)')


class Row:
    """A process that is to be written: its channels in and out, and its statements."""

    def __init__(self) -> None:
        self.ins: typing.List[str] = []
        self.outs: typing.List[str] = []
        self.statements: typing.List[str] = []

    def read(self, c: str, chosen: random.Random) -> None:
        self.statements.append(f'read i{self.ins.index(c)} {chosen.choice("xy")};')

    def write(self, c: str, chosen: random.Random) -> None:
        self.statements.append(f'write o{self.outs.index(c)} {chosen.choice(WRITTEN)};')

    def body(self, chosen: random.Random) -> str:
        """The statements, often with a change: two in another order or as a choice, one twice or left out, a loop."""
        row = self.statements
        if len(row) > 1 and chosen.random() < 0.5:
            k = chosen.randrange(len(row) - 1)
            first, second = row[k:k + 2]
            row[k:k + 2] = chosen.choice(([second, first], [first, first, second], [second], [
                f'if (x > y) {{ {first} }} else {{ {second} }}']))
        if chosen.random() < 0.15:
            row = ['while 1 {', *row, '}']
        elif chosen.random() < 0.03:
            row = [*row, 'while 1 { }']
        return ' '.join(row)

    def text(self, chosen: random.Random, name: str) -> str:
        parts = [f'{word} {", ".join(f"{word[0]}{number}" for number in range(len(of)))}'
                 for word, of in (('in', self.ins), ('out', self.outs)) if of]
        return f'process {name}({"; ".join(parts)}) {{ x = 1; y = 2; {self.body(chosen)} }}\n'


class Made(typing.NamedTuple):
    """A channel that is to be written."""

    name: str
    line: str
    writer: typing.Optional[Row]
    reader: typing.Optional[Row]


def small_channels(chosen: random.Random, rows: typing.List[Row], limit: int) -> typing.List[Made]:
    """The channels of a network of these processes."""
    found = []
    for number in range(chosen.randint(len(rows) - 1, len(rows) + 1)):
        capacity = chosen.choice((1, 1, min(limit, 2)))
        found.append(Made(f'c{number}', f'channel c{number} cap {capacity};', chosen.choice(rows), chosen.choice(rows)))
    for number in range(chosen.choice((0, 0, 1, 1, 2))):
        found.append(Made(f's{number}', f'source s{number};', None, chosen.choice(rows)))
    for number in range(chosen.choice((0, 1, 1, 2))):
        found.append(Made(f'z{number}', f'sink z{number} cap {chosen.choice((1, limit))};', chosen.choice(rows), None))
    for made in found:
        if made.writer:
            made.writer.outs.append(made.name)
        if made.reader:
            made.reader.ins.append(made.name)
    return found


def small_network(chosen: random.Random) -> typing.Tuple[str, typing.Dict[str, typing.List[int]]]:
    """The text of a network of 2 to 6 processes, and the lists of its sources by name. Its statements are those of a
    run without capacities, so that many a process waits for room."""
    limit, rows = chosen.choice((1, 2, 2, 3, 3, 4, 4)), [Row() for _ in range(chosen.choice((2, 2, 3, 3, 4, 5, 6)))]
    channels = small_channels(chosen, rows, limit)
    unread = {it.name: 0 if it.writer else 2 for it in channels}
    for _ in range(STATEMENTS):
        made = chosen.choice(channels)
        if made.reader and unread[made.name] and (not made.writer or chosen.random() < 0.5):
            made.reader.read(made.name, chosen)
            unread[made.name] -= 1
        elif made.writer:
            made.writer.write(made.name, chosen)
            unread[made.name] += 1
    lists = {it.name: [chosen.randrange(4) for _ in range(chosen.randrange(3))] for it in channels if not it.writer}
    lines = [f'limit {limit};', f'policy {chosen.choice(("cycles", "all", "all"))};',
             f'grow {chosen.choice(("one", "double"))};', *(it.line for it in channels)]
    lines += [f'a{p} = p{p}({", ".join(it.ins)}; {", ".join(it.outs)});' for p, it in enumerate(rows)]
    texts = [row.text(chosen, f'p{p}') for p, row in enumerate(rows)]
    return ''.join(texts) + 'network {\n  ' + '\n  '.join(lines) + '\n}\n', lists


# ---- beside the program

class Beside:
    """The program on the network of a search, in a folder."""

    def __init__(self, search: Search, folder: str) -> None:
        self.search, self.model, self.folder = search, search.model, pathlib.Path(folder)
        (self.folder / 'net').write_text(self.model.text)
        self.sources = []
        for name, items in self.model.lists.items():
            (self.folder / f'{name}.in').write_text(''.join(f'{item}\n' for item in items))
            self.sources += ['--source', f'{name}={name}.in']

    def call(self, *words: str) -> str:
        done = subprocess.run([str(PROGRAM), *words], cwd=self.folder, capture_output=True, text=True, check=False)
        if done.stderr:
            raise Different(f'kpn {" ".join(words)}: {done.stderr}')
        return done.stdout

    def follow(self, events: typing.List[Event]) -> State:
        """The state that a history leads to, if it is a schedule."""
        state, left = self.model.start, collections.deque(events)
        while left:
            event = left[0]
            if event[0] in ('feed', 'close', 'take', 'leave'):
                found = [it for it in self.model.of_caller(state) if it[1][0] == event]
            else:
                found = [self.model.of_process(state, event[1])]
            if not found or found[0] is None:
                raise Different(f'no schedule goes on by {event}, after {len(events) - len(left)} events')
            state, made = found[0]
            if made != [left.popleft() for _ in made[:len(left)]]:
                raise Different(f'a schedule goes on by {made}, after {len(events) - len(left)} events')
        return state

    def run(self) -> None:
        """`kpn run` makes one of the schedules."""
        self.call('run', 'net', *self.sources, '--trace', 'trace', '--max-commits', '300')
        state = self.follow(histories.read_trace((self.folder / 'trace').read_bytes()).history)
        self.look(state)

    def look(self, state: State) -> None:
        """An end is the one that the search has found."""
        if READY not in state.statuses and self.search.is_whole:
            if self.search.ends.get((state.counts, state.are_over)) != state:
                raise Different('an end that the search has not found')

    def walk(self, chosen: random.Random) -> typing.Tuple[State, typing.List[Event]]:
        """A random schedule, to its end or for a while."""
        state, events = self.model.start, []
        for _ in range(chosen.choice((10, 100))):
            found = [it for it in self.model.of_caller(state) if it[1][0][0] != 'leave' or chosen.random() < 0.1]
            found += [it for p in self.model.processes if (it := self.model.of_process(state, p)) is not None]
            if not found:
                break
            state, made = chosen.choice(found)
            events += made
        return state, events

    def audit(self, events: typing.List[Event]) -> str:
        (self.folder / 'trace').write_bytes(histories.trace_text(events, self.model.growing))
        return self.call('audit', 'net', 'trace')

    def expected(self, state: State) -> str:
        """What an audit has to say of a history that leads to a state."""
        is_quiet = all(status == ENDED or status == WAITS and place.stop[0] == 'read'
                       for place, status in zip(state.places, state.statuses))
        lines = ['legal', f'exact {"yes" if is_quiet else "no"}']
        for c, name in enumerate(self.model.network.channels):
            capacity = '' if self.model.kinds[c] == 'source' else f' cap {state.capacities[c]}'
            lines.append(f'{name}{capacity}:{histories.items_text(self.model.journal(state, c))}')
        return ''.join(f'{line}\n' for line in lines)

    def judge(self, chosen: random.Random) -> None:
        """An audit finds a random schedule legal, and one with another growth illegal."""
        state, events = self.walk(chosen)
        self.look(state)
        found = self.audit(events)
        if found != self.expected(state):
            raise Different(f'an audit finds{found}\n{events}')
        for wrong, k in self.wrong(events, state):
            found = self.audit(wrong)
            if found != f'illegal at {k}\n':
                raise Different(f'an audit finds {found}, illegal at {k} was expected\n{wrong}')

    def wrong(self, events: typing.List[Event], state: State) -> typing.Iterator[typing.Tuple[typing.List[Event], int]]:
        """Histories that are no schedules, each with the place of the first event that is wrong."""
        for k, event in enumerate(events):
            if event[0] == 'grow':
                yield [*events[:k], (*event[:3], event[3] + 1)], k
                if k + 1 < len(events):
                    yield events[:k] + events[k + 1:], k
        for p, wait in enumerate(self.model.waits(state)):
            if wait is not None and wait[0] == 'full':
                yield [*events, ('grow', p, wait[1], self.model.growing.grown(state.capacities[wait[1]]))], len(events)


# ---- the command

def small_model(seed: int) -> Model:
    """A random network by its number, some with a small quota so that processes pause."""
    chosen = random.Random(seed)
    return Model(*small_network(chosen), chosen.choice((1, 2, histories.QUOTA)))


def try_beside(found: Search, seed: int) -> None:
    """Tries the network of a search beside the program."""
    chosen = random.Random(seed)
    with tempfile.TemporaryDirectory(prefix='kpn-') as folder:
        beside = Beside(found, folder)
        beside.run()
        for _ in range(3):
            beside.judge(chosen)


def main() -> int:
    parser = argparse.ArgumentParser(description=__doc__.split('\n')[0])
    parser.add_argument('networks', nargs='?', type=int, default=100)
    parser.add_argument('seed', nargs='?', type=int, default=1)
    parser.add_argument('--states', type=int, default=20_000, help='the most states of a network')
    parser.add_argument('--diamonds', action='store_true', help='check each two moves from each state')
    parser.add_argument('--beside', type=int, default=0, metavar='N', help='try the first N networks beside `kpn` too')
    given = parser.parse_args()
    counts: typing.Counter[str] = collections.Counter()
    part = 0.0
    for number in range(given.networks):
        seed = given.seed + number
        model = small_model(seed)
        try:
            found = Search(model, given.states, given.diamonds)
            if number < given.beside:
                try_beside(found, seed)
        except Different as different:
            print(f'network {seed}: {different}\n{model.text}{model.lists}, quota {model.quota}')
            return 1
        part = max(part, found.part)
        counts.update({'networks': 1, 'searched whole': found.is_whole, 'states': len(found.before),
                       'ends': len(found.ends), **{f'with a growth for {it}': 1 for it in model.grown}})
        if (number + 1) % 100 == 0:
            print(f'{dict(counts)}, at most {part:.2f} of the bound on commits', flush=True)
    print(f'{dict(counts)}, at most {part:.2f} of the bound on commits')
    return 0


if __name__ == '__main__':
    sys.exit(main())
