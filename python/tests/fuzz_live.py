"""Random live runs against a model of their networks: what they give, how they end, and that they leave nothing behind.

    python3 python/tests/fuzz_live.py [ROUNDS [FIRST SEED]]

A round that hangs ends the program with a traceback.
"""
import argparse
import faulthandler
import itertools
import os
import random
import signal
import tempfile
import time

from support import kpn

# The most seconds of a call that has to succeed, and of a round.
LONG, HANGS = 60, 180
OUTCOMES = ('ended', 'enough', 'clogged', 'jammed', 'stopped')


class Case:
    """A network, and what its sinks give by what its sources were fed: for each sink a function that gives a list.

    `is_endless` tells that it goes on without end.
    """

    def __init__(self, text, sinks, is_endless=False):
        self.net, self.sinks, self.is_endless = kpn.Network.from_text(text), sinks, is_endless


def with_network(process, network):
    return f'process p({process} network {{ {network} }}'


def before_zero(items):
    """What the items give that a process divides by, until it faults."""
    return [int(100 / it) for it in itertools.takewhile(lambda it: it, items)]


CASES = {
    'double': Case(with_network('in i; out o) { while 1 { read i x; write o (x * 2); } }',
                                'source x; sink y cap 1; p = p(x; y);'), {'y': lambda x: [2 * it for it in x]}),
    'add': Case(with_network('in i, j; out o) { while 1 { read i x; read j y; write o (x + y); } }',
                             'source a; source b; sink y cap 1; p = p(a, b; y);'),
                {'y': lambda a, b: [it + other for it, other in zip(a, b)]}),
    'two sinks': Case(with_network('in i; out o, q) { while 1 { read i x; write o x; write q x; write q 7; } }',
                                   'source x; sink y cap 1; sink z cap 2; p = p(x; y, z);'),
                      {'y': list, 'z': lambda x: [part for it in x for part in (it, 7)]}),
    'early end': Case(with_network('in i; out o) { read i x; read i y; write o (x + y); }',
                                   'source x; sink y cap 1; p = p(x; y);'),
                      {'y': lambda x: [x[0] + x[1]] if len(x) > 1 else []}),
    'fault': Case(with_network('in i; out o) { while 1 { read i x; write o (100 / x); } }',
                               'source x; sink y cap 1; p = p(x; y);'), {'y': before_zero}),
    'no sinks': Case(with_network('in i) { while 1 { read i x; } }', 'source x; p = p(x;);'), {}),
    'count': Case(with_network('out o) { n = 0; while 1 { write o n; n = (n + 1); } }', 'sink y cap 1; p = p(; y);'),
                  {'y': lambda: range(10**9)}, is_endless=True),
    'spin': Case(with_network('out o) { while 1 { } write o 1; }', 'sink y cap 1; p = p(; y);'),
                 {'y': lambda: []}, is_endless=True),
    'nothing': Case('network { }', {}),
}


class Wrong(Exception):
    """What a round found."""


def need(holds, *what):
    if not holds:
        raise Wrong(*what)


# Has something while a call may be interrupted. The signal may come a little later.
OPEN_TO_INTERRUPTS = []


def interrupted(number, frame):
    if OPEN_TO_INTERRUPTS:
        raise KeyboardInterrupt


class Round:
    """A live run, and the model of it: what was fed and read, and what the run has gone through."""

    def __init__(self, numbers):
        self.numbers = numbers
        self.name = numbers.choice(list(CASES))
        self.case, self.said = CASES[self.name], []
        layout = self.case.net.layout()
        self.fed, self.closed = {it: [] for it in layout.sources}, set()
        self.taken, self.left = dict.fromkeys(layout.sinks, 0), set()
        self.is_killed, self.child, self.gate = False, None, None

    def wanted(self, sink):
        """What the sink gives of what was fed."""
        return self.case.sinks[sink](*self.fed.values())

    def run(self):
        """Makes random calls, and then an end."""
        take = None if self.numbers.randrange(4) else 1_000_000_000
        # With `take` a network without sinks has given enough before it runs.
        self.outcome = 'enough' if take and not self.taken else 'ended'
        with self.case.net.stream(timeout=LONG, take=take) as live:
            self.live = live
            for _ in range(self.numbers.randrange(12)):
                kind = self.numbers.choice((self.feed,) * 5 + (self.read,) * 6 + (self.close, self.leave, self.fork)
                                           + (self.kill,) * (not self.numbers.randrange(4)))
                self.said.append(kind.__name__)
                kind()
            if self.numbers.randrange(3):
                self.said.append('finish')
                self.finish()
        need(not os.path.exists(f'/proc/{live._process.pid}'), 'the program is still there')
        if self.child:
            os.close(self.gate)
            need(os.waitpid(self.child, 0)[1] == 0, 'the forked process was not refused')

    def call(self, call):
        """What a call gives, and whether it was interrupted instead, which happens to some."""
        if self.numbers.randrange(3):
            return call(), False
        try:
            OPEN_TO_INTERRUPTS.append(True)
            signal.setitimer(signal.ITIMER_REAL, self.numbers.choice((0.00001, 0.0001, 0.001)) * self.numbers.random())
            try:
                return call(), False
            finally:
                OPEN_TO_INTERRUPTS.clear()
        except KeyboardInterrupt:
            OPEN_TO_INTERRUPTS.clear()
            return None, True
        finally:
            signal.setitimer(signal.ITIMER_REAL, 0)

    def feed(self):
        if not self.fed:
            return
        source = self.numbers.choice(list(self.fed))
        count = self.numbers.choice((0, 1, 3, 40, 20_000))
        items = [self.numbers.randint(-9, 99) for _ in range(count)]
        way = self.live._sources[source]
        before = way.pieces[-1][0] if way.pieces else way.written[0]
        try:
            _, is_interrupted = self.call(lambda: self.live.feed(items, source))
        except kpn.KpnError as error:
            need(source in self.closed and 'closed already' in str(error), error)
            return
        need(is_interrupted or source not in self.closed, 'a closed source was fed')
        after = way.pieces[-1][0] if way.pieces else way.written[0]
        # Where the program has ended, what is fed is dropped, and nothing can be read that depends on it.
        if not is_interrupted or after > before:
            self.fed[source] += items

    def close(self):
        if self.fed:
            source = self.numbers.choice(list(self.fed))
            self.call(lambda: self.live.close(source))
            if self.live._sources[source].is_ending:
                self.closed.add(source)

    def leave(self):
        if self.taken:
            sink = self.numbers.choice(list(self.taken))
            self.live.leave(sink)
            self.left.add(sink)

    def kill(self):
        os.kill(self.live._process.pid, signal.SIGKILL)
        self.is_killed = True

    def fork(self):
        """A process is forked that stays until the block is over. It calls the run and leaves the block."""
        if self.child:
            return
        end, self.gate = os.pipe()
        self.child = os.fork()
        if self.child == 0:
            status = 1
            try:
                os.close(self.gate)
                try:
                    self.live.finish()
                except kpn.KpnError:
                    self.live.__exit__(None, None, None)
                    status = 0
                os.read(end, 1)
            finally:
                os._exit(status)
        os.close(end)

    def read(self):
        if not self.taken:
            return
        sink = self.numbers.choice(list(self.taken))
        wanted, taken = self.wanted(sink), self.taken[sink]
        count = self.numbers.choice((0, 1, 2, 50, 3_000, None))
        is_there = count is not None and count <= len(wanted) - taken
        is_ending = self.closed == set(self.fed) and not self.case.is_endless
        is_quick = sink in self.left or self.is_killed
        timeout = LONG if is_there or is_ending or is_quick else self.numbers.choice((0, 0.001, 0.01))
        timeout = timeout if self.numbers.randrange(4) else 0
        is_timeout = is_killed = False
        found, is_interrupted = [], False
        try:
            found, is_interrupted = self.call(lambda: self.live.read(count, sink, timeout))
        except TimeoutError:
            is_timeout = True
        except kpn.KpnError as error:
            is_killed = True
            need(self.is_killed and 'killed by signal 9' in str(error), error)
        now = self.live._sinks[sink].taken
        if is_interrupted:
            need(now == taken or count is None or now <= taken + count, 'an interrupted read took other items')
        elif is_timeout or is_killed:
            need(now == taken, 'a read that failed took items')
            need(is_killed or timeout != LONG, 'a read timed out', count, len(wanted) - taken)
        else:
            need(found == list(wanted[taken:taken + len(found)]), 'other items', found[:9], wanted[taken:taken + 9])
            need(count is None or len(found) <= count, 'too many items')
            is_short = count is None or len(found) < count
            need(not is_short or is_quick or len(found) == len(wanted) - taken, 'too few items', len(found), count)
            need(now == taken + len(found), 'other items were taken than given')
        self.taken[sink] = now

    def finish(self):
        timeout = LONG if not self.case.is_endless and self.numbers.randrange(4) else self.numbers.choice((0, 0.01))
        try:
            result, is_interrupted = self.call(lambda: self.live.finish(timeout))
            if is_interrupted:
                result = self.live.finish(timeout)
        except TimeoutError:
            need(timeout != LONG, 'it did not finish')
            return
        except kpn.KpnError as error:
            need(self.is_killed and 'killed by signal 9' in str(error), error)
            return
        need(list(result) == list(self.taken), 'other sinks', list(result))
        for sink, items in result.items():
            wanted, taken = self.wanted(sink), self.taken[sink]
            need(items == list(wanted[taken:taken + len(items)]), 'other items at the end')
            is_all = taken + len(items) == len(wanted)
            need(is_all or not result.complete[sink], 'a sink is complete that is not', sink)
            if not self.left:
                need(result.complete[sink] and is_all, 'a sink is not complete', sink, result)
        if self.left == set(self.taken) and self.left:
            need(result.outcome in (None, *OUTCOMES), result.outcome)
        else:
            need(result.outcome == self.outcome, result.outcome)
        need((result.faults == {}) or self.name == 'fault', result.faults)
        if all(result.complete.values()) and not result.faults and result.outcome:
            result.check()


def leaks(folder, before):
    """What is there now that was not."""
    found = set(os.listdir('/proc/self/fd')) - before
    try:
        children = os.waitpid(-1, os.WNOHANG)
    except ChildProcessError:
        children = None
    return [*found, *os.listdir(folder), *([children] if children else [])]


def fuzz(rounds, first=0):
    """Makes this many rounds; raises an error of the first one that finds something."""
    handler = signal.signal(signal.SIGALRM, interrupted)
    temporary = tempfile.tempdir
    try:
        with tempfile.TemporaryDirectory() as folder:
            tempfile.tempdir = folder
            before = {*os.listdir('/proc/self/fd')}
            for seed in range(first, first + rounds):
                faulthandler.dump_traceback_later(HANGS, exit=True)
                one = Round(random.Random(seed))
                try:
                    one.run()
                    need(not leaks(folder, before), 'a leak', leaks(folder, before))
                except Exception as error:
                    raise AssertionError(f'seed {seed}, network {one.name}: {one.said}') from error
    finally:
        faulthandler.cancel_dump_traceback_later()
        tempfile.tempdir = temporary
        signal.signal(signal.SIGALRM, handler)


def main(rounds, first):
    """Makes this many rounds, and tells how long they took."""
    begun, most = time.monotonic(), first + rounds
    for start in range(first, most, 500):
        fuzz(min(500, most - start), start)
        print(f'{min(start + 500, most) - first} live runs in {time.monotonic() - begun:.0f} seconds: nothing wrong, '
              'nothing left behind', flush=True)


if __name__ == '__main__':
    parser = argparse.ArgumentParser(description=__doc__, formatter_class=argparse.RawDescriptionHelpFormatter)
    parser.add_argument('rounds', nargs='?', default=5_000, type=int)
    parser.add_argument('first', nargs='?', default=0, type=int)
    main(**vars(parser.parse_args()))
