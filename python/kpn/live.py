"""Networks that run by `kpn stream` while items are fed and read."""
from __future__ import annotations

import collections
import contextlib
import errno
import fcntl
import io
import itertools
import math
import os
import select
import signal
import subprocess
import tempfile
import threading
import time
import weakref
from typing import TYPE_CHECKING, Callable, Deque, Dict, Iterable, Iterator, List, Mapping, NamedTuple, Optional, Tuple
from typing import TypeVar, Union, cast

from .errors import KpnError, seconds, whole
from .program import Program, environment, find_program, words_of
from .result import Report, Result, counted_in, report_of
from .running import lines_of, refusal

if TYPE_CHECKING:
    from .network import Layout

# How many bytes are read from a pipe at a time, and how many pieces are written.
CHUNK, PIECES = 65_536, 64
# How many bytes are kept of what each source was fed, for the places of faults.
KEPT = 4_194_304
# The most milliseconds of one wait; a call with a longer timeout waits again.
LONGEST_POLL = 3_600_000.0
# How long a program takes that has closed its pipes and is about to end, in seconds.
MOMENT = 0.001
# The statuses of a stream that was not cut short; 9 is that of a deadlock.
STATUSES = (0, 3, 4, 5, 8, 9)
# The ends of pipes that are open here. A forked process closes its copies, which would keep the pipes open.
ENDS: weakref.WeakSet[io.FileIO] = weakref.WeakSet()


def close_ends() -> None:
    """Closes the ends of all pipes."""
    for end in list(ENDS):
        end.close()


os.register_at_fork(after_in_child=close_ends)


# What a way does to its pipe and to what it holds is one step, a single call or assignment. So an error of the outside,
# such as KeyboardInterrupt, may come anywhere and neither loses nor doubles an item.


class Way:
    """This end of a pipe to the program, which never waits."""

    event = select.POLLIN

    def __init__(self, end: io.FileIO):
        self.end = end
        os.set_blocking(end.fileno(), False)

    def waits(self) -> bool:
        """Whether something may move here."""
        return not self.end.closed

    def move(self) -> None:
        """Moves what can move without a wait."""


class Source(Way):
    """The way into a source: the bytes that are still to be written there, and whether these are all."""

    event = select.POLLOUT

    def __init__(self, end: io.FileIO):
        super().__init__(end)
        self.is_ending = False
        # Each piece with the number of all bytes up to its end, and how many bytes were written.
        self.pieces: Deque[Tuple[int, bytes]] = collections.deque()
        self.written = collections.deque([0], maxlen=1)
        # The first pieces of those that are no longer to be written.
        self.kept: List[Tuple[int, bytes]] = []

    def feed(self, data: bytes) -> None:
        """Takes bytes that are to be written."""
        before = self.pieces[-1][0] if self.pieces else self.written[0]
        self.pieces.append((before + len(data), data))

    def waits(self) -> bool:
        """Whether something is to be written; if nothing is and that was all, the way is closed."""
        while self.pieces and self.pieces[0][0] <= self.written[0]:
            end, data = self.pieces[0]
            room = KEPT - end + len(data)
            if room > 0 and (not self.kept or self.kept[-1][0] < end):
                self.kept.append((end, data[:room]))
            self.pieces.popleft()
        if self.is_ending and not self.pieces:
            self.end.close()
        return bool(self.pieces)

    def move(self) -> None:
        """Writes what the pipe takes. What nobody will read any more counts as written."""
        before, end = self.written[0], self.pieces[0][0]
        views = [memoryview(data) for _, data in itertools.islice(self.pieces, PIECES)]
        views[0] = views[0][len(views[0]) - (end - before):]
        try:
            self.written.extend(map(before.__add__, map(os.writev, [self.end.fileno()], [views])))
        except BrokenPipeError:
            self.written.append(self.pieces[-1][0])

    def fed(self) -> bytes:
        """The first lines that it was fed."""
        data = b''.join(data for _, data in [*self.kept, *self.pieces])[:KEPT]
        return data[:data.rfind(b'\n') + 1]


class Batch(NamedTuple):
    """Items that came together, how many came with them and before, and the first bytes of the next one."""

    end: int
    items: List[int]
    rest: bytes


class Sink(Way):
    """The way out of a sink: the items that came and that nobody has read yet."""

    def __init__(self, name: str, end: io.FileIO):
        super().__init__(end)
        self.name, self.is_left, self.taken = name, False, 0
        # The last one may be bytes that just came.
        self.batches: Deque[Union[Batch, bytes]] = collections.deque([Batch(0, [], b'')])

    def waits(self) -> bool:
        """Whether more may come."""
        self.last()
        return not self.end.closed

    @property
    def came(self) -> int:
        """How many items have come."""
        return self.last().end

    def last(self) -> Batch:
        """The last batch, after bytes that just came were made one."""
        data = self.batches[-1]
        if isinstance(data, Batch):
            return data
        before = cast(Batch, self.batches[-2])
        *lines, rest = (before.rest + data).split(b'\n')
        try:
            items = list(map(int, lines))
        except ValueError:
            raise KpnError(f'the sink `{self.name}` gave something other than items: '
                           f'{(before.rest + data)[:40]!r}') from None
        if not data:
            self.end.close()
        self.batches[-1] = batch = Batch(before.end + len(items), items, rest)
        return batch

    def move(self) -> None:
        """Reads what the pipe has."""
        self.batches.extend(map(os.read, [self.end.fileno()], [CHUNK]))
        self.last()

    def unread(self, count: int) -> List[int]:
        """This many of the items that nobody has read; fewer if there are not as many."""
        while len(self.batches) > 1 and cast(Batch, self.batches[0]).end <= self.taken:
            self.batches.popleft()
        found: List[int] = []
        for batch in cast(Deque[Batch], self.batches):
            skipped = max(0, self.taken - (batch.end - len(batch.items)))
            found += batch.items[skipped:skipped + count - len(found)]
            if len(found) == count:
                break
        return found


class Told(Way):
    """What the program writes on standard error, which it closes by its end."""

    def __init__(self, end: io.FileIO):
        super().__init__(end)
        self.chunks: List[bytes] = []

    def waits(self) -> bool:
        """Whether more may come."""
        if self.chunks and not self.chunks[-1]:
            self.end.close()
        return not self.end.closed

    def move(self) -> None:
        """Reads what the pipe has."""
        self.chunks.extend(map(os.read, [self.end.fileno()], [CHUNK]))

    def text(self) -> str:
        """All of it."""
        return b''.join(self.chunks).decode(errors='replace')


class Deadline:
    """When a call has to end, if it has to."""

    def __init__(self, timeout: Optional[float]):
        self.timeout = timeout
        self.end = math.inf if timeout is None else time.monotonic() + timeout

    def left(self) -> Optional[float]:
        """How many seconds are left; None if it need not end."""
        return None if self.timeout is None else max(0.0, self.end - time.monotonic())

    def passed(self, what: str) -> TimeoutError:
        """The error of a call that has to end now."""
        return TimeoutError(f'{what} within {self.timeout} seconds')


Named = TypeVar('Named', Source, Sink)


class Live:
    """A run that is fed and read while it goes on: `with net.stream() as live:`. The end of the block stops it.

    The network reads its sources in an order that only its text and the items decide. While it waits for an item of one
    source, it takes none of another.

    What is fed waits here until the network takes it, and what comes out waits here until it is read. Both move during
    calls only, and no call waits for more than it asks for, whatever the sizes. A call that waits longer than `timeout`
    seconds raises TimeoutError. With `timeout=0` it looks at what has come, and does not wait. The timeout of
    `net.stream` holds for calls without one; without that they wait for ever. Such a call, and one that is interrupted
    (Ctrl-C), loses nothing: the next one goes on. A source or a sink that is the only one need not be named.

    A run is for one thread at a time, and for the process that began it. It ends with that.

    Each call raises KpnError before or after the block, in a forked process, while another thread is in a call, and
    for a name that the network does not have. The block raises it at its start if `kpn stream` cannot be started.
    """

    def __init__(self, layout: Layout, *, take: Optional[int] = None, max_commits: Optional[int] = None,
                 timeout: Optional[float] = None, program: Program = None, stats: bool = False):
        self._layout, self._timeout, self._program = layout, seconds(timeout), program
        self._words, self._most = words_of(take=take, max_commits=max_commits), max_commits
        self._words += ['--stats'] if stats else []
        self._sources: Dict[str, Source] = {}
        self._sinks: Dict[str, Sink] = {}
        self._process: Optional[subprocess.Popen[bytes]] = None
        self._owner, self._is_over, self._made = os.getpid(), False, contextlib.ExitStack()
        # An interrupt may leave it taken by its own thread, which then takes it again.
        self._lock = threading.RLock()

    def __enter__(self) -> Live:
        if self._process or self._is_over:
            raise KpnError('a run has one block: make another run by `net.stream()`')
        path = find_program(self._program)
        with contextlib.ExitStack() as made, contextlib.ExitStack() as theirs:
            try:
                self._start(path, made, theirs)
            except OSError as error:
                remedy = ': a run takes two for each source and sink, and some more (`ulimit -n`)'
                raise KpnError(f'{path} does not run: {error.strerror}{remedy * (error.errno == errno.EMFILE)}'
                               ) from None
            self._made = made.pop_all()
        return self

    def _start(self, path: str, made: contextlib.ExitStack, theirs: contextlib.ExitStack) -> None:
        """Starts the program. What is opened for it, and what for this process, these two close."""
        hold_standard_numbers(theirs)
        text = theirs.enter_context(tempfile.TemporaryFile())
        text.write(self._layout.text.encode())
        text.flush()
        words, kept = [path, 'stream', f'/dev/fd/{text.fileno()}', *self._words], [text.fileno()]
        for name in self._layout.sources:
            end, ours = pipe(theirs, made)
            self._sources[name] = Source(ours)
            kept.append(end.fileno())
            words += ['--source', f'{name}=/dev/fd/{end.fileno()}']
        for name in self._layout.sinks:
            ours, end = pipe(made, theirs)
            self._sinks[name] = Sink(name, ours)
            kept.append(end.fileno())
            words += ['--sink', f'{name}=/dev/fd/{end.fileno()}']
        ours, told = pipe(made, theirs)
        self._told = Told(ours)
        life, _ = pipe(theirs, made)
        self._owner = os.getpid()
        # It has a session of its own, since Ctrl-C is for the call that waits and not for the run.
        self._process = subprocess.Popen(words, env=environment(), pass_fds=[*kept, life.fileno()],
                                         stdin=subprocess.DEVNULL, stdout=subprocess.DEVNULL, stderr=told,
                                         start_new_session=True)
        made.callback(stop, self._process)
        # Once this process has ended, nobody has the other end of this pipe. Then the system kills the program.
        with contextlib.suppress(OSError):
            fcntl.fcntl(life, fcntl.F_SETOWN, -self._process.pid)
            fcntl.fcntl(life, fcntl.F_SETSIG, signal.SIGKILL)
            fcntl.fcntl(life, fcntl.F_SETFL, os.O_ASYNC)

    def __exit__(self, *error: object) -> None:
        self._is_over = True
        if os.getpid() == self._owner:
            self._made.close()

    def feed(self, items: Iterable[int], source: Optional[str] = None) -> None:
        """Gives items, whole numbers as in `net.run`, to a source. It does not wait.

        What the network does not take yet follows during later calls. What comes after the end of the run is dropped.
        Raises TypeError and KpnError for wrong items, and KpnError if the source is closed.
        """
        with self._used():
            name, way = named(self._sources, source, 'source')
            if way.is_ending:
                raise KpnError(f'the source `{name}` is closed already')
            way.feed(lines_of(name, items))
            self._turn(0)

    def close(self, source: Optional[str] = None) -> None:
        """Tells that a source has no more items. It does not wait."""
        with self._used():
            named(self._sources, source, 'source')[1].is_ending = True
            self._turn(0)

    def read(self, count: Optional[int] = None, sink: Optional[str] = None, timeout: Optional[float] = None
             ) -> List[int]:
        """Waits for this many items of a sink, and gives them as a list; fewer if the sink ends before.

        Without a count it waits for the end of the sink, and gives all. Of a sink that was left it gives what has come.
        Raises TimeoutError if they do not come in time, and KpnError if the program fails before they have come.
        """
        with self._used():
            deadline, way = self._deadline(timeout), named(self._sinks, sink, 'sink')[1]
            most = math.inf if count is None else whole('the number of items', count)
            self._turn_until(lambda: not way.waits() or way.came - way.taken >= most, deadline)
            if way.came - way.taken < most and not way.is_left:
                self._check_end(deadline)
            found = way.unread(way.came if count is None else count)
            way.taken += len(found)
            return found

    def leave(self, sink: Optional[str] = None) -> None:
        """Tells that nobody reads a sink any more, and does not wait. Once all sinks are left the run is over."""
        with self._used():
            way = named(self._sinks, sink, 'sink')[1]
            way.is_left = True
            way.end.close()

    def finish(self, timeout: Optional[float] = None) -> Result:
        """Closes all sources, waits for the end of the run, and gives its result with the items not read before.

        The outcome is None if all sinks were left before there was one. `stats` of the result has what each channel and
        process did, if `net.stream` was given `stats=True`. Raises TimeoutError if the run does not end in
        time, and KpnError if the program fails.
        """
        with self._used():
            for source in self._sources.values():
                source.is_ending = True
            report = self._check_end(self._deadline(timeout))
            sinks = self._sinks.items()
            # Nobody has the items that came to a sink after it was left.
            complete = {name: report.sinks[name] == (it.came, True) for name, it in sinks}
            result = Result(self._layout, report, {name: it.unread(it.came) for name, it in sinks}, self._program,
                            complete, [name for name, it in sinks if it.is_left], self._most)
            result.keep_fed({name: source.fed() for name, source in self._sources.items()})
            if '--stats' in self._words:
                result.keep_counted(counted_in(self._told.text()))
            return result

    @contextlib.contextmanager
    def _used(self) -> Iterator[None]:
        """Refuses a call where or when a run takes none."""
        if self._process is None:
            raise KpnError('the run has not begun: write `with net.stream() as live:`')
        if os.getpid() != self._owner:
            raise KpnError('the run is of the process that began it: in a forked one begin another')
        self._check_block()
        if not self._lock.acquire(blocking=False):
            raise KpnError('another thread is in a call of the run: it is for one thread at a time')
        try:
            yield
        finally:
            self._lock.release()

    def _check_block(self) -> None:
        """Refuses a call after the block, also one of another thread that is going on at its end."""
        if self._is_over:
            raise KpnError('the run is over: its block has ended')

    def _deadline(self, timeout: Optional[float]) -> Deadline:
        return Deadline(self._timeout if timeout is None else seconds(timeout))

    def _turn(self, wait: Optional[float]) -> None:
        """Moves what can move, after a wait of at most this many seconds if nothing can."""
        ways: List[Way] = [*self._sources.values(), *self._sinks.values(), self._told]
        moving = {way.end.fileno(): way for way in ways if way.waits()}
        poll = select.poll()
        for number, way in moving.items():
            poll.register(number, way.event)
        ready = poll.poll(None if wait is None else min(1000 * wait, LONGEST_POLL))
        self._check_block()
        for number, _ in ready:
            with contextlib.suppress(BlockingIOError):
                moving[number].move()

    def _turn_until(self, is_done: Callable[[], bool], deadline: Deadline) -> None:
        """Makes turns until this holds. The first one comes before a look at the time."""
        self._turn(0)
        while not is_done():
            left = deadline.left()
            if left == 0:
                raise deadline.passed('the network has not given what was asked for')
            self._turn(left)

    def _check_end(self, deadline: Deadline) -> Report:
        """Waits for the end of the program, and gives what it told; raises an error if it has failed."""
        process = cast('subprocess.Popen[bytes]', self._process)
        ways = [*self._sinks.values(), self._told]
        self._turn_until(lambda: not any(it.waits() for it in ways), deadline)
        status, told = status_of(process), self._told.text()
        while status is None:
            if deadline.left() == 0:
                raise deadline.passed('`kpn stream` has not ended')
            time.sleep(MOMENT)
            status = status_of(process)
        if status not in STATUSES:
            done = subprocess.CompletedProcess(process.args, status, '', told)
            raise refusal(done, self._layout, {}, self._program, deadline.left())
        report = report_of(told)
        if set(report.sinks) != set(self._sinks) or not (self._sinks or report.outcome):
            raise KpnError(f'{find_program(self._program)} has told no outcome: it is not the program `kpn`')
        return report


def pipe(reader: contextlib.ExitStack, writer: contextlib.ExitStack) -> Tuple[io.FileIO, io.FileIO]:
    """The two ends of a new pipe, which these two close."""
    numbers = os.pipe()
    ends = io.FileIO(numbers[0], 'r'), io.FileIO(numbers[1], 'w')
    for end, made in zip(ends, (reader, writer)):
        ENDS.add(made.enter_context(end))
    return ends


def status_of(process: subprocess.Popen[bytes]) -> Optional[int]:
    """The status of the program once it has ended. It can be asked again, unlike that of `poll` and `wait`."""
    try:
        found = os.waitid(os.P_PID, process.pid, os.WEXITED | os.WNOHANG | os.WNOWAIT)
    except ChildProcessError:
        # Where SIGCHLD is ignored nobody knows.
        return process.wait()
    if found is None:
        return None
    return found.si_status if found.si_code == os.CLD_EXITED else -found.si_status


def stop(process: subprocess.Popen[bytes]) -> None:
    """Ends the program, and whatever it has started."""
    if status_of(process) is None:
        os.killpg(process.pid, signal.SIGKILL)
    process.wait()


def hold_standard_numbers(made: contextlib.ExitStack) -> None:
    """Opens what is closed of the descriptors 0 to 2, since a pipe with such a number would not reach the program."""
    while True:
        number = os.open(os.devnull, os.O_RDWR)
        made.callback(os.close, number)
        if number > 2:
            break


def named(ways: Mapping[str, Named], name: Optional[str], what: str) -> Tuple[str, Named]:
    """A way by its name, or the only one."""
    if name is None and len(ways) == 1:
        name = next(iter(ways))
    if name is None or name not in ways:
        raise KpnError(f'the network has no {what} `{name}`' if name else
                       f'the network has {len(ways)} {what}s: name the one that you mean')
    return name, ways[name]
