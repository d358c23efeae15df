"""What came of a run."""
from __future__ import annotations

import collections.abc
import os
import pathlib
import re
import shutil
import subprocess
import tempfile
import warnings
import weakref
from typing import TYPE_CHECKING, Any, Dict, Iterator, List, Mapping, NamedTuple, Optional, Sequence, Tuple, Union

from . import exports
from .arrays import array_of
from .errors import GrowthWarning, KpnError, whole
from .faults import Fault, faults_of
from .program import Program, call, failure, words_of
from .rates import Rate, rates_of
from .rings import deadlock_of, rings_of
from .timing import Moves, least_of, per_item, steady
from .trace import FAULTS, Trace
from .view import page, stats_of
from .wav import Path, write_wav

if TYPE_CHECKING:
    from .network import Layout, Network

TEXT, TRACE = 'net.kpn', 'run.trace'
# The statuses of a run that came to an outcome.
STATUSES = (0, 3, 4, 5)
# A second run that looks for channels that grow has at most this many items of each source, commits and
# seconds. What it finds has to grow in a third, longer run too: a frame may be longer than the second.
ITEMS_OF_LOOK, COMMITS_OF_LOOK, TIME_OF_LOOK = 1_000, 100_000, 10
ITEMS_OF_LONG_LOOK, COMMITS_OF_LONG_LOOK = 50_000, 5_000_000
# As many commits of another run does `kpn` make to find the place of a fault.
COMMITS_TO_FAULT = 1_000_000
# What such runs have found, by the texts of the networks, and the most of them that are kept.
LOOKS: Dict[str, List[Rate]] = {}
MOST_LOOKS = 100
# The lines that are read of the report of `kpn run` and of the summary of `kpn stream`.
LINE = re.compile(rf'fault (\w+) ({"|".join(FAULTS)})|waits (\w+) (\w+)( full)?'
                  r'|sink (\w+): (\d+) items, (not )?complete|(ended|enough|clogged|jammed|stopped)')
# What is read of `kpn stats` and of `kpn timeline`.
LENGTH = re.compile(r'length (\d+) ticks?')
# The most ticks to which a picture goes.
MOST_TICKS = 10**9
# What stands between two columns of a table.
COLUMNS = re.compile(' {2,}')
SLICE = re.compile(r'"tid":(\d+),"ts":(\d+),"dur":1,"name":"((?:get|put) \w+)"')
# The least capacity for speed. At 1, 64 and 1,024 a chain of eight processes took 117, 46 and 40 ms of a processor for
# 300,000 items, compiled in long turns, and 75, 50 and 49 ms for 100,000 by one worker.
FAST = 1024


class Wait(NamedTuple):
    """An instance that waits on a channel: for room if the channel is full, and else for an item."""

    instance: str
    channel: str
    is_full: bool


class Stats(NamedTuple):
    """The tables of `kpn stats`, or of `kpn stream --stats`, which has fewer columns: a row for each channel and for
    each process, by the names of the columns."""

    channels: List[Dict[str, Union[int, str]]]
    processes: List[Dict[str, Union[int, str]]]


class Report(NamedTuple):
    """What the program tells of a run; of a stream also how many items each sink gave, and whether it is complete."""

    outcome: Optional[str]
    faults: Dict[str, str]
    waits: List[Wait]
    sinks: Dict[str, Tuple[int, bool]]


class Look(NamedTuple):
    """What runs take that look for channels that grow: the first lines of each source, and options."""

    lines: Dict[str, bytes]
    take: Optional[int]


class Folder:
    """A folder of the system's temporary ones, which goes when nobody has this. A pickle has its files."""

    def __init__(self, files: Mapping[str, bytes]):
        self.path = tempfile.mkdtemp(prefix='kpn-')
        weakref.finalize(self, remove, self.path, os.getpid())
        for name, data in files.items():
            pathlib.Path(self.path, name).write_bytes(data)

    def __deepcopy__(self, memo: Any) -> Folder:
        return self

    def __reduce__(self) -> Tuple[Any, ...]:
        return Folder, ({file.name: file.read_bytes() for file in pathlib.Path(self.path).iterdir()},)


def remove(folder: str, owner: int) -> None:
    """Removes a folder, but not from a process that was forked from the one with this number."""
    if os.getpid() == owner:
        shutil.rmtree(folder, ignore_errors=True)


class Result(collections.abc.Mapping):  # type: ignore[type-arg]
    """What came of a run. `result["y"]` has the items that the sink `y` gave, a list or an array, whatever the outcome.

    `outcome` is `ended`, `enough`, `clogged`, `jammed` or `stopped`; of a live run whose sinks were all left before
    there was one it is None. `faults` is a dict of the instances that a fault ended, with the word of each (`overflow`,
    `zero-divisor`, `index` or `shift`), and `waits` a list of a `Wait` for each one that waits; of `run` both are empty
    under `enough` and `stopped`. `check()` raises an error if an item may lack. What is made of the trace needs a run
    with `trace=True`, and raises KpnError without one. A sink that is not there raises KeyError. A copy or a pickle has
    all of it, the trace too.
    `certified` is what `kpn` has found of a compiled run or of one over ranks, such as `legal, exact`, and None if it
    was not asked.
    """

    def __init__(self, layout: Layout, report: Report, sinks: Dict[str, Any], program: Program = None,
                 complete: Optional[Dict[str, bool]] = None, left: Sequence[str] = (), most: Optional[int] = None):
        self._layout, self._sinks, self._program = layout, sinks, program
        self.outcome, self.faults, self.waits = report.outcome, report.faults, report.waits
        self.certified: Optional[str] = None
        # Of a live run, which sinks are complete, and which were left.
        self._told, self._left = complete, left
        # The most commits that it may make.
        self._most = most
        self._folder: Optional[Folder] = None
        self._trace: Optional[str] = None
        self._tables: Optional[Dict[str, Any]] = None
        # The places of faults that a run has told.
        self._places: Dict[str, Fault] = {}
        self._look: Optional[Look] = None
        # Of a live run, the tables that it has told, and what its sources were fed first, until it is asked for places.
        self._counted: Optional[Stats] = None
        self._fed: Optional[Mapping[str, bytes]] = None

    @property
    def layout(self) -> Layout:
        """The text of the network that ran, and the names in it."""
        return self._layout

    def __getitem__(self, sink: str) -> Any:
        if sink not in self._sinks:
            raise KeyError(f'the network has no sink `{sink}`: it has {", ".join(self._sinks) or "none"}')
        return self._sinks[sink]

    def array(self, sink: str, dtype: Any = 'int64', scale: int = 1) -> Any:
        """The items of a sink as an array of NumPy of one dimension.

        `dtype` is `int8` to `int64` or `uint8`. Of `float32` and `float64` each item is divided by `scale`, a power of
        two from 1 to 2^62, and is the nearest such number. Raises KpnError for another one, for an item that it does
        not have, with its place, and if NumPy is not there.
        """
        return array_of(sink, self[sink], dtype, scale)

    def wav(self, sinks: Union[str, Sequence[str]], path: Path, rate: int = 48_000, bits: int = 16, clip: bool = False
            ) -> None:
        """Writes the items of a sink as a WAV file; of several sinks, one after the other, as its channels.

        `rate` is how many samples a second has, whose bytes are less than 2^32 for all channels. There are at most
        32,767 channels of 16 bits, and 21,845 of 24. Samples of 16 bits are from -32,768 to 32,767, and those of 24
        bits from -8,388,608 to 8,388,607. With `clip` an item beyond becomes the nearest sample. Raises KpnError for
        such an item without it, with its place, for other numbers, and for sinks with unequally many items, and OSError
        if the file can't be written. Then an old file stays as it is,
        if its folder takes another one.
        """
        names = [sinks] if isinstance(sinks, str) else list(sinks)
        write_wav(path, names, [self[name] for name in names], rate, bits, clip)

    def __iter__(self) -> Iterator[str]:
        return iter(self._sinks)

    def __len__(self) -> int:
        return len(self._sinks)

    def __repr__(self) -> str:
        counts = ', '.join(f'{len(items)} items of {name}' for name, items in self._sinks.items())
        return f'<Result {self.outcome}: {counts}>'

    @property
    def complete(self) -> Dict[str, Optional[bool]]:
        """For each sink whether it has all items that the network means for this input; None if that is not known.

        It is known under `ended`, `clogged` and `jammed`, of a run with a trace, and of a live run.
        """
        if self._told is not None:
            return {**self._told}
        if self.outcome in ('enough', 'stopped'):
            if not self._trace:
                return dict.fromkeys(self._sinks)
            rows = {row['channel']: row['complete'] == 'yes' for row in self.stats.channels}
            return {name: rows[name] for name in self._sinks}
        return {name: self._is_complete(name) for name in self._sinks}

    def _is_complete(self, channel: str) -> bool:
        """Whether nothing more comes on a channel at any capacities: no process behind it waits for room."""
        waits, seen = {it.instance: it for it in self.waits}, set()
        while channel in self._layout.writers and channel not in seen:
            seen.add(channel)
            wait = waits.get(self._layout.writers[channel])
            if wait is None or wait.is_full:
                return wait is None
            channel = wait.channel
        return True

    @property
    def deadlock(self) -> List[List[Wait]]:
        """The rings: cycles of processes that each wait for an item of the next one, and never get it.

        Each is a list of a `Wait` for each of its processes. Of `run` there is none under `enough` and `stopped`
        without a trace.
        """
        waits = self.waits
        if self._trace and self.outcome in ('enough', 'stopped'):
            ends = [(str(row['process']), str(row['end']).split()) for row in self.stats.processes]
            waits = [Wait(name, end[1], len(end) > 2) for name, end in ends if end[0] == 'waits']
        return rings_of(waits, self._layout)

    def check(self) -> Result:
        """This result, if no process faulted and each sink has all its items or as many as `take` says.

        Raises KpnError that says what lacks if not, with the place of a fault if `fault_places` has it, and
        `kpn.Deadlock` if there is a ring. Warns by a `kpn.GrowthWarning` of each channel that grows with the length of
        the run. Without a trace it finds those by a second, short run on the first 1,000 items of each source, and a
        longer one where that finds some.
        """
        reasons = self._reasons()
        if self.outcome != 'enough' and self.deadlock:
            raise deadlock_of(self.deadlock, self._layout, reasons)
        if reasons:
            raise KpnError(reasons, place=next((it.place for it in self.fault_places.values()), None))
        for it in (it for it in self._rates() if it.grows):
            how = '' if self._trace else ', in a short run on the first items'
            warnings.warn(f'the channel `{it.channel}` grows with the length of the run: `{it.writer}` put {it.put} '
                          f'items on it, and `{it.reader}` got {it.got}{how}. Give its ends the same rate',
                          GrowthWarning, stacklevel=2)
        return self

    def _rates(self) -> List[Rate]:
        """How many items the ends of each channel put and got, in this run or in a short one like it."""
        if self._trace:
            return rates_of(self)
        text = self._layout.text
        if self._look and text not in LOOKS:
            if len(LOOKS) >= MOST_LOOKS:
                LOOKS.clear()
            LOOKS[text] = look(self._layout, self._look, self._program)
        return LOOKS.get(text, [])

    def _reasons(self) -> str:
        """What is wrong: faults, sinks that may lack items, and who waits for room; nothing if all is right."""
        told = self.fault_places
        more = '' if self._trace or self._told is not None else ' (a run with `trace=True` tells where)'
        reasons = [f'`{name}` ended by a fault: {told.get(name, fault + more)}' for name, fault in self.faults.items()]
        reasons += [f'the sink `{name}` is {"not" if known is False else "perhaps not"} complete'
                    for name, known in self.complete.items()
                    if not known and (self.outcome != 'enough' or name in self._left)]
        if not reasons:
            return ''
        how = f'the run has {self.outcome}' if self.outcome else 'all sinks were left before the run had an outcome'
        if self.outcome == 'stopped' and self._most:
            how += f' at `max_commits`, {self._most}'
        waits = [f'`{it.instance}` waits on the full channel `{it.channel}`' for it in self.waits if it.is_full]
        return '; '.join([how, *reasons, *waits])

    @property
    def fault_places(self) -> Dict[str, Fault]:
        """For each instance that a fault ended a `Fault`: its word, the place, the expression and the values there.

        A process that takes more than a million statements up to its fault is left out. Without a trace so is what a
        run of a million commits does not come to. Of a live run so is what the first 4 MiB of the lines of each source
        do not come to, and of one in this process what their first 500,000 items do not come to.
        """
        if self.faults.keys() - self._places.keys():
            if self._trace:
                self.keep_places(self._asked('explain').stderr)
            elif self._fed is not None:
                fed, self._fed = self._fed, None
                self.keep_places(run_again(self._layout, fed, self._program))
        return self._places

    def trace(self) -> Trace:
        """The events of the run, with names: a `Trace` to loop over."""
        return Trace(self._traced()[1], self._layout.instances, self._layout.channels, keeper=self)

    @property
    def stats(self) -> Stats:
        """What the run did on each channel and in each process, by `kpn stats`: two lists of a dict for each row.

        A live run with `stats=True` has it without a trace. Its channels have `channel`, `put`, `read`, `unread` and
        `most`, the most items that were unread while the channel's reader was there, and its processes `process` and
        `end`.
        """
        if self._counted:
            return self._counted
        if self._told is not None and not self._trace:
            raise KpnError('the run has no trace and no tables: give `stats=True` to `net.stream`')
        tables = [self._told_stats()[table] for table in Stats._fields]
        return Stats(*([dict(zip(table['columns'], row)) for row in table['rows']] for table in tables))

    @property
    def ticks(self) -> int:
        """The length of the run in ticks, if each get and put takes one."""
        found = LENGTH.match(self._told_stats()['head'][0])
        if not found:
            raise KpnError('`kpn stats` has told no length')
        return int(found[1])

    @property
    def sink_ticks(self) -> Dict[str, List[int]]:
        """For each sink the tick at which each of its items was put."""
        puts: Dict[str, List[int]] = {name: [] for name in self._sinks}
        for _, ticks, move in self._slices():
            if move[:4] == 'put ' and move[4:] in puts:
                puts[move[4:]].append(ticks)
        return puts

    @property
    def ticks_per_item(self) -> Dict[str, Optional[float]]:
        """How many ticks an item of each sink takes in the steady state, by a period that recurs.

        In the last two thirds of its gets and puts, the writer of the sink and each process that it gets items from,
        by whatever way, has to do the same at least twice. If one does not, the number is None: then run longer, or
        there is no steady state.
        """
        ends = {str(row['process']): str(row['end']) for row in self.stats.processes}
        moves: Dict[str, List[Tuple[str, int]]] = {name: [] for name in self._layout.instances}
        for name, ticks, move in self._slices():
            moves[name].append((move, ticks))
        periods = {name: steady(found, ends[name]) for name, found in moves.items()}
        return {sink: per_item(sink, self._layout, moves, periods, ends) for sink in self._sinks}

    def _slices(self) -> List[Tuple[str, int, str]]:
        """The gets and puts with the instance, the tick and the channel of each."""
        return [(self._layout.instances[int(track) - 1], int(begin) + 1, move)
                for track, begin, move in SLICE.findall(self.timeline())]

    @property
    def least(self) -> Dict[str, int]:
        """A capacity for each channel but the sources, with which the run is as short as without any: for memory.

        Each item comes as late as the length of the run allows, and so they do not grow with the run.
        `kpn.least_capacities` searches smaller ones.
        """
        stats, layout = self.stats, self._layout
        goal: Dict[str, int] = {}
        if any(row['end'] == '-' for row in stats.processes):
            goal = {str(row['channel']): int(row['read']) for row in stats.channels if row['channel'] in self._sinks}
        caps = least_of(Moves(layout, self._traced()[1], goal))
        return {name: cap for name, cap in zip(layout.channels, caps) if name not in layout.sources}

    @property
    def fast(self) -> Dict[str, int]:
        """A capacity for each channel but the sources, with which workers and compiled programs are fast: `least`, and
        1,024 at least."""
        return {name: max(cap, FAST) for name, cap in self.least.items()}

    def _told_stats(self) -> Dict[str, Any]:
        """What `kpn stats` writes, read back."""
        if self._tables is None:
            folder, trace = self._traced()
            self._tables = stats_of(os.path.join(folder, TEXT), os.path.join(folder, trace), program=self._program)
        return self._tables

    def audit(self) -> str:
        """What `kpn audit` says of the trace: `legal, exact`, or `legal` if the run has not come to its end.

        Raises KpnError with its words if the trace is not legal.
        """
        verdict, exact = self._ask('audit').splitlines()[:2]
        return f'{verdict}, exact' if exact == 'exact yes' else verdict

    def explain(self) -> str:
        """A text of `kpn explain`: which sinks are complete, and what to do about those that are not."""
        return self._ask('explain')

    def dot(self) -> str:
        """The network after its run, by `kpn draw`: a text in the language of Graphviz."""
        return self._ask('draw')

    def timeline(self) -> str:
        """The run in ticks, by `kpn timeline`: a text in the Trace Event Format, which Perfetto opens."""
        return self._ask('timeline')

    def svg(self, first: Optional[int] = None, last: Optional[int] = None) -> str:
        """The run in ticks as a picture in SVG, by `kpn timeline --svg`; of a long run from a first to a last tick.

        Raises KpnError if the picture would have more than 2,000 ticks, or gets, puts, waits and growths.
        """
        low = 1 if first is None else whole('`first`', first, 1, MOST_TICKS)
        high = MOST_TICKS if last is None else whole('`last`', last, low, MOST_TICKS)
        try:
            return self._ask('timeline', '--svg', '--from', str(low), '--to', str(high))
        except KpnError as error:
            if 'kpn: usage: ' not in str(error):
                raise
        raise KpnError('a picture has at most 2,000 ticks, and at most 2,000 gets, puts, waits and growths: give a '
                       '`first` and a `last` tick with fewer between them')

    def figure(self, first: Optional[int] = None, last: Optional[int] = None) -> str:
        """The run in ticks as a picture in SVG, of any length: what is too narrow to be seen is drawn as one mark.

        Raises KpnError if there are no ticks from the first to the last one.
        """
        return exports.figure_of(self, first, last)

    def vcd(self) -> str:
        """The run as a Value Change Dump (IEEE 1364), for GTKWave and others; a tick is a nanosecond.

        Each channel has two variables: the item last put there (of a source, last got), and how many are unread.
        """
        return exports.vcd_of(self)

    def csv(self) -> str:
        """The events as a table with commas between: number, kind, process, channel, value and, of gets and puts, the
        tick."""
        return exports.csv_of(self)

    def view(self) -> str:
        """A page of HTML that shows the run: the network, the run in time, items and tables. Store it in a file."""
        folder, trace = self._traced()
        return page(os.path.join(folder, TEXT), trace, program=self._program, title='a run')

    def _repr_svg_(self) -> Optional[str]:
        """The picture that a notebook shows, if there is a trace and it is not too long."""
        try:
            return self.svg() if self._trace else None
        except KpnError:
            return None

    def _traced(self) -> Tuple[str, str]:
        """The folder with the text, and the file of the trace."""
        if not self._folder or not self._trace:
            raise KpnError('the run has no trace: give `trace=True` to `run`')
        return self._folder.path, os.path.join(self._folder.path, self._trace)

    def _ask(self, command: str, *words: str) -> str:
        """What a command says of the network and the trace."""
        return self._asked(command, *words).stdout

    def _asked(self, command: str, *words: str) -> subprocess.CompletedProcess[str]:
        """The call of a command on the network and the trace."""
        folder, trace = self._traced()
        done = call([command, TEXT, trace, *words], self._program, folder)
        if done.returncode:
            raise failure(done)
        return done

    def keep(self, folder: Folder, trace: str) -> None:
        """Keeps the folder with the text, and the file of the trace, if it is not there."""
        self._folder, self._trace = folder, trace

    def keep_places(self, told: str) -> None:
        """Keeps the places of faults that the program has told."""
        self._places.update(faults_of(self.faults, self._layout, told))

    def keep_fed(self, lines: Mapping[str, bytes]) -> None:
        """Keeps the first lines that the sources were fed, by which another run tells the places of faults."""
        if self.faults:
            self._fed = lines

    def keep_counted(self, tables: Stats) -> None:
        """Keeps the tables that a live run has told."""
        self._counted = tables

    def keep_look(self, wanted: Look) -> None:
        """Keeps what a look for channels that grow takes."""
        self._look = wanted


def stored_run(net: Network, trace: Path) -> Result:
    """The run of a network by its trace alone, without its outcome and its items."""
    layout = net.layout()
    result = Result(layout, Report(None, {}, [], {}), dict.fromkeys(layout.sinks, []))
    result.keep(Folder({TEXT: layout.text.encode()}), os.path.abspath(trace))
    return result


def run_again(layout: Layout, lines: Mapping[str, bytes], program: Program) -> str:
    """What another run on these lines tells of faults; nothing if it takes too long."""
    folder = Folder({TEXT: layout.text.encode(), **{f'{name}.source': it for name, it in lines.items()}})
    words = words_of(max_commits=COMMITS_TO_FAULT)
    for name in layout.sources:
        words += ['--source', f'{name}={name}.source']
    for name in layout.sinks:
        words += ['--sink', f'{name}={os.devnull}']
    try:
        return call(['stream', TEXT, *words], program, folder.path, TIME_OF_LOOK).stderr
    except KpnError:
        return ''


def look(layout: Layout, wanted: Look, program: Program) -> List[Rate]:
    """How many items the ends of each channel put and got in a short run; nothing if it can't be told."""
    short = {name: b''.join(it.splitlines(keepends=True)[:ITEMS_OF_LOOK]) for name, it in wanted.lines.items()}
    folder = Folder({TEXT: layout.text.encode(), **{f'{name}.source': it for name, it in short.items()},
                     **{f'{name}.long': it for name, it in wanted.lines.items()}})
    words = words_of(take=wanted.take, max_commits=COMMITS_OF_LOOK)
    for name in wanted.lines:
        words += ['--source', f'{name}={name}.source']
    try:
        done = call(['run', TEXT, '--trace', TRACE, *words], program, folder.path, TIME_OF_LOOK)
        result = Result(layout, report_of(done.stdout), {}, program)
        result.keep(folder, TRACE)
        rates = rates_of(result) if done.returncode in STATUSES else []
        if short == wanted.lines or not any(it.grows for it in rates):
            return rates
        counts = long_look(layout, wanted, program, folder)
    except KpnError:
        return []
    return [it._replace(grows=it.grows and goes_on(it, counts.get(it.channel, (0, 0)))) for it in rates]


def long_look(layout: Layout, wanted: Look, program: Program, folder: Folder) -> Dict[str, Tuple[int, int]]:
    """How many items were put on each channel, and how many are unread, in a run on more items."""
    words = words_of(take=wanted.take, max_commits=COMMITS_OF_LONG_LOOK)
    for name in wanted.lines:
        words += ['--source', f'{name}={name}.long']
    for name in layout.sinks:
        words += ['--sink', f'{name}={name}.out']
    done = call(['stream', TEXT, '--stats', '--quiet', *words], program, folder.path, TIME_OF_LOOK)
    return {str(it['channel']): (int(it['put']), int(it['unread'])) for it in counted_in(done.stderr).channels}


def goes_on(rate: Rate, counts: Tuple[int, int]) -> bool:
    """Whether of what a longer run puts on a channel about the same part is unread."""
    put, unread = counts
    return 2 * unread * rate.put > put * rate.left


def counted_in(told: str) -> Stats:
    """The tables in what `kpn stream --stats` has told: at its end, each after its headings, two spaces between two
    columns."""
    tables: Dict[str, List[Dict[str, Union[int, str]]]] = {'channel': [], 'process': []}
    headings: List[str] = []
    for line in told.splitlines():
        cells = COLUMNS.split(line)
        if cells[0] in tables and len(cells) > 1 and cells[-1] in ('most', 'end'):
            headings = cells
        elif headings and len(cells) == len(headings):
            values = [int(it) if it.isdigit() else it for it in cells[1:]]
            tables[headings[0]].append(dict(zip(headings, [cells[0], *values])))
    return Stats(tables['channel'], tables['process'])


def report_of(told: str) -> Report:
    """What the program has told of a run. Lines of other forms say nothing of it."""
    report = Report(None, {}, [], {})
    for line in told.splitlines():
        found = LINE.fullmatch(line)
        if not found:
            continue
        faulty, fault, waiting, channel, full, sink, count, lacks, outcome = found.groups()
        if fault:
            report.faults[faulty] = fault
        elif waiting:
            report.waits.append(Wait(waiting, channel, bool(full)))
        elif sink:
            report.sinks[sink] = int(count), not lacks
        else:
            report = report._replace(outcome=outcome)
    return report
