"""Runs of networks by `kpn run`."""
from __future__ import annotations

import array
import collections.abc
import functools
import itertools
import json
import math
import numbers
import operator
import os
import pathlib
import re
import subprocess
import tempfile
from dataclasses import dataclass
from typing import TYPE_CHECKING, Any, Callable, Dict, Iterable, List, Mapping, Optional, Tuple, Union

from .arrays import check_shape, checked_scale, is_numpy, listed, numpy, scaled
from .errors import LARGEST, KpnError, seconds
from .program import MOST, Program, call, failure, find_program, words_of
from .ranks import runner_of
from .rates import growable
from .result import ITEMS_OF_LONG_LOOK, STATUSES, TEXT, TRACE, Folder, Look, Result, report_of
from .wav import Wav

if TYPE_CHECKING:
    from .network import Layout, Network

# Whole numbers, or a file of them with one on each line.
Items = Union[Iterable[float], 'os.PathLike[str]']
# The items of each source by its name, or the samples of a WAV file; of an only source also the items alone.
Inputs = Union[None, str, Wav, Items, Mapping[str, Union[str, Wav, Items]]]
# The numbers of errors that are about the description, or about the items of a source.
OF_TEXT, OF_ITEMS = range(1, 25), range(25, 27)
# What a compiled program says once `kpn` has judged its run.
CERTIFIED = re.compile(r'^kpn: certified: (.*)$', re.M)
# The most commits of a run if nobody says how many.
USUAL_COMMITS = MOST['max_commits']


@dataclass(frozen=True)
class Options:
    """How a run goes: the words of `kpn.run`."""

    take: Optional[int] = None
    workers: Optional[int] = None
    max_commits: Optional[int] = None
    trace: Union[bool, str, os.PathLike[str]] = False
    timeout: Optional[float] = None
    program: Program = None
    ranks: Optional[int] = None
    certify: bool = False
    scale: Union[None, int, Mapping[str, int]] = None
    runner: Optional[Tuple[str, List[str]]] = None

    def __post_init__(self) -> None:
        if self.ranks is not None and self.runner:
            raise KpnError('a compiled network does not run over ranks')
        if self.ranks is not None and (self.workers is not None or self.trace is True):
            raise KpnError('a run over ranks has no workers, and its `trace` names a folder, where each rank stores '
                           'one')
        if self.certify and self.ranks is None:
            raise KpnError('`certify` is for a run over ranks, and for one of `net.compile()`: `kpn run` is proved')

    @property
    def most(self) -> Optional[int]:
        """The most commits. A compiled network has no limit if none is given."""
        return self.max_commits if self.runner or self.max_commits is not None else USUAL_COMMITS

    @property
    def stored(self) -> Optional[str]:
        """The file of the trace; None without one in the result."""
        if not self.trace or self.ranks is not None:
            return None
        return TRACE if self.trace is True else os.path.abspath(self.trace)

    def words(self) -> List[str]:
        """The words for a program, but for those that name files of the run."""
        words = words_of(take=self.take, workers=self.workers, max_commits=self.most)
        if self.ranks is not None and self.trace and self.trace is not True:
            words += ['--traces', os.path.abspath(self.trace)]
        return words + ['--certify'] * self.certify

    def call(self, words: List[str], folder: str) -> subprocess.CompletedProcess[str]:
        """Calls the program that runs the network with these words besides."""
        runner = runner_of(self.ranks, TEXT, find_program(self.program)) if self.ranks is not None else self.runner
        called, first = runner or (self.program, ['run', TEXT])
        return call([*first, *self.words(), *words], called, folder, seconds(self.timeout), not runner)


def run(net: Network, inputs: Inputs = None, **options: Any) -> Result:
    """Runs a network by `kpn run` on the items of its sources, and gives a `Result`.

    `inputs` is a dict with the items of each source, or the items of an only source: whole numbers from -2^63 to
    2^63 - 1, in a list or an array of one dimension; or a `pathlib.Path` of a file with one on each line. If an array
    is given, the sinks are arrays of 64 bits of the same kind: of `array`, or of NumPy.

    A string or a path that ends in `.wav` is the name of a plain WAV file of 16 or 24 bits, read by `kpn.Wav(path)`. In
    the dict it has one channel; `kpn.Wav(path)[k]` has the samples of channel k of any. In place of the dict, channel k
    goes to source k, and there are as many. The sinks are arrays of `array` then.

    The options are words of the call. With `scale=`, a power of two from 1 to 2^62, each item is multiplied by it and
    rounded to the nearest whole number, a half away from 0: then lists and arrays may have floats, as float32 from -1
    to 1 with a scale of 2^15. A dict has a scale for some of the sources. Files of items stay as they are.

    The run is over once each sink has given `take=` items, or after `max_commits=` turns of processes (1,000,000,000 by
    default, which is the most). `workers=` threads, 1 to 16, step the processes side by side. `trace=` stores the
    events, in a file of this name or, if it is True, in one of the result's own. After `timeout=` seconds the run is
    killed. `program=` is the path of `kpn`.

    `ranks=` runs the network over as many ranks of MPI, by the program `kpn-mpi`. Then each rank makes `max_commits` by
    itself, and `trace` names a folder, with what `python -m kpn.mpi audit` reads; the result has no trace. With
    `certify=True` the proved `kpn join` judges such a run. `result.certified` says what it found, and KpnError why it
    refused the run. `runner=` is a program with its first words, in place of `kpn run` and the description.

    Raises KpnError if the network or an input is not right, or the program does not come to an outcome in time,
    TypeError for items and numbers that are not whole, unless they are scaled, and OSError for a WAV file that can't be
    read. The first two tell the place of an item. An item that is not finite is refused.
    """
    net.check_limits()
    how, layout = Options(**options), net.layout()
    given = scaled_by_name(by_name(layout, inputs), how.scale)
    with tempfile.TemporaryDirectory(prefix='kpn-') as folder:
        pathlib.Path(folder, TEXT).write_bytes(layout.text.encode())
        files = {name: file_of(folder, name, items) for name, items in given.items()}
        words = [word for name, file in files.items() for word in ('--source', f'{name}={file}')]
        words += [word for name in layout.sinks for word in ('--sink', f'{name}={name}.sink')]
        kept = Folder({TEXT: layout.text.encode()}) if how.stored else None
        words += ['--trace', os.path.join(kept.path, str(how.stored))] if kept else []
        done = how.call(words, folder)
        if done.returncode not in STATUSES:
            raise refusal(done, layout, given, how.program, how.timeout)
        result = result_of(done, layout, folder, maker_of(given), how)
        if kept:
            result.keep(kept, str(how.stored))
        elif growable(layout):
            result.keep_look(Look({name: first_lines(pathlib.Path(folder, it)) for name, it in files.items()},
                                  how.take))
    return result


def result_of(done: subprocess.CompletedProcess[str], layout: Layout, folder: str,
              as_given: Callable[[List[int]], Any], how: Options) -> Result:
    """What a program that came to an outcome has told, and left in a folder."""
    report = report_of(done.stdout)
    if not report.outcome:
        raise KpnError(f'{find_program(how.program)} has told no outcome: it is not the program `kpn`')
    sinks = {name: as_given(items_of(pathlib.Path(folder, f'{name}.sink').read_bytes())) for name in layout.sinks}
    result = Result(layout, report, sinks, how.program, most=how.most)
    result.keep_places(done.stderr)
    judged = CERTIFIED.search(done.stderr)
    result.certified = judged[1] if judged else None
    return result


def first_lines(file: pathlib.Path) -> bytes:
    """The first lines of an item file; nothing of one that is no plain file."""
    if not file.is_file():
        return b''
    with open(file, 'rb') as lines:
        return b''.join(itertools.islice(lines, ITEMS_OF_LONG_LOOK))


def by_name(layout: Layout, inputs: Inputs) -> Dict[str, Items]:
    """The items of each source by its name, with samples in place of WAV files."""
    if is_wav(inputs):
        given: Dict[str, Any] = by_channel(layout, wav_of(inputs))
    elif inputs is None or isinstance(inputs, collections.abc.Mapping):
        given = {name: wav_of(it).only() if is_wav(it) else it for name, it in (inputs or {}).items()}
    elif len(layout.sources) == 1:
        given = {layout.sources[0]: inputs}
    else:
        raise KpnError(f'the network has {len(layout.sources)} sources: give a dict with the items of each one')
    for name in [*given, *layout.sources]:
        if name not in layout.sources:
            raise KpnError(f'the network has no source `{name}`: it has {", ".join(layout.sources) or "none"}')
        if name not in given:
            raise KpnError(f'the source `{name}` is given no items: give [] if it has none')
    return given


def is_wav(given: Any) -> bool:
    """Whether this is a WAV file, or the name of one."""
    is_named = isinstance(given, (str, os.PathLike)) and str(os.fspath(given)).lower().endswith('.wav')
    return is_named or isinstance(given, Wav)


def wav_of(given: Any) -> Wav:
    """A WAV file that may be given by its name. One that is a pipe or a device is refused, since it may never end."""
    if isinstance(given, Wav):
        return given
    path = os.fspath(given)
    if os.path.exists(path) and not (os.path.isfile(path) or os.path.isdir(path)):
        raise KpnError(f'{path} is no plain file, and may come later than the timeout: read it before the run, by '
                       f'`kpn.Wav({path!r})`')
    return Wav(path)


def by_channel(layout: Layout, wav: Wav) -> Dict[str, Any]:
    """The channels of a WAV file by the sources that have their numbers."""
    count = len(layout.sources)
    if len(wav) != count:
        remedy = f'give a dict, as {{{layout.sources[0]!r}: kpn.Wav({wav.path!r})[0]}}' if count else 'give no inputs'
        raise KpnError(f'{wav.path} has {len(wav)} channel{"s" * (len(wav) > 1)}, and the network {count} '
                       f'source{"s" * (count != 1)}: {remedy}')
    return dict(zip(layout.sources, wav))


def scaled_by_name(given: Dict[str, Items], scale: Union[None, int, Mapping[str, int]]) -> Dict[str, Items]:
    """The items of each source, scaled if they have a scale and stand in no file of items."""
    if scale is None:
        return given
    scales = scale if isinstance(scale, collections.abc.Mapping) else dict.fromkeys(given, scale)
    checked = {name: checked_scale(it) for name, it in scales.items()}
    for name in checked:
        if name not in given:
            raise KpnError(f'a scale is given for `{name}`: the network has the sources {", ".join(given) or "none"}')
    return {name: items if isinstance(items, os.PathLike) or name not in checked else scaled(name, items, checked[name])
            for name, items in given.items()}


def file_of(folder: str, name: str, items: Items) -> str:
    """The file with the items of a source: the given one, or one in the folder."""
    if isinstance(items, os.PathLike):
        return os.path.abspath(items)
    pathlib.Path(folder, f'{name}.source').write_bytes(lines_of(name, items))
    return f'{name}.source'


def numbers_of(name: str, items: Iterable[float]) -> array.array[int]:
    """These items of a source as an array of 64 bits."""
    check_shape(name, items)
    given = listed(name, items, 'whole numbers')
    try:
        return array.array('q', given)
    except (TypeError, OverflowError):
        return array.array('q', [item_of(name, place, it) for place, it in enumerate(given)])


def lines_of(name: str, items: Iterable[float]) -> bytes:
    """The lines that an item file has for these items of a source."""
    values = numbers_of(name, items)
    # One format for all takes half the time of a call for each.
    return b'%d\n' * len(values) % tuple(values)


def item_of(name: str, place: int, given: Any) -> int:
    """An item of a source at this place. A number with nothing after its point is a whole one."""
    number = index_of(given)
    if number is None:
        is_finite = isinstance(given, numbers.Rational) or isinstance(given, numbers.Real) and math.isfinite(given)
        if not is_finite or int(given) != given:
            remedy = ': `kpn.Q` makes some of fractions, and so does `scale=` of a run' if is_finite else ''
            raise TypeError(f'item {place} of the source `{name}` is {given!r}, and items have to be whole numbers'
                            f'{remedy}')
        number = int(given)
    if not -LARGEST - 1 <= number <= LARGEST:
        raise KpnError(f'item {place} of the source `{name}` is {given!r}, out of range: '
                       'it has to be from -2^63 to 2^63 - 1')
    return number


def index_of(given: Any) -> Optional[int]:
    """What something is as an index, if it is one. A row of an array of NumPy has the method, and is none."""
    try:
        return int(operator.index(given))
    except TypeError:
        return None


def items_of(lines: bytes) -> List[int]:
    """The items of an item file that `kpn` has written."""
    # As JSON they are read in half the time.
    found: List[int] = json.loads(b'[' + lines.rstrip().replace(b'\n', b',') + b']')
    return found


def maker_of(given: Mapping[str, Items]) -> Callable[[List[int]], Any]:
    """What makes of a list what the sinks shall be: an array if one was given."""
    for items in given.values():
        if isinstance(items, array.array):
            return functools.partial(array.array, 'q')
        if is_numpy(items):
            return functools.partial(numpy().array, dtype=numpy().int64)
    return list


def refusal(done: subprocess.CompletedProcess[str], layout: Layout, given: Mapping[str, Items],
            program: Program, timeout: Optional[float] = None) -> KpnError:
    """Why a run was refused, in the words of `kpn explain` if it has some."""
    error = failure(done)
    number = int((error.error or '0').split()[0])
    if number in OF_TEXT:
        return layout.error(program, timeout) or error
    files = {name: os.fspath(items) for name, items in given.items() if isinstance(items, os.PathLike)}
    for name, file in files.items() if number in OF_ITEMS else ():
        said = call(['explain', os.path.abspath(file), '--items'], program, timeout=timeout)
        if said.returncode:
            return KpnError(f'the source `{name}`: {said.stdout or said.stderr}'.rstrip(), error=error.error)
    return error
