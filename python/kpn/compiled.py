"""Networks compiled to programs by `kpn.native`, and kept in a folder for later calls."""
from __future__ import annotations

import contextlib
import functools
import os
import pathlib
import sys
import tempfile
import threading
from typing import TYPE_CHECKING, Any, Callable, Dict, Iterator, Optional, Union

from . import running
from .arrays import unmasked
from .errors import LARGEST, KpnError, whole
from .native import command
from .native.live import CompiledLive
from .native.loaded import Loaded
from .program import Program, answer, find_program, words_of
from .result import Result

if TYPE_CHECKING:
    from .network import Network

# The seconds until a line says that a compiler is at work.
PATIENCE = 2
# Where programs are kept; None stands for the folder `kpn` of the user's cache.
Cache = Union[None, str, 'os.PathLike[str]']


class Compiled:
    """A network as a program of which nothing is proved. `run` gives what `net.run` gives, in less time.

    A run goes on in this process, and reads arrays of 64 bits where they lie; the sinks of NumPy arrays are arrays of
    the memory that the run has filled. With a trace, a timeout, a file of items or to be judged it is a process of its
    own, which is compiled when it is first needed, as by `path`. Each `certify_each`-th run is judged as by
    `certify=True`, if that is not 0.
    """

    def __init__(self, net: Network, path: str, c: Callable[[], str], program: Program = None, certify_each: int = 0):
        self.net, self.certify_each, self.runs = net, whole('`certify_each`', certify_each), 0
        self._layout, self._path, self._c, self._program = net.layout(), path, c, program
        self._loaded: Optional[Loaded] = None

    @property
    def path(self) -> str:
        """The path of the program."""
        if not os.path.exists(self._path):
            build(self._c(), find_program(self._program), pathlib.Path(self._path))
        return self._path

    def __getstate__(self) -> Dict[str, Any]:
        return {**vars(self), '_loaded': None}

    def __repr__(self) -> str:
        return f'<Compiled {self._path}>'

    def run(self, inputs: running.Inputs = None, *, certify: bool = False, **options: Any) -> Result:
        """Runs the network on these items; the options are those of `net.run`, without workers. Without `max_commits`
        a run has no limit.

        With `certify=True` the proved `kpn` judges the events of the run. `result.certified` says what it found, and
        KpnError that it does not confirm the run.
        """
        self.runs += 1
        is_judged = certify or bool(self.certify_each and self.runs % self.certify_each == 0)
        given = {name: unmasked(items) for name, items in running.by_name(self._layout, inputs).items()}
        is_own = is_judged or set(options) - {'take', 'max_commits'} or any(isinstance(it, os.PathLike)
                                                                            for it in given.values())
        if is_own:
            words = ['run', *(['--certify'] if is_judged else [])]
            return running.run(self.net, given, runner=(self.path, words), program=self._program, **options)
        words_of(**options)
        return self._shared().run(given, options.get('take') or 0, options.get('max_commits') or LARGEST)

    def stream(self) -> CompiledLive:
        """A run in this process that is fed and read while it goes on, as one of `net.stream()`."""
        return CompiledLive(self._shared().library, self._layout)

    def _shared(self) -> Loaded:
        """The network as a shared object."""
        if self._loaded is None:
            path = pathlib.Path(f'{self._path}.so')
            if not path.exists():
                build(self._c(), None, path)
            self._loaded = Loaded(str(path), self._layout)
        return self._loaded


def compile_network(net: Network, *, schedule: str = command.SCHEDULES[0], cache: Cache = None, certify_each: int = 0,
                    program: Program = None) -> Compiled:
    """Compiles a network, unless the cache has the program of the same text, generator and compiler.

    `schedule` is `fuse`, `batch` or `kpn`, as of `kpn compile`. Raises KpnError for another one, for a network that is
    not right, and if the C compiler fails.
    """
    if schedule not in command.SCHEDULES:
        raise KpnError(f'`schedule` is {schedule!r}: it has to be one of {", ".join(command.SCHEDULES)}')
    net.check_limits()
    path = find_program(program)
    try:
        canonical = answer('print', str(net), program=program)
    except KpnError as error:
        raise net.layout().error(program) or error from None
    folder = pathlib.Path(cache) if cache else command.default_cache()
    folder.mkdir(parents=True, exist_ok=True)
    found, c = folder / key_of(canonical, schedule, path), functools.partial(command.c_of, canonical, schedule)
    made = Compiled(net, str(found), c, program, certify_each)
    made._shared()
    return made


@contextlib.contextmanager
def progress() -> Iterator[None]:
    """Says on a terminal that a compiler is at work, if it is so for some seconds."""
    say = threading.Timer(PATIENCE, lambda: sys.stderr.write('kpn: the C compiler is at work\n'))
    if sys.stderr.isatty():
        say.start()
    try:
        yield
    finally:
        say.cancel()


def build(text: str, program: Optional[str], path: pathlib.Path) -> None:
    """Compiles C beside the place of the program, and puts the program there once it is whole; without the path of
    `kpn` a shared object."""
    with tempfile.TemporaryDirectory(prefix='kpn-', dir=path.parent) as folder, progress():
        made = os.path.join(folder, 'program')
        try:
            status = command.build(text, program, made) if program else command.build_shared(text, made)
        except FileNotFoundError as error:
            raise KpnError(f'there is no C compiler `{error.filename}`: install one, or name it by CC') from None
        if status:
            raise KpnError('the C compiler has refused the network; what it says stands on standard error')
        os.replace(made, path)


def key_of(canonical: str, schedule: str, program: str) -> str:
    """The name of a program by all that it is made from."""
    sources = sorted(it for it in pathlib.Path(command.__file__).parent.rglob('*') if it.suffix in ('.py', '.c', '.h'))
    return command.digest_of(canonical.encode(), schedule.encode(), program.encode(),
                             ' '.join(command.compiler()).encode(), command.version_of_compiler(),
                             *(it.read_bytes() for it in sources))
