"""Finds the program `kpn`, calls it, and tells why it refused something."""
from __future__ import annotations

import os
import pathlib
import re
import shutil
import subprocess
import sys
import tempfile
from typing import Callable, Dict, List, Mapping, NoReturn, Optional, Sequence, Union

from .errors import KpnError, Spot, whole
from .ranks import SETTINGS

# The path of the program `kpn`; None stands for the one that is found.
Program = Union[None, str, 'os.PathLike[str]']
VARIABLE = 'KPN_PROGRAM'
HERE = pathlib.Path(__file__).resolve()
# The program inside a wheel, the one of the repository around the package, and the one there that is built without
# proofs, which has to be named.
INSIDE = HERE.parent / 'bin/kpn'
BUILT, UNPROVED = HERE.parents[2] / 'crates/kpn/out/kpn', HERE.parents[2] / 'out/unproved/kpn'
# The most seconds that Graphviz may take for a picture.
DRAWING = 60
TUNABLES = 'glibc.malloc.hugetlb=1:glibc.malloc.mmap_threshold=4194304'
# The name under which a text is explained, and the first line of an explanation.
NAME = 'text.kpn'
# The options that are numbers from 1 on, and the largest ones.
MOST = {'take': 10**9, 'workers': 16, 'max_commits': 10**9}
EXPLANATION = re.compile(re.escape(NAME) + r":(\d+):(\d+): (.*?(?: \[(.*)\])?)$")
ERROR = re.compile(r'kpn: ((\d+) \w+(?: at \d+)?)$', re.M)


def find_program(given: Program = None) -> str:
    """The path of the program `kpn`: the given one, that of the variable KPN_PROGRAM, the one inside this package, that
    of the repository around it, or that of the PATH. Raises KpnError if there is none, or if a path that is named leads
    to no program.
    """
    for path, whose in ((given, 'the one that was given'), (os.environ.get(VARIABLE), f'that of {VARIABLE}')):
        if path:
            if not os.access(path, os.X_OK) or os.path.isdir(path):
                raise KpnError(f'{path} is no program: {whose} has to be the program `kpn`')
            return os.path.abspath(path)
    for path in (INSIDE, BUILT):
        if os.access(path, os.X_OK):
            return str(path)
    found = shutil.which('kpn')
    if not found:
        is_there = os.access(UNPROVED, os.X_OK)
        other = f', such as the unproved one, {UNPROVED},' if is_there else ''
        raise KpnError(f'there is no program `kpn`: build it by `./kpn` in its repository, or name one{other} by '
                       f'{VARIABLE}')
    return found


def environment() -> Dict[str, str]:
    """The environment of the program, as the launcher sets it: huge pages make long runs some tenth shorter, and lists
    that grow in maps of their own leave no holes. Runs over ranks have some settings more."""
    return {'GLIBC_TUNABLES': TUNABLES, **SETTINGS, **os.environ}


def main() -> NoReturn:
    """The command `kpn` of a wheel that has the program inside: becomes that program, or the module here that has the
    command."""
    words = sys.argv[1:]
    how = words[:2] if words[:1] == ['--words'] else []
    if words[len(how):][:1] == ['compile']:
        module = ['kpn.native', *how, *words[len(how) + 1:]]
    elif words[:1] == ['print'] and any(it.startswith('--capacities') for it in words):
        module = ['kpn', *words]
    else:
        os.execve(INSIDE, ['kpn', *words], environment())
    os.execve(sys.executable, [sys.executable, '-m', *module], environment())


def call(words: Sequence[str], program: Program = None, folder: Optional[str] = None,
         timeout: Optional[float] = None, is_kpn: bool = True) -> subprocess.CompletedProcess[str]:
    """Calls `kpn`, or a program without its option `--words`, with these words in a folder, and gives what it wrote and
    its status. `kpn` tells errors in words, with file, line and column."""
    path = find_program(program)
    how = ['--words', 'always'] if is_kpn else []
    try:
        return subprocess.run([path, *how, *words], cwd=folder, env=environment(), timeout=timeout,
                              stdin=subprocess.DEVNULL, capture_output=True, encoding='utf-8', errors='replace')
    except subprocess.TimeoutExpired:
        raise KpnError(f'`kpn {words[0]}` had not ended after {timeout} seconds') from None
    except OSError as error:
        raise KpnError(f'{error.filename or path} does not run: {error.strerror}') from None


def words_of(**options: Optional[int]) -> List[str]:
    """The words of a command line for the options that are given."""
    given = {name: whole(f'`{name}`', value, 1, MOST[name]) for name, value in options.items() if value is not None}
    return [word for name, value in given.items() for word in (f'--{name.replace("_", "-")}', str(value))]


def answer(command: str, text: str, *words: str, program: Program = None) -> str:
    """What a command of `kpn` writes of a text; the words are those after the name of its file."""
    with tempfile.TemporaryDirectory(prefix='kpn-') as folder:
        (pathlib.Path(folder) / NAME).write_bytes(text.encode())
        done = call([command, NAME, *words], program, folder)
    if done.returncode:
        raise failure(done)
    return done.stdout


def draw_svg(dot: str) -> Optional[str]:
    """A graph as a picture, if Graphviz is there and makes one."""
    try:
        done = subprocess.run(['dot', '-Tsvg'], input=dot, capture_output=True, text=True, timeout=DRAWING)
    except (OSError, subprocess.TimeoutExpired):
        return None
    return done.stdout if done.returncode == 0 else None


def failure(done: subprocess.CompletedProcess[str]) -> KpnError:
    """The error of a call that failed, as `kpn` tells it."""
    error, status, told = ERROR.search(done.stderr), done.returncode, done.stderr.strip()
    how = f'was killed by signal {-status}' if status < 0 else f'failed with status {status}'
    message = f'`kpn` {how}: {told}' if told else f'`kpn` {how}'
    return KpnError(message, error=error[1] if error else None)


def as_bytes(text: str) -> bytes:
    """A text as the bytes of its file. What no file can have becomes something that is no token."""
    return text.encode(errors='surrogatepass')


def explain(text: str, spot_of: Callable[[int], Spot], program: Program = None,
            advice: Optional[Mapping[str, str]] = None, timeout: Optional[float] = None) -> Optional[KpnError]:
    """What `kpn explain` says of a wrong text, with its places shown where `spot_of` says; None of a right one.

    `advice` has by the name of an error what to advise in place of the last line, if the user has not seen the text.
    """
    data = as_bytes(text)
    with tempfile.TemporaryDirectory(prefix='kpn-') as folder:
        (pathlib.Path(folder) / NAME).write_bytes(data)
        done = call(['explain', NAME], program, folder, timeout)
    if done.returncode == 0:
        return None
    lines, shown, place, error = done.stdout.splitlines(), [], None, None
    while lines:
        line = lines.pop(0)
        found = EXPLANATION.match(line)
        if not found:
            shown.append(line)
            continue
        before = data.split(b'\n')[:int(found[1])]
        before[-1] = before[-1][:int(found[2]) - 1]
        # Each character has one byte that does not go on with another one.
        spot = spot_of(sum(byte & 0xC0 != 0x80 for byte in b'\n'.join(before)))
        shown += spot.show(found[3])
        place, error = place or spot.place(), error or found[4]
        del lines[:2]
    name = error.split()[1] if error else ''
    if advice and name in advice:
        shown[-1] = advice[name]
    return KpnError('\n'.join(shown), place=place, error=error) if place else failure(done)
