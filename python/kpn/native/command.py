"""The command `kpn compile`: a network as a program."""
from __future__ import annotations

import argparse
import hashlib
import os
import pathlib
import re
import shlex
import subprocess
import sys
import tempfile
from typing import List, Optional, Sequence, Tuple

from ..errors import KpnError
from ..language import LARGEST_CAPACITY, Reader
from ..program import call, find_program
from . import prefixed, sizes
from .network_text import NetworkText

RUNTIME = pathlib.Path(__file__).resolve().parent / 'runtime'
# Of the runtime, and of kpn.h.
HEADERS = (RUNTIME, RUNTIME.parents[3] / 'include')
# What a library has of the runtime, and what one with static memory has; a program has neither session.
LIBRARY = ('history.c', 'lock.c', 'network.c', 'regions.c', 'rings.c', 'session.c', 'session_memory.c',
           'session_tell.c', 'vectors.c')
FIXED = ('fixed.c', 'lock.c', 'network.c', 'regions.c', 'session.c', 'session_tell.c')
SESSION = ('fixed.c', 'lock.c', 'session.c', 'session_memory.c', 'session_tell.c')
# What a shared object has beside the runtime of a program.
SHARED = ('arrays.c', 'live.c')
# The schedules, from the usual one to that of `kpn run`.
SCHEDULES = ('fuse', 'batch', 'kpn')
# The statuses of wrong words, and if the C compiler fails, as that of the launcher if a build fails.
USAGE, FAILED = 2, 70
NEWLINE = b'\n'
FLAGS = ['-std=c11', '-O2', '-Wall', '-Wextra']
MAIN = '''
extern int kpn_main(const struct kpn_plan *plan, const char *program, int count, char **words);
int main(int count, char **words) {{ return kpn_main(&kpn_plan, "{program}", count, words); }}
'''


class Unlimited(KpnError):
    """Static memory is asked for, and the description sets no limit."""


def c_of(canonical: str, schedule: str, given: bytes = b'', fixed: int = 0, is_session: bool = False) -> str:
    """The C of a network, from its canonical text, for a program or for a session; it knows the given text too. With
    static memory, that many items may wait at each source."""
    description = Reader(canonical).description()
    if fixed and 'limit' not in description.settings:
        raise Unlimited('--fixed wants `limit N;` in the network, the most that a capacity may become')
    network = NetworkText(canonical, given, description, schedule, fixed, is_session or fixed > 0)
    return '\n'.join(network.lines()) + '\n'


def compiler(words: Sequence[str] = ()) -> List[str]:
    """The C compiler with its flags: these words, or else CC and CFLAGS, or else `cc` with the usual flags."""
    flags = os.environ.get('CFLAGS')
    usual = [*shlex.split(os.environ.get('CC', 'cc')), *(FLAGS if flags is None else shlex.split(flags))]
    return [*(words or usual), *(f'-I{folder}' for folder in HEADERS)]


def compile_runtime(folder: str, words: Sequence[str] = ()) -> List[str]:
    """Compiles the runtime, by a compiler of its own if there are words for it, and gives its object files: for callers
    that compile many networks."""
    objects = []
    for source in runtime_sources():
        objects.append(str(pathlib.Path(folder, f'{source.stem}.o')))
        subprocess.run([*compiler(words), '-c', str(source), '-o', objects[-1]], check=True)
    return objects


def runtime_sources() -> List[pathlib.Path]:
    """The C files of the runtime of a program."""
    return sorted(it for it in RUNTIME.glob('*.c') if it.name not in (*SESSION, *SHARED))


def version_of_compiler() -> bytes:
    """What the compiler says of itself; nothing if it is not there."""
    try:
        return subprocess.run([compiler()[0], '--version'], capture_output=True, check=False).stdout
    except OSError:
        return b''


def digest_of(*parts: bytes) -> str:
    """A name for what is made from these parts."""
    digest = hashlib.sha256()
    for part in parts:
        digest.update(hashlib.sha256(part).digest())
    return digest.hexdigest()[:32]


def default_cache() -> pathlib.Path:
    """The folder `kpn` of the user's cache."""
    return pathlib.Path(os.environ.get('XDG_CACHE_HOME') or pathlib.Path.home() / '.cache') / 'kpn'


def kept_runtime(flag: str, more: Sequence[pathlib.Path]) -> List[str]:
    """The runtime and these sources as one object, compiled with this flag: once for each compiler, and kept in the
    user's cache. Where that can't be written it is the sources."""
    sources = [*runtime_sources(), *more]
    headers = [it.read_bytes() for folder in HEADERS for it in sorted(folder.glob('*.h'))]
    name = digest_of(' '.join([*compiler(), flag]).encode(), version_of_compiler(), *headers,
                     *(it.read_bytes() for it in sources))
    made = default_cache() / f'runtime-{name}.o'
    try:
        made.parent.mkdir(parents=True, exist_ok=True)
        if not made.exists():
            with tempfile.TemporaryDirectory(prefix='kpn-', dir=made.parent) as folder:
                if join([str(it) for it in sources], f'{folder}/runtime.o', [flag], folder):
                    return list(map(str, sources))
                os.replace(f'{folder}/runtime.o', made)
    except OSError:
        return list(map(str, sources))
    return [str(made)]


def join(sources: Sequence[str], out: str, flags: Sequence[str], folder: str) -> int:
    """Compiles C files to one object, by way of others in a folder; gives the status of the compiler."""
    words = [*compiler(), *flags]
    status = subprocess.run([*words, '-c', *map(os.path.abspath, sources)], cwd=folder, check=False).returncode
    objects = [f'{folder}/{pathlib.Path(it).stem}.o' for it in sources]
    return status or subprocess.run([*words, '-r', '-nostdlib', *objects, '-o', out], check=False).returncode


def is_gcc() -> bool:
    """Whether the compiler tells frames and calls."""
    return subprocess.run([*compiler(), sizes.GRAPH, '-x', 'c', '-E', '-o', '/dev/null', '/dev/null'],
                          check=False, stderr=subprocess.DEVNULL).returncode == 0


def tell_sizes(made: pathlib.Path, folder: pathlib.Path) -> None:
    """Writes how large an object is."""
    found = sizes.sections_of(made.read_bytes())
    stack = sizes.stack_of(folder.glob('*.ci'))
    print(f'{found["code"]} bytes of code and constants, {found["memory"]} bytes of memory, '
          + (f'{stack} bytes of stack in a call at most' if stack else 'and a stack that only gcc tells'))


def build(text: str, program: str, out: str, runtime: Sequence[str] = ()) -> int:
    """Compiles the C of a network, with the runtime, to a program; gives the status of the compiler."""
    escaped = program.replace('\\', '\\\\').replace('"', '\\"')
    with tempfile.TemporaryDirectory(prefix='kpn-') as folder:
        source = pathlib.Path(folder, 'network_of.c')
        source.write_text(text + MAIN.format(program=escaped))
        words = [*compiler(), str(source), *(runtime or kept_runtime('-pthread', [])), '-pthread', '-o', out]
        return subprocess.run(words, check=False).returncode


def build_shared(text: str, out: str) -> int:
    """Compiles the C of a network to a shared object that runs on arrays; gives the status of the compiler."""
    with tempfile.TemporaryDirectory(prefix='kpn-') as folder:
        source = pathlib.Path(folder, 'network_of.c')
        source.write_text(text)
        runtime = kept_runtime('-fPIC', [RUNTIME / it for it in SHARED])
        words = [*compiler(), '-shared', '-fPIC', str(source), *runtime, '-pthread', '-o', out]
        return subprocess.run(words, check=False).returncode


def of_fixed(text: str) -> Tuple[Sequence[str], List[str]]:
    """The runtime of a network in static memory, without what that does not use, and flags for it."""
    unused = {file: flag for file, flag, table in (('regions.c', '-DKPN_NO_REGIONS', 'struct kpn_region_plan regions[]'),
                                                   ('lock.c', '-DKPN_NO_LOCK', 'struct kpn_lock_plan lock_plan'))
              if table not in text}
    return [name for name in FIXED if name not in unused], ['-DKPN_FIXED', *unused.values()]


def build_library(text: str, out: str, is_fixed: bool = False, prefix: str = '', tells_sizes: bool = False) -> int:
    """Compiles the C of a network to one object with the calls of a session, with a prefix also a header for it beside
    it. Two objects in one program are an error of the linker, unless they have different prefixes."""
    names, flags = of_fixed(text) if is_fixed else (LIBRARY, ['-fPIC'])
    with tempfile.TemporaryDirectory(prefix='kpn-') as folder:
        source, renames = pathlib.Path(folder, 'network_of.c'), pathlib.Path(folder, 'renames.h')
        source.write_text(text)
        if prefix:
            renames.write_text(prefixed.renames(prefix, [RUNTIME / it for it in names]))
            flags += ['-include', str(renames)]
            pathlib.Path(out).with_name(f'{prefix}.h').write_text(prefixed.header(prefix, is_fixed, HEADERS))
        flags += ['-ffunction-sections', *([sizes.GRAPH] if tells_sizes and is_gcc() else [])]
        sources = [str(source), *(str(RUNTIME / name) for name in names)]
        status = join(sources, out, flags, folder)
        if tells_sizes and not status:
            tell_sizes(pathlib.Path(out), pathlib.Path(folder))
        return status


def parser_of_words() -> argparse.ArgumentParser:
    """The reader of the command line."""
    parser = argparse.ArgumentParser(prog='kpn compile', description='Compiles a network to a program. '
                                     'Nothing is proved of it, but `kpn` can judge each of its runs.')
    parser.add_argument('file', metavar='FILE', help='the file of the description')
    parser.add_argument('-o', dest='out', required=True, metavar='PROGRAM', help='the program to make')
    parser.add_argument('--schedule', choices=SCHEDULES, default=SCHEDULES[0],
                        help='the order of turns: whole periods of regions and long turns (the usual one), long turns '
                        'only, or the commits of `kpn run`')
    parser.add_argument('--library', action='store_true',
                        help='make an object with the session of kpn.h in place of a program')
    parser.add_argument('--fixed', type=items_of, default=0, metavar='ITEMS',
                        help='make such an object with static memory, where ITEMS items may wait at each source; '
                        'the description has to set a limit')
    parser.add_argument('--prefix', type=prefix_of, metavar='NAME',
                        help='begin the calls of such an object with NAME_ in place of kpn_, and make NAME.h beside '
                        'it: so a program may have several')
    parser.add_argument('--sizes', action='store_true',
                        help='write how much code, memory and stack an object with static memory takes')
    parser.add_argument('--c', action='store_true', help='write the C of the network in place of a program')
    parser.add_argument('--words', choices=('always', 'never', 'terminal'), default='always',
                        help='when a refused description is explained in words, beside the line of `kpn`')
    return parser


def main(words: Optional[List[str]] = None) -> int:
    """Does what the words ask, and gives the status."""
    parser = parser_of_words()
    given = parser.parse_args(words)
    if given.prefix and not (given.library or given.fixed):
        parser.error('--prefix NAME is for --library and --fixed')
    if given.sizes and not given.fixed:
        parser.error('--sizes is for --fixed')
    try:
        return compile_file(given)
    except Unlimited as error:
        told, status = str(error), USAGE
    except FileNotFoundError as error:
        told, status = f'there is no file or program {error.filename}; a C compiler is named by CC', FAILED
    except (OSError, KpnError) as error:
        told, status = str(error), FAILED
    sys.stderr.write(f'kpn: {told}\n')
    return status


def compile_file(given: argparse.Namespace) -> int:
    """Compiles the file of a description, and gives the status."""
    program = find_program()
    has_words = given.words == 'always' or (given.words == 'terminal' and sys.stderr.isatty())
    printed = call(['--words', 'always' if has_words else 'never', 'print', given.file], program, is_kpn=False)
    if printed.returncode:
        sys.stderr.write(printed.stderr)
        return printed.returncode
    beside = pathlib.Path(given.file).read_bytes()
    try:
        text = c_of(printed.stdout, given.schedule, beside, given.fixed, given.library)
    except Unlimited as error:
        raise Unlimited(f'usage: {place_of_network(given.file, beside)}: {error}') from None
    if given.c:
        pathlib.Path(given.out).write_text(text)
        return 0
    if given.library or given.fixed:
        failed = build_library(text, given.out, given.fixed > 0, given.prefix or '', given.sizes)
    else:
        failed = build(text, program, given.out)
    if failed:
        sys.stderr.write(f'kpn: the C compiler `{compiler()[0]}` has failed; CC and CFLAGS name another one\n')
    return FAILED if failed else 0


def place_of_network(file: str, text: bytes) -> str:
    """The file, line and column where the network of a description begins. It comes last."""
    at = [it.start() for it in re.finditer(rb'\bnetwork\b', text)][-1]
    return f'{file}:{text.count(NEWLINE, 0, at) + 1}:{at - text.rfind(NEWLINE, 0, at)}'


def items_of(word: str) -> int:
    """A number of items in static memory."""
    if not word.isdecimal() or not 1 <= int(word) <= LARGEST_CAPACITY:
        raise argparse.ArgumentTypeError(f'a number from 1 to {LARGEST_CAPACITY}, and not {word}')
    return int(word)


def prefix_of(word: str) -> str:
    """A name that calls may begin with."""
    if not re.fullmatch('[A-Za-z][A-Za-z0-9_]*', word) or word.lower().startswith('kpn'):
        raise argparse.ArgumentTypeError(f'a name of C that does not begin with kpn, and not {word}')
    return word
