"""What crates.txt says of the crates, and how to call the prover for one of them: in the words that `rt` uses, but over
libraries in a folder of the caller's. `build.py` and `gate.py` use it.
"""
import os
import pathlib
import subprocess
import sys

PARTS = ('src', 'specs', 'proofs')
TARGET = 'x86_64-unknown-linux-gnu'


def find_kit():
    """The kit's folder, which has the page that `rt doc` names. Without one the program ends with a line that says so.
    """
    try:
        done = subprocess.run(['rt', 'doc'], capture_output=True, text=True)
        page, why = pathlib.Path(done.stdout.strip()), done.stderr.strip().rpartition('\n')[2] or 'it names no page'
        if done.returncode == 0 and page.is_file():
            return page.parent
        why = f'status {done.returncode}: {why}'
    except OSError as error:
        why = error.strerror
    except KeyboardInterrupt:
        print('\nkpn: interrupted', file=sys.stderr)
        sys.exit(130)
    sys.exit(f'kpn: the Rattle toolchain does not run: `rt doc`: {why}')


def end_with(main):
    """A failing file, a failing program or an interrupt is told in a line."""
    try:
        status = main()
        if sys.stdout:
            sys.stdout.flush()
    except OSError as error:
        # What is still to be written goes nowhere: it would fail again.
        os.dup2(os.open(os.devnull, os.O_WRONLY), 1)
        status = f'kpn: {error.filename or "a file"}: {error.strerror or error}'
    except subprocess.CalledProcessError as error:
        status = '\n'.join(filter(None, [error.stderr, f'kpn: {error.cmd[0]} ended with status {error.returncode}']))
    except KeyboardInterrupt:
        print('\nkpn: interrupted', file=sys.stderr)
        status = 130
    sys.exit(status)


def could_not(error):
    """The line about a file or a folder that could not be read or written."""
    return f'kpn: it could not be built: {error.filename or "a file"}: {error.strerror or error}'


class Crate:
    """A crate, the libraries that its line names (its own `direct` ones, and the kit's), and all crates below it."""

    def __init__(self, folder, uses, direct):
        self.name, self.folder, self.uses, self.direct = folder.name, folder, uses, direct
        self.below = list(dict.fromkeys(it for low in direct for it in [*low.below, low]))
        self.is_program, self.is_static = (folder / 'src/main.rt').exists(), False

    def sources(self):
        return [file for part in PARTS for file in (self.folder / part).rglob('*')]


def read_crates(top, kind=Crate):
    """The crates of a repository by their names, each after those below it."""
    rows = [row.partition('#')[0].partition(':') for row in (top / 'crates.txt').read_text().splitlines()]
    heads = [head.split() for head, _, _ in rows if head.strip()]
    rows = {head.split()[0]: uses.split() for head, _, uses in rows if head.strip()}
    found = {}

    def add(name):
        if name not in found:
            direct = [add(it) for it in rows[name] if it in rows]
            found[name] = kind(top / 'crates' / name, rows[name], direct)
        return found[name]

    for name, *kind_of_library in heads:
        add(name).is_static = 'staticlib' in kind_of_library
    return found


def needed_by(crates):
    """The files and folders that a program over these crates is made from, below the top."""
    parts = [f'crates/{it.name}/{part}' for it in crates for part in PARTS if (it.folder / part).is_dir()]
    return ['crates.txt', *parts]


def is_current(made, needed, top):
    """Whether all that the file `needed` names, below the top, is there and no newer than what was made from it."""
    if not made.exists() or not needed.exists():
        return False
    parts = [top / part for part in needed.read_text().splitlines()]
    return all(it.exists() and it.stat().st_mtime <= made.stat().st_mtime
               for part in parts for it in [part, *part.rglob('*')])


def words_of(verb, crate, kit, libraries, *more):
    own, static = {it.name for it in crate.below}, ['--crate-type', 'staticlib'] if crate.is_static else []
    words = [kit / 'bin/rattle', verb, '--crate-name', crate.name, f'src/{"main" if crate.is_program else "lib"}.rt']
    words += static
    for name in ['std', *crate.uses]:
        words += ['--extern', f'{name}={libraries if name in own else kit / "rlibs"}/{name}.rlib']
    words += ['-L', f'dependency={kit}/rlibs', '-L', f'dependency={libraries}', '--links', f'{crate.name}=']
    return list(map(str, [*words, '--antt-project', kit / 'rattle/logic/antt-project.json', *more]))


def link_words(kit, made, program):
    words = [kit / 'bin/rattle-link', '--target', TARGET, '--toolchain', kit / 'toolchain', '-o', program, made]
    return list(map(str, [*words, kit / 'c/libos_c.a', kit / 'c/liblibc_c.a']))
