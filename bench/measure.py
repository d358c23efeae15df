"""What the scripts that measure whole programs share: one run of a program, and the builds of programs for it."""
import argparse
import os
import pathlib
import re
import shutil
import subprocess
import sys
import tempfile
import time

TOP = pathlib.Path(__file__).resolve().parent.parent
# The libraries that the program of bench/parts uses.
PARTS_USE = ('kpn_limits kpn_lang kpn_net kpn_cycle kpn_history kpn_step kpn_chan kpn_audit kpn_book kpn_trace kpn_text '
             'kpn_shelf kpn_command_base kpn_pool_desk kpn_pool anyhow')


class Run:
    """One run of a program on this input: its seconds on the processors and on the clock, its peak memory in bytes, and
    what it wrote."""

    def __init__(self, words, environment=None, given=''):
        with tempfile.TemporaryFile() as input, tempfile.TemporaryFile() as out, tempfile.TemporaryFile() as told:
            input.write(given.encode())
            input.seek(0)
            started = time.monotonic()
            child = subprocess.Popen(words, stdin=input, stdout=out, stderr=told, env=environment)
            _, status, usage = os.wait4(child.pid, 0)
            self.elapsed = time.monotonic() - started
            child.returncode = os.waitstatus_to_exitcode(status)
            out.seek(0)
            told.seek(0)
            self.wrote, self.told = out.read().decode(), told.read().decode()
        if child.returncode != 0:
            sys.exit(f'{" ".join(map(str, words))} ended with {child.returncode}: {self.told}')
        self.seconds = usage.ru_utime + usage.ru_stime
        self.memory = usage.ru_maxrss * 1024


def asked(about, words, options=()):
    """What the command line asks for: these words in their order and these options, each of the kind of its default.
    The default of a word that may come many times is a list, and that of an option with no value is False."""
    parser = argparse.ArgumentParser(description=about, formatter_class=argparse.RawDescriptionHelpFormatter)
    for name, default in words.items():
        many = isinstance(default, list)
        parser.add_argument(name, nargs='*' if many else '?', type=type(default[0] if many else default),
                            default=default)
    for name, default in dict(options).items():
        kind = {'action': 'store_true'} if default is False else {'type': type(default), 'default': default}
        parser.add_argument(f'--{name}', **kind)
    return parser.parse_args()


def best(runs):
    """The run that took the least time."""
    return min(runs, key=lambda run: run.seconds)


def fastest(commands, runs):
    """The run of each command line that took the least time on the clock, by name. They take turns."""
    found = {name: [] for name in commands}
    for _ in range(runs):
        for name, words in commands.items():
            found[name].append(Run(words))
    return {name: min(tried, key=lambda run: run.elapsed) for name, tried in found.items()}


def side_by_side(words, count, runs):
    """The least time on the clock of this many runs of this command line that start at once."""
    found = []
    for _ in range(runs):
        started = time.monotonic()
        children = [subprocess.Popen(words, stdout=subprocess.DEVNULL) for _ in range(count)]
        if any([child.wait() for child in children]):
            sys.exit(f'{" ".join(map(str, words))} failed beside others')
        found.append(time.monotonic() - started)
    return min(found)


def kpn():
    """The program to measure. It is built if it is not current. All programs then take memory as the launcher has it."""
    launcher = TOP / 'kpn'
    subprocess.run([launcher, '--version'], check=True, stdout=subprocess.DEVNULL)
    tunables = re.search(r'GLIBC_TUNABLES-([^}]+)', launcher.read_text())[1]
    os.environ.setdefault('GLIBC_TUNABLES', tunables)
    return TOP / 'crates/kpn/out/kpn'


def newest(files):
    """When the newest of these files was changed."""
    return max(file.stat().st_mtime for file in files)


def parts():
    """The program that does what a line of its input says with one part of the program (bench/parts). It is built if a
    source is newer. The build is optimised, and not proved."""
    sources, made = TOP / 'bench/parts', TOP / 'out/bench/parts'
    needed = [TOP / 'crates.txt', *sources.iterdir(), *(TOP / 'crates').glob('kpn*/src/**/*.rt')]
    if not made.exists() or made.stat().st_mtime < newest(needed):
        made.parent.mkdir(parents=True, exist_ok=True)
        with tempfile.TemporaryDirectory(prefix='kpn-parts-') as folder:
            shutil.copy(built(pathlib.Path(folder), sources, PARTS_USE), made)
    return made


def built(folder, source, uses):
    """The program whose root file is this source, or whose files are in this folder, in a copy of the tree with a crate
    more, which uses these libraries. The build is optimised, and not proved. No .rt file may stand outside of a crate
    that the gate proves, so a source ends with .rt.txt."""
    tree, program = folder / 'tree', folder / 'program'
    shutil.copytree(TOP / 'crates', tree / 'crates', symlinks=True, ignore=shutil.ignore_patterns('out'))
    (tree / 'tools').mkdir()
    for name in ('HANDLES', 'crates.txt', 'tools/unproved.py', 'tools/prover.py'):
        shutil.copy(TOP / name, tree / name)
    with open(tree / 'crates.txt', 'a') as crates:
        crates.write(f'bench_program: {uses}\n')
    (tree / 'crates/bench_program/src').mkdir(parents=True)
    for file in sorted(source.iterdir()) if source.is_dir() else [source]:
        shutil.copy(file, tree / 'crates/bench_program/src' / file.name.removesuffix('.txt'))
    words = [sys.executable, tree / 'tools/unproved.py', program, 'bench_program']
    done = subprocess.run(words, stdin=subprocess.DEVNULL, capture_output=True, text=True)
    if done.returncode != 0:
        sys.exit(done.stdout + done.stderr)
    return program


def plain(source, folder):
    """A plain Rust program, built from its own source."""
    program = pathlib.Path(folder) / source.stem
    subprocess.run(['rustc', '--edition', '2021', '-O', '-o', program, source], check=True)
    return program
