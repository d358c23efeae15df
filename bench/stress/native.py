#!/usr/bin/env python3
"""Random networks as compiled programs, beside `kpn run` and judged by `kpn audit`.

usage: bench/stress/native.py [NETWORKS [SEED]] [--kind KIND] [--processes N] [--seconds N] [--schedules NAME..]
                              [--runtime COMPILER]

KPN_PROGRAM names the program `kpn`, and CC and CFLAGS the compiler. Each network is compiled under all schedules. The
one of `kpn run` has to give the same report, status, trace and files byte for byte. The others have to give the same
report if `kpn run` comes to an end, and their traces have to be legal. It ends with 1 at the first difference, and
prints the network. The networks of `--kind faults` fuse, and have faults and long loops within their periods; those of
`--kind small` have vectors. It is no part of the gate, but python/tests/test_native.py runs a part of it.

Most of the time goes to the compiler. `--runtime` names another one for the runtime, so that tcc makes the rest of
each program in some milliseconds:

    CC=tcc CFLAGS="-w -include $PWD/bench/stress/overflow.h" bench/stress/native.py 1000 --runtime 'gcc -O2'
"""
import argparse
import collections
import concurrent.futures
import pathlib
import random
import shlex
import subprocess
import sys
import tempfile

TOP = pathlib.Path(__file__).resolve().parents[2]
sys.path += [str(TOP / 'bench/stress'), str(TOP / 'python')]

import native_networks  # noqa: E402
from kpn.native import command  # noqa: E402
from kpn.program import find_program  # noqa: E402

# the most commits of a run of `kpn`
COMMITS = 30_000
ENDS = (0, 3, 4)
# What the C of a network defines.
PLAN = 'const struct kpn_plan kpn_plan'


class Difference(Exception):
    """A compiled program has done what `kpn` does not do."""


def call(words, folder, **more):
    done = subprocess.run([str(word) for word in words], cwd=folder, capture_output=True, **more)
    return done.stdout, done.returncode, done.stderr


def compile_runtime(folder, compiler=()):
    """The runtime and the program of many runs as object files, by this compiler if there are words for one."""
    made = pathlib.Path(folder, 'native_runs.o')
    words = [*command.compiler(compiler), '-c', str(TOP / 'bench/stress/native_runs.c'), '-o', str(made)]
    subprocess.run(words, check=True)
    return [*command.compile_runtime(folder, compiler), str(made)]


class Trial:
    """A network in a folder, as a program with the network under each schedule, and options that vary."""

    def __init__(self, folder, text, lists, runtime, seconds=None, schedules=command.SCHEDULES):
        self.folder, self.program, self.seconds = pathlib.Path(folder), find_program(), seconds
        (self.folder / 'net').write_text(text)
        canonical, status, told = call([self.program, 'print', 'net'], folder)
        if status:
            raise Difference(f'{told.decode()}: no network')
        self.sinks = [line.split()[1] for line in canonical.decode().splitlines() if line.startswith('  sink ')]
        self.words = []
        for name, numbers in lists.items():
            (self.folder / f'{name}.in').write_text(''.join(f'{it}\n' for it in numbers))
            self.words += ['--source', f'{name}={name}.in']
        # two schedules make the same C of a network without regions
        made = {command.c_of(canonical.decode(), schedule): schedule for schedule in schedules}
        self.schedules = list(made.values())
        self.compile(list(made), runtime)

    def compile(self, texts, runtime):
        """Makes one program of all schedules, which makes many runs: to start programs takes most of the time."""
        names = [f'{PLAN}_{number}' for number in range(len(texts))]
        plans = ', '.join(f'&{it.split()[-1]}' for it in names)
        behind = ''.join(f'extern {it};\n' for it in names)
        behind += f'const struct kpn_plan *const kpn_plans[] = {{{plans}}};\n'
        for number, c in enumerate(texts):
            is_last = number == len(texts) - 1
            (self.folder / f'{number}.c').write_text(c.replace(PLAN, names[number]) + behind * is_last)
        words = [*command.compiler(), *(f'{number}.c' for number in range(len(texts))), *runtime, '-o', 'runs']
        if subprocess.run(words, cwd=self.folder, check=False).returncode:
            raise Difference('the compiler refuses the C')

    def outputs(self, name, has_trace):
        """The words for what a run stores."""
        return [f'--sink={sink}={name}.{sink}' for sink in self.sinks] + ['--trace', f'{name}.trace'] * has_trace

    def found(self, name, out, status, told):
        """What came of a run: report, status, and the files by name."""
        if status not in (0, 3, 4, 5):
            raise Difference(f'{name}: status {status}, {told.decode()}')
        return out, status, {sink: (self.folder / f'{name}.{sink}').read_bytes() for sink in self.sinks}

    def run_all(self, jobs):
        """Runs the program: a schedule with words for each name; gives what came of each."""
        lines = [' '.join(map(str, [self.schedules.index(schedule), name, 'run', *self.words, *words]))
                 for name, (schedule, words) in jobs.items()]
        (self.folder / 'jobs').write_text('\n'.join(lines) + '\n')
        _, status, told = call(['./runs'], self.folder, timeout=self.seconds)
        statuses = (self.folder / 'statuses').read_text().split()
        if status or len(statuses) != len(jobs):
            raise Difference(f'{lines[min(len(statuses), len(lines) - 1)]}: status {status}, {told.decode()}')
        return {name: self.found(name, (self.folder / f'{name}.report').read_bytes(), int(each),
                                 (self.folder / f'{name}.told').read_bytes()) for name, each in zip(jobs, statuses)}

    def trace(self, name):
        return (self.folder / f'{name}.trace').read_bytes()

    def judge(self, options):
        """Compares the runs under each schedule; gives the outcome of `kpn run`."""
        limited = [*options, '--max-commits', COMMITS]
        words = [self.program, 'run', 'net', *self.words, *limited, *self.outputs('kpn', True)]
        wanted = self.found('kpn', *call(words, self.folder, timeout=self.seconds))
        is_over = wanted[1] in ENDS
        # of what has no end only the trace is judged
        cut = options if is_over else [*options, '--max-commits', COMMITS // 10]
        jobs = {f'{schedule}-{"traced" if has_trace else "plain"}':
                (schedule, [*(limited if schedule == 'kpn' else cut), *self.outputs(
                    f'{schedule}-{"traced" if has_trace else "plain"}', has_trace)])
                for schedule in self.schedules for has_trace in (True, False) if has_trace or schedule != 'kpn'}
        for name, found in self.run_all(jobs).items():
            is_same = name.startswith('kpn')
            if (is_over or is_same) and found != wanted:
                raise Difference(f'schedule {name} {options}: {found} {wanted}')
            if is_same and self.trace(name) != self.trace('kpn'):
                raise Difference(f'schedule {name} {options}: the traces differ')
            if name.endswith('traced') and not is_same:
                self.audit(name, options, found[0])
        return wanted[0].splitlines()[-1].decode()

    def audit(self, name, options, report):
        told = call([self.program, 'audit', 'net', f'{name}.trace', '--steps', '1000000000'], self.folder)[0]
        is_exact = told.startswith(b'legal\nexact yes')
        if not told.startswith(b'legal') or (report.endswith(b'ended\n') and not is_exact):
            raise Difference(f'schedule {name} {options}: {told[:200]}')


def try_network(seed, runtime, seconds, schedules, kind):
    """One network by its number, with and without --take; gives the outcomes."""
    chosen = random.Random(seed)
    text, lists = native_networks.network(chosen, kind)
    with tempfile.TemporaryDirectory(prefix='kpn-') as folder:
        try:
            trial = Trial(folder, text, lists, runtime, seconds, schedules)
            return [trial.judge(options) for options in ([], ['--take', str(chosen.choice((1, 5, 40)))])]
        except (Difference, subprocess.TimeoutExpired) as found:
            return f'network {seed}: {found}\n{text}{lists}'


def try_networks(count, first, processes, seconds=None, schedules=command.SCHEDULES, kind='', compiler=(), runtime=()):
    """This many networks, with the runtime by these object files or by this compiler; gives how many runs came to each
    outcome, or the first difference."""
    counts = collections.Counter()
    with tempfile.TemporaryDirectory(prefix='kpn-') as folder, \
            concurrent.futures.ProcessPoolExecutor(processes) as pool:
        runtime = runtime or compile_runtime(folder, compiler)
        left = [pool.submit(try_network, seed, runtime, seconds, schedules, kind)
                for seed in range(first, first + count)]
        for number, future in enumerate(left):
            found = future.result()
            if isinstance(found, str):
                pool.shutdown(cancel_futures=True)
                return f'at the {number + 1}. network: {found}'
            counts.update(found)
            if (number + 1) % 10 == 0:
                print(f'{number + 1} networks without a difference', flush=True)
    return counts


def main():
    parser = argparse.ArgumentParser(description=__doc__.split('\n')[0])
    parser.add_argument('networks', nargs='?', type=int, default=100)
    parser.add_argument('seed', nargs='?', type=int, default=1)
    parser.add_argument('--kind', choices=native_networks.KINDS, default='', help='networks that fuse, with a fault in '
                        'a period, or whose periods have small items, or networks with arrays and tables')
    parser.add_argument('--processes', type=int, default=2)
    parser.add_argument('--seconds', type=int, default=120, help='the most that a run may take')
    parser.add_argument('--schedules', nargs='+', choices=command.SCHEDULES, default=command.SCHEDULES)
    parser.add_argument('--runtime', type=shlex.split, default=[], help='the compiler of the runtime, with its flags')
    given = parser.parse_args()
    found = try_networks(given.networks, given.seed, given.processes, given.seconds, given.schedules, given.kind,
                         given.runtime)
    if isinstance(found, str):
        print(found)
        return 1
    print(f'{given.networks} networks: {", ".join(f"{count} {outcome}" for outcome, count in sorted(found.items()))}')
    return 0


if __name__ == '__main__':
    sys.exit(main())
