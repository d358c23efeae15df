#!/usr/bin/env python3
"""The tests of workers, runs by workers, and commands that get no memory, over and over. None may hang, and all must
come to the same each time.

It is no part of the gate. Words:

    tests COUNT         the tests of check_pool, which it proves before, COUNT times on all processors
                        and as often on two
    runs COUNT [KPN]    each row `kpn run` of check_examples by 1, 2, 4 and 16 workers, COUNT times on all
                        processors and as often on two: its output and status have to be those of one thread
    threads [KPN]       these rows while the system has 0 to 3 threads for the workers, by a user of its own, so root
                        has to start it: if a thread is refused, the run reports that (48), else it is as on one thread
    memory [KPN]        these rows while call N of malloc and realloc fails, or each from N on, for N from 1 on until
                        no call fails any more (refuse.c): the run reports that, or is as on one thread
    commands [KPN]      the same of each row of check_examples by one thread, of any command, and of the built-in
                        processes: the command reports that, or is as with memory
    streams [KPN]       the same of two streams, whose outputs hold whole items and all that the summary counts then
    mixed SECONDS [KPN] random networks by 1 to 16 workers for so long on all processors and so long on two; some get
                        too little memory or too few threads, and some are killed: it judges each against the run on
                        one thread and the auditor, and prints how many came to each end (mixed.py)

KPN is the program, by default crates/kpn/out/kpn.
"""
import os
import pathlib
import resource
import shutil
import subprocess
import sys
import tempfile
import time

sys.dont_write_bytecode = True

import mixed

TOP = pathlib.Path(__file__).resolve().parent.parent.parent
DATA = TOP / 'crates/check_examples/data'
ROWS = TOP / 'crates/check_examples/stdin'
KINDS = ('tests', 'runs', 'threads', 'memory', 'commands', 'streams', 'mixed')
TESTS = ('check_pool', 'check_pool')
WORKERS = (1, 2, 4, 16)
PROCESSORS = {'all processors': [], 'two processors': ['taskset', '-c', '0,1']}

# seconds that a test or a run may take while others work on the machine too
MOST = 60

# a user who has no process
USER = 54_321

# what a run answers that lacks a thread, and a command that lacks memory
TOLD = (b'', b'kpn: 48 Threads\n', 7)
NO_MEMORY = [(b'', b'kpn: %d NoMemory\n' % number, 6) for number in (28, 32, 42, 51)]

# the processes of `kpn alone`, and what they read
BUILT_IN, INPUT = ('copy', 'double', 'sum'), b'1\n2\n3\n'

# a stream of two sinks with many items for each item that is read
SINKS = ('y', 'z')
FAN = """process fan(in i; out a, b) {
  while 1 { read i x; k = 0; while (k < 100) { write a (x + k); write b (x * k); k = (k + 1); } }
}
network { source s; sink y cap 64; sink z cap 64; f = fan(s; y, z); }
"""

# a run needs no more memory if this many beginnings of a refusal in a row changed nothing
STEADY = 20


def rows(*commands):
    """The words of each row of the examples with one of these commands, without workers and traces."""
    examples = ROWS.read_text().split('# The examples\n')[1].split('\n')
    found = {}
    for line in examples:
        words = line.split()
        if words[:1] == ['kpn'] and words[1] in commands and '--workers' not in words:
            end = words.index('--trace') if '--trace' in words else len(words)
            found[tuple(words[1:end])] = None
    return list(found)


def answer(words, **how):
    """What a command writes on both outputs, and its status. One that hangs ends this program."""
    try:
        done = subprocess.run(words, cwd=DATA, capture_output=True, timeout=MOST, **how)
    except subprocess.TimeoutExpired:
        sys.exit(f'{" ".join(words)}: no end within {MOST} seconds')
    return done.stdout, done.stderr, done.returncode


def run_rows(program, prefix):
    """Each row once by each number of workers. Returns how many runs there were."""
    for row in ROWS_OF_RUNS:
        wanted = answer([program, *row])
        for workers in WORKERS:
            words = [*prefix, program, *row, '--workers', str(workers)]
            found = answer(words)
            if found != wanted:
                sys.exit(f'{" ".join(words)}: {found} in place of {wanted}')
    return len(ROWS_OF_RUNS) * len(WORKERS)


def repeat_runs(count, program):
    for name, prefix in PROCESSORS.items():
        before = time.monotonic()
        runs = sum(run_rows(program, prefix) for _ in range(count))
        print(f'{name}: {runs} runs of {len(ROWS_OF_RUNS)} rows, each as on one thread, none hung, '
              f'{time.monotonic() - before:.0f} s', flush=True)


def repeat_tests(count):
    runner = pathlib.Path(shutil.which('rt')).resolve().parent / 'rattle-test'
    for crate in TESTS:
        subprocess.run(['rt', 'test'], cwd=TOP / 'crates' / crate, check=True, capture_output=True)
    for name, prefix in PROCESSORS.items():
        for crate in TESTS:
            program = TOP / f'crates/{crate}/out/{crate}_tests'
            seconds = repeat_program([*prefix, str(runner), '--seconds', str(MOST), str(program)], count)
            print(f'{name}: the tests of {crate} {count} times, none failed and none hung, {seconds:.0f} s', flush=True)


def repeat_program(words, count):
    """Runs a program that often, and returns how many seconds that took. One run that fails ends this program."""
    before = time.monotonic()
    for number in range(count):
        done = subprocess.run(words, capture_output=True, text=True)
        if done.returncode != 0:
            sys.exit(f'{" ".join(words)}, run {number}: {done.stdout}{done.stderr}')
    return time.monotonic() - before


def refused(program, row, workers, threads):
    """What a run answers if the system has this many threads for it beside its first one."""
    def allow():
        resource.setrlimit(resource.RLIMIT_NPROC, (1 + threads, 1 + threads))
    words = [program, *row, '--workers', str(workers)]
    return answer(words, user=USER, group=USER, extra_groups=[], preexec_fn=allow)


def refuse_threads(program):
    """Of runs that come to an outcome. If a worker has ended, the next one may have its thread."""
    told = ended = 0
    for row in ROWS_OF_RUNS:
        wanted = answer([program, *row])
        for workers in WORKERS if wanted[2] == 0 else ():
            for threads in range(4):
                found = refused(program, row, workers, threads)
                is_told = found == TOLD and threads < workers
                if not is_told and (found != wanted or threads == 0):
                    sys.exit(f'{" ".join(row)}, {workers} workers, {threads} threads: {found}')
                told, ended = told + is_told, ended + (not is_told)
    print(f'{told} runs that were refused a thread told it, {ended} others were as on one thread, none hung')


def refused_memory(words, library, wanted, lacks):
    """One run after the other. Returns how many reported that memory ran out, and how many were right."""
    told = ended = steady = first = 0
    while steady < STEADY:
        first += 1
        for last in (first, 1_000_000_000):
            refusing = {'LD_PRELOAD': library, 'FIRST': str(first), 'LAST': str(last)}
            found = answer(words, env={**os.environ, **refusing}, input=INPUT)
            if found not in [wanted, *lacks]:
                sys.exit(f'{" ".join(words)}, {refusing}: {found}')
            told, ended = told + (found != wanted), ended + (found == wanted)
        steady = steady + 1 if found == wanted else 0
    return told, ended


def refusing_library(folder):
    """The library that refuses memory, built in this folder."""
    library = str(folder / 'refuse.so')
    source = pathlib.Path(__file__).parent / 'refuse.c'
    subprocess.run(['cc', '-O2', '-shared', '-fPIC', '-o', library, source], check=True)
    return library


def refuse_memory(program):
    """Of runs by workers that come to an outcome. A thread needs memory too."""
    library = refusing_library(pathlib.Path(program).parent)
    told = ended = 0
    for row in ROWS_OF_RUNS:
        wanted = answer([program, *row])
        for workers in WORKERS if wanted[2] == 0 else ():
            words = [program, *row, '--workers', str(workers)]
            counts = refused_memory(words, library, wanted, [TOLD, *NO_MEMORY])
            told, ended = told + counts[0], ended + counts[1]
    print(f'{told} runs that were refused memory told it, {ended} others were as on one thread, none hung')


def refuse_commands(program):
    """Of command lines by one thread that succeed."""
    library = refusing_library(pathlib.Path(program).parent)
    alone = [('alone', name) for name in BUILT_IN]
    lines = told = ended = 0
    for row in [*alone, *rows('check', 'print', 'rounds', 'run', 'audit')]:
        wanted = answer([program, *row], input=INPUT)
        if wanted[2] == 0:
            counts = refused_memory([program, *row], library, wanted, NO_MEMORY)
            lines, told, ended = lines + 1, told + counts[0], ended + counts[1]
    print(f'{lines} command lines: {told} that were refused memory told it, {ended} others were as with memory')


def streamed(words, folder, library, first, last):
    """A stream over files that gets no memory from one call to another: what it tells, its status and its outputs."""
    for sink in SINKS:
        (folder / sink).write_bytes(b'old\n')
    refusing = {'LD_PRELOAD': library, 'FIRST': str(first), 'LAST': str(last)}
    done = subprocess.run(words, cwd=folder, capture_output=True, timeout=MOST, env={**os.environ, **refusing})
    return done.stderr.decode(), done.returncode, {sink: (folder / sink).read_bytes() for sink in SINKS}


def counted(told):
    """How many items the summary of a stream counts on each sink."""
    lines = [line.split() for line in told.split('\n') if line.startswith('sink ')]
    return {words[1].rstrip(':'): int(words[2]) for words in lines}


def judge_stream(told, status, outputs, wanted, width):
    """Why a stream did wrong, if it did. An item may have gone out that there was no memory to count."""
    counts = counted(told)
    for sink, bytes_out in outputs.items():
        items = bytes_out.count(b'\n') if width is None else len(bytes_out) / width
        is_whole = bytes_out[-1:] in (b'', b'\n') if width is None else items == int(items)
        if counts and not (is_whole and wanted[sink].startswith(bytes_out) and items - counts[sink] in (0, 1)):
            return f'{sink} has {items} items'
        if not counts and bytes_out not in (b'old\n', b'') and not wanted[sink].startswith(bytes_out):
            return f'{sink} has {bytes_out[:40]}'
    is_told = any(f'kpn: {number} NoMemory\n' in told for number in (28, 32, 42))
    if status == 0 and outputs == wanted or status == 6 and is_told:
        return None
    return 'neither whole nor refused memory'


def refuse_streams(program):
    """Of a stream of lines and one of samples."""
    folder = pathlib.Path(program).parent
    library = refusing_library(folder)
    (folder / 'fan.kpn').write_text(FAN)
    (folder / 'lines').write_text(''.join(f'{n}\n' for n in range(40)))
    (folder / 'samples').write_bytes(b''.join(n.to_bytes(4, 'little') for n in range(40)))
    for name, width in (('lines', None), ('s32le', 4)):
        source = 'lines' if width is None else 'samples'
        words = [program, 'stream', 'fan.kpn', '--format', name, '--source', f's={source}', '--trace', 'trace',
                 *(word for sink in SINKS for word in ('--sink', f'{sink}={sink}'))]
        _, status, wanted = streamed(words, folder, library, 0, 0)
        if status != 0:
            sys.exit(f'{" ".join(words)}: {status}')
        lacked = steady = first = 0
        while steady < STEADY:
            first += 1
            for last in (first, 1_000_000_000):
                told, status, outputs = streamed(words, folder, library, first, last)
                why = judge_stream(told, status, outputs, wanted, width)
                if why:
                    sys.exit(f'{" ".join(words)}, FIRST={first} LAST={last}: {why}: {status}\n{told}')
                lacked += status == 6
            steady = steady + 1 if status == 0 else 0
        print(f'{name}: {lacked} streams that were refused memory told it, and lost no item that they counted')


def mix(seconds, program):
    folder = pathlib.Path(program).parent
    library = refusing_library(folder)
    os.chmod(folder, 0o777)
    every = os.sched_getaffinity(0)
    for processors in (every, set(sorted(every)[:2])):
        runs = mixed.mix(seconds, processors, program, library, USER, folder)
        print(f'{len(processors)} processors: {runs} runs in {seconds} s, each as it is to be, none hung', flush=True)


def main():
    what, *words = sys.argv[1:] or ['']
    if what in ('-h', '--help'):
        print(__doc__)
        return None
    if what not in KINDS:
        sys.exit(__doc__)
    if what == 'tests':
        return repeat_tests(int(words[0]))
    program = words[-1] if words and not words[-1].isdecimal() else str(TOP / 'crates/kpn/out/kpn')
    with tempfile.TemporaryDirectory() as folder:
        # a copy, which a build in the meantime does not change and another user may run
        os.chmod(folder, 0o755)
        copy = shutil.copy(program, f'{folder}/kpn')
        if what == 'runs':
            repeat_runs(int(words[0]), copy)
        elif what == 'threads':
            refuse_threads(copy)
        elif what == 'memory':
            refuse_memory(copy)
        elif what == 'commands':
            refuse_commands(copy)
        elif what == 'streams':
            refuse_streams(copy)
        elif what == 'mixed':
            mix(int(words[0]), copy)


ROWS_OF_RUNS = rows('run')

if __name__ == '__main__':
    main()
