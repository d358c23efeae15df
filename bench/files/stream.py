#!/usr/bin/env python3
"""The inputs and outputs of a stream, as the system has them: pipes, FIFOs, signals, locks and descriptors.

usage: bench/files/stream.py [PROGRAM] [--kind KIND] [--only CASE]

Each case has a folder of its own, and says what has to come out and when. KIND is the program that is tried, by the
rules of docs/STREAMS.md, "Options and ends":

    stream      `kpn stream`; PROGRAM is `kpn`, by default crates/kpn/out/kpn
    compiled    the program that `kpn compile` makes of each network, by PROGRAM
    mpi         `kpn-mpi` on one rank, which reads and writes whole files; PROGRAM is its simulator

Only the cases for that kind are tried. It is no part of the gate, but python/tests/test_ends.py runs its quick cases.
"""
import atexit
import contextlib
import fcntl
import functools
import itertools
import os
import pathlib
import resource
import shutil
import signal
import struct
import subprocess
import sys
import tempfile
import threading
import time

TOP = pathlib.Path(__file__).resolve().parent.parent.parent
sys.path.append(str(TOP / 'bench'))

import measure  # noqa: E402

COPY = """process copy(in here; out there) { while 1 { read here item; write there item; } }
network { source s; sink z cap 1; c = copy(s; z); }
"""
TURNS = """process turns(in a, b; out both) { while 1 { read a item; write both item; read b item; write both item; } }
network { source left; source right; sink z cap 1; t = turns(left, right; z); }
"""
FIRST = """process first(in i; out o) { write o 1; while 1 { read i x; write o (x + 1); } }
network { source s; sink z cap 1; f = first(s; z); }
"""
SPLITS = """process split(in i; out p, q) {
  while 1 { read i x; if ((x % 1000) == 0) { write q x; } else { write p x; } }
}
network { source s; sink y cap 1; sink z cap 1; p = split(s; y, z); }
"""
PORTS = [str(number) for number in range(8)]
MANY = f"""process eight(in i; out {', '.join(f'o{it}' for it in PORTS)}) {{ read i x; write o0 x; }}
network {{ {''.join(f'source s{letter}; ' for letter in 'abcde')}
  {''.join(f'sink {letter}{it} cap 1; ' for letter in 'abcde' for it in PORTS)}
  {''.join(f'p{letter} = eight(s{letter}; {", ".join(letter + it for it in PORTS)}); ' for letter in 'abcde')}
}}
"""
TEXTS = {'copy.kpn': COPY, 'turns.kpn': TURNS, 'first.kpn': FIRST, 'splits.kpn': SPLITS, 'many.kpn': MANY}
USAGE = b'kpn: usage: --%s, a file that is no input and no other output\n'
SHARED = b'kpn: usage: --source NAME=IN, a plain file if two sources have it\n'
TELLS_READ = b'sink z: 0 items, not complete\nwaits c s\nkpn: 26 Read\nat --source s=%s\n'
TELLS_WRITE = b'sink z: %d items, not complete\nwaits c s\nkpn: 27 Write\nat --sink z=%s\n'
# the seconds that a line may take, and those between two lines of a slow producer
MOST, PAUSE = 10, 0.01

# what a compiled program says first
COMPILED = b'kpn: compiled: nothing is proved of the program that runs here\n'

# the kinds of programs, each with the words of a stream of a network
KINDS = {
    'stream': lambda net: [PROGRAM, 'stream', net],
    'compiled': lambda net: [program_of(net), 'stream'],
    'mpi': lambda net: [PROGRAM, net, *['--ranks=1', '--seed=1'] * PROGRAM.endswith('simulator')],
}
# the cases with the kinds that each is for, and the names of the quick ones
cases, quick_ones = {}, []
PROGRAM, KIND = '', 'stream'


def case(*kinds, quick=False):
    """A case of these kinds of programs: a function that gets an empty folder. A quick one waits for no time."""
    def keep(test):
        cases[test] = kinds or ('stream', 'compiled')
        quick_ones.extend([test] * quick)
        return test
    return keep


@functools.cache
def compiled(text):
    """The program that is compiled of a network."""
    folder = tempfile.TemporaryDirectory()
    atexit.register(folder.cleanup)
    net = pathlib.Path(folder.name, 'net.kpn')
    net.write_text(text)
    subprocess.run([sys.executable, '-m', 'kpn.native', net, '-o', net.with_suffix('.prog')], check=True,
                   env={**os.environ, 'KPN_PROGRAM': PROGRAM, 'PYTHONPATH': str(TOP / 'python')})
    return str(net.with_suffix('.prog'))


def program_of(net):
    return compiled(TEXTS[net])


def expect(found, wanted):
    if found != wanted:
        raise AssertionError(f'{found} in place of {wanted}')


def words(*more, net='copy.kpn'):
    return [*KINDS[KIND](net), *more]


def networks(folder):
    for name, text in TEXTS.items():
        (folder / name).write_text(text)


def heard(told):
    """What was written on standard error, but for what each compiled program says."""
    return told.replace(COMPILED, b'', 1) if told and KIND == 'compiled' else told


def stream(folder, *more, net='copy.kpn', **how):
    """What `kpn stream` writes on standard output and on standard error, and its status."""
    networks(folder)
    how.setdefault('stdout', subprocess.PIPE)
    how.setdefault('stderr', subprocess.PIPE)
    done = subprocess.run(words(*more, net=net), cwd=folder, timeout=most(), **how)
    return done.stdout, heard(done.stderr), done.returncode


def most():
    """The seconds that a program may take. MPI starts slowly where much else runs."""
    return 6 * MOST if KIND == 'mpi' else MOST


def tells_write(out):
    """What is said of an output that takes nothing of two items."""
    return TELLS_WRITE % (2 if KIND == 'stream' else 0, out)


def lines(numbers):
    return b''.join(b'%d\n' % number for number in numbers)


def never_waits(descriptor):
    """Somebody lets the pipe or the terminal behind this descriptor not wait."""
    fcntl.fcntl(descriptor, fcntl.F_SETFL, fcntl.fcntl(descriptor, fcntl.F_GETFL) | os.O_NONBLOCK)


def close_each(descriptors):
    """What a child does before it starts: it closes these."""
    return lambda: [os.close(descriptor) for descriptor in descriptors]


@contextlib.contextmanager
def started(folder, *more, net='copy.kpn', **how):
    """A stream that goes on meanwhile."""
    networks(folder)
    how.setdefault('stderr', subprocess.PIPE)
    child = subprocess.Popen(words(*more, net=net), cwd=folder, bufsize=0, **how)
    stop = threading.Timer(most(), child.kill)
    stop.start()
    try:
        yield child
    finally:
        stop.cancel()
        child.kill()
        child.wait()
        for end in filter(None, (child.stdin, child.stdout, child.stderr)):
            with contextlib.suppress(BrokenPipeError):
                end.close()


def in_pieces(folder, text, length, *more):
    """What comes out if the input comes in pieces of this many bytes."""
    with started(folder, *more, stdin=subprocess.PIPE, stdout=subprocess.PIPE) as child:
        for at in range(0, len(text), length):
            child.stdin.write(text[at:at + length])
        child.stdin.close()
        return child.stdout.read(), child.wait()


# ---- when lines come

@case()
def a_line_comes_out_before_the_next_goes_in(folder):
    with started(folder, stdin=subprocess.PIPE, stdout=subprocess.PIPE) as child:
        for number in range(200):
            child.stdin.write(b'%d\n' % number)
            expect(child.stdout.readline(), b'%d\n' % number)
            time.sleep(PAUSE)
        child.stdin.close()
        expect((child.stdout.read(), child.wait()), (b'', 0))


@case()
def two_fifos_of_different_speed(folder):
    for name in ('fast', 'slow'):
        os.mkfifo(folder / name)
    with started(folder, '--source', 'left=fast', '--source', 'right=slow', net='turns.kpn',
                 stdout=subprocess.PIPE) as child:
        with open(folder / 'fast', 'wb', buffering=0) as fast, open(folder / 'slow', 'wb', buffering=0) as slow:
            fast.write(b''.join(b'%d\n' % number for number in range(100)))
            expect(child.stdout.readline(), b'0\n')
            for number in range(99):
                time.sleep(PAUSE)
                slow.write(b'%d\n' % -number)
                expect((child.stdout.readline(), child.stdout.readline()), (b'%d\n' % -number, b'%d\n' % (number + 1)))
        expect((child.stdout.read(), child.wait()), (b'', 0))


@case()
def a_line_in_two_halves(folder):
    with started(folder, stdin=subprocess.PIPE, stdout=subprocess.PIPE) as child:
        for _ in range(20):
            child.stdin.write(b'12')
            time.sleep(PAUSE)
            child.stdin.write(b'34\n5')
            expect(child.stdout.readline(), b'1234\n')
            child.stdin.write(b'\n')
            expect(child.stdout.readline(), b'5\n')


# ---- how the input is cut

@case()
def lines_in_pieces(folder):
    text = b''.join(b'%d\r\n' % (number ** 9 * (-1) ** number) for number in range(80)) + b'7'
    wanted = b''.join(b'%d\n' % (number ** 9 * (-1) ** number) for number in range(80)) + b'7\n'
    for length in (1, 2, 3, 7, 21, 22, 23, 8191, 8192, 8193):
        expect(in_pieces(folder, text, length), (wanted, 0))


@case()
def samples_in_pieces(folder):
    for code, form in ((b'h', 's16le'), (b'i', 's32le'), (b'q', 's64le')):
        most = 2 ** (8 * struct.calcsize(code) - 1)
        text = struct.pack(b'<6%s' % code, 0, 1, -1, most - 1, -most, 258)
        for length in (1, 2, 3, 5, 100):
            expect(in_pieces(folder, text, length, '--format', form), (text, 0))


def chunk(name, body):
    """A chunk of a WAV file, after which the next one begins at an even place."""
    return name + struct.pack('<I', len(body)) + body + b'\0' * (len(body) % 2)


def wav(width, numbers, *more):
    """A WAV file with an odd chunk before its samples and what is `more` after them."""
    kind = struct.pack('<HHIIHH', 1, 1, 8000, 8000 * width, width, 8 * width)
    samples = b''.join(number.to_bytes(width, 'little', signed=width > 1) for number in numbers)
    chunks = chunk(b'note', b'odd') + chunk(b'fmt ', kind) + chunk(b'data', samples)
    return chunk(b'RIFF', b'WAVE' + chunks) + b''.join(more)


@case()
def wav_files_cut_anywhere(folder):
    for width, numbers in ((1, [0, 255, 128]), (2, [-2**15, 2**15 - 1, 258]), (3, [-2**23, 2**23 - 1, 65_794])):
        file = wav(width, numbers, chunk(b'LIST', b'what no sample is'))
        start = file.index(b'data') + 8
        for end in range(len(file) + 1):
            out, err, status = stream(folder, '--format', 's=wav', input=file[:end])
            expect(out, lines(numbers[:max(end - start, 0) // width]))
            told = b'55 BadHead at %d' % end if end < start else b'29 CutSample' if end < start + 3 * width else b''
            expect((b'kpn: ' + told in err, status), (bool(told), bool(told)))


@case(quick=True)
def wav_pipes_that_are_filled_up(folder):
    for count, last in itertools.product((1, 2, 3), (b'\0', b'\1')):
        samples = b''.join(number.to_bytes(3, 'little') for number in range(count))
        file = wav(3, [])[:-4] + b'\0\xf0\xff\x7f' + samples + last
        out, err, status = stream(folder, '--format', 's=wav', input=file)
        is_cut = count % 2 == 0 or last != b'\0'
        expect((out, b'29 CutSample' in err, status), (lines(range(count)), is_cut, int(is_cut)))


@case()
def wav_files_in_pieces(folder):
    for width, word in ((2, 'wav'), (2, 'wav16'), (3, 'wav24')):
        file = wav(width, [1, -1, 300, -300])
        for length in (1, 2, 3, 5, 100):
            out, status = in_pieces(folder, file, length, '--format', word, '--rate', '8000')
            expect((out[:4], out[8:12], out[12:36], status), (b'RIFF', b'WAVE', file[24:48], 0))
            expect((out[36:40], out[44:]), (b'data', file[-4 * width:]))


@case()
def wav_files_of_sox(folder):
    if not shutil.which('sox'):
        return
    for bits, word, channels, length in ((16, 'wav', 2, '1'), (24, 'wav24', 2, '1'), (24, 'wav24', 1, '44099s')):
        made = ['sox', '-n', '-r', '44100', '-c', str(channels), '-b', str(bits), '-t', 'wav', '-', 'synth', length,
                *['sine', '440', 'sine', '660'][:2 * channels]]
        file = subprocess.run(made, capture_output=True).stdout
        out, err, status = stream(folder, '--format', 's=wav', '--format', f'z={word}', '--rate', '44100',
                                  '--channels', str(channels), '--quiet', input=file)
        expect((err, status), (b'', 0))
        read = ['sox', '-t', 'wav', '-', '-t', 'raw', '-']
        first, back = (subprocess.run(read, input=it, capture_output=True) for it in (file, out))
        expect((back.stdout == first.stdout, back.stderr), (True, b''))


@case(quick=True)
def a_line_of_22_bytes(folder):
    with started(folder, stdin=subprocess.PIPE, stdout=subprocess.PIPE) as child:
        child.stdin.write(b'1\n' + b'0' * 22)
        expect((child.stdout.read(), child.wait()), (b'1\n', 1))
        expect(heard(child.stderr.read()).splitlines()[-2:], [b'kpn: 25 BadItem at 2', b'at --source s=-'])


# ---- ends that go

@case()
def an_endless_input_and_a_reader_that_leaves(folder):
    (folder / 'copy.kpn').write_text(COPY)
    yes = subprocess.Popen(['yes', '1'], stdout=subprocess.PIPE)
    with started(folder, stdin=yes.stdout, stdout=subprocess.PIPE) as child:
        yes.stdout.close()
        head = subprocess.run(['head', '-n3'], stdin=child.stdout, stdout=subprocess.PIPE, timeout=MOST)
        child.stdout.close()
        expect((head.stdout, child.wait(), yes.wait()), (b'1\n1\n1\n', 0, -signal.SIGPIPE))


@case()
def an_endless_input_of_which_some_is_wanted(folder):
    yes = subprocess.Popen(['yes', '1'], stdout=subprocess.PIPE)
    with started(folder, '--take', '5', stdin=yes.stdout, stdout=subprocess.PIPE) as child:
        yes.stdout.close()
        expect((child.stdout.read(), child.wait(), yes.wait()), (b'1\n' * 5, 0, -signal.SIGPIPE))


@case()
def an_interrupt_leaves_whole_lines(folder):
    (folder / 'copy.kpn').write_text(COPY)
    for delay in (0.05, 0.1, 0.15, 0.2, 0.3):
        yes = subprocess.Popen(['yes', '1234567'], stdout=subprocess.PIPE)
        with started(folder, '--sink', 'z=out', stdin=yes.stdout) as child:
            yes.stdout.close()
            time.sleep(delay)
            child.send_signal(signal.SIGINT)
            expect((child.wait(), yes.wait()), (-signal.SIGINT, -signal.SIGPIPE))
        wrote = (folder / 'out').read_bytes()
        expect(wrote, b'1234567\n' * (len(wrote) // 8))


# ---- descriptors that refuse

@case(quick=True)
def standard_input_that_refuses(folder):
    told = (b'', TELLS_READ % b'-', 1)
    expect(stream(folder, preexec_fn=lambda: os.close(0)), told)
    with open('/dev/null', 'wb') as writes:
        expect(stream(folder, stdin=writes), told)
    expect(stream(folder, preexec_fn=lambda: os.dup2(os.open('.', os.O_RDONLY), 0)), told)
    expect(stream(folder, '--source', 's=/dev/stdin', preexec_fn=close_each([0])), (b'', TELLS_READ % b'/dev/stdin', 1))


@case(quick=True)
def standard_output_that_refuses(folder):
    (folder / 'items').write_bytes(b'1\n2\n')
    given = ('--source', 's=items')
    told = (tells_write(b'-'), 1)
    expect(stream(folder, *given, stdout=None, preexec_fn=lambda: os.close(1))[1:], told)
    expect(stream(folder, *given, '--sink', 'z=/dev/stdout', stdout=None, preexec_fn=close_each([1]))[1:],
           (b'kpn: 27 Write\n', 1))
    with open('/dev/null', 'rb') as reads, open('/dev/full', 'wb') as full:
        expect(stream(folder, *given, stdout=reads)[1:], told)
        expect(stream(folder, *given, stdout=full)[1:], told)


@case(quick=True)
def files_that_refuse(folder):
    (folder / 'items').write_bytes(b'1\n2\n')
    expect(stream(folder, '--source', 's=.'), (b'', TELLS_READ % b'.', 1))
    expect(stream(folder, '--source', 's=nothing'), (b'', b'kpn: 26 Read\n', 1))
    expect(stream(folder, '--source', 's=items', '--sink', 'z=/dev/full'), (b'', tells_write(b'/dev/full'), 1))
    expect(stream(folder, '--source', 's=items', '--sink', 'z=no/out'), (b'', b'kpn: 27 Write\n', 1))


@case(quick=True)
def standard_error_that_refuses(folder):
    (folder / 'copy.kpn').write_text(COPY)
    done = subprocess.run(words(), cwd=folder, input=b'1\n', stdout=subprocess.PIPE, timeout=MOST,
                          preexec_fn=lambda: os.close(2))
    expect((done.stdout, done.returncode), (b'1\n', 0))


# ---- descriptors that are closed at the start

@case()
def no_file_gets_the_number_of_a_closed_descriptor(folder):
    (folder / 'items').write_bytes(b'1\n2\n')
    given = ('--source', 's=items', '--sink', 'z=out', '--trace', 'trace')
    expect(stream(folder, *given)[2], 0)
    trace = (folder / 'trace').read_bytes()
    for count in (1, 2, 3):
        for closed in itertools.combinations(range(3), count):
            (folder / 'trace').unlink()
            expect(stream(folder, *given, stdout=subprocess.DEVNULL, stderr=subprocess.DEVNULL,
                          preexec_fn=close_each(closed))[2], 0)
            expect(((folder / 'out').read_bytes(), (folder / 'trace').read_bytes()), (b'1\n2\n', trace))


@case('mpi', quick=True)
def no_file_of_a_run_gets_the_number_of_a_closed_descriptor(folder):
    (folder / 'items').write_bytes(b'1\n2\n')
    given = ('--source', 's=items', '--sink', 'z=out', '--traces', 'kept')
    for count in range(4):
        for closed in itertools.combinations(range(3), count):
            shutil.rmtree(folder / 'kept', ignore_errors=True)
            status = stream(folder, *given, stdin=subprocess.DEVNULL, preexec_fn=close_each(closed))[2]
            expect((status, (folder / 'out').read_bytes()), (int(1 in closed), b'1\n2\n'))
            expect([(folder / 'kept' / name).read_bytes()[:7] for name in ('rank-0.trace', 'cut', 'ranks')],
                   [b'kpn-tra', b'c=0\n', b'1\n'])


@case('mpi', quick=True)
def a_report_that_can_not_be_written(folder):
    (folder / 'items').write_bytes(b'1\n2\n')
    with open('/dev/null', 'rb') as reads, open('/dev/full', 'wb') as full:
        for out in (reads, full):
            expect(stream(folder, '--source=s=items', stdout=out)[1:], (b'kpn: 27 Write\n', 1))
        expect(stream(folder, '--source=s=items', '--sink=z=/dev/full'), (b'', b'kpn: 27 Write\n', 1))
    few = lambda: resource.setrlimit(resource.RLIMIT_FSIZE, (3, 3))
    if PROGRAM.endswith('simulator'):  # MPI has files of its own, which grow
        few = lambda: resource.setrlimit(resource.RLIMIT_FSIZE, (3, 3))
        expect(stream(folder, '--source=s=items', '--sink=z=out', preexec_fn=few), (b'', b'kpn: 27 Write\n', 1))
        expect([it for it in os.listdir(folder) if it.startswith('out')], [])


@case('mpi')
def a_report_to_a_pipe_that_never_waits(folder):
    (folder / 'items').write_bytes(lines(range(60_000)))
    taken, takes = os.pipe()
    never_waits(takes)
    with started(folder, '--source', 's=items', stdout=takes) as child:
        os.close(takes)
        time.sleep(0.5)
        with open(taken, 'rb') as reader:
            expect((len(reader.read().split()), child.wait()), (60_006, 0))


@case(quick=True)
def standard_ends_share_no_file(folder):
    (folder / 'items').write_bytes(b'1\n2\n')
    out, err, status = stream(folder, '--source', 'left=-', '--source', 'right=items', net='turns.kpn',
                              preexec_fn=close_each([0]))
    expect((out, err.splitlines()[-2:], status), (b'', [b'kpn: 26 Read', b'at --source left=-'], 1))
    (folder / 'more').write_bytes(b'1000\n2\n')
    _, err, status = stream(folder, '--source', 's=more', '--sink', 'y=out', '--sink', 'z=-', net='splits.kpn',
                            preexec_fn=close_each([1]))
    expect((err.splitlines()[-2:], status), ([b'kpn: 27 Write', b'at --sink z=-'], 1))
    expect(b'1000' in (folder / 'out').read_bytes(), False)


@case(quick=True)
def nothing_is_written_in_front_of_a_trace(folder):
    (folder / 'items').write_bytes(b'1\n2\n')
    expect(stream(folder, '--source', 's=items', '--trace', 'trace', stdout=None, preexec_fn=close_each([1])),
           (None, tells_write(b'-'), 1))
    expect((folder / 'trace').read_bytes()[:12], b'kpn-trace 2\n')


@case('stream')
def what_is_closed_can_not_be_read(folder):
    expect(stream(folder, '--trace', 'trace', preexec_fn=close_each([0])), (b'', TELLS_READ % b'-', 1))
    done = subprocess.run([PROGRAM, 'alone', 'copy'], preexec_fn=close_each([0]), capture_output=True, timeout=MOST)
    expect((done.stdout, done.stderr, done.returncode), (b'', b'kpn: 26 Read\n', 1))


# ---- pipes that others let not wait

@case()
def an_input_that_never_waits(folder):
    given, gives = os.pipe()
    never_waits(given)
    with started(folder, stdin=given, stdout=subprocess.PIPE) as child:
        for number in range(20):
            time.sleep(PAUSE)
            os.write(gives, b'%d\n' % number)
            expect(child.stdout.readline(), b'%d\n' % number)
        os.close(gives)
        expect((child.stdout.read(), child.wait()), (b'', 0))
    os.close(given)


@case()
def an_output_that_never_waits(folder):
    (folder / 'items').write_bytes(lines(range(60_000)))
    taken, takes = os.pipe()
    never_waits(takes)
    with started(folder, '--source', 's=items', stdout=takes) as child:
        os.close(takes)
        time.sleep(0.3)
        with open(taken, 'rb') as reader:
            expect((reader.read(), child.wait()), (lines(range(60_000)), 0))
        expect(heard(child.stderr.read()), b'sink z: 60000 items, complete\nwaits c s\nended\n')


@case()
def an_error_output_that_never_waits(folder):
    taken, takes = os.pipe()
    never_waits(takes)
    filled = 0
    with contextlib.suppress(BlockingIOError):
        while True:
            filled += os.write(takes, bytes(4096))
    with started(folder, stdin=subprocess.DEVNULL, stdout=subprocess.DEVNULL, stderr=takes) as child:
        os.close(takes)
        time.sleep(0.1)
        with open(taken, 'rb') as reader:
            expect(heard(reader.read()[filled:]), b'sink z: 0 items, complete\nwaits c s\nended\n')
        expect(child.wait(), 0)


# ---- two names of one input

@case('stream', 'compiled', 'mpi', quick=True)
def one_pipe_has_one_reader(folder):
    os.mkfifo(folder / 'pipe')
    by_dash = (('-', '-'), ('-', '/dev/stdin'), ('-', '/proc/self/fd/0')) if KIND != 'mpi' else ()
    for left, right in (*by_dash, ('/dev/stdin', '/dev/fd/0'), ('pipe', 'pipe'), ('pipe', './pipe')):
        given = ('--source', f'left={left}', '--source', f'right={right}')
        expect(stream(folder, *given, net='turns.kpn', stdin=subprocess.PIPE), (b'', SHARED, 2))


@case(quick=True)
def each_reads_all_of_a_plain_file(folder):
    (folder / 'items').write_bytes(b'1\n2\n')
    for left, right in (('items', 'items'), ('items', './items'), ('-', '/dev/stdin'), ('-', 'items')):
        with open(folder / 'items', 'rb') as items:
            out, _, status = stream(folder, '--source', f'left={left}', '--source', f'right={right}', net='turns.kpn',
                                    stdin=items)
        expect((out, status), (b'1\n1\n2\n2\n', 0))


# ---- outputs that are standard input

@case('stream', 'compiled', 'mpi', quick=True)
def standard_input_is_not_written(folder):
    signal_file, linked = folder / 'signal', folder / 'linked'
    signal_file.write_bytes(b'1\n2\n')
    os.link(signal_file, linked)
    (folder / 'symbolic').symlink_to('signal')
    for name in ('signal', './signal', 'linked', 'symbolic', '/dev/stdin'):
        outputs = ((f'--sink=z={name}', b'sink NAME=OUT'), (f'--trace={name}', b'trace OUT'))
        for option, usage in outputs[:1] if KIND == 'mpi' else outputs:
            for more in ((), ('--source', 's=/dev/stdin' if KIND == 'mpi' else 's=-')):
                with open(signal_file, 'rb') as given:
                    expect(stream(folder, option, *more, stdin=given), (b'', USAGE % usage, 2))
                expect(signal_file.read_bytes(), b'1\n2\n')


# ---- outputs that are inputs or other outputs

def named(folder, name):
    """A file by its names: paths, a second name, a link."""
    os.link(folder / name, folder / f'{name}-linked')
    (folder / f'{name}-symbolic').symlink_to(name)
    return name, f'./{name}', f'{folder}/{name}', f'../{folder.name}/{name}', f'{name}-linked', f'{name}-symbolic'


@case('stream', 'compiled', 'mpi', quick=True)
def no_output_is_an_input(folder):
    (folder / 'items').write_bytes(b'1\n2\n')
    for name in named(folder, 'items'):
        for words in ([f'--sink=z={name}', '--source=s=items'], ['--sink=z=items', f'--source=s={name}']):
            expect(stream(folder, *words)[1:], (USAGE % b'sink NAME=OUT', 2))
            expect((folder / 'items').read_bytes(), b'1\n2\n')


@case('stream', 'compiled', 'mpi', quick=True)
def no_output_is_another_output(folder):
    (folder / 'items').write_bytes(b'1\n2\n')
    (folder / 'out').write_bytes(b'old')
    for name in named(folder, 'out'):
        given = ['--source=s=items', '--sink=y=out', f'--sink=z={name}']
        expect(stream(folder, *given, net='splits.kpn')[1:], (USAGE % b'sink NAME=OUT', 2))
    for number in (1, 2):
        with open(folder / 'out', 'ab') as out:
            done = stream(folder, '--source=s=items', '--sink=z=out', **{'stdout' if number == 1 else 'stderr': out})
        expect((done[2], (folder / 'out').read_bytes()[:3]), (2, b'old'))


@case('stream', 'compiled', 'mpi', quick=True)
def the_part_file_of_an_output_is_no_input(folder):
    (folder / 'out.kpn-part').write_bytes(b'1\n2\n')
    given = ['--source=s=out.kpn-part', '--sink=z=out']
    expect(stream(folder, *given)[1:], (USAGE % b'sink NAME=OUT', 2))
    expect((folder / 'out.kpn-part').read_bytes(), b'1\n2\n')


@case(quick=True)
def standard_output_is_no_input(folder):
    signal_file = folder / 'signal'
    signal_file.write_bytes(b'1\n2\n')
    for words in ((), ('--source=s=signal',), ('--sink=z=-',)):
        with open(signal_file, 'rb') as given, open(signal_file, 'ab') as out:
            expect(stream(folder, *words, stdin=given, stdout=out)[1:], (USAGE % b'sink NAME=OUT', 2))
        expect(signal_file.read_bytes(), b'1\n2\n')


@case(quick=True)
def standard_output_by_two_names(folder):
    given = ['--sink=y=-', '--sink=z=/dev/stdout']
    out, err, status = stream(folder, *given, net='splits.kpn', input=b'1000\n1\n')
    expect((sorted(out.split()), status), ([b'1', b'1000'], 0))
    with open(folder / 'out', 'ab') as out:
        expect(stream(folder, *given, net='splits.kpn', input=b'', stdout=out)[1:], (USAGE % b'sink NAME=OUT', 2))
    expect(stream(folder, '--sink=y=-', '--sink=z=-', net='splits.kpn', input=b'')[1:], (USAGE % b'sink NAME=OUT', 2))
    expect(stream(folder, '--trace=-', input=b'')[1:], (USAGE % b'trace OUT', 2))


# ---- words

@case('stream', 'compiled', quick=True)
def words_that_are_no_text(folder):
    for word in (b'z=\xff', b'z=\xc0\x80', b'z=\xed\xa0\x80', b'z=\xf4\x90\x80\x80', b'z=\xe2\x82'):
        expect(stream(folder, '--sink', word, input=b''), (b'', b'kpn: usage: words of UTF-8 text\n', 2))
    expect(stream(folder, '--sink', 'z=\u20ac\U0001f600', input=b'1\n')[2], 0)
    expect((folder / '\u20ac\U0001f600').read_bytes(), b'1\n')


@case(quick=True)
def a_trace_with_a_long_name(folder):
    for name, status in (('t' * 255, 0), ('t' * 256, 1), ('t' * 244 + '\u20ac\u20ac', 0)):
        out, err, found = stream(folder, '--trace', name, input=b'1\n')
        expect((out, found), (b'1\n' if status == 0 else b'', status))
        expect((folder / name).exists() if status == 0 else err, True if status == 0 else b'kpn: 27 Write\n')
    expect([it for it in os.listdir(folder) if it.endswith('.kpn-part')], [])


# ---- the order of opening

@case(quick=True)
def two_streams_in_a_loop(folder):
    networks(folder)
    for order in (0, 1):
        for name in ('there', 'back'):
            os.mkfifo(folder / f'{name}{order}')
        asked = [words('--source', f's=back{order}', '--sink', f'z=there{order}', '--take', '500', '--trace',
                       f'trace{order}', net='first.kpn'),
                 words('--source', f's=there{order}', '--sink', f'z=back{order}')]
        children = [subprocess.Popen(one, cwd=folder, stderr=subprocess.PIPE) for one in asked[::1 - 2 * order]]
        try:
            done = [child.communicate(timeout=MOST)[1] for child in children][::1 - 2 * order]
        finally:
            for child in children:
                child.kill()
        expect(heard(done[0]).splitlines()[0], b'sink z: 500 items, not complete')


@case(quick=True)
def a_reader_that_opens_all_first(folder):
    for name in ('y', 'z'):
        os.mkfifo(folder / name)
    (folder / 'items').write_bytes(lines(range(1, 60_001)))
    for first, second in (('y', 'z'), ('z', 'y')):
        with started(folder, '--source', 's=items', '--sink', 'y=y', '--sink', 'z=z', net='splits.kpn') as child:
            with open(folder / first, 'rb') as one, open(folder / second, 'rb') as other:
                found = {first: None, second: None}
                found['y'] = (one if first == 'y' else other).read()
                found['z'] = (one if first == 'z' else other).read()
            expect((found['z'], len(found['y'].splitlines()), child.wait()),
                   (lines(range(1_000, 60_001, 1_000)), 59_940, 0))


@case(quick=True)
def a_writer_that_opens_all_first(folder):
    for name in ('left', 'right'):
        os.mkfifo(folder / name)
    for first, second in (('left', 'right'), ('right', 'left')):
        with started(folder, '--source', 'left=left', '--source', 'right=right', net='turns.kpn',
                     stdout=subprocess.PIPE) as child:
            subprocess.run(['tee', first, second], cwd=folder, input=b'1\n2\n', stdout=subprocess.DEVNULL, timeout=MOST)
            expect((child.stdout.read(), child.wait()), (b'1\n1\n2\n2\n', 0))


@case()
def a_fifo_with_nothing_in_it(folder):
    for name in ('in', 'out'):
        os.mkfifo(folder / name)
    for early in (True, False):
        asked = subprocess.Popen(['sh', '-c', ': >in'], cwd=folder) if early else None
        with started(folder, '--source', 's=in', '--sink', 'z=out') as child:
            time.sleep(0.1)
            if asked is None:
                asked = subprocess.Popen(['sh', '-c', ': >in'], cwd=folder)
            done = subprocess.run(['cat', 'out'], cwd=folder, stdout=subprocess.PIPE, timeout=MOST)
            expect((done.stdout, child.wait(), asked.wait()), (b'', 0, 0))


@case()
def a_fifo_that_is_never_read(folder):
    os.mkfifo(folder / 'in')
    (folder / 'items').write_bytes(b'1\n')
    for wait in (0, 1):
        writer = subprocess.Popen(['sh', '-c', f'sleep {wait}; exec seq 100000 >in'], cwd=folder,
                                  stderr=subprocess.DEVNULL)
        time.sleep(0.2 if wait == 0 else 0)
        with started(folder, '--source', 'left=items', '--source', 'right=in', '--take', '1', net='turns.kpn',
                     stdin=subprocess.DEVNULL, stdout=subprocess.PIPE) as child:
            expect((child.stdout.read(), child.wait()), (b'1\n', 0))
        # who opened it in time is told that nobody reads; who comes later waits for the next reader
        if wait == 0:
            expect(writer.wait(timeout=MOST) in (0, 1, -signal.SIGPIPE), True)
        writer.kill()
        writer.wait()


# ---- plain outputs

@case()
def no_file_is_emptied_unless_all_are_open(folder):
    count = 40
    names = [f'{letter}{number}' for letter in 'abcde' for number in range(8)]
    for name in names:
        (folder / name).write_bytes(b'old\n')
    (folder / 'none').write_bytes(b'')
    given = [word for name in names for word in ('--sink', f'{name}={name}')]
    given += [word for letter in 'abcde' for word in ('--source', f's{letter}=none')]
    few = lambda: resource.setrlimit(resource.RLIMIT_NOFILE, (30, 30))
    expect(stream(folder, *given, net='many.kpn', preexec_fn=few), (b'', b'kpn: 27 Write\n', 1))
    expect([(folder / name).read_bytes() for name in names], [b'old\n'] * count)
    expect(stream(folder, *given, net='many.kpn')[2], 0)
    expect([(folder / name).read_bytes() for name in names], [b''] * count)


@case()
def one_stream_writes_a_file(folder):
    with started(folder, '--sink', 'z=out', stdin=subprocess.PIPE) as child:
        child.stdin.write(b'1\n')
        while not (folder / 'out').exists() or (folder / 'out').read_bytes() != b'1\n':
            time.sleep(PAUSE)
        expect(stream(folder, '--sink', 'z=out', input=b'2\n'), (b'', b'kpn: 27 Write\n', 1))
        child.stdin.write(b'3\n')
        child.stdin.close()
        expect((child.wait(), (folder / 'out').read_bytes()), (0, b'1\n3\n'))
    expect(stream(folder, '--sink', 'z=out', input=b'2\n')[2], 0)
    expect((folder / 'out').read_bytes(), b'2\n')


@case()
def a_file_that_may_not_grow(folder):
    (folder / 'items').write_bytes(lines(range(10_000)))
    few = lambda: resource.setrlimit(resource.RLIMIT_FSIZE, (8_192, 8_192))
    # Python ignores SIGXFSZ, and a child that does not restore it does too
    out, err, status = stream(folder, '--source', 's=items', '--sink', 'z=out', preexec_fn=few, restore_signals=False)
    expect((out, err.splitlines()[-2:], status), (b'', [b'kpn: 27 Write', b'at --sink z=out'], 1))


@case('stream')
def a_file_that_fails_has_whole_items(folder):
    (folder / 'items').write_bytes(lines(range(777_000, 787_000)))
    few = lambda: resource.setrlimit(resource.RLIMIT_FSIZE, (20_000, 20_000))
    err = stream(folder, '--source=s=items', '--sink=z=out', preexec_fn=few, restore_signals=False)[1]
    expect(err.splitlines()[-2:], [b'kpn: 27 Write', b'at --sink z=out'])
    expect(b'not complete' in err.splitlines()[0], True)
    found = (folder / 'out').read_bytes()
    expect((0 < len(found), found), (True, lines(range(777_000, 777_000 + len(found) // 7))))


@case('stream', quick=True)
def a_refused_stream_leaves_no_new_file(folder):
    (folder / 'old').write_bytes(b'old\n')
    for name in ('old', 'new'):
        given = ('--sink', f'y={name}', '--sink', 'z=no/such')
        expect(stream(folder, *given, net='splits.kpn', input=b''), (b'', b'kpn: 27 Write\n', 1))
    expect(((folder / 'old').read_bytes(), (folder / 'new').exists()), (b'old\n', False))


@case('compiled')
def what_is_counted_was_taken_whole(folder):
    (folder / 'items').write_bytes(lines(range(777_000, 778_000)))
    few = lambda: resource.setrlimit(resource.RLIMIT_FSIZE, (1_000, 1_000))
    for form, width in (('lines', 7), ('s24le', 3)):
        err = stream(folder, '--source=s=items', '--sink=z=out', '--format', f'z={form}', preexec_fn=few)[1]
        expect(err.splitlines()[0], b'sink z: %d items, not complete' % (1_000 // width))
        expect((folder / 'out').stat().st_size // width, 1_000 // width)


@case()
def a_trace_to_a_fifo(folder):
    """It waits for no other end, and no other end for it."""
    for name in ('trace', 'in'):
        os.mkfifo(folder / name)
    for first, second in (('trace', 'in'), ('in', 'trace')):
        with started(folder, '--source=s=in', '--trace=trace', stdout=subprocess.PIPE) as child:
            opened = {name: open(folder / name, 'rb' if name == 'trace' else 'wb') for name in (first, second)}
            opened['in'].write(b'1\n')
            opened['in'].close()
            expect(opened['trace'].read()[:12], b'kpn-trace 2\n')
            opened['trace'].close()
            expect((child.stdout.read(), child.wait()), (b'1\n', 0))


def give_up(number, frame):
    raise TimeoutError('nobody came')


def attempt(test):
    """Tries a case in a folder of its own, and gives what is wrong with it, or nothing."""
    with tempfile.TemporaryDirectory() as folder:
        try:
            signal.alarm(6 * most())
            test(pathlib.Path(folder))
        except (AssertionError, OSError, subprocess.TimeoutExpired) as fault:
            return f'{test.__name__}: {str(fault)[:300]}'
        finally:
            signal.alarm(0)
    return ''


def use(program, kind):
    """Tries this program from now on, of this kind; gives the cases for it."""
    global PROGRAM, KIND
    PROGRAM, KIND = os.path.realpath(program), kind
    signal.signal(signal.SIGALRM, give_up)
    return [test for test, kinds in cases.items() if kind in kinds]


def main():
    asked = measure.asked(__doc__, {'program': str(TOP / 'crates/kpn/out/kpn')}, {'kind': 'stream', 'only': ''})
    tried = [it for it in use(asked.program, asked.kind) if asked.only in it.__name__]
    failed = list(filter(None, map(attempt, tried)))
    print('\n'.join([*failed, f'{len(tried) - len(failed)} of {len(tried)} cases are well']))
    return 1 if failed else 0


if __name__ == '__main__':
    sys.exit(main())
