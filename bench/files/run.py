#!/usr/bin/env python3
"""The files of the program, as the system has them: what a command may not write over, and what is left of a trace or of
a sink's items that can't be stored.

Each case has a folder of its own. It says what has to come: the status, what the program writes on standard error, and
the contents of the folder afterwards. The gate can't show most of it, since it has no links, pipes, rights, locks and
processes that are killed. It is no part of the gate. If root starts it, it tries the rights of others as a user who has
no rights here. A word names the program; the default is crates/kpn/out/kpn.
"""
import fcntl
import os
import pathlib
import re
import resource
import shutil
import signal
import stat
import subprocess
import sys
import tempfile
import threading
import time

TOP = pathlib.Path(__file__).resolve().parent.parent.parent
sys.path.append(str(TOP / 'bench'))

import measure  # noqa: E402

# the trace of two.kpn, which lies there in version 1, in the version that a run stores
TRACE = (TOP / 'examples/histories/two.trace').read_bytes().replace(
    b'kpn-trace 1\n', b'kpn-trace 2\npolicy cycles grow one\n').replace(b'grow 0 0\n', b'grow 0 0 2\n')
REPORT = b'sink z: 312\nended\n'
COPY = (TOP / 'examples/copy.kpn').read_bytes()
TWO = (TOP / 'examples/two.kpn').read_bytes()
USAGE = b'kpn: usage: --trace OUT, a file that is no input and no other output\n'
SINK_USAGE = b'kpn: usage: --sink NAME=OUT, a file that is no input and no other output\n'
WRITE = b'kpn: 27 Write\n'
READ = b'kpn: 26 Read\n'
BOTH = b"""process both(in i; out o, p) { while 1 { read i x; write o x; write p (0 - x); } }
network { source s; sink y cap 1; sink z cap 1; b = both(s; y, z); }
"""
BOTH_REPORT = b'sink y: 1 2\nsink z: -1 -2\nwaits b s\nended\n'

# a user who owns nothing here
USER = 54_321

# the names of cases with those that fail
cases, failed = [], []


def case(test):
    """A case: a function that gets an empty folder."""
    cases.append(test)
    return test


def run(folder, *words, **how):
    """What `kpn run` writes on standard output and on standard error, and its status."""
    how.setdefault('stdout', subprocess.PIPE)
    how.setdefault('stderr', subprocess.PIPE)
    done = subprocess.run([PROGRAM, 'run', *words], cwd=folder, timeout=60, **how)
    return done.stdout, done.stderr, done.returncode


def expect(found, wanted):
    if found != wanted:
        raise AssertionError(f'{found} in place of {wanted}')


def names(folder):
    return sorted(os.listdir(folder))


def is_refused(folder, *words, usage=USAGE):
    """An output is refused, and the folder stays as it was."""
    before = {name: (folder / name).read_bytes() for name in names(folder) if (folder / name).is_file()}
    expect(run(folder, *words), (b'', usage, 2))
    expect({name: (folder / name).read_bytes() for name in names(folder) if (folder / name).is_file()}, before)


def two(folder):
    (folder / 'two.kpn').write_bytes(TWO)


def copy(folder):
    (folder / 'copy.kpn').write_bytes(COPY)
    (folder / 'items').write_bytes(b'1\n2\n')


def both(folder):
    (folder / 'both.kpn').write_bytes(BOTH)
    (folder / 'items').write_bytes(b'1\n2\n')


def run_both(folder, *words, **how):
    return run(folder, 'both.kpn', '--source', 's=items', *words, **how)


def is_refused_sink(folder, *words):
    """A file of a sink is refused, and the folder stays as it was."""
    for workers in ((), ('--workers', '2')):
        is_refused(folder, 'both.kpn', '--source', 's=items', *workers, *words, usage=SINK_USAGE)


# ---- an output that is an input

@case
def the_description(folder):
    two(folder)
    is_refused(folder, 'two.kpn', '--trace', 'two.kpn')


@case
def the_description_by_another_path(folder):
    two(folder)
    for name in ('./two.kpn', f'{folder}/two.kpn', f'../{folder.name}/two.kpn', './/two.kpn'):
        is_refused(folder, 'two.kpn', '--trace', name)
        is_refused(folder, name, '--trace', 'two.kpn')


@case
def a_link_to_the_description(folder):
    two(folder)
    (folder / 'link').symlink_to('two.kpn')
    is_refused(folder, 'two.kpn', '--trace', 'link')
    is_refused(folder, 'link', '--trace', 'two.kpn')


@case
def a_second_name_of_the_description(folder):
    two(folder)
    os.link(folder / 'two.kpn', folder / 'second')
    is_refused(folder, 'two.kpn', '--trace', 'second')


@case
def a_file_of_items(folder):
    copy(folder)
    for name in ('items', './items'):
        is_refused(folder, 'copy.kpn', '--source', 's=items', '--trace', name)
        is_refused(folder, 'copy.kpn', '--workers', '2', '--source', 's=items', '--trace', name)


@case
def a_link_to_a_file_of_items(folder):
    copy(folder)
    (folder / 'link').symlink_to('items')
    is_refused(folder, 'copy.kpn', '--source', 's=items', '--trace', 'link')


@case
def a_file_of_items_that_is_a_link_to_the_trace(folder):
    copy(folder)
    (folder / 'link').symlink_to('items')
    is_refused(folder, 'copy.kpn', '--source', 's=link', '--trace', 'items')


@case
def a_file_of_a_word_that_is_refused_too(folder):
    copy(folder)
    is_refused(folder, 'copy.kpn', '--source', 'q=items', '--source', 's', '--trace', './items')


@case
def an_input_that_is_not_there(folder):
    is_refused(folder, 'no.kpn', '--trace', './no.kpn')


@case
def an_input_with_the_name_of_the_part_file(folder):
    (folder / 'out.kpn-part').write_bytes(TWO)
    is_refused(folder, 'out.kpn-part', '--trace', 'out')
    is_refused(folder, './out.kpn-part', '--trace', 'out')


@case
def an_input_that_is_a_link_to_the_part_file(folder):
    (folder / 'out.kpn-part').write_bytes(TWO)
    (folder / 'link').symlink_to('out.kpn-part')
    is_refused(folder, 'link', '--trace', 'out')


@case
def another_file_with_the_bytes_of_an_input(folder):
    two(folder)
    (folder / 'out').write_bytes(TWO)
    expect(run(folder, 'two.kpn', '--trace', 'out'), (REPORT, b'', 0))
    expect((folder / 'out').read_bytes(), TRACE)


# ---- an output that is another output

def outputs(folder, name, target, stream):
    """The answer if standard output or standard error is the file of this name, and the trace goes to the other."""
    with open(folder / name, 'ab') as file:
        return run(folder, 'two.kpn', '--trace', target, **{stream: file})


@case
def standard_output_in_a_file(folder):
    two(folder)
    for target in ('/dev/stdout', '/proc/self/fd/1', './out', 'out'):
        (folder / 'out').write_bytes(b'kept\n')
        found = outputs(folder, 'out', target, 'stdout')
        expect((found[1], found[2]), (USAGE, 2))
        expect((folder / 'out').read_bytes(), b'kept\n')


@case
def standard_error_in_a_file(folder):
    two(folder)
    for target in ('/dev/stderr', '/proc/self/fd/2', './told'):
        (folder / 'told').write_bytes(b'kept\n')
        found = outputs(folder, 'told', target, 'stderr')
        expect((found[0], found[2]), (b'', 2))
        expect((folder / 'told').read_bytes(), b'kept\n' + USAGE)


@case
def a_link_to_standard_output_in_a_file(folder):
    two(folder)
    (folder / 'link').symlink_to('out')
    (folder / 'out').write_bytes(b'kept\n')
    found = outputs(folder, 'out', 'link', 'stdout')
    expect((found[1], found[2]), (USAGE, 2))


@case
def standard_input_in_a_file(folder):
    two(folder)
    both(folder)
    (folder / 'link').symlink_to('given')
    for target in ('/dev/stdin', '/proc/self/fd/0', './given', 'given', 'link'):
        (folder / 'given').write_bytes(b'kept\n')
        with open(folder / 'given', 'rb') as given:
            expect(run(folder, 'two.kpn', '--trace', target, stdin=given), (b'', USAGE, 2))
            expect(run_both(folder, '--sink', f'z={target}', stdin=given), (b'', SINK_USAGE, 2))
        expect((folder / 'given').read_bytes(), b'kept\n')


@case
def standard_input_in_another_file(folder):
    two(folder)
    with open(folder / 'two.kpn', 'rb') as given:
        expect(run(folder, 'two.kpn', '--trace', 'trace', stdin=given), (REPORT, b'', 0))
    expect((folder / 'trace').read_bytes(), TRACE)


@case
def descriptors_that_are_closed(folder):
    two(folder)
    for closed in ((0,), (1,), (2,), (0, 1), (0, 2), (1, 2), (0, 1, 2)):
        found = run(folder, 'two.kpn', '--trace', 'trace', preexec_fn=lambda: [os.close(one) for one in closed])
        expect(found[2], 1 if 1 in closed else 0)
        expect((folder / 'trace').read_bytes(), TRACE)
        (folder / 'trace').unlink()


@case
def a_pipe_that_never_waits(folder):
    copy(folder)
    items = range(40_000)
    (folder / 'items').write_bytes(b''.join(b'%d\n' % item for item in items))
    taken, takes = os.pipe()
    fcntl.fcntl(takes, fcntl.F_SETFL, fcntl.fcntl(takes, fcntl.F_GETFL) | os.O_NONBLOCK)
    with subprocess.Popen([PROGRAM, 'run', 'copy.kpn', '--source', 's=items'], cwd=folder, stdout=takes) as child:
        os.close(takes)
        time.sleep(0.5)
        with open(taken, 'rb') as reader:
            found = reader.read()
        expect((found.split(b'\n')[0], child.wait()), (b'sink z:' + b''.join(b' %d' % item for item in items), 0))


@case
def an_input_that_never_waits(folder):
    given, gives = os.pipe()
    fcntl.fcntl(given, fcntl.F_SETFL, fcntl.fcntl(given, fcntl.F_GETFL) | os.O_NONBLOCK)
    with subprocess.Popen([PROGRAM, 'alone', 'copy'], stdin=given, stdout=subprocess.PIPE,
                          stderr=subprocess.PIPE) as child:
        os.close(given)
        time.sleep(0.2)
        os.write(gives, b'1\n')
        time.sleep(0.2)
        os.close(gives)
        expect((child.communicate(), child.returncode), ((b'1\n', b''), 0))


@case
def standard_output_in_the_part_file(folder):
    two(folder)
    (folder / 'trace.kpn-part').write_bytes(b'kept\n')
    found = outputs(folder, 'trace.kpn-part', 'trace', 'stdout')
    expect((found[1], found[2]), (USAGE, 2))
    expect(names(folder), ['trace.kpn-part', 'two.kpn'])


@case
def standard_output_in_another_file(folder):
    two(folder)
    found = outputs(folder, 'out', 'trace', 'stdout')
    expect((found[1], found[2]), (b'', 0))
    expect((folder / 'out').read_bytes(), REPORT)
    expect((folder / 'trace').read_bytes(), TRACE)


# ---- sinks

@case
def what_sinks_received(folder):
    both(folder)
    expect(run_both(folder, '--sink', 'z=zs', '--sink', 'y=ys', '--trace', 'out'), (BOTH_REPORT, b'', 0))
    expect((folder / 'ys').read_bytes(), b'1\n2\n')
    expect((folder / 'zs').read_bytes(), b'-1\n-2\n')
    expect(names(folder), ['both.kpn', 'items', 'out', 'ys', 'zs'])
    expect(run_both(folder, '--sink', 'z=zs', '--take', '1')[2], 0)
    expect((folder / 'zs').read_bytes(), b'-1\n')


@case
def a_sink_over_an_input(folder):
    both(folder)
    (folder / 'link').symlink_to('items')
    os.link(folder / 'both.kpn', folder / 'second')
    for name in ('items', './items', 'link', 'both.kpn', 'second', f'{folder}/items'):
        is_refused_sink(folder, '--sink', f'z={name}')


@case
def a_sink_over_another_output(folder):
    both(folder)
    is_refused_sink(folder, '--trace', 'out', '--sink', 'z=out')
    is_refused_sink(folder, '--trace', 'out', '--sink', 'z=./out')
    is_refused_sink(folder, '--sink', 'y=out', '--sink', 'z=out')
    is_refused_sink(folder, '--sink', 'y=out', '--sink', 'z=./out')
    is_refused_sink(folder, '--sink', 'z=out', '--sink', 'z=out')
    (folder / 'out').write_bytes(b'kept\n')
    (folder / 'link').symlink_to('out')
    os.link(folder / 'out', folder / 'second')
    for name in ('link', 'second', f'../{folder.name}/out'):
        is_refused_sink(folder, '--trace', name, '--sink', 'y=out')
        is_refused_sink(folder, '--trace', 'out', '--sink', f'y={name}')
        is_refused_sink(folder, '--sink', f'y={name}', '--sink', 'z=out')


@case
def a_sink_in_a_part_file(folder):
    both(folder)
    is_refused_sink(folder, '--trace', 'out', '--sink', 'z=out.kpn-part')
    is_refused_sink(folder, '--trace', 'out.kpn-part', '--sink', 'z=out')
    is_refused_sink(folder, '--sink', 'y=out', '--sink', 'z=./out.kpn-part')
    is_refused_sink(folder, '--sink', 'y=./out.kpn-part', '--sink', 'z=out')


@case
def two_names_with_one_part_file(folder):
    both(folder)
    a, b = 'n' * 254, 'n' * 255
    is_refused_sink(folder, '--sink', f'y={a}', '--sink', f'z={b}')
    is_refused_sink(folder, '--sink', f'y={b}', '--sink', f'z=./{a}')
    is_refused_sink(folder, '--trace', a, '--sink', f'z={b}')
    expect(run_both(folder, '--sink', f'y={"n" * 245}a', '--sink', f'z={b}'), (BOTH_REPORT, b'', 0))


@case
def an_input_that_begins_like_an_output(folder):
    """An input has no part file."""
    both(folder)
    name = 'n' * 255
    (folder / name).write_bytes(b'1\n2\n')
    expect(run(folder, 'both.kpn', '--source', f's={name}', '--sink', f'z={"n" * 254}'), (BOTH_REPORT, b'', 0))


def each_order(folder, first, second):
    """Two names are refused as outputs in each order, as the trace and a sink and as two sinks."""
    for a, b in ((first, second), (second, first)):
        is_refused_sink(folder, '--trace', a, '--sink', f'z={b}')
        is_refused_sink(folder, '--sink', f'y={a}', '--sink', f'z={b}')


@case
def a_link_to_a_part_file_that_is_not_there(folder):
    both(folder)
    (folder / 'sub').mkdir()
    (folder / 'link').symlink_to('out.kpn-part')
    (folder / 'chain').symlink_to('./link')
    (folder / 'sub/link').symlink_to('../out.kpn-part')
    (folder / 'far').symlink_to('sub/link')
    (folder / 'whole').symlink_to(folder / 'out.kpn-part')
    (folder / 'through').symlink_to('sub')
    for name in ('link', './link', 'chain', 'sub/link', 'far', 'whole', 'through/link', 'through/../link'):
        each_order(folder, 'out', name)
        each_order(folder, f'{folder}/out', name)
    expect(names(folder), ['both.kpn', 'chain', 'far', 'items', 'link', 'sub', 'through', 'whole'])
    expect(names(folder / 'sub'), ['link'])


@case
def a_link_to_the_part_file_of_a_long_name(folder):
    both(folder)
    (folder / 'link').symlink_to('n' * 246 + '.kpn-part')
    each_order(folder, 'n' * 255, 'link')
    each_order(folder, 'n' * 246, 'link')
    expect(names(folder), ['both.kpn', 'items', 'link'])


@case
def a_link_to_the_part_file_of_a_link(folder):
    """The part file of a link stands beside what it leads to."""
    both(folder)
    (folder / 'sub').mkdir()
    (folder / 'out').symlink_to('sub/out')
    (folder / 'link').symlink_to('sub/out.kpn-part')
    for _ in range(2):
        each_order(folder, 'out', 'link')
        (folder / 'sub/out').write_bytes(b'kept\n')
    expect(names(folder / 'sub'), ['out'])
    expect(run_both(folder, '--sink', 'y=out', '--sink', 'z=out.kpn-part'), (BOTH_REPORT, b'', 0))
    expect((folder / 'sub/out').read_bytes(), b'1\n2\n')
    expect((folder / 'out.kpn-part').read_bytes(), b'-1\n-2\n')


@case
def links_to_one_file_that_is_not_there(folder):
    both(folder)
    (folder / 'link').symlink_to('out')
    (folder / 'second').symlink_to('./out')
    (folder / 'chain').symlink_to('link')
    each_order(folder, 'link', 'second')
    each_order(folder, 'link', 'chain')
    each_order(folder, 'link', 'out')
    each_order(folder, 'chain', './out')
    expect(names(folder), ['both.kpn', 'chain', 'items', 'link', 'second'])


@case
def links_that_meet_are_refused_before_inputs_are_read(folder):
    both(folder)
    (folder / 'link').symlink_to('out.kpn-part')
    is_refused(folder, 'no.kpn', '--trace', 'out', '--sink', 'z=link', usage=SINK_USAGE)


@case
def a_ring_of_links(folder):
    both(folder)
    (folder / 'link').symlink_to('ring')
    (folder / 'ring').symlink_to('link')
    expect(run_both(folder, '--sink', 'y=link'), (b'', WRITE, 1))
    expect(names(folder), ['both.kpn', 'items', 'link', 'ring'])


@case
def a_sink_on_standard_output_in_a_file(folder):
    both(folder)
    for target in ('/dev/stdout', './out', 'out'):
        with open(folder / 'out', 'ab') as file:
            found = run_both(folder, '--sink', f'z={target}', stdout=file)
        expect((found[1], found[2]), (SINK_USAGE, 2))
        expect((folder / 'out').read_bytes(), b'')


@case
def a_sink_on_standard_output_in_a_pipe(folder):
    both(folder)
    expect(run_both(folder, '--sink', 'z=/dev/stdout'), (b'-1\n-2\n' + BOTH_REPORT, b'', 0))


@case
def sinks_that_can_not_be_stored(folder):
    """Whether they can is tried before the run, and nothing is stored."""
    both(folder)
    for name in ('', 'missing/out', 'items/out', 'out/', 'n' * 256):
        expect(run_both(folder, '--trace', 'out', '--sink', 'y=ys', '--sink', f'z={name}'), (b'', WRITE, 1))
        expect(names(folder), ['both.kpn', 'items'])


@case
def a_sink_on_a_device_that_is_full(folder):
    """The files before it stay, and those after it are not stored."""
    both(folder)
    (folder / 'zs').write_bytes(b'kept\n')
    expect(run_both(folder, '--trace', 'out', '--sink', 'y=/dev/full', '--sink', 'z=zs'), (b'', WRITE, 1))
    expect((folder / 'zs').read_bytes(), b'kept\n')
    expect(names(folder), ['both.kpn', 'items', 'out', 'zs'])


@case
def inputs_are_refused_before_sinks_are_ready(folder):
    both(folder)
    expect(run(folder, 'both.kpn', '--source', 's=no', '--sink', 'z=missing/out'), (b'', READ, 1))
    expect(run(folder, 'both.kpn', '--source', 's=no', '--sink', 'q=out'), (b'', b'kpn: 22 UnknownName at 0\n', 1))
    expect(names(folder), ['both.kpn', 'items'])


@case
def a_sink_of_a_run_that_is_stopped(folder):
    both(folder)
    expect(run_both(folder, '--max-commits', '3', '--sink', 'y=ys')[::2], (b'stopped\n', 5))
    expect((folder / 'ys').read_bytes(), b'1\n')
    expect(names(folder), ['both.kpn', 'items', 'ys'])


def many(folder, instances):
    """The words of a run with 16 sinks for each instance, whose last one gets an item."""
    parts, sinks = range(16), range(16 * instances)
    (folder / 'many.kpn').write_text('\n'.join([
        f'process many(out {", ".join(f"p{part}" for part in parts)}) {{ write p15 7; }}', 'network {',
        *(f'sink z{sink} cap 1;' for sink in sinks),
        *(f'm{first} = many(; {", ".join(f"z{first + part}" for part in parts)});' for first in sinks[::16]), '}']))
    return ['many.kpn', *(word for sink in sinks for word in ('--sink', f'z{sink}=o{sink}'))]


@case
def many_sinks(folder):
    words = many(folder, 63)
    expect(run(folder, *words, preexec_fn=lambda: few_files(1_024))[1:], (b'', 0))
    expect(len(names(folder)), 1 + 63 * 16)
    expect((folder / 'o1006').read_bytes() + (folder / 'o1007').read_bytes(), b'7\n')


@case
def open_files(folder):
    """Each output takes one until it is stored. If there are too few, nothing is stored."""
    words = many(folder, 4)
    expect(run(folder, *words, '--trace', 'out', preexec_fn=lambda: few_files(3 + 64)), (b'', WRITE, 1))
    expect(names(folder), ['many.kpn'])
    expect(run(folder, *words, '--trace', 'out', preexec_fn=lambda: few_files(3 + 65))[1:], (b'', 0))
    expect(len(names(folder)), 1 + 65)


def few_files(count):
    resource.setrlimit(resource.RLIMIT_NOFILE, (count, count))


# ---- outputs that stay allowed

@case
def standard_output_in_a_pipe(folder):
    two(folder)
    expect(run(folder, 'two.kpn', '--trace', '/dev/stdout'), (TRACE + REPORT, b'', 0))


@case
def standard_error_in_a_pipe(folder):
    two(folder)
    expect(run(folder, 'two.kpn', '--trace', '/dev/stderr'), (REPORT, TRACE, 0))


@case
def nothing(folder):
    copy(folder)
    words = 'copy.kpn', '--source', 's=/dev/null'
    expect(run(folder, *words, '--trace', '/dev/stdout', stdout=subprocess.DEVNULL)[1:], (b'', 0))
    expect(run(folder, *words, '--trace', '//dev/null')[1:], (b'', 0))
    expect(run(folder, 'two.kpn', '--trace', '/dev/null')[2], 1)
    two(folder)
    expect(run(folder, 'two.kpn', '--trace', '/dev/null'), (REPORT, b'', 0))


@case
def nothing_twice(folder):
    """Nothing is lost there. But one word is refused as for a file."""
    both(folder)
    expect(run_both(folder, '--trace', '/dev/null', '--sink', 'z=//dev/null'), (BOTH_REPORT, b'', 0))
    expect(run_both(folder, '--sink', 'y=/dev/null', '--sink', 'z=//dev/null'), (BOTH_REPORT, b'', 0))
    is_refused_sink(folder, '--trace', '/dev/null', '--sink', 'z=/dev/null')


@case
def a_file_by_its_descriptor(folder):
    """It is written itself: the one who opened it reads it there."""
    two(folder)
    with open(folder / 'out', 'w+b') as out:
        out.write(b'a longer text that is there before: ' * 40)
        out.flush()
        for name in (f'/dev/fd/{out.fileno()}', f'/proc/self/fd/{out.fileno()}'):
            expect(run(folder, 'two.kpn', '--trace', name, pass_fds=(out.fileno(),)), (REPORT, b'', 0))
            out.seek(0)
            expect(out.read(), TRACE)
    expect(names(folder), ['out', 'two.kpn'])


@case
def a_file_by_its_descriptor_and_by_its_name(folder):
    both(folder)
    with open(folder / 'out', 'wb') as out:
        for a, b in (('out', f'/dev/fd/{out.fileno()}'), (f'/dev/fd/{out.fileno()}', 'out')):
            expect(run_both(folder, '--sink', f'y={a}', '--sink', f'z={b}', pass_fds=(out.fileno(),)),
                   (b'', SINK_USAGE, 2))


@case
def a_terminal(folder):
    two(folder)
    outer, inner = os.openpty()
    found = run(folder, 'two.kpn', '--trace', '/dev/stdout', stdout=inner)
    expect((found[1], found[2]), (b'', 0))
    os.close(inner)
    os.close(outer)


@case
def a_named_pipe(folder):
    two(folder)
    os.mkfifo(folder / 'pipe')
    read = []
    reader = threading.Thread(target=lambda: read.append((folder / 'pipe').read_bytes()))
    reader.start()
    expect(run(folder, 'two.kpn', '--trace', 'pipe'), (REPORT, b'', 0))
    reader.join()
    expect(read, [TRACE])
    expect(stat.S_ISFIFO(os.stat(folder / 'pipe').st_mode), True)


@case
def a_link_to_a_file(folder):
    two(folder)
    (folder / 'file').write_bytes(b'a longer text that is there before: ' * 40)
    (folder / 'link').symlink_to('file')
    expect(run(folder, 'two.kpn', '--trace', 'link'), (REPORT, b'', 0))
    expect((folder / 'file').read_bytes(), TRACE)
    expect((folder / 'link').is_symlink(), True)


@case
def a_link_to_a_file_that_is_not_there(folder):
    two(folder)
    (folder / 'sub').mkdir()
    (folder / 'link').symlink_to('sub/link')
    (folder / 'sub/link').symlink_to('file')
    expect(run(folder, 'two.kpn', '--trace', 'link'), (REPORT, b'', 0))
    expect((folder / 'sub/file').read_bytes(), TRACE)
    expect(names(folder), ['link', 'sub', 'two.kpn'])
    expect(names(folder / 'sub'), ['file', 'link'])


@case
def a_link_to_a_file_in_a_folder_that_is_not_there(folder):
    two(folder)
    (folder / 'link').symlink_to('missing/file')
    expect(run(folder, 'two.kpn', '--trace', 'link'), (b'', WRITE, 1))
    expect(names(folder), ['link', 'two.kpn'])


# ---- the file is tried before the run

def long_run(folder):
    """The words of a run of two seconds or more, which would store its trace at its end."""
    shutil.copy(TOP / 'examples/worked/spin.kpn', folder / 'spin.kpn')
    commits = 100
    while True:
        words = 'spin.kpn', '--max-commits', str(commits)
        before = time.monotonic()
        run(folder, *words)
        if time.monotonic() - before > 2:
            return words
        commits *= 4


def at_once(folder, *words, wanted=(b'', WRITE, 1)):
    """The answer comes in less time than a quarter of the run takes, on a busy machine too."""
    before = time.monotonic()
    expect(run(folder, *words), wanted)
    took = time.monotonic() - before
    if took > 0.5:
        raise AssertionError(f'{took:.2f} seconds')


@case
def a_folder_that_is_not_there(folder):
    at_once(folder, *long_run(folder), '--trace', 'missing/out')


@case
def a_folder_in_place_of_a_file(folder):
    (folder / 'out').mkdir()
    at_once(folder, *long_run(folder), '--trace', 'out')


@case
def a_name_that_no_file_can_have(folder):
    words = long_run(folder)
    for name in ('', '.', '..', 'out/', 'spin.kpn/out', 'n' * 256):
        expect(run(folder, *words, '--trace', name)[1:], (WRITE, 1))
    expect(names(folder), ['spin.kpn'])


@case
def a_part_file_that_somebody_holds(folder):
    words = long_run(folder)
    with open(folder / 'out.kpn-part', 'wb') as part:
        part.write(b'of another')
        part.flush()
        fcntl.flock(part, fcntl.LOCK_EX)
        at_once(folder, *words, '--trace', 'out')
    expect((folder / 'out.kpn-part').read_bytes(), b'of another')


@case
def a_file_that_may_not_be_written(folder):
    if os.geteuid() != 0:
        return
    words = long_run(folder)
    (folder / 'out').write_bytes(b'kept\n')
    os.chmod(folder / 'out', 0o444)
    os.chmod(folder, 0o777)
    expect(run(folder, *words, '--trace', 'out', user=USER), (b'', WRITE, 1))
    expect((folder / 'out').read_bytes(), b'kept\n')
    expect(names(folder), ['out', 'spin.kpn'])


@case
def a_folder_that_may_not_be_written(folder):
    if os.geteuid() != 0:
        return
    words = long_run(folder)
    (folder / 'closed').mkdir(mode=0o755)
    expect(run(folder, *words, '--trace', 'closed/out', user=USER), (b'', WRITE, 1))


@case
def inputs_are_refused_first(folder):
    expect(run(folder, 'no.kpn', '--trace', 'missing/out'), (b'', READ, 1))
    (folder / 'out').write_bytes(b'kept\n')
    expect(run(folder, 'no.kpn', '--trace', 'out'), (b'', READ, 1))
    expect(names(folder), ['out'])
    expect((folder / 'out').read_bytes(), b'kept\n')


@case
def a_part_file_that_a_killed_run_left(folder):
    two(folder)
    (folder / 'out.kpn-part').write_bytes(b'a part')
    expect(run(folder, 'two.kpn', '--trace', 'out'), (REPORT, b'', 0))
    expect((folder / 'out').read_bytes(), TRACE)
    expect(names(folder), ['out', 'two.kpn'])


@case
def killed_runs(folder):
    shutil.copy(TOP / 'examples/worked/spin.kpn', folder / 'spin.kpn')
    two(folder)
    left = 0
    for turn in range(40):
        begun = subprocess.Popen([PROGRAM, 'run', 'two.kpn', '--trace', 'out'], cwd=folder, stdout=subprocess.DEVNULL)
        time.sleep(turn * 0.001)
        begun.send_signal(signal.SIGKILL)
        begun.wait()
        left += (folder / 'out.kpn-part').exists()
        if (folder / 'out').exists():
            expect((folder / 'out').read_bytes(), TRACE)
        expect(run(folder, 'two.kpn', '--trace', 'out'), (REPORT, b'', 0))
        expect((folder / 'out').read_bytes(), TRACE)
        expect(names(folder), ['out', 'spin.kpn', 'two.kpn'])
    print(f'  {left} of 40 killed runs left a part file')


@case
def two_runs_at_once(folder):
    two(folder)
    begun = [subprocess.Popen([PROGRAM, 'run', 'two.kpn', '--trace', 'out'], cwd=folder, stdout=subprocess.PIPE,
                              stderr=subprocess.PIPE) for _ in range(16)]
    for one in begun:
        out, told = one.communicate()
        if (out, told, one.returncode) not in ((REPORT, b'', 0), (b'', WRITE, 1)):
            raise AssertionError((out, told, one.returncode))
    expect((folder / 'out').read_bytes(), TRACE)
    expect(names(folder), ['out', 'two.kpn'])


@case
def names_of_255_bytes(folder):
    two(folder)
    for name in ('n' * 246, 'n' * 247, 'n' * 255, 'ä' * 127, 'ä' * 127 + 'n', 'n' + 'ä' * 127):
        expect(run(folder, 'two.kpn', '--trace', name), (REPORT, b'', 0))
        expect((folder / name).read_bytes(), TRACE)
        os.remove(folder / name)
    expect(names(folder), ['two.kpn'])


# ---- rights, and what stays

def rights(path):
    return stat.S_IMODE(os.stat(path).st_mode)


@case
def the_rights_of_the_old_file(folder):
    two(folder)
    for mode in (0o600, 0o640, 0o666, 0o755, 0o200):
        (folder / 'out').write_bytes(b'kept\n')
        os.chmod(folder / 'out', mode)
        expect(run(folder, 'two.kpn', '--trace', 'out'), (REPORT, b'', 0))
        expect(oct(rights(folder / 'out')), oct(mode))


@case
def the_rights_of_a_new_file(folder):
    two(folder)
    for mask in (0o022, 0o077, 0o000):
        expect(run(folder, 'two.kpn', '--trace', 'out', umask=mask), (REPORT, b'', 0))
        expect(oct(rights(folder / 'out')), oct(0o666 & ~mask))
        os.remove(folder / 'out')


@case
def the_rights_of_the_part_file_from_its_beginning(folder):
    """The calls of the system show that no file with more rights than the old one is ever made."""
    if shutil.which('strace') is None:
        return
    two(folder)
    (folder / 'out').write_bytes(b'kept\n')
    os.chmod(folder / 'out', 0o600)
    done = subprocess.run(['strace', '-f', '-e', 'trace=openat,fsync,rename', PROGRAM, 'run', 'two.kpn', '--trace',
                           'out'], cwd=folder, capture_output=True, umask=0)
    calls = done.stderr.decode()
    expect(len(re.findall(r'kpn-part", O_WRONLY.O_CREAT.O_EXCL[A-Z_|]*, 0(?:100)?600\)', calls)), 1)


@case
def an_old_part_file_with_more_rights(folder):
    two(folder)
    (folder / 'out').write_bytes(b'kept\n')
    os.chmod(folder / 'out', 0o600)
    (folder / 'out.kpn-part').write_bytes(b'left')
    os.chmod(folder / 'out.kpn-part', 0o666)
    expect(run(folder, 'two.kpn', '--trace', 'out'), (REPORT, b'', 0))
    expect(oct(rights(folder / 'out')), oct(0o600))


@case
def a_part_file_that_is_a_second_name(folder):
    """The file that a part file is a second name of is not written."""
    two(folder)
    (folder / 'other').write_bytes(b'of another\n')
    os.link(folder / 'other', folder / 'out.kpn-part')
    expect(run(folder, 'two.kpn', '--trace', 'out'), (REPORT, b'', 0))
    expect((folder / 'other').read_bytes(), b'of another\n')


@case
def a_part_file_that_is_a_link(folder):
    two(folder)
    (folder / 'other').write_bytes(b'of another\n')
    (folder / 'out.kpn-part').symlink_to('other')
    expect(run(folder, 'two.kpn', '--trace', 'out'), (b'', WRITE, 1))
    expect((folder / 'other').read_bytes(), b'of another\n')


@case
def a_part_file_that_is_no_plain_file(folder):
    """It stays, and nobody waits for the reader of a pipe."""
    words = long_run(folder)
    (folder / 'out').write_bytes(b'kept\n')
    for make in (os.mkfifo, os.mkdir, lambda path: os.symlink('nowhere', path)):
        make(folder / 'out.kpn-part')
        at_once(folder, *words, '--trace', 'out')
        expect(names(folder), ['out', 'out.kpn-part', 'spin.kpn'])
        (os.rmdir if (folder / 'out.kpn-part').is_dir() else os.remove)(folder / 'out.kpn-part')
    expect((folder / 'out').read_bytes(), b'kept\n')


@case
def a_device_that_is_full(folder):
    two(folder)
    expect(run(folder, 'two.kpn', '--trace', '/dev/full'), (b'', WRITE, 1))


@case
def a_file_that_may_grow_no_longer(folder):
    """If the trace is not written whole, the old file stays, and no part file."""
    two(folder)
    (folder / 'out').write_bytes(b'kept\n')
    expect(run(folder, 'two.kpn', '--trace', 'out', preexec_fn=small_files), (b'', WRITE, 1))
    expect((folder / 'out').read_bytes(), b'kept\n')
    expect(names(folder), ['out', 'two.kpn'])


@case
def a_link_to_a_file_that_may_grow_no_longer(folder):
    two(folder)
    (folder / 'out').write_bytes(b'kept\n')
    (folder / 'link').symlink_to('out')
    expect(run(folder, 'two.kpn', '--trace', 'link', preexec_fn=small_files), (b'', WRITE, 1))
    expect((folder / 'out').read_bytes(), b'kept\n')
    expect(names(folder), ['link', 'out', 'two.kpn'])


def small_files():
    """No file may be longer than 8 bytes, and a longer write fails."""
    signal.signal(signal.SIGXFSZ, signal.SIG_IGN)
    resource.setrlimit(resource.RLIMIT_FSIZE, (8, 8))


@case
def synced_before_it_succeeds(folder):
    """The file is synced before it takes its place, and its folder after that."""
    if shutil.which('strace') is None:
        return
    two(folder)
    done = subprocess.run(['strace', '-f', '-e', 'trace=fsync,rename', PROGRAM, 'run', 'two.kpn', '--trace', 'out'],
                          cwd=folder, capture_output=True)
    calls = [line.split('(')[0] for line in done.stderr.decode().splitlines()]
    expect([call for call in calls if call in ('fsync', 'rename')], ['fsync', 'rename', 'fsync'])


# ---- numbers

@case
def rounds_of_minus_zero(folder):
    copy(folder)
    for words in (('0',), ('--', '-0'), ('--', '-00')):
        done = subprocess.run([PROGRAM, 'rounds', 'copy.kpn', *words], cwd=folder, capture_output=True, timeout=60)
        expect((done.stdout, done.stderr, done.returncode), (b's:\nz:\n', b'', 0))


# ---- signals

@case
def an_input_that_a_signal_interrupts(folder):
    """A pipe. Signals that stop the program and let it go on interrupt its reads."""
    copy(folder)
    os.mkfifo(folder / 'pipe')
    begun = subprocess.Popen([PROGRAM, 'run', 'copy.kpn', '--source', 's=pipe'], cwd=folder, stdout=subprocess.PIPE,
                             stderr=subprocess.PIPE)
    with open(folder / 'pipe', 'wb') as pipe:
        for line in (b'1\n', b'2\n', b'3\n'):
            pipe.write(line)
            pipe.flush()
            time.sleep(0.05)
            begun.send_signal(signal.SIGSTOP)
            begun.send_signal(signal.SIGCONT)
    out, told = begun.communicate(timeout=60)
    expect((out, told), (b'sink z: 1 2 3\nwaits c s\nended\n', b''))


# ---- words for a person

JAMMED = str(TOP / 'examples/jammed.kpn')
JAMMED_REPORT = b'waits p a full\nwaits q b\njammed\n'


def kpn(folder, *words, **how):
    """What a command writes on standard output, and its status."""
    done = subprocess.run([PROGRAM, *words], cwd=folder, timeout=60, stdout=subprocess.PIPE, **how)
    return done.stdout, done.returncode


def read_all(terminal):
    """What was written on the other side of a terminal, which is closed there."""
    told = b''
    while True:
        try:
            told += os.read(terminal, 65_536)
        except OSError:
            os.close(terminal)
            return told.replace(b'\r\n', b'\n')


@case
def words_on_a_terminal(folder):
    missing = b'kpn: 26 Read\n', b"`none` can't be read: there is no such file\n", (b'', 1)
    jammed = b'', b'jammed: processes wait for one another', (JAMMED_REPORT, 4)
    for words, has_words in (((), True), (('--words', 'never'), False), (('--words', 'terminal'), True),
                             (('--words', 'always'), True)):
        for file, (line, said, wanted) in (('none', missing), (JAMMED, jammed)):
            outer, inner = os.openpty()
            expect(kpn(folder, *words, 'run', file, stderr=inner), wanted)
            os.close(inner)
            told = read_all(outer)
            expect((told[:len(line)], said in told, len(told) > len(line)), (line, has_words, has_words))


@case
def words_only_where_faults_go(folder):
    outer, inner = os.openpty()
    done = subprocess.run([PROGRAM, 'run', JAMMED], timeout=60, stdin=inner, stdout=inner, stderr=subprocess.PIPE)
    os.close(inner)
    expect((read_all(outer), done.stderr, done.returncode), (JAMMED_REPORT, b'', 4))


@case
def words_by_the_environment(folder):
    for word, has_words in (('always', True), ('never', False), ('loud', False)):
        done = subprocess.run([PROGRAM, 'run', JAMMED], timeout=60, capture_output=True,
                              env={**os.environ, 'KPN_WORDS': word})
        expect((done.stdout, len(done.stderr) > 0, done.returncode), (JAMMED_REPORT, has_words, 4))


@case
def words_that_nobody_takes(folder):
    """A place for faults that is closed, full, or a pipe whose reader has gone."""
    words = '--words', 'always', 'run', JAMMED
    expect(kpn(folder, *words, preexec_fn=lambda: os.close(2)), (JAMMED_REPORT, 4))
    with open('/dev/full', 'wb') as full:
        expect(kpn(folder, *words, stderr=full), (JAMMED_REPORT, 4))
        expect(kpn(folder, '--words', 'always', 'run', 'none', stderr=full), (b'', 1))
    taken, given = os.pipe()
    os.close(taken)
    expect(kpn(folder, *words, stderr=given), (JAMMED_REPORT, 4))
    os.close(given)


@case
def words_about_a_pipe(folder):
    """What was read from a pipe is not read again, so no words are about it."""
    done = subprocess.run([PROGRAM, '--words', 'always', 'run', '/dev/stdin'], input=b'network', timeout=60,
                          capture_output=True)
    expect((done.stdout, done.stderr, done.returncode), (b'', b'kpn: 21 Grammar at 7\n', 1))


def main():
    for test in cases:
        with tempfile.TemporaryDirectory(prefix='kpn-files-') as name:
            folder = pathlib.Path(name)
            os.chmod(folder, 0o755)
            try:
                test(folder)
            except (AssertionError, OSError, subprocess.TimeoutExpired) as error:
                failed.append(test.__name__)
                print(f'{test.__name__}: {error}')
    print(f'{len(cases) - len(failed)} of {len(cases)} cases')
    sys.exit(1 if failed else 0)


if __name__ == '__main__':
    PROGRAM = os.path.abspath(measure.asked(__doc__, {'program': str(TOP / 'crates/kpn/out/kpn')}).program)
    main()
