#!/usr/bin/env python3
"""How much longer `net.run` of the Python package takes than `kpn run` of the same files, for networks of its gallery.

It prints both times on the clock, and those on the processors with all children. It is no part of the gate. A word may
name the number of samples; the default is 100,000. The two take turns, and the best of nine runs of each counts, or of
`--runs N`. `--program PROGRAM` names a build of `kpn`.
"""
import pathlib
import resource
import subprocess
import sys
import tempfile
import time

HERE = pathlib.Path(__file__).resolve().parent
sys.dont_write_bytecode = True
sys.path += [str(HERE.parent), str(HERE.parents[1] / 'python')]

import kpn
import measure
from kpn.gallery import GALLERY
from kpn.program import environment

NETWORKS = ('fir', 'fft', 'biquad')
ENVIRONMENT = environment()


def on_processors():
    usages = [resource.getrusage(who) for who in (resource.RUSAGE_SELF, resource.RUSAGE_CHILDREN)]
    return sum(it.ru_utime + it.ru_stime for it in usages)


def timed(call):
    """The milliseconds that a call takes, on the clock and on the processors."""
    clock, processors = time.perf_counter(), on_processors()
    call()
    return 1000 * (time.perf_counter() - clock), 1000 * (on_processors() - processors)


def run_program(folder, words):
    with open(pathlib.Path(folder, 'out'), 'wb') as out:
        subprocess.run(words, cwd=folder, stdout=out, env=ENVIRONMENT, check=True)


def main():
    given = measure.asked(__doc__, {'samples': 100_000}, {'runs': 9, 'program': ''})
    program = kpn.find_program(given.program or None)
    for name in NETWORKS:
        module = GALLERY[name]
        items = module.inputs(given.samples)
        with tempfile.TemporaryDirectory() as folder:
            pathlib.Path(folder, 'net.kpn').write_text(str(module.build()))
            words = [program, 'run', 'net.kpn']
            for source, numbers in items.items():
                pathlib.Path(folder, source).write_text(''.join(f'{it}\n' for it in numbers))
                words += ['--source', f'{source}={source}']
            tried = [(timed(lambda: run_program(folder, words)),
                      timed(lambda: module.build().run(items, program=program))) for _ in range(given.runs)]
        for kind, what in enumerate(('on the clock', 'on the processors')):
            alone, through = (min(it[way][kind] for it in tried) for way in (0, 1))
            print(f'{name:8} {what:18} kpn run {alone:4.0f} ms, net.run {through:4.0f} ms: '
                  f'{through - alone:4.0f} ms more')


if __name__ == '__main__':
    main()
