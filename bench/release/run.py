#!/usr/bin/env python3
"""Installs a release on a system without the kit in each of its three ways, and prints the time to the first item: by
the clock, and of processors.

usage: bench/release/run.py RELEASE [--system FOLDER] [--suite SUITE]

RELEASE is a folder that tools/release.py has made. The system is a small Debian in a folder, by default
/tmp/kpn-system. If there is none, `debootstrap` makes it, of the suite `bookworm` if no other is named, with Python, a
compiler and pkg-config. Each way begins with the file, and ends with the first items of a network. Then a program in C
is linked by pkg-config and runs, with the archive and with the package. A step that fails ends the script. It needs to
be root, and is no part of the gate.
"""
from __future__ import annotations

import argparse
import pathlib
import resource
import shutil
import subprocess
import sys
import time

PARTS = 'python3,python3-pip,python3-venv,gcc,libc6-dev,pkgconf'
FIBONACCI = 'sink numbers: 0 1 1 2 3 5 8 13 21 34'
PLANT = 'step 200: '
NETWORK = '''
import kpn
from kpn import parts
net = kpn.Network()
net.sink("y", parts.fir(net.source("x"), [1, 4, 6, 4, 1]))
print(net.run([100, 0, 0, 0, 0, 0])["y"])
'''
# What is tried, what is typed, and what has to come out.
STEPS = [
    ('the archive', 'tar xzf *.tar.gz && kpn-*/bin/kpn run kpn-*/share/doc/kpn/examples/fibonacci.kpn --take 10',
     FIBONACCI),
    ('C by the archive', 'export PKG_CONFIG_PATH=$(echo $PWD/kpn-*/lib/pkgconfig) && '
     'cc kpn-*/share/doc/kpn/examples/c/plant.c $(pkg-config --cflags --libs kpn) -o plant && ./plant', PLANT),
    ('the package', 'dpkg -i *.deb && kpn run /usr/share/doc/kpn/examples/fibonacci.kpn --take 10', FIBONACCI),
    ('C by the package', 'cc /usr/share/doc/kpn/examples/c/plant.c $(pkg-config --cflags --libs kpn) -o plant && '
     './plant', PLANT),
    ('C with the shared object', 'cc /usr/share/doc/kpn/examples/c/plant.c -lkpn -o plant && ./plant', PLANT),
    ('the package taken away', 'dpkg -r kpn && ! command -v kpn && echo gone', 'gone'),
    ('an environment of Python', 'python3 -m venv v && echo made', 'made'),
    ('the wheel', f"v/bin/pip install -q --no-index *.whl && v/bin/python -c '{NETWORK}'",
     '[100, 400, 600, 400, 100, 0]'),
    ('the command of the wheel', 'v/bin/kpn run kpn-*/share/doc/kpn/examples/fibonacci.kpn --take 10', FIBONACCI),
]


def main() -> None:
    parser = argparse.ArgumentParser(description=__doc__, formatter_class=argparse.RawDescriptionHelpFormatter)
    parser.add_argument('release', type=pathlib.Path)
    parser.add_argument('--system', default='/tmp/kpn-system', type=pathlib.Path)
    parser.add_argument('--suite', default='bookworm')
    asked = parser.parse_args()
    if not (asked.system / 'usr/bin/pkg-config').exists():
        words = ['debootstrap', '--variant=minbase', f'--include={PARTS}', asked.suite, asked.system]
        subprocess.run(words, check=True, stdout=subprocess.DEVNULL)
    room = asked.system / 'root/try'
    shutil.rmtree(room, ignore_errors=True)
    room.mkdir()
    for pattern in ('*.tar.gz', '*.deb', '*.whl'):
        files = list(asked.release.glob(pattern))
        if len(files) != 1:
            sys.exit(f'{asked.release} has {len(files)} files {pattern}, not one: make a release in an empty folder')
        shutil.copy(files[0], room)
    has_library = any(name.endswith('libkpn.a') for name in
                      subprocess.check_output(['tar', 'tzf', *room.glob('*.tar.gz')], text=True).splitlines())
    start = ['env', '-i', 'PATH=/usr/sbin:/usr/bin:/sbin:/bin', 'HOME=/root', 'chroot', asked.system, 'sh', '-ec']
    told = subprocess.check_output([*start, 'command -v rt || ldd --version'], text=True).splitlines()[0]
    print(f'a system with {told}, without the kit')
    for name, typed, wanted in STEPS:
        if name.startswith('C ') and not has_library:
            print(f'{name}: left out, the release has no library')
            continue
        began, before = time.monotonic(), resource.getrusage(resource.RUSAGE_CHILDREN)
        done = subprocess.run([*start, f'cd /root/try; {typed}'], capture_output=True, text=True)
        after = resource.getrusage(resource.RUSAGE_CHILDREN)
        spent = after.ru_utime + after.ru_stime - before.ru_utime - before.ru_stime
        if done.returncode or wanted not in done.stdout:
            sys.exit(f'{name}: status {done.returncode}\n{done.stdout}{done.stderr}')
        print(f'{name}: {time.monotonic() - began:.1f} s, processor time {spent:.1f} s, {wanted.strip()}', flush=True)


if __name__ == '__main__':
    main()
