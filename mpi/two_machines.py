#!/usr/bin/env python3
"""Runs the tests of kpn-mpi over two network namespaces, which are to Open MPI two machines joined by a cable.

usage: mpi/two_machines.py [--networks N] [--seed S] | mpi/two_machines.py run FILE [the options of kpn-mpi]

The namespaces have names and addresses of their own, and ranks lie in them in turn. It needs root, `ip`, `unshare` and
Open MPI. First it runs `mpi/test.py ranks` over N random networks (100). Then it takes the cable away while a network
runs with `--timeout 3`: all has to end with a line and a status that says so. With `run` it runs one network over four
ranks there. The namespaces are removed at the end.
"""
import argparse
import os
import pathlib
import signal
import subprocess
import sys
import tempfile
import time

TOP = pathlib.Path(__file__).resolve().parent.parent
MACHINES = {'kpn-one': '10.64.0.1', 'kpn-two': '10.64.0.2'}
NETWORK, SLOTS = '10.64.0.0/24', 4
ENTER = 'exec ip netns exec {name} unshare -u sh -c \'hostname {name}; exec "$@"\' sh'
# Open MPI hands over the name of a machine and then words for a shell there.
AGENT = '''#!/bin/sh
shift
exec ip netns exec kpn-two unshare -u sh -c "hostname kpn-two; $*"
'''
SILENT = 11
LONGEST = 60


def call(*words, check=True):
    return subprocess.run(list(words), check=check, capture_output=True, text=True)


def remove():
    """Ends what is left on the machines, and removes them."""
    for name in MACHINES:
        for number in call('ip', 'netns', 'pids', name, check=False).stdout.split():
            os.kill(int(number), signal.SIGKILL)
        call('ip', 'netns', 'del', name, check=False)


def make():
    """Makes the namespaces and the cable between them."""
    remove()
    for name in MACHINES:
        call('ip', 'netns', 'add', name)
    ends = ('kpn-end-one', 'kpn-end-two')
    call('ip', 'link', 'add', ends[0], 'type', 'veth', 'peer', 'name', ends[1])
    for end, (name, address) in zip(ends, MACHINES.items()):
        call('ip', 'link', 'set', end, 'netns', name)
        for words in (['addr', 'add', f'{address}/24', 'dev', end], ['link', 'set', end, 'up'],
                      ['link', 'set', 'lo', 'up']):
            call('ip', '-n', name, *words)


def write(path, text):
    path.write_text(text)
    path.chmod(0o755)


def starter(folder):
    """A program in the place of `mpirun`, on the first machine."""
    write(folder / 'agent', AGENT)
    hosts = ','.join(f'{address}:{SLOTS}' for address in MACHINES.values())
    settings = {'plm_rsh_agent': folder / 'agent', 'btl_tcp_if_include': NETWORK, 'oob_tcp_if_include': NETWORK,
                'btl': 'self,vader,tcp'}
    words = ' '.join(f'--mca {name} {value}' for name, value in settings.items())
    enter = ENTER.format(name='kpn-one')
    write(folder / 'mpirun', f'#!/bin/sh\n{enter} mpirun --host {hosts} --map-by node {words} "$@"\n')
    return folder / 'mpirun'


def environment():
    sys.path.append(str(TOP / 'mpi'))
    import test
    return test.ENVIRONMENT


def ranks_there():
    """The numbers of the processes of ranks on both machines."""
    found = []
    for name in MACHINES:
        for number in call('ip', 'netns', 'pids', name, check=False).stdout.split():
            words = pathlib.Path('/proc', number, 'cmdline')
            if words.exists() and words.read_bytes().split(b'\0')[0].endswith(b'kpn-mpi'):
                found.append(int(number))
    return found


def wait_until(holds, what):
    for _ in range(10 * LONGEST):
        if holds():
            return
        time.sleep(0.1)
    sys.exit(f'after {LONGEST} seconds: {what}')


def take_the_cable_away(folder):
    """All ranks end while the link is down. `mpirun` itself ends once it can tell the other machine."""
    words = [folder / 'mpirun', '-n', '2', TOP / 'out/mpi/kpn-mpi', TOP / 'examples/worked/spin.kpn', '--max-commits',
             str(10**9), '--timeout', '3']
    with open(folder / 'told', 'w') as told:
        started = subprocess.Popen(words, stdout=told, stderr=told, env=environment())
    wait_until(lambda: len(ranks_there()) == 2, 'there are no two ranks')
    time.sleep(2)
    began = time.time()
    call('ip', '-n', 'kpn-two', 'link', 'set', 'kpn-end-two', 'down')
    wait_until(lambda: not ranks_there(), 'the ranks go on without the cable')
    took = time.time() - began
    call('ip', '-n', 'kpn-two', 'link', 'set', 'kpn-end-two', 'up')
    status = started.wait(LONGEST)
    lines = (folder / 'told').read_text().splitlines()
    print(f'the cable is away: the ranks end after {took:.1f} s, the status is {status}, {lines}')
    if not any('has heard nothing of rank' in it for it in lines) or status != SILENT:
        sys.exit('it does not say so')


def main():
    parser = argparse.ArgumentParser(description=__doc__, formatter_class=argparse.RawDescriptionHelpFormatter)
    parser.add_argument('--networks', default='100', metavar='N')
    parser.add_argument('--seed', default='1', metavar='S')
    if sys.argv[1:2] != ['run']:
        asked = parser.parse_args()
    with tempfile.TemporaryDirectory(prefix='kpn-machines-') as name:
        folder = pathlib.Path(name)
        try:
            make()
            program = starter(folder)
            if sys.argv[1:2] == ['run']:
                return subprocess.run([program, '-n', '4', TOP / 'out/mpi/kpn-mpi', *sys.argv[2:]],
                                      env=environment()).returncode
            words = ['ranks', '--networks', asked.networks, '--seed', asked.seed, '--mpirun', program]
            status = subprocess.run([sys.executable, TOP / 'mpi/test.py', *words]).returncode
            if not status:
                take_the_cable_away(folder)
            return status
        finally:
            remove()


if __name__ == '__main__':
    sys.exit(main())
