#!/usr/bin/env python3
"""Proves and builds the program `kpn` and the libraries below it, and reports on standard error how far it is.

usage: tools/build.py [--below CRATE] [--keep-going]

With --below it makes the libraries below a crate, and no program: those of `kpn_c` are what the C library needs. If a
crate is not proved, it stops, and what is being proved then is lost. With --keep-going it goes on with all crates that
do not stand on that one.

It calls the prover itself, side by side for crates that do not depend on one another, first for those with the longest
chain of crates above. It makes a library with its statements only, which crates above read in less time than its
proofs. `rt check` needs the proofs, so this script has a folder of its own, out/ at the top, apart from each crate's
out/. It has libraries/ (packed, since the gate refuses sources that no check reads) and logs/. The program is
crates/kpn/out/kpn. It proves a crate anew if its contents have changed, or if a library below it came out otherwise. An
interrupted build goes on where it was. The launcher `kpn` calls this script. Afterwards out/needed says which folders
the program was made from.
"""
import argparse
import fcntl
import hashlib
import json
import os
import pathlib
import re
import shutil
import signal
import subprocess
import sys
import tempfile
import time

from prover import Crate, could_not, find_kit, link_words, needed_by, read_crates, words_of

TOP = pathlib.Path(__file__).resolve().parent.parent
OUT = TOP / 'out'
PROGRAM = 'kpn'
# A check took up to this much memory when it was measured.
BYTES_FOR_A_CRATE = 3 * 2**30
# To read the libraries below a crate takes about as long as to prove this many bytes of sources.
BYTES_FOR_LIBRARIES = 100_000
# Lines of the prover that say nothing about what failed.
QUIET = re.compile(r'(fn|impl|enum|struct|trait|const|type|mod) .*: (proved|no holes)$'
                   r'|(logic|statements|library|crate|by-macro:) ')


def sum_of(folder, files):
    """A sum of the names and contents of these files of a folder."""
    total = hashlib.sha256()
    for file in sorted(it for it in files if it.is_file()):
        data = file.read_bytes()
        total.update(f'{file.relative_to(folder)} {len(data)}\n'.encode() + data)
    return total.hexdigest()


class Target(Crate):
    """A crate that is to be made: the program, or a packed library."""

    def __init__(self, folder, uses, direct):
        super().__init__(folder, uses, direct)
        self.made = folder / 'out' / self.name if self.is_program else OUT / 'libraries' / f'{self.name}.tar'
        # What it was made from, and its sum.
        self.stamp = OUT / 'libraries' / f'{self.name}.json'
        self.log = OUT / 'logs' / self.name
        # Its sum, once it is current.
        self.sum, self.run, self.jobs, self.started_from = None, None, 0, None

    def made_from(self, kit):
        """A sum of all that it is made from, once the libraries below are current."""
        parts = [(kit / 'KIT-ID').read_text(), self.uses, sum_of(self.folder, self.sources())]
        return hashlib.sha256(json.dumps([*parts, *(it.sum for it in self.below)]).encode()).hexdigest()

    def look(self, kit):
        """Returns whether it is current."""
        if all(it.sum for it in self.below) and self.stamp.exists() and self.made.exists():
            was = json.loads(self.stamp.read_text())
            # `rt` may have put a program of its own there.
            is_ours = not self.is_program or was['sum'] == sum_of(self.made.parent, [self.made])
            self.sum = was['sum'] if is_ours and was['from'] == self.made_from(kit) else None
        return self.sum is not None


def unpack(crate, room):
    """Unpacks a library for the crates above it."""
    if not crate.is_program:
        shutil.unpack_archive(crate.made, room)


class Build:
    """The crates that are still to be made, those that are being made, and the folder of unpacked libraries."""

    def __init__(self, kit, room, crates, progress, goes_on):
        self.kit, self.room, self.progress, self.goes_on = kit, room, progress, goes_on
        self.waiting, self.running = [it for it in crates if not it.sum], []
        self.most = max(1, min(len(os.sched_getaffinity(0)), free_memory() // BYTES_FOR_A_CRATE))
        # For each crate how much there is to read and to prove on the longest chain from it up to the program.
        self.height = {}
        for crate in reversed(crates):
            above = [it for other, it in self.height.items() if crate in other.direct]
            size = BYTES_FOR_LIBRARIES + sum(file.stat().st_size for file in crate.sources())
            self.height[crate] = size + max(above, default=0)

    def make_all(self):
        """Makes all that it can; returns the crates that are not proved."""
        failed = []
        try:
            while (self.waiting or self.running) and (self.goes_on or not failed):
                self.start_ready()
                self.progress.show([it.name for it in self.running])
                time.sleep(0.1)
                for crate in [it for it in self.running if it.run.poll() is not None]:
                    if not self.finish(crate):
                        failed.append(crate)
                        self.waiting = [it for it in self.waiting if crate not in it.below]
        finally:
            for crate in [it for it in self.running if it.run.poll() is None]:
                os.killpg(crate.run.pid, signal.SIGKILL)
                crate.run.wait()
        return failed

    def start_ready(self):
        """Starts what may run now, longest chain first. The crates share the processors, but one whose chain is about
        the longest gets at least two jobs: a second job shortens a check, but takes half as much processor time again,
        and the others wait for that."""
        ready = [it for it in self.waiting if all(below.sum for below in it.direct)]
        ready = sorted(ready, key=self.height.get, reverse=True)[: self.most - len(self.running)]
        share = self.most // max(1, len(ready) + len(self.running))
        longest = max(map(self.height.get, self.waiting + self.running), default=0)
        for crate in ready:
            self.waiting.remove(crate)
            # What is below may have come out as it was.
            if crate.look(self.kit):
                unpack(crate, self.room)
                self.progress.add(crate.name)
            else:
                least = min(2, self.most) if self.height[crate] > 0.9 * longest else 1
                self.start(crate, min(4, max(share, least)))

    def start(self, crate, jobs):
        crate.stamp.unlink(missing_ok=True)
        crate.started_from, crate.jobs = crate.made_from(self.kit), jobs
        words = ['--logic-built', self.kit / 'logic_built', '--jobs', str(jobs)]
        if crate.is_program:
            words += ['--toolchain', self.kit / 'toolchain', '--backend', 'llvm', '-o', self.room / f'{crate.name}.o']
        else:
            words += ['--statements', '-o', self.room / f'{crate.name}.rlib']
        with open(crate.log, 'w') as log:
            how = {'stdin': subprocess.DEVNULL, 'stdout': log, 'stderr': log, 'preexec_fn': os.setpgrp}
            words = words_of('build', crate, self.kit, self.room, *words)
            crate.run = subprocess.Popen(words, cwd=crate.folder, **how)
        self.running.append(crate)

    def finish(self, crate):
        """Keeps what was made, and returns whether it was made."""
        self.running.remove(crate)
        if crate.run.returncode == -signal.SIGKILL and crate.jobs > 1:
            # Most likely memory ran out, and one job takes less of it.
            self.start(crate, 1)
            return True
        if crate.run.returncode or not self.keep(crate):
            return False
        # Sources that have changed meanwhile are proved at the next start.
        if crate.made_from(self.kit) == crate.started_from:
            crate.stamp.write_text(json.dumps({'from': crate.started_from, 'sum': crate.sum}))
        self.progress.add(crate.name)
        return True

    def keep(self, crate):
        """Packs a library, or links the program, and returns whether that succeeded."""
        if not crate.is_program:
            library = self.room / f'{crate.name}.rlib'
            crate.sum = sum_of(library, library.rglob('*'))
            return shutil.make_archive(str(crate.made.with_suffix('')), 'tar', self.room, library.name)
        crate.made.parent.mkdir(exist_ok=True)
        with open(crate.log, 'a') as log:
            words = link_words(self.kit, self.room / f'{crate.name}.o', crate.made)
            status = subprocess.run(words, stdin=subprocess.DEVNULL, stdout=log, stderr=log).returncode
        crate.sum = status == 0 and sum_of(crate.made.parent, [crate.made])
        return crate.sum


class Progress:
    """One line that is rewritten on a terminal, and a line a crate elsewhere."""

    def __init__(self, number):
        self.number, self.proved, self.began = number, 0, time.monotonic()
        self.is_terminal = sys.stderr.isatty()

    def spent(self):
        return clock(time.monotonic() - self.began)

    def line(self, text):
        print(f'\r\033[K{text}' if self.is_terminal else text, file=sys.stderr, flush=True)

    def show(self, running):
        if self.is_terminal:
            text = f'kpn: {self.proved} of {self.number} crates proved, now {", ".join(running)} ({self.spent()})'
            text = text[: shutil.get_terminal_size().columns - 1]
            print(f'\r\033[K{text}', end='', file=sys.stderr, flush=True)

    def add(self, name):
        self.proved += 1
        if not self.is_terminal:
            self.line(f'kpn: {self.proved} of {self.number} crates proved: {name} ({self.spent()})')


def counted(crates):
    return '1 crate' if crates == 1 else f'{crates} crates'


def clock(seconds):
    return f'{int(seconds) // 60}:{int(seconds) % 60:02}'


def free_memory():
    found = re.search(r'MemAvailable:\s+(\d+)', pathlib.Path('/proc/meminfo').read_text())
    return 1024 * int(found[1])


def last_build():
    kept = OUT / 'last_build'
    if not kept.exists():
        return 'there is no earlier time to tell how long it takes'
    was = json.loads(kept.read_text())
    return f'the last time it took {clock(was["seconds"])} for {counted(was["crates"])}'


def make(kit, crates, number, goes_on):
    """Makes what is not current, and returns whether all of it was proved."""
    progress, is_program = Progress(number), crates[-1].is_program
    what = 'the program is proved and built' if is_program else 'libraries are proved'
    progress.line(f'kpn: {what} first, {counted(number)}; {last_build()}')
    if is_program and number == len(crates):
        progress.line('kpn: `./kpn --unproved` builds it without proofs, in some three minutes')
    room = pathlib.Path(tempfile.mkdtemp(prefix='kpn-build-'))
    try:
        for crate in [it for it in crates if it.sum]:
            unpack(crate, room)
        failed = Build(kit, room, crates, progress, goes_on).make_all()
    finally:
        shutil.rmtree(room, ignore_errors=True)
    for crate in failed:
        progress.line('\n'.join(it for it in crate.log.read_text().splitlines() if not QUIET.match(it)))
        log = crate.log.relative_to(TOP)
        progress.line(f'kpn: {crate.name} is not proved: what is wrong stands above, and in {log}')
    if failed:
        return False
    seconds = round(time.monotonic() - progress.began)
    (OUT / 'last_build').write_text(json.dumps({'crates': number, 'seconds': seconds}))
    progress.line(f'kpn: built in {progress.spent()}')
    return True


def build(crates, goes_on):
    """Makes these crates, each of which comes after those below it. If the program is the last one, it notes what that
    was made from. Returns the status to end with."""
    began, kit, last = time.time(), find_kit(), crates[-1]
    number = sum(not it.look(kit) for it in crates)
    if number and not make(kit, crates, number, goes_on):
        return 1
    if last.is_program:
        (OUT / 'needed').write_text('\n'.join(needed_by(crates)) + '\n')
        # Then a source that has changed since is newer.
        os.utime(last.made, (began, began))
    return 0


def build_alone(crates, goes_on):
    """Builds while no other one does."""
    for name in ('libraries', 'logs'):
        (OUT / name).mkdir(parents=True, exist_ok=True)
    with open(OUT / 'lock', 'w') as lock:
        try:
            fcntl.flock(lock, fcntl.LOCK_EX | fcntl.LOCK_NB)
        except BlockingIOError:
            print('kpn: waiting for another build of it to end', file=sys.stderr)
            fcntl.flock(lock, fcntl.LOCK_EX)
        return build(crates, goes_on)


def main():
    parser = argparse.ArgumentParser(description=__doc__, formatter_class=argparse.RawDescriptionHelpFormatter)
    known = read_crates(TOP, Target)
    parser.add_argument('--below', metavar='CRATE', choices=known, help='makes the libraries below this crate')
    parser.add_argument('--keep-going', action='store_true', help='goes on with what does not stand on a failed crate')
    asked = parser.parse_args()
    below = asked.below
    crates = known[below].below if below else [*known[PROGRAM].below, known[PROGRAM]]
    if not crates:
        return 0
    signal.signal(signal.SIGTERM, signal.default_int_handler)
    try:
        return build_alone(crates, asked.keep_going)
    except KeyboardInterrupt:
        print('\nkpn: interrupted; the next start goes on from here', file=sys.stderr)
        return 130
    except OSError as error:
        print(could_not(error), file=sys.stderr)
        return 1


if __name__ == '__main__':
    sys.exit(main())
