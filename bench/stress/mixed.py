"""Random networks by 1 to 16 workers. Some runs get too little memory or too few threads, and some are killed. Each is
judged against the run on one thread and the auditor. `repeat.py mixed` calls it."""
import collections
import os
import pathlib
import random
import resource
import signal
import subprocess
import sys
import time

import random_networks

# seconds that a run may take while others work on the machine too
MOST = 60

# the most commits of a run: not all networks come to an end
COMMITS = 2_000

# the statuses of outcomes
OUTCOMES = {b'ended': 0, b'enough': 0, b'clogged': 3, b'jammed': 4, b'stopped': 5}

# what a run writes that lacks memory or a thread
THREADS = (b'', b'kpn: 48 Threads\n', 7)
NO_MEMORY = [(b'', b'kpn: %d NoMemory\n' % number, 6) for number in (28, 32, 42, 51)]


class Mix:
    """Runs of a program, with a library that refuses memory and a user who has no process, in a folder."""

    def __init__(self, program, library, user, folder):
        self.program, self.library, self.user = program, library, user
        self.folder = pathlib.Path(folder)
        self.random = random.Random()
        self.counts = collections.Counter()

    def fail(self, words, found):
        sys.exit(f'{(self.folder / "net").read_text()}{" ".join(words)}: {found}')

    def answer(self, words, **how):
        try:
            done = subprocess.run([self.program, *words], cwd=self.folder, capture_output=True,
                                  timeout=MOST, **how)
        except subprocess.TimeoutExpired:
            self.fail(words, f'no end within {MOST} seconds')
        return done.stdout, done.stderr, done.returncode

    def run(self, seconds):
        end = time.monotonic() + seconds
        while time.monotonic() < end:
            self.network()
        return self.counts

    def network(self):
        """One network: on one thread, and then this way and that otherwise."""
        text, items = random_networks.network(self.random)
        (self.folder / 'net').write_text(text)
        words = ['run', 'net', '--max-commits', str(COMMITS)]
        for name, numbers in items.items():
            (self.folder / name).write_text(''.join(f'{number}\n' for number in numbers))
            words += ['--source', f'{name}={name}']
        if self.random.random() < 0.3:
            words += ['--take', str(self.random.randint(1, 5))]
        here = self.judged('on one thread', words, None)
        for _ in range(6):
            way = self.random.choice([self.by_workers, self.by_workers, self.lacks_memory, self.lacks_threads,
                                      self.is_killed])
            way([*words, '--workers', str(self.random.randint(1, 16))], here)

    def judged(self, way, words, here, lacks=(), **how):
        """A run with a trace that has to come to an outcome, or to one of these answers. Returns what it wrote."""
        (self.folder / 'trace').unlink(missing_ok=True)
        words = [*words, '--trace', 'trace']
        found = self.answer(words, **how)
        if found in lacks:
            self.counts[way, found[1].decode().strip()] += 1
            return None
        outcome = (found[0].splitlines() or [b''])[-1]
        if found[1] or OUTCOMES.get(outcome) != found[2]:
            self.fail(words, found)
        is_end = here is not None and outcome in (b'ended', b'enough') and here.splitlines()[-1] == outcome
        if is_end and found[0] != here:
            self.fail(words, (found, here))
        self.audit(words, outcome)
        self.counts[way, outcome.decode()] += 1
        return found[0]

    def audit(self, words, outcome):
        """A stored trace is legal, and exact if the run has ended."""
        found = self.answer(['audit', 'net', 'trace'])
        if not found[0].startswith(b'legal\n') or (outcome == b'ended' and b'exact yes' not in found[0]):
            self.fail(words, found)

    def by_workers(self, words, here):
        self.judged('by workers', words, here)

    def lacks_memory(self, words, here):
        first = int(2 ** self.random.uniform(0, 11))
        refusing = {'LD_PRELOAD': self.library, 'FIRST': str(first),
                    'LAST': str(self.random.choice([first, 1_000_000_000]))}
        self.judged('refused memory', words, here, [THREADS, *NO_MEMORY], env={**os.environ, **refusing})

    def lacks_threads(self, words, here):
        """This many threads are there beside the first one. Only root can start a run of a user who has no other."""
        if os.geteuid() != 0:
            return
        threads = self.random.randrange(8)

        def allow():
            resource.setrlimit(resource.RLIMIT_NPROC, (1 + threads, 1 + threads))
        self.judged('refused threads', words, here, [THREADS], user=self.user, group=self.user, extra_groups=[],
                    preexec_fn=allow)

    def is_killed(self, words, here):
        """What a killed run has stored is whole, and the next run stores its own in its place."""
        (self.folder / 'trace').unlink(missing_ok=True)
        begun = subprocess.Popen([self.program, *words, '--trace', 'trace'], cwd=self.folder,
                                 stdout=subprocess.DEVNULL, stderr=subprocess.DEVNULL)
        time.sleep(self.random.uniform(0, 0.03))
        begun.send_signal(signal.SIGKILL)
        begun.wait()
        left = 'left a part file' if (self.folder / 'trace.kpn-part').exists() else 'left no part file'
        if (self.folder / 'trace').exists():
            self.audit(words, b'')
            left = 'left a whole trace'
        self.counts['killed', left] += 1
        self.judged('after a killed run', words, here)


def mix(seconds, processors, program, library, user, folder):
    """This many seconds of such runs on these processors. Prints how many came to each end."""
    os.sched_setaffinity(0, processors)
    counts = Mix(program, library, user, folder).run(seconds)
    for (way, end), count in sorted(counts.items()):
        print(f'  {way}: {end} {count}')
    return sum(counts.values())
