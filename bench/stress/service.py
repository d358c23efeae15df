#!/usr/bin/env python3
"""Many runs of the service of example_service, beside processes that keep processors busy.

Each run has to write what the crate's `stdout` holds, and to end within its time. It prints one line: how many runs
there were, how many hung, how many wrote something else, and the median and the worst time. It ends with 1 if a run
hung or went wrong. It is no part of the gate.

usage: bench/stress/service.py [RUNS [BUSY [PROGRAM]]]

RUNS is 1,000 and BUSY, the number of busy processes, is 4 if it is not given. PROGRAM is the proved program that
`rt run` leaves, crates/example_service/out/example_service, if no other is given.
"""
import pathlib
import statistics
import subprocess
import sys
import time

TOP = pathlib.Path(__file__).resolve().parent.parent.parent
sys.path.append(str(TOP / 'bench'))

import measure  # noqa: E402

CRATE = TOP / 'crates/example_service'
PROGRAM = CRATE / 'out/example_service'
RUNS, BUSY = 1_000, 4

# seconds that a run may take while others work on the machine too
MOST = 60


class Counts:
    """What became of some runs."""

    def __init__(self):
        self.hangs = self.wrong = 0
        self.seconds = []

    def run(self, program, wanted):
        """Makes one run. One that hangs is ended, and has no time."""
        before = time.monotonic()
        try:
            done = subprocess.run([program], capture_output=True, timeout=MOST)
        except subprocess.TimeoutExpired:
            self.hangs += 1
            return
        self.seconds.append(time.monotonic() - before)
        self.wrong += (done.stdout, done.stderr, done.returncode) != (wanted, b'', 0)

    def line(self):
        runs = len(self.seconds) + self.hangs
        times = [1_000 * it for it in self.seconds] or [0]
        return (f'{runs:,} runs, {self.hangs} hangs, {self.wrong} wrong outputs, median '
                f'{statistics.median(times):.1f} ms, worst {max(times):.1f} ms')


def main():
    asked = measure.asked(__doc__, {'runs': RUNS, 'busy': BUSY, 'program': str(PROGRAM)})
    wanted = (CRATE / 'stdout').read_bytes()
    counts = Counts()
    load = [subprocess.Popen([sys.executable, '-c', 'while True: pass']) for _ in range(asked.busy)]
    try:
        for _ in range(asked.runs):
            counts.run(asked.program, wanted)
    finally:
        for process in load:
            process.kill()
            process.wait()
    print(f'{counts.line()}; {asked.busy} busy processes')
    return 1 if counts.hangs or counts.wrong else 0


if __name__ == '__main__':
    sys.exit(main())
