"""The quick gate for every day, `tools/check.py --changed`: proves what has changed and what stands on it, and then runs
the rows and the tests above it, unproved. At the end it says what it left out.

What has changed is what `tools/build.py` would make anew, and beside the program each crate that differs from what it
was, or stands on one that does, when it last passed here.
"""
import hashlib
import json
import subprocess
import sys

import build
import prover
import wrong_bodies

PASSED = build.OUT / 'passed.json'


def sum_for(crate, sums):
    """A sum of what a crate is made from, which has those of the crates below it."""
    parts = [crate.uses, build.sum_of(crate.folder, crate.sources()), *(sums[it.name] for it in crate.below)]
    return hashlib.sha256(json.dumps(parts).encode()).hexdigest()


def is_proved(crate, has_users):
    """Proves a crate beside the program, with its tests, and keeps its library if crates stand on it."""
    def check(*flags):
        words = [sys.executable, build.TOP / 'tools/check.py', crate.name, *flags]
        done = subprocess.run(words, capture_output=True, text=True)
        if done.returncode:
            print(done.stdout[-2000:], done.stderr[-2000:], sep='')
        return done.returncode == 0

    tests = ['--test'] if wrong_bodies.has_tests(crate) else []
    return check(*tests) and (not has_users or check('--library'))


def judge(crate, has_users):
    """What comes of a crate beside the program: None if it is proved and its rows and tests are as they have to be."""
    if not is_proved(crate, has_users):
        return 'not proved'
    if not crate.is_program and not wrong_bodies.has_tests(crate):
        return None
    said = wrong_bodies.run_on(crate)
    return {'NOT REFUSED': None, 'refused': 'its rows or tests differ'}.get(said, said)


def changed(crates):
    """The crates that differ from what they were when they last passed, and the sums of all."""
    sums = {}
    for crate in crates:
        sums[crate.name] = sum_for(crate, sums)
    passed = json.loads(PASSED.read_text()) if PASSED.exists() else {}
    return [it for it in crates if passed.get(it.name) != sums[it.name]], passed, sums


def main():
    crates = list(prover.read_crates(build.TOP, build.Target).values())
    program = next(it for it in crates if it.name == build.PROGRAM)
    differ, passed, sums = changed(crates)
    is_well = build.build_alone([*program.below, program], True) == 0
    for crate in differ:
        if crate is program or crate in program.below:
            found = None if is_well else 'it, or a crate beside it, is not proved'
        else:
            found = judge(crate, any(crate in it.below for it in crates))
        print(f'{crate.name}: {found or "well"}', flush=True)
        is_well = is_well and not found
        if not found:
            passed[crate.name] = sums[crate.name]
            PASSED.write_text(json.dumps(passed))
    edits = [it.name for it in differ if list((it.folder / 'must-fail').glob('*.edit'))]
    print('left out: the second compiler, the tests in Python' + (f', the edits of {", ".join(edits)}' if edits else ''))
    return 0 if is_well else 1
