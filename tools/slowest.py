#!/usr/bin/env python3
"""Lists the functions on which the first check of a crate by `tools/check.py CRATE --jobs 1` spent most of its time.

usage: tools/slowest.py CRATE [N] [--goals]

Such a check keeps a file for each part that it has proved, one after the other. So the time between two files is that
of the second. The N functions with the longest times follow (20 without N), in seconds of the clock and as a part of the
whole. For a second look at the whole crate, remove the folder that the last line names, and check again.

With --goals it lists single goals and lemmas, in millions of steps of the prover: these do not depend on what else the
machine does. An `S` marks those that `search` has answered. An answer by hand takes a hundredth of the steps.
"""
import argparse
import collections
import itertools
import json
import re
import sys

from check import KEPT

# A file's name: the crate, whose words they are, and the path of the function with the part of its proof.
NAME = re.compile(r'Rattle-\w+[-.](?:specs|proofs)\.(?:contracts\.|declared\.)?(.+)\.oantt')
# What a part is called begins with a capital, but so do the names of types, which a function's name follows.
PART = re.compile(r'\.(Answers|Code|Given|Goals|Invariants|Layout|Lts|Met|Mir|Proof|Reads|Statement|TheImpl|TheLink|Tie)\b.*')


# Where a kept file begins to tell what declarations took.
TOLD = re.compile(rb'\[\{"aux":')


def goals_in(folder):
    """The steps of each goal and lemma, with whether `search` has answered it."""
    found = collections.Counter()
    for file in folder.rglob('*.decls.oantt'):
        named, text = NAME.fullmatch(file.name.replace('.decls', '')), file.read_bytes()
        starts = [it.start() for it in TOLD.finditer(text)]
        for start, end in zip(starts, [*starts[1:], len(text)]):
            rows, _ = json.JSONDecoder().raw_decode(text[start:end].decode(errors='ignore'))
            for row in rows:
                found[row['name'], named[1] if named else file.name, bool(row['spent'])] += sum(row['phases'])
    return found


def times_in(folder):
    """The seconds of each function, and of all."""
    files = sorted((file.stat().st_mtime, file.name) for file in folder.rglob('*.oantt'))
    found = collections.Counter()
    for (before, _), (after, name) in itertools.pairwise(files):
        named = NAME.fullmatch(name)
        found[PART.sub('', named[1]) if named else name] += after - before
    return found


def show_times(folder, n):
    found = times_in(folder)
    whole = found.total()
    for name, seconds in found.most_common(n):
        print(f'{seconds:8.1f} {seconds / whole:6.1%}  {name}')
    print(f'{whole:8.1f} in all, from {folder}')


def show_goals(folder, n):
    found = goals_in(folder)
    for (goal, module, searched), steps in found.most_common(n):
        print(f'{steps / 1e6:8.2f} {"S" if searched else " "}  {goal}  {module}')
    print(f'{found.total() / 1e6:8.1f} in all, from {folder}')


def main():
    parser = argparse.ArgumentParser(description=__doc__, formatter_class=argparse.RawDescriptionHelpFormatter)
    parser.add_argument('crate')
    parser.add_argument('number', nargs='?', default=20, type=int)
    parser.add_argument('--goals', action='store_true')
    asked = parser.parse_args()
    folder = KEPT / asked.crate
    if not folder.is_dir():
        sys.exit(f'there is no check of {asked.crate} yet: call tools/check.py {asked.crate} --jobs 1 first')
    show = show_goals if asked.goals else show_times
    show(folder, asked.number)


if __name__ == '__main__':
    main()
