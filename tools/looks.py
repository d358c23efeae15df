#!/usr/bin/env python3
"""Looks at the texts of all crates as `rt ci` does before it proves them, and says within seconds what it would refuse.

`tools/build.py` and `tools/check.py` call the prover alone, which takes texts that `rt ci` refuses: what HANDLES does
not allow, a ghost name that hides one of the library's, a file that no check reads, a text that is not formatted. The
looks are `rt`'s own, so this ends with an error if another `rt` has other names for them. It prints what is refused,
and ends with 1 then.
"""
import argparse
import importlib.machinery
import importlib.util
import inspect
import pathlib
import re
import sys
import tempfile

import prover

TOP = pathlib.Path(__file__).resolve().parent.parent


def load_rt():
    """The program `rt` as a module, which reads its own command line."""
    loader = importlib.machinery.SourceFileLoader('rt', str(prover.find_kit() / 'bin/rt'))
    module = importlib.util.module_from_spec(importlib.util.spec_from_loader('rt', loader))
    sys.argv = ['rt']
    loader.exec_module(module)
    return module


def crates_of(rt):
    """The crates, once `rt` has taken them in. Some kits put aside what earlier runs left in their out/, and that comes
    back.
    """
    if len(inspect.signature(rt.crates_of).parameters) == 1:
        return rt.crates_of(str(TOP))
    with tempfile.TemporaryDirectory(dir=TOP / '.git') as aside:
        try:
            return rt.crates_of(str(TOP), aside)
        finally:
            for kept in pathlib.Path(aside).iterdir():
                kept.rename(TOP / 'crates' / kept.name / 'out')


def stops(look, *of):
    """Whether a look refuses what it is given. It has said why."""
    try:
        return bool(look(*of))
    except SystemExit:
        return True


def refused(rt, crate):
    """What is refused of a crate."""
    code = rt.rtlib.code_of(crate.folder)
    yield from (f'names what needs the handle {it}' for it, words in rt.REACHES.items()
                if it not in crate.allowed and re.search(words, code))
    if re.search(rt.RENAMES, code):
        yield 'renames std, or takes it whole'
    if re.search(rt.IGNORED, code):
        yield 'ignores a test'
    if stops(rt.rtlib.stop_on_links, crate.folder) or stops(rt.rtlib.stop_on_text, crate, 'verdict'):
        yield 'has a text that is refused'
    if stops(rt.stop_on_words, crate):
        yield "gives one of the library's names another meaning"
    if stops(rt.rtlib.fmt, crate.folder, '--check', sys.stdout):
        yield 'is not formatted'


def main():
    argparse.ArgumentParser(description=__doc__, formatter_class=argparse.RawDescriptionHelpFormatter).parse_args()
    rt = load_rt()
    rt.Crate.allowed = rt.handles_of(str(TOP))
    crates = crates_of(rt)
    for crate in crates:
        crate.out = sys.stdout
    found = [f'{crate.name} {why}' for crate in crates for why in refused(rt, crate)]
    print('\n'.join(found) or f'{len(crates)} crates have texts that may be proved')
    return 1 if found else 0


if __name__ == '__main__':
    sys.exit(main())
