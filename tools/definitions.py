#!/usr/bin/env python3
"""Prints the words of the contracts: the definitions in the folders specs/ of the program's crates, by file, each with
the first sentence of the comment above it. docs/DEFINITIONS.md explains the words of the field.

usage: tools/definitions.py [CRATE ..]

Without a crate it prints those of all, and it is run by hand. It leaves out two kinds of definitions: those that are
not public, and those that only contracts of private functions cite, which their file or a heading in it calls
scaffolding.
"""
import argparse
import pathlib
import re
import sys
import textwrap

TOP = pathlib.Path(__file__).resolve().parent.parent
COLUMNS = 120
DEFINED = re.compile(r"^(?:pub (?:record|data)|abbrev pub|  pub)\s+([^\s:]+)(?=\s)")
SENTENCE_END = re.compile(r'(?<=[^.])\. (?=[A-Z`])')
HEADING = '-- ---- '
FOR_PRIVATE = re.compile(r'scaffolding|needs none of it', re.I)


def words_of(file):
    """The public definitions of a file, each with the first sentence of its comment."""
    lines = file.read_text().splitlines()
    if FOR_PRIVATE.search(' '.join(lines[:3])):
        return
    comment, is_private, is_mutual = [], False, False
    for line in lines:
        text = line.strip()
        if text.startswith(HEADING):
            comment, is_private = [], bool(FOR_PRIVATE.search(text))
        elif text.startswith('--'):
            comment.append(text.removeprefix('--').strip())
        elif not text:
            comment = []
        else:
            found = DEFINED.match(line)
            # Within `mutual` definitions are indented, and elsewhere the fields of a record are.
            is_mutual = text in ('mutual', 'abbrev mutual') or (is_mutual and line.startswith(' '))
            is_field = line.startswith(' ') and not is_mutual
            if found and not is_field and not is_private and not FOR_PRIVATE.search(' '.join(comment)):
                yield found[1], SENTENCE_END.split(' '.join(comment), maxsplit=1)[0].removesuffix('.')


def listed(crates):
    """The list of these crates."""
    lines = []
    for crate in crates:
        for file in sorted((crate / 'specs').rglob('*.antt')):
            words = list(words_of(file))
            if words:
                lines += [f'\n## {crate.name}: `{file.relative_to(crate)}`\n']
            for word, said in words:
                line = f'- `{word}`: {said}' if said else f'- `{word}`'
                lines += textwrap.wrap(line, COLUMNS, subsequent_indent='  ', break_long_words=False)
    return '\n'.join(lines).lstrip()


def main():
    crates = {it.name: it for it in sorted((TOP / 'crates').iterdir()) if it.name.startswith('kpn')}
    parser = argparse.ArgumentParser(description=__doc__, formatter_class=argparse.RawDescriptionHelpFormatter)
    parser.add_argument('crates', nargs='*', metavar='CRATE')
    asked = parser.parse_args().crates
    unknown = [name for name in asked if name not in crates]
    if unknown:
        sys.exit(f'no crate of the program is named {", ".join(unknown)}')
    print(listed([crates[name] for name in asked or crates]))


if __name__ == '__main__':
    main()
