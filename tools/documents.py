#!/usr/bin/env python3
"""Reports what the documents name and is not there. It ends with 1 if there is anything. It is run by hand.

- A file, a folder and a crate have to be there. A name in backquotes has to be in a source, a definition, a proof, a
  script or an example. A name with a file in brackets after it has to be in that file; if the file has definitions, it
  has to be defined there.
- docs/GUARANTEES.md: in the second column of a claim, `f`: `clause`, the function `f` has to be in a crate of the
  heading or in the crate before its `::`, with such a clause. README.md has such names in brackets after its claims.
- docs/LIBRARY.md: each piece of code has to be in the file that is named before it.
- A link has to lead to a file or a heading. In `RUNS.md, "Growth"` the document has to have such a heading.
- The table of crates has to have as many edits and tests of each crate as there are.
- No line is longer than 120 columns, except rows of tables.
"""
import argparse
import functools
import pathlib
import re
import sys

TOP = pathlib.Path(__file__).resolve().parent.parent
OTHERS = [TOP / name for name in ('README.md', 'bench/RESULTS.md', 'python/README.md', 'python/SDF.md',
                                   'editors/README.md', 'mpi/README.md')]
DOCUMENTS = [*OTHERS, *sorted((TOP / 'docs').glob('*.md'))]
COLUMNS = 120
KINDS = ('.rt', '.antt', '.py', '.rs', '.c', '.h', '.kpn', '.edit')
PATH = re.compile(r'(?<![\w./-])((?:\w[\w.-]*/)+(?:[\w.-]*\w)?|\w+\.(?:rt|antt|py|md|kpn|edit)\b)')
CRATE = re.compile(r'\b(?:kpn|check|bench)_[a-z_]*[a-z]\b')
NAME = re.compile(r"`((?:\w+::)*[A-Za-z_][\w']*)`")
CODE = re.compile(r'From\s+`([^`]+)`[^`]*?```(?:rust|c)\n(.*?)```', re.S)
LINK = re.compile(r'\]\(([^)]*)\)')
HEADING = re.compile(r'(\w+)\.md, "([^"]+)"')
# Parts of a path that stand for something else, or that a build makes.
STANDS_FOR = set('PWD CRATE mine MODULE FILE NAME NAME.antt NAME.edit FILE.antt MODULE.rt m out rlib'.split())
# What carries a claim in GUARANTEES and in README, the head of a function, the clauses in it, and a name.
ROW = re.compile(r'^\|.* \| *(.*?) *\|$', re.M)
BRACKETS = re.compile(r'^\d\. .*?\((`[^)]*)\)\.$', re.M | re.S)
HEAD = re.compile(r'\bfn (\w+)(.*?)(?:^\s*\{\}?$|\{\n|;\n)', re.S | re.M)
CLAUSE = re.compile(r'\bensures\*? (\w+) \{')
PLAIN = re.compile(r'`((?:\w+::)*\w+)`')
PLACE = re.compile(r"`([\w:']+)` \(`([\w/]+\.(?:rt|py|antt))`(?=[;)])")
# Of the kit, of std, of other programs, and names in examples.
ELSEWHERE = set("""share/kpn/editors rt go awk clap arrayvec indexmap itoa linked_list_allocator thiserror anyhow std objdump bin/clang
    logs/ ISO/IEC nope Kinds Now check_ bench_ HANDLES start_io start_lib
    dac8208d650f15bf mean_open mean_feed CMAKE_PREFIX_PATH""".split())


def files_of_project():
    for folder in ('crates', 'bench', 'tools', 'docs', 'python', 'c', 'include', 'editors', 'mpi', '.ci'):
        for file in (TOP / folder).rglob('*'):
            if 'out' not in file.relative_to(TOP).parts and '__pycache__' not in file.parts:
                yield file


def known_words(files):
    words = set()
    for file in files:
        words.update([file.name, file.stem])
        if file.suffix in KINDS and file.is_file():
            words.update(re.findall(r"[A-Za-z_][\w'-]*", file.read_text(errors='replace')))
    return words


def is_path(path, paths):
    if path in ELSEWHERE or STANDS_FOR & set(path.split('/')) or re.fullmatch(r'\d+/\d+', path):
        return True
    path = re.sub(r'^examples/', 'check_examples/data/examples/', path.rstrip('/'))
    return any(f'/{it}'.endswith(f'/{path}') for it in paths)


def is_name(name, words):
    return name in ELSEWHERE or all(part in words for part in name.split('::'))


def wrong_in(line, paths, words):
    """What a line names that is not there, and whether it is too long."""
    if len(line) > COLUMNS and not line.startswith('|'):
        yield f'more than {COLUMNS} columns'
    yield from (f'no file {it}' for it in PATH.findall(line) if not is_path(it, paths))
    yield from (f'no crate {it}' for it in CRATE.findall(line) if it not in words)
    yield from (f'no name {it}' for it in NAME.findall(line) if not is_name(it, words))


def wrong_places(text, paths):
    """Names with a file in brackets after them that does not have them."""
    for name, path in PLACE.findall(' '.join(text.split())):
        word = re.escape(name.split('::')[-1])
        there = rf"^(?:  )?(?:[a-z]+ )*{word}(?![\w'])" if path.endswith('.antt') else rf'\b{word}\b'
        files = [TOP / it for it in paths if f'/{it}'.endswith(f'/{path}')]
        if files and not any(re.search(there, it.read_text(), re.M) for it in files):
            yield f'{name} is not in {path}'


def headings_of(text):
    return re.findall(r'^#+ (.*)$', text, re.M)


def wrong_links(document):
    """The links of a document that lead nowhere, and the headings of other documents that it names wrongly."""
    text = document.read_text()
    anchors = {'#' + re.sub(r'[^\w -]', '', it).lower().replace(' ', '-') for it in headings_of(text)}
    for link in LINK.findall(text):
        if link not in anchors and (link.startswith('#') or not (document.parent / link).exists()):
            yield f'no {link}'
    for name, heading in HEADING.findall(' '.join(text.split())):
        named = [it for it in DOCUMENTS if it.stem == name]
        if not any(heading in headings_of(it.read_text()) for it in named):
            yield f'{name}.md has no heading {heading}'


def sections_of(document):
    """The crates that a heading names, and what carries each claim in the tables below it. A point of a list is there
    too, since a claim belongs into a table.
    """
    parts = re.split(r'^## (.*)$', document.read_text(), flags=re.M)
    for heading, body in zip(parts[1::2], parts[2::2]):
        crates = [it for it in re.findall(r'\w+', heading) if is_crate(it)]
        cells = [it for it in ROW.findall(body) if it != 'By' and set(it) != {'-'}]
        yield crates, cells + re.findall(r'^- .*', body, re.M) if crates else cells


def is_crate(name):
    return (TOP / 'crates' / name).is_dir()


@functools.cache
def clauses_in(crates):
    """The functions of some crates, each with the names of its clauses; modules, types and traits have none."""
    found = {}
    for file in (it for crate in crates for it in (TOP / 'crates' / crate / 'src').rglob('*.rt')):
        text = file.read_text()
        for name in [file.stem, *re.findall(r'\b(?:struct|enum|trait) (\w+)', text)]:
            found.setdefault(name, set())
        for name, head in HEAD.findall(text):
            found.setdefault(name, set()).update(CLAUSE.findall(head))
    return found


def wrong_claims(sections):
    """What is said to carry a claim and is not there."""
    for crates, cells in sections:
        carried = [it for it in cells if PLAIN.search(it) and not it.startswith('- ')]
        yield from (f'a claim without a function beside it: {it}' for it in cells if it not in carried)
        for part in (part for cell in carried for part in cell.split(';')):
            owners, _, named = part.partition(': ')
            paths = [it.split('::') for it in PLAIN.findall(owners)]
            inside = tuple(it[0] for it in paths if len(it) > 1 and is_crate(it[0])) or tuple(crates)
            clauses, owners = clauses_in(inside), [it[-1] for it in paths]
            known = set().union(*(clauses.get(it, ()) for it in owners))
            yield from (f'no function {it} in {", ".join(inside)}' for it in owners if it not in clauses)
            yield from (f'no clause {it} of {", ".join(owners)}' for it in PLAIN.findall(named) if it not in known)


def wrong_counts(document):
    """The rows of a table of crates whose number of edits or tests is wrong."""
    rows = re.findall(r'^    (\w+) +~?\d+(?:\.\d)?\b(.*)$', document.read_text(), re.M)
    told = {crate: tuple(sum(map(int, re.findall(rf'(\d+) {word}', rest))) for word in ('edits', 'tests'))
            for crate, rest in rows}
    counts = {}
    for folder in sorted(it for it in (TOP / 'crates').iterdir() if it.is_dir()):
        tests = sum(len(re.findall(r'#\[test\]', it.read_text())) for it in (folder / 'src').rglob('*.rt'))
        counts[folder.name] = len(list((folder / 'must-fail').glob('*.edit'))), tests
    counts['all'] = tuple(map(sum, zip(*counts.values())))
    yield from (f'{name} has {edits} edits and {tests} tests' for name, (edits, tests) in counts.items()
                if told.get(name) != (edits, tests))


def main():
    argparse.ArgumentParser(description=__doc__, formatter_class=argparse.RawDescriptionHelpFormatter).parse_args()
    files = list(files_of_project())
    paths = {str(file.relative_to(TOP)) for file in [*files, *TOP.iterdir()]}
    words, wrong = known_words(files), []
    for document in DOCUMENTS:
        text = document.read_text()
        for number, line in enumerate(text.splitlines(), 1):
            wrong += [f'{document.name}:{number}: {it}' for it in wrong_in(line, paths, words)]
        wrong += [f'{document.name}: {it}' for it in [*wrong_places(text, paths), *wrong_links(document)]]
        wrong += [f'{document.name}: {file} has no such code:\n{code}' for file, code in CODE.findall(text)
                  if code not in (TOP / file).read_text()]
    wrong += [f'GUARANTEES.md: {it}' for it in wrong_claims(sections_of(TOP / 'docs/GUARANTEES.md'))]
    claims = BRACKETS.findall((TOP / 'README.md').read_text())
    wrong += [f'README.md: {it}' for it in wrong_claims([(['kpn_book'], claims)])]
    wrong += [f'PROVING.md: {it}' for it in wrong_counts(TOP / 'docs/PROVING.md')]
    print('\n'.join(wrong) or 'all that the documents name is there')
    return 1 if wrong else 0


if __name__ == '__main__':
    sys.exit(main())
