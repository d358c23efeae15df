#!/usr/bin/env python3
"""Looks at the prose of the documents: words, how long sentences are, and how much of a page is code.

usage: tools/prose.py [--long N] [--words] [FILE ..]

Without a file it looks at README.md, docs/, bench/RESULTS.md, python/ and mpi/. For each document it writes the number
of its words, of the sentences, the longest and the mean one, the share of sentences over 25 words, and the share of
words that are code in backquotes. Code blocks, and cells of tables without a full stop at their end, are left out of all
but the number of words. In a sentence, a piece of code counts as one word. A heading is no sentence, and a point of a
list ends one. With `--long N` it also writes each sentence of more than N words, with `--words` each place of a word of
DIALECT. It warns of a page that has grown by a fifth since its number in PAGES was set. It cuts nothing, and is run by
hand.
"""
import argparse
import pathlib
import re
import sys

TOP = pathlib.Path(__file__).resolve().parent.parent
DOCUMENTS = [TOP / 'README.md', *sorted((TOP / 'docs').glob('*.md')), TOP / 'bench/RESULTS.md',
             *sorted((TOP / 'python').glob('*.md')), TOP / 'mpi/README.md']
LONG = 25
# About how many words a page has. A page that is a fifth longer says something twice, or wants to be two.
PAGES = {
    'README.md': 2_200,
    'docs/ARCHITECTURE.md': 3_000,
    'docs/COMPILED.md': 1_900,
    'docs/DECISIONS.md': 3_200,
    'docs/DEFINITIONS.md': 2_500,
    'docs/ERRORS.md': 1_150,
    'docs/GUARANTEES.md': 7_000,
    'docs/GUIDE.md': 1_100,
    'docs/LANGUAGE.md': 2_200,
    'docs/LIBRARY.md': 2_000,
    'docs/PROVING.md': 2_800,
    'docs/RUNS.md': 2_200,
    'docs/STREAMS.md': 1_500,
    'docs/TRACES.md': 900,
    'docs/VIEWS.md': 2_100,
    'bench/RESULTS.md': 1_950,
    'mpi/README.md': 850,
    'python/README.md': 1_200,
    'python/SDF.md': 1_050,
}
# Words that this project once used in a sense of its own, and what says the same.
DIALECT = {
    r'\bbehind\b': 'after',
    r'\bso many\b': 'the number',
    r'\bcomes? to\b': 'ends with, reaches, is',
    r'\b(?:is|are|was|were) told\b': 'says, is reported',
    r'\bthe outside\b': 'the caller',
    r'\belse[.;]': 'otherwise',
}
POINT = re.compile(r'\s*(?:[-*+]|\d+\.)\s+')
END = re.compile(r'(?<=[.!?])["\')*]*\s+(?=["\'(*]*[A-Z0-9`])')
WORD = re.compile(r"[^\s]*\w[^\s]*")
CODE = re.compile(r'``.+?``|`[^`]*`')


def prose_of(text):
    """The paragraphs of a text and the whole sentences in its tables, each on one line, with headings apart."""
    paragraphs, headings, in_list = [''], [], False
    for line in re.sub(r'^ *```.*?^ *```$', '', text, flags=re.S | re.M).splitlines():
        is_code = line.startswith('    ') and not in_list
        if line.startswith('#'):
            headings.append(line)
        if line.startswith('|'):
            paragraphs += [cell.strip() for cell in line.split('|') if cell.strip().endswith('.')]
        if not line.strip() or line.startswith(('#', '|')) or is_code:
            paragraphs.append('')
            in_list = in_list and not line.startswith('#')
        elif POINT.match(line):
            paragraphs.append(line[POINT.match(line).end():])
            in_list = True
        else:
            in_list = in_list and line.startswith(' ')
            paragraphs[-1] += ' ' + line.strip()
    return [it.strip() for it in paragraphs if it.strip()], headings


def sentences_of(paragraphs):
    """The sentences, each with its number of words, in which a piece of code is one word."""
    for paragraph in paragraphs:
        codes = CODE.findall(paragraph)
        for sentence in END.split(CODE.sub('`code`', paragraph)):
            shown = re.sub('`code`', lambda _: codes.pop(0), sentence)
            yield len(WORD.findall(sentence)), shown


def share_of_code(paragraphs):
    """The share of the words of these paragraphs that stand in backquotes."""
    text = ' '.join(paragraphs)
    words = len(text.split())
    return sum(len(it.split()) for it in CODE.findall(text)) / words if words else 0


def dialect_in(file, text):
    """A line for each word of the dialect in a document."""
    for number, line in enumerate(text.splitlines(), 1):
        for word, better in DIALECT.items():
            for found in re.finditer(word, CODE.sub('', line), re.I):
                yield f'{file}:{number}: "{found[0]}": {better}'


def show(document, asked):
    """Writes the row of a document and the sentences and words that are asked for. Returns what it warns of."""
    text, name = document.read_text(), str(document.resolve().relative_to(TOP))
    paragraphs, _ = prose_of(text)
    sentences = list(sentences_of(paragraphs))
    lengths = [length for length, _ in sentences if length] or [0]
    over, mean = sum(it > LONG for it in lengths) / len(lengths), sum(lengths) / len(lengths)
    dialect = list(dialect_in(name, text))
    words = len(WORD.findall(text))
    print(f'{name:<24}{words:>7,}{len(lengths):>11,}{max(lengths):>9}{mean:>7.1f}{over:>9.1%}'
          f'{share_of_code(paragraphs):>8.0%}{len(dialect):>9}')
    if asked.long is not None:
        print('\n'.join(f'    {length}: {sentence}' for length, sentence in sorted(sentences, reverse=True)
                        if length > asked.long))
    if asked.words:
        print('\n'.join(dialect))
    about = PAGES.get(name)
    if about is None:
        return [f'{name} has no number in PAGES']
    return [f'{name} has {words:,} words, a fifth more than {about:,}'] if words > about * 1.2 else []


def main():
    reads = argparse.ArgumentParser(usage=__doc__.split('usage: ')[1].split('\n')[0])
    reads.add_argument('--long', type=int)
    reads.add_argument('--words', action='store_true')
    reads.add_argument('files', nargs='*', type=pathlib.Path)
    asked = reads.parse_args()
    print(f'{"document":<24}{"words":>7}{"sentences":>11}{"longest":>9}{"mean":>7}{f"over {LONG}":>9}{"code":>8}'
          f'{"dialect":>9}')
    warnings = [it for document in asked.files or DOCUMENTS for it in show(document, asked)]
    print('\n'.join(warnings))
    return 0


if __name__ == '__main__':
    sys.exit(main())
