#!/usr/bin/env python3
"""Writes what crates/check_examples must write for the lines of its standard input below the heading `# The examples`,
if there is one: each line, and what comes of it. Other programs than the proved one (rounds.py, histories.py,
figures.py) compute that. What comes before that heading stays as it is. The script also writes the lines of two parts
anew. Below the heading `# The examples run by workers` is each run above it once more by 1, 2 and 16 workers, with an
audit of its trace. Below `# Changed histories` are the lines of history_tables.py.

Before that it checks the comments at the head of each of the examples, README.md and docs/GUIDE.md. They have to say
what really comes of the commands that they name, and each of these commands has to have a row. It is run by hand, after
each change of an example.

A run on one thread computes what a run by workers writes, since that is the same for any number of workers. Of the
audit of its trace it compares only the lines that are the same.

It knows the commands `check`, `print`, `draw`, `rounds`, `run`, `audit`, `stats` and `timeline`, `explain` of
descriptions that are right and of traces that are legal, and of the refusals those that the lines meet.
"""
import argparse
import contextlib
import itertools
import pathlib
import shutil
import sys
import tempfile
from types import MappingProxyType

import figures
import histories
import history_tables
import rounds
import ticks

EXAMPLES, CHANGED = '# The examples\n', '# Changed histories\n'
RUN_BY_WORKERS, WORKERS = '# The examples run by workers\n', (1, 2, 16)
TOP = pathlib.Path(__file__).resolve().parent.parent
FOLDER = TOP / 'crates/check_examples'
# Where the examples for people lie among the rows' files.
EXAMPLES_FOLDER = pathlib.Path('examples')


class Refused(Exception):
    """The text of a refused command. Its status is 1."""


def load(file):
    try:
        return pathlib.Path(file).read_text()
    except FileNotFoundError:
        raise Refused('kpn: 26 Read') from None


def description(file):
    text = load(file)
    processes, (channels, instances, growing) = rounds.Parser(text).description()
    for c, (_, capacity) in enumerate(channels.values()):
        if capacity is not None and not 1 <= capacity <= growing.limit:
            raise Refused(f'kpn: 17 Capacity at {c}')
    return text, processes, channels, instances, growing


# ---- the canonical text

def expression(tree, language, least=1):
    """An expression where only operators that bind so tightly may stand without parentheses. Those of language 1 always
    have them."""
    if not isinstance(tree, tuple):
        return str(tree)
    mark, *parts = tree
    if mark == '[]':
        return f'{parts[0]}[{expression(parts[1], language)}]'
    if len(parts) == 1:
        return mark + expression(parts[0], language, rounds.OPERAND)
    if mark == '?':
        return '({} ? {} : {})'.format(*(expression(part, language) for part in parts))
    if mark in rounds.CALLED:
        return '{}({}, {})'.format(mark, *(expression(part, language) for part in parts))
    left, right = (expression(part, language, side) for part, side in zip(parts, rounds.sides(mark)))
    is_free = language == 2 and rounds.TIGHTNESS[mark] >= least
    return f'{left} {mark} {right}' if is_free else f'({left} {mark} {right})'


def block(statements, indent, language):
    lines = []
    for word, *rest in statements:
        if word == 'if':
            condition, *behind = branch(rest, indent, language)
            lines += [f'{indent}if {condition}', *behind]
        elif word == 'while':
            lines += [f'{indent}while {expression(rest[0], language)} {{', *block(rest[1], indent + '  ', language),
                      indent + '}']
        elif word == 'assign':
            lines.append(f'{indent}{rest[0]} = {expression(rest[1], language)};')
        elif word == 'set':
            index, item = (expression(part, language) for part in rest[1:])
            lines.append(f'{indent}{rest[0]}[{index}] = {item};')
        elif word == 'read':
            lines.append(f'{indent}read {rest[0]} {rest[1]};')
        else:
            lines.append(f'{indent}write {rest[0]} {expression(rest[1], language)};')
    return lines


def branch(parts, indent, language):
    """The lines of an `if` from its condition on. Language 2 leaves out what it can of an `else`."""
    test, first, second = parts
    lines = [f'{expression(test, language)} {{', *block(first, indent + '  ', language)]
    if language == 2 and not second:
        return [*lines, indent + '}']
    if language == 2 and len(second) == 1 and second[0][0] == 'if':
        condition, *behind = branch(second[0][1:], indent, language)
        return [*lines, f'{indent}}} else if {condition}', *behind]
    return [*lines, indent + '} else {', *block(second, indent + '  ', language), indent + '}']


def tables_of(tables, indent=''):
    return [f'{indent}table {name} = {", ".join(map(str, values))};' for name, values in tables.items()]


def process(name, written, language):
    head = '; '.join(f'{part} {", ".join(names)}' for part, names in written.parts.items() if names)
    arrays = [f'  array {array}[{size}];' for array, size in written.arrays.items()]
    return [f'process {name}({head}) {{', *arrays, *tables_of(written.tables, '  '),
            *block(written.body, '  ', language), '}']


def canonical(processes, channels, instances, growing, language=1, shared=MappingProxyType({})):
    lines = ['language 2;'] * (language == 2) + tables_of(shared)
    for name, written in processes.items():
        lines += process(name, written, language)
    lines.append('network {')
    if growing.limit < rounds.LARGEST_CAPACITY:
        lines.append(f'  limit {growing.limit};')
    if growing.policy != 'cycles':
        lines.append(f'  policy {growing.policy};')
    if growing.growth != 'one':
        lines.append(f'  grow {growing.growth};')
    for name, (kind, capacity) in channels.items():
        lines.append(f'  {kind} {name};' if kind == 'source' else f'  {kind} {name} cap {capacity};')
    for name, (program, ins, outs, values) in instances.items():
        behind = (' ' + ', '.join(outs) if outs else '') + ('; ' + ', '.join(map(str, values)) if values else '')
        lines.append(f'  {name} = {program}({", ".join(ins)};{behind});')
    return ''.join(f'{line}\n' for line in [*lines, '}'])


# ---- the commands

def check(file):
    _, processes, channels, instances, _ = description(file)
    return f'ok: {len(processes)} processes, {len(instances)} instances, {len(channels)} channels\n'


def print_text(file):
    text, *parts = description(file)
    parser = rounds.Parser(text)
    parser.description()
    return canonical(*parts, parser.language, parser.shared)


def lists_of(channels, options):
    """The lists of the sources, by their names. All names are looked up before a file is read."""
    named = [word.partition('=') for word in options]
    for place, (name, _, _) in enumerate(named):
        if channels.get(name, ('', None))[0] != 'source':
            raise Refused(f'kpn: 22 UnknownName at {place}')
    return {name: [int(line) for line in load(file).split()] for name, _, file in named}


def rounds_text(file, turns, *options):
    text, _, channels, _, _ = description(file)
    lists = rounds.rounds(text, int(turns), lists_of(channels, options[1::2]))
    return ''.join(f'{name}:{histories.items_text(items)}\n' for name, items in lists.items())


def histories_answer(words):
    """What `run` and `audit` write, and the status. It first checks what they would refuse."""
    found = histories.read_words(words)
    _, _, channels, _, _ = description(found.file)
    if words[0] == 'run':
        lists_of(channels, found.source)
    else:
        load(found.history)
    out, told, status = histories.answer(words)
    return out + told, status


def read_words_of_figures(words):
    parser = argparse.ArgumentParser(description='kpn draw, stats, timeline and explain, computed by another program.')
    parser.add_argument('command')
    parser.add_argument('file')
    parser.add_argument('history', nargs='?')
    parser.add_argument('--steps', type=int, default=histories.MOST_STEPS)
    parser.add_argument('--across', action='store_true')
    parser.add_argument('--tsv', choices=('channels', 'processes'))
    parser.add_argument('--svg', action='store_true')
    parser.add_argument('--from', type=int, default=1, dest='first')
    parser.add_argument('--to', type=int, default=10 ** 9, dest='last')
    return parser.parse_args(words)


def figures_answer(words):
    """What `draw`, `stats`, `timeline` and `explain` write, and the status: those of an audit, if the trace is not
    legal. Explained traces of examples are legal."""
    found = read_words_of_figures(words)
    description(found.file)
    network = histories.Network(load(found.file))
    if not found.history:
        return figures.drawing(network, across=found.across), 0
    trace = histories.read_trace(load(found.history).encode())
    audit = histories.audit_text(network, trace, found.steps)
    if not audit.startswith('legal'):
        return audit, histories.status_of(audit)
    if found.command == 'explain':
        return figures.explained(network, trace), 0
    if found.command == 'draw':
        return figures.drawing(network, trace, found.across), 0
    if found.command == 'timeline':
        waits = figures.replay(network, trace)[0].waits()
        if found.svg:
            return ticks.picture_text(network, trace, waits, found.first, found.last), 0
        return ticks.timeline_text(network, trace, waits), 0
    return figures.stats_text(network, trace, found.tsv), 0


def answer(words):
    """What a command writes, and its status."""
    command, *rest = words
    try:
        if command in ('run', 'audit'):
            return histories_answer(words)
        if command in ('draw', 'stats', 'timeline') or command == 'explain' and len(rest) > 1:
            return figures_answer(words)
        # Explained files of examples are right.
        return {'check': check, 'explain': check, 'print': print_text, 'rounds': rounds_text}[command](*rest), 0
    except (Refused, histories.BadText) as refused:
        return f'{refused}\n', 1


def written_for(line):
    """What is written for a line: the line, and what comes of it."""
    word, _, rest = line.partition(' ')
    if word == '#':
        return f'{line}\n'
    if word == 'file':
        name, _, text = rest.partition(' ')
        pathlib.Path(name).write_bytes(text.replace('\\n', '\n').replace('\\r', '\r').replace('\\0', '\0').encode())
        return f'$ {line}\n'
    if word == 'cat':
        return f'$ {line}\n{load(rest)}'
    count, command = 0, rest
    if word == 'first':
        count, _, command = rest.partition(' ')
        command = command.removeprefix('kpn ')
    text, status = answer(command.split())
    lines = (text + (f'status {status}\n' if status else '')).splitlines(keepends=True)
    return f'$ {line}\n' + ''.join(lines[:int(count)] if count else lines)


def without(option, words):
    """The words of a run, without an option and its value."""
    if option not in words:
        return words
    place = words.index(option)
    return words[:place] + words[place + 2:]


def audited_lines(report):
    """How many lines of the audit of a run by workers are the same whatever their turns were. Under `enough` and
    `stopped` some of the workers may have gone on for a while, so the line that says whether all was over does not
    count."""
    return 1 if report.endswith(('enough\n', 'stopped\n')) else 2


def lines_by_workers(lines):
    """Each run among the lines once more, by workers."""
    runs = []
    for line in lines.splitlines():
        words = without('--trace', line.split())
        if words[:2] == ['kpn', 'run'] and words not in runs:
            runs.append(words)
    for words in runs:
        report, status = answer(words[1:])
        for count in WORKERS:
            yield f'{" ".join(words)} --workers {count} --trace by_workers.trace\n'
            if status != 1:
                yield f'first {audited_lines(report)} kpn audit {words[2]} by_workers.trace\n'


# ---- what comments and documents say

COMMAND = './kpn '
DOCUMENTS = ('README.md', 'docs/GUIDE.md')
# The sentence between a command and a part of what it writes, in place of all.
A_PART = 'writes a line for each channel, and '


def claims_of_example(text):
    """Each command that the comments at the head of an example name, with the sentence after it and the lines that it
    claims to write. Only command and lines are indented by three spaces."""
    comments = itertools.takewhile(lambda line: line.startswith('#'), text.splitlines())
    parts = [list(part) for _, part in itertools.groupby(comments, lambda line: line.startswith('#   '))]
    for command, sentence, lines in zip(parts, parts[1:], parts[2:]):
        if command[0].startswith(f'#   {COMMAND}'):
            said = ' '.join(line.removeprefix('#').strip() for line in sentence)
            yield command[0].removeprefix(f'#   {COMMAND}'), said.strip(), [line[4:] for line in lines]


def claims_of_document(text):
    """Each command after a `$` in a document, with the lines below it up to the next command or an empty line."""
    lines = iter(text.splitlines())
    block = []
    for line in itertools.chain(lines, ['']):
        if block and (line == '' or line.startswith('    $ ')):
            yield block[0].removeprefix(f'    $ {COMMAND}'), 'writes', [written[4:] for written in block[1:]]
            block = []
        if block or line.startswith(f'    $ {COMMAND}'):
            block.append(line)


def is_part(lines, written):
    """Whether these lines are among those that were written, in this order."""
    left = iter(written)
    return all(line in left for line in lines)


def what_is_wrong(command, said, lines, rows):
    """What is wrong with what is said of a command, if anything. It runs the command in the current folder."""
    words = command.split()
    if words[0] == 'stream':
        # what streams write stands above the rows that this program answers
        return None
    if without('--workers', without('--trace', words)) not in [without('--trace', row) for row in rows]:
        return 'no row has this command'
    text, status = answer(words)
    written = text.splitlines()
    if (f'with status {status}' in said) != (status != 0):
        return f'its status is {status}'
    if not (is_part(lines, written) if A_PART in said else lines == written):
        return 'it writes\n' + text
    return None


def wrong_claims(rows):
    """What the examples and the documents wrongly say of commands."""
    files = sorted(file for folder in ('.', 'worked', 'language2') for file in (EXAMPLES_FOLDER / folder).glob('*.kpn'))
    claims = [(file.name, *claim) for file in files
              for claim in claims_of_example(file.read_text())]
    claims += [(name, *claim) for name in DOCUMENTS for claim in claims_of_document((TOP / name).read_text())]
    for name, command, said, lines in claims:
        wrong = what_is_wrong(command, said, lines, rows)
        if wrong:
            yield f'{name}: {COMMAND}{command}: {wrong}'


def main():
    argparse.ArgumentParser(description=__doc__, formatter_class=argparse.RawDescriptionHelpFormatter).parse_args()
    given, wanted = FOLDER / 'stdin', FOLDER / 'stdout'
    by_hand, mark, lines = given.read_text().rpartition(EXAMPLES)
    answered_by_hand = wanted.read_text().rpartition(EXAMPLES)[0]
    lines, changed, _ = lines.partition(CHANGED)
    lines = lines.partition(RUN_BY_WORKERS)[0]
    if changed:
        changed += ''.join(f'{line}\n' for line in history_tables.lines())
    with tempfile.TemporaryDirectory() as name:
        shutil.copytree(FOLDER / 'data', name, dirs_exist_ok=True)
        with contextlib.chdir(name):
            wrong = list(wrong_claims([line.split()[1:] for line in given.read_text().splitlines()]))
            if wrong:
                sys.exit('\n'.join(wrong))
            lines += RUN_BY_WORKERS + ''.join(lines_by_workers(lines)) + changed
            written = ''.join(map(written_for, lines.removesuffix('\n').split('\n')))
    given.write_text(by_hand + mark + lines)
    wanted.write_text(answered_by_hand + mark + written)


if __name__ == '__main__':
    main()
