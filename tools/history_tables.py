"""Lines for crates/check_examples that audit changed histories: worked histories, each with 30 changes of one event,
some changes that have a name, cuts, and texts that are no histories. They are texts of version 1, and some of version 2
follow them. Each becomes a file `changed` and is audited. tools/examples.py puts them into the compared run and
computes what must come.
"""
import pathlib

import histories

DATA = pathlib.Path(__file__).resolve().parent.parent / 'crates/check_examples/data'
HISTORIES = [(name, f'examples/{file}') for name, file in (
    ('copy', 'copy'), ('kahn', 'kahn'), ('self_loop', 'worked/self_loop'), ('two', 'two'), ('two_readers', 'deadlock'),
    ('ended_reader', 'worked/ended_reader'))]
CHANGES = 30
HEAD = histories.HEAD_ONE.decode()
HEAD_TWO = histories.HEAD_TWO.decode()
PARTS = {'get': 'pci', 'put': 'pci', 'wait-empty': 'pc', 'wait-full': 'pc', 'end': 'ph', 'feed': 'ci', 'close': 'c',
         'take': 'ci', 'leave': 'c', 'grow': 'pc'}


# ---- changes of one event

def without(history, k):
    return history[:k] + history[k + 1:]


def replaced(history, k, event):
    return history[:k] + [event] + history[k + 1:]


def part_changed(history, letter, others):
    """Every event that has such a part, with another one in its place."""
    for k, event in enumerate(history):
        if letter in PARTS[event[0]]:
            place = PARTS[event[0]].index(letter) + 1
            for other in others(event[place]):
                yield f'{k} to {other}', replaced(history, k, event[:place] + (other,) + event[place + 1:])


def causes_changed(history):
    """Every event as another kind of event of the same process and channel."""
    for k, (word, *rest) in enumerate(history):
        if 'p' in PARTS[word]:
            p, c = rest[0], 0 if word == 'end' else rest[1]
            others = [(other, p, c) for other in ('wait-empty', 'wait-full', 'grow')]
            others += [('end', p, cause) for cause in histories.CAUSES]
            others += [(other, p, c, rest[2] if len(rest) > 2 else 0) for other in ('get', 'put')]
        else:
            others = [('close', rest[0]), ('leave', rest[0])]
        for other in others:
            yield f'{k} to {line_of(other)}', replaced(history, k, other)


def changes_of(network, history):
    """All changes of one event, by their kinds."""
    count, channels, processes = len(history), len(network.channels), len(network.instances)
    exchanged = []
    for j, k in [(j, j + 1) for j in range(count - 1)] + [(j, j + 2) for j in range(count - 2)]:
        other = list(history)
        other[j], other[k] = history[k], history[j]
        exchanged.append((f'{j} {k}', other))
    repeated = [(f'{k} after {j}', history[:j + 1] + [history[k]] + history[j + 1:])
                for k in range(count) for j in (k, count - 1)]
    return {
        'drop': [(f'{k}', without(history, k)) for k in range(count)],
        'repeat': repeated,
        'exchange': exchanged,
        'process': list(part_changed(history, 'p', lambda p: ((p + 1) % processes, processes, 65535))),
        'channel': list(part_changed(history, 'c', lambda c: ((c + 1) % channels, (c + 2) % channels, channels))),
        'item': list(part_changed(history, 'i', lambda item: (item + 1, -1 - item))),
        'cause': list(causes_changed(history)),
    }


def chosen(network, history):
    """As many changes as are wanted, of all kinds, spread over the history."""
    found, met = {}, [history]
    for kind, changes in changes_of(network, history).items():
        found[kind] = []
        for title, other in changes:
            if other not in met:
                met.append(other)
                found[kind].append((title, other))
    counts = dict.fromkeys(found, 0)
    while sum(counts.values()) < CHANGES:
        wanting = [kind for kind in found if counts[kind] < len(found[kind])]
        counts[min(wanting, key=lambda kind: counts[kind])] += 1
    for kind, changes in found.items():
        for j in range(counts[kind]):
            title, other = changes[j * len(changes) // counts[kind]]
            yield f'{kind} {title}', text_of(other)


# ---- texts

def line_of(event):
    """The line of an event in version 1, in which a growth has no capacity."""
    return histories.event_text(event[:3] if event[0] == 'grow' else event)


def text_of(history):
    return HEAD + ''.join(f'{line_of(event)}\n' for event in history)


def named_changes_of_two(history):
    grown, put, take = history[3], history[4], history[11]
    yield 'another item is put', text_of(replaced(history, 4, put[:3] + (9,)))
    yield 'the larger number grows', text_of(replaced(history, 3, grown[:2] + (1,)))
    yield 'an owed growth is left out', text_of(without(history, 3))
    yield 'the first event comes twice', text_of(history[:1] + history)
    yield 'an item is taken twice', text_of(history + [take])


def cuts_of_two(history):
    text = text_of(history)
    for k in range(len(text) + 1):
        yield f'cut to {k} bytes', text[:k]


BAD_LINES = ['put 00 0 1', 'put 0 00 1', 'put 0 0 01', 'put 0 0 +1', 'put 0 0 -0', 'put 0 0 --1', 'put 0 0 1.',
             'put  0 0 1', 'put 0 0  1', 'put 0 0 1 ', ' put 0 0 1', 'put\t0 0 1', 'put 0 0 1\r', 'put 0 0 1\0',
             '\0put 0 0 1',
             'put 65536 0 1', 'put 0 65536 1', 'put -1 0 1', 'put 0 0 9223372036854775808',
             'put 0 0 -9223372036854775809', 'put 0 0 10000000000000000000', 'put 0 0', 'put 0', 'put', 'put 0 0 1 1',
             'Put 0 0 1', 'push 0 0 1', 'wait 0 0', 'wait-empty 0', 'wait-empty 0 0 0', 'wait_full 0 0', 'end 0',
             'end 0 ended', 'end 0 Done', 'end done', 'close', 'close 0 0', 'grow 0 0 2', '', ' ', '# put 0 0 1',
             'kpn-trace 1', 'feed 0', 'take 0', 'leave']
GOOD_LINES = ['put 65535 65535 9223372036854775807', 'get 65535 65535 -9223372036854775808', 'wait-empty 65535 0',
              'wait-full 0 65535', 'end 65535 zero-divisor', 'end 0 overflow', 'end 0 index', 'end 1 shift', 'feed 0 0',
              'close 0', 'take 65535 -1', 'leave 65535', 'grow 0 0']
BAD_HEADS = ['', 'kpn-trace 9\n', 'kpn-trace 2\n', 'kpn-trace 1', 'kpn-trace 1 \n', 'kpn-trace 1\r\n', 'kpn-trace 01\n',
             'kpn-trace  1\n', ' kpn-trace 1\n', 'Kpn-trace 1\n', '\nkpn-trace 1\n', 'put 0 0 1\n', 'kpn-trace\n',
             'kpn-trace 1\0\n']


def spellings_of_two(history):
    for line in BAD_LINES:
        yield 'a bad line', f'{HEAD}put 0 0 1\n{line}\nwait-empty 1 1\n'
    for line in BAD_LINES[:2]:
        yield 'a bad line is the last', f'{HEAD}put 0 0 1\n{line}\n'
    for line in GOOD_LINES:
        yield 'a good line with nothing after it', f'{HEAD}{line}'
        yield 'a good line that is illegal', f'{HEAD}{line}\n'
    for head in BAD_HEADS:
        yield 'a bad first line', head
        yield 'a bad first line', head + text_of(history).removeprefix(HEAD)
    yield 'two bad lines', f'{HEAD}put 0 0 1\nput\nget\n'
    yield 'a bad line after an illegal event', f'{HEAD}end 0 done\nput\n'


BAD_GROWTHS = ['grow 0 0', 'grow 0 0 0', 'grow 0 0 02', 'grow 0 0 +2', 'grow 0 0 -2', 'grow 0 0 2 ', 'grow 0 0  2',
               'grow 0 0 2 2', 'grow 0 0 1048577', 'grow 0 0 4294967298', 'grow 65536 0 2', 'grow 0 65536 2']
GOOD_GROWTHS = ['grow 0 0 1', 'grow 65535 65535 1048576']
BAD_RULES = ['', 'policy cycles grow one', 'policy cycles grow one\r\n', ' policy cycles grow one\n',
             'policy cycles grow one \n', 'policy cycles  grow one\n', 'policy cycles\n', 'policy cycles grow\n',
             'grow one policy cycles\n', 'policy Cycles grow one\n', 'policy none grow one\n', 'policy cycles grow two\n',
             'put 0 0 1\n', '\n', 'kpn-trace 2\n']


def version_two_of_two(text):
    """Changes of the text of version 2 that a run of two.kpn stores."""
    rules = 'policy cycles grow one\n'
    head = HEAD_TWO + rules
    for line in BAD_GROWTHS:
        yield 'a bad growth of version 2', f'{head}put 0 0 1\n{line}\nwait-empty 1 1\n'
    for line in GOOD_GROWTHS:
        yield 'a growth of version 2 that is illegal', f'{head}{line}\n'
    for line in BAD_RULES:
        yield 'a bad second line', HEAD_TWO + line
        yield 'a bad second line', HEAD_TWO + line + text.removeprefix(head)
    yield 'the growth names another capacity', text.replace('grow 0 0 2', 'grow 0 0 3')
    for other in ('policy all grow one\n', 'policy cycles grow double\n', 'policy all grow double\n'):
        yield 'other rules', text.replace(rules, other)
    yield 'other rules, and the first event is illegal', f'{HEAD_TWO}policy all grow one\nend 0 done\n'
    yield 'other rules, and a bad line', f'{HEAD_TWO}policy all grow one\nput\n'
    yield 'version 1 with the rules of version 2', f'{HEAD}{text.removeprefix(HEAD_TWO)}'


def stored(file):
    """The text of the trace that a run of the network stores."""
    network = histories.Network((DATA / file).read_text())
    return histories.trace_text(histories.Run(network, {}).go().history, network.growing).decode()


def tables_of_version_two():
    """The same for texts of version 2."""
    yield 'examples/two.kpn', list(version_two_of_two(stored('examples/two.kpn')))
    text = stored('examples/worked/unclogged_doubled.kpn')
    as_version_one = HEAD + text.split('\n', 2)[2].replace('grow 0 0 2', 'grow 0 0').replace('grow 0 0 4', 'grow 0 0')
    yield 'examples/worked/unclogged_doubled.kpn', [
        ('the growths of a stop', text),
        ('its first growth names too much', text.replace('grow 0 0 2', 'grow 0 0 3')),
        ('its second growth names too little', text.replace('grow 0 0 4', 'grow 0 0 3')),
        ('its events in version 1', as_version_one),
    ]
    yield 'examples/clogged.kpn', [('the trace of a run under other rules', text)]
    doubled = stored('examples/worked/three_ahead_doubled.kpn')
    yield 'examples/worked/three_ahead_doubled.kpn', [
        ('its events in version 1, as if channels grew by one',
         HEAD + '\n'.join(' '.join(line.split()[:3]) if line.startswith('grow') else line
                          for line in doubled.split('\n')[2:])),
    ]


def tables():
    """For each network its file, and its histories with a title each."""
    for name, file in HISTORIES:
        history = histories.read_trace((DATA / f'examples/histories/{name}.trace').read_bytes()).history
        rows = list(chosen(histories.Network((DATA / f'{file}.kpn').read_text()), history))
        if name == 'two':
            rows += [*named_changes_of_two(history), *cuts_of_two(history), *spellings_of_two(history)]
        yield f'{file}.kpn', rows
    yield 'examples/worked/empty.kpn', [('an event of nobody', f'{HEAD}end 0 done\n')]
    yield from tables_of_version_two()


def lines():
    """Headings, files that are made, and command lines."""
    for file, rows in tables():
        for title, text in rows:
            escaped = text.replace('\n', '\\n').replace('\r', '\\r').replace('\0', '\\0')
            yield from (f'# {file}: {title}', f'file changed {escaped}', f'kpn audit {file} changed')
