"""What `kpn draw` and `kpn stats` write of a network and of a trace, and `kpn explain` of a legal one. Another program
than the proved one computes it from what an audit keeps of channels and processes (histories.py), and from the events
of the trace.
"""
import collections

import histories
import ticks

CHANNEL_HEADING = ('channel put read left most cap_first cap_last growths waits_empty waits_full complete '
                   'cap_shortest').split()
PROCESS_HEADING = 'process gets puts steps waits_empty waits_full end bounds parameters'.split()
HEAD = '''digraph network {
  rankdir=%s;
  node [fontname="sans-serif", shape=box];
  edge [fontname="sans-serif", fontsize=11];
'''
# Of a longer list this many items are shown.
MOST_ITEMS = 20
LEGEND = '  label="green: complete, nothing more is ever put there%s";\n'


def replay(network, trace):
    """An audit after the last event of a legal trace, and the most items that were unread on each channel."""
    audit = histories.Audit(network, histories.MOST_STEPS, trace.policy, trace.growth)
    most = [0] * len(network.channels)
    for event in trace.history:
        audit.accept(audit.told(event) if trace.version == 1 else event)
        most = [max(so_far, len(audit.unread(c))) for c, so_far in enumerate(most)]
    return audit, most


def standing(audit, p):
    """How process p has ended, or what it waits for; nothing if it can go on."""
    if audit.has_ended(p):
        return audit.last_of[p][-1]
    wait = audit.blocked(p)
    if wait is None:
        return ''
    return f'waits {audit.network.channels[wait[1]]}' + (' full' if wait[0] == 'full' else '')


def parameters(network, p):
    """The parameters of process p, with their names and values."""
    program, _, values = network.given[p]
    return ' '.join(f'{name}={value}' for name, value in zip(network.processes[program].parts['par'], values))


# ---- the tables

def count(history, word, place, number):
    """How many events of this word have the number at this place."""
    return sum(event[0] == word and event[place] == number for event in history)


def channel_row(audit, history, most, free, c):
    network = audit.network
    put, read = len(audit.written[c]), audit.read_count[c]
    capacities = ['-' if cap is None else cap for cap in (network.capacities[c], audit.capacities[c])]
    events = [count(history, word, 2, c) for word in ('grow', 'wait-empty', 'wait-full')]
    complete = 'yes' if audit.complete()[c] else 'no'
    shortest = '-' if network.capacities[c] is None else free.needed(c)
    return [network.channels[c], put, read, put - read, most[c], *capacities, *events, complete, shortest]


def process_row(audit, history, bounded, p):
    moves, waits = ([count(history, word, 1, p) for word in words]
                    for words in (('get', 'put'), ('wait-empty', 'wait-full')))
    behind = [standing(audit, p) or '-', bounded.shares()[p], parameters(audit.network, p) or '-']
    return [audit.network.instances[p], *moves, audit.processes[p].steps, *waits, *behind]


def advice(audit, bounded, free, c):
    last = audit.capacities[c]
    if last is None:
        return ''
    number = min(bounded.needed(c), last) if bounded.length == free.length else free.needed(c)
    # A channel that jams the run could use one item more at least.
    if any(audit.blocked(p) == ('full', c) for cycle in cycles_of(audit) for p in cycle):
        number = max(number, last + 1)
    said, limit = f'{audit.network.channels[c]}: cap {number}', audit.network.growing.limit
    if number > limit:
        return f'{said} would be advised, but the limit is {limit}\n'
    return f'{said} is advised' + (f', and it has {last}' if number > last else '') + '\n'


def counted(count, word):
    return f'{count} {word}' if count == 1 else f'{count} {word}s'


def shares_line(network, begin, word, shares):
    """The five processes with the largest shares, and the others together."""
    if not shares:
        return f'{begin} by nothing\n'
    first = sorted(shares, key=lambda p: (-shares[p], p))[:5]
    told = [(network.instances[p], shares[p]) for p in first]
    others = shares.total() - sum(share for _, share in told)
    told += [('others', others)] * bool(others)
    return f'{begin} by ' + ', '.join(f'{name} ({counted(share, word)})' for name, share in told) + '\n'


def head(audit, trace, bounded, free):
    network, moves = audit.network, len(bounded.places)
    hundredths = moves * 100 // bounded.length if bounded.length else None
    in_a_tick = '-' if hundredths is None else f'{hundredths // 100}.{hundredths % 100:02}'
    steps = collections.Counter({p: process.steps for p, process in enumerate(audit.processes) if process.steps})
    return (f'length {counted(bounded.length, "tick")}, {free.length} without capacities\n'
            f'events {len(trace.history)}, gets and puts {moves}, in a tick {in_a_tick}\n'
            + ''.join(rate_lines(audit, bounded)) + shares_line(network, 'bound', 'tick', bounded.shares())
            + shares_line(network, 'most work', 'step', steps))


def rate_lines(audit, bounded):
    """How many ticks an item of each sink takes in a period, if there are two items."""
    network = audit.network
    courses = [course_of(audit, bounded, p) for p in range(len(network.instances))]
    for c in network.of_kind('sink'):
        at, name = bounded.written(c), network.channels[c]
        if len(at) > 1:
            rate = rate_of(audit, courses, c)
            yield (f'{name} takes {rate // 100}.{rate % 100:02} ticks an item\n' if rate is not None
                   else f'{name} has {len(at)} items by tick {at[-1]}, without a period\n')


def course_of(audit, bounded, p):
    """The moves of a process, each with its tick and how much later than the one before it is, and how many of them
    come again to the end, twice at least, in the last two thirds; 0 if none do, or if it waits for another move."""
    moves = [(bounded.ticks[k], bounded.places[k]) for k in bounded.of_process[p]]
    steps = [(place.word, place.channel, tick - before)
             for (tick, place), (before, _) in zip(moves, [(0, None), *moves])]
    steady = steps[len(steps) // 3:]
    period = next((n for n in range(1, len(steady) // 2 + 1) if steady[n:] == steady[:-n]), 0)
    wait = audit.blocked(p)
    if period and wait and ({'empty': 'get', 'full': 'put'}[wait[0]], wait[1]) != steps[-period][:2]:
        period = 0
    return moves, period


def rate_of(audit, courses, c):
    """Hundredths of ticks that an item of a sink takes, if all that gives it items has a period."""
    network, writer = audit.network, audit.network.writers[c]
    feeders = [writer]
    for p in feeders:
        feeders += {network.writers[d] for d in network.ins(p)} - {None, *feeders}
    moves, period = courses[writer]
    begin = moves[len(moves) // 3 - 1][0] if len(moves) // 3 else 0
    for p in feeders:
        ticks_of = [tick for tick, _ in courses[p][0]]
        if not courses[p][1] and not (audit.has_ended(p) and (ticks_of or [0])[-1] < begin):
            return None
    last = moves[len(moves) - period:]
    puts = sum(place.word == 'put' and place.channel == c for _, place in last)
    before = moves[-period - 1][0] if period < len(moves) else 0
    return (moves[-1][0] - before) * 100 // puts if puts else None


def aligned(rows):
    """A table for people: names to the left, all else to the right."""
    widths = [max(len(str(row[i])) for row in rows) for i in range(len(rows[0]))]
    return ''.join('  '.join([row[0].ljust(widths[0]), *(str(cell).rjust(width) for cell, width in
                                                        zip(row[1:], widths[1:]))]) + '\n' for row in rows)


def tabbed(rows):
    return ''.join('\t'.join(map(str, row)) + '\n' for row in rows)


# ---- cycles of waiting processes

def awaited(audit, p):
    """The process that process p waits for, if there is one."""
    wait = audit.blocked(p)
    if wait is None:
        return None
    why, c = wait
    return (audit.network.writers if why == 'empty' else audit.network.readers)[c]


def way_from(audit, p):
    """The processes from p on along the waits, without a second visit."""
    way = []
    while p is not None and p not in way:
        way.append(p)
        p = awaited(audit, p)
    return way


def cycles_of(audit):
    """The cycles of waiting processes, each from its member of least number on."""
    ways = (way_from(audit, p) for p in range(len(audit.network.instances)))
    return [way for way in ways if way[0] == min(way) and awaited(audit, way[-1]) == way[0]]


def rings_of(audit):
    """Those of which each member waits on an empty channel."""
    return [cycle for cycle in cycles_of(audit) if all(audit.blocked(p)[0] == 'empty' for p in cycle)]


def stats_text(network, trace, tsv=None):
    audit, most = replay(network, trace)
    channels, processes = range(len(network.channels)), range(len(network.instances))
    bounded, free = (ticks.Timing(network, trace, has_capacities) for has_capacities in (True, False))
    of_channels = [CHANNEL_HEADING, *(channel_row(audit, trace.history, most, free, c) for c in channels)]
    of_processes = [PROCESS_HEADING, *(process_row(audit, trace.history, bounded, p) for p in processes)]
    if tsv:
        return tabbed(of_channels if tsv == 'channels' else of_processes)
    said = ''.join(advice(audit, bounded, free, c) for c in channels)
    rings = ''.join(' '.join(['deadlock', *(network.instances[p] for p in ring)]) + '\n' for ring in rings_of(audit))
    first = head(audit, trace, bounded, free) + rings
    return f'{first}\n{aligned(of_channels)}\n{aligned(of_processes)}\n{said}'


# ---- the drawing

def box(network, audit, p, members):
    label, style = f'{network.instances[p]}: {network.given[p][0]} {parameters(network, p)}'.rstrip(), ''
    state = standing(audit, p) if audit else ''
    if state:
        colour = {'done': 'lightgrey'}.get(state, 'lightyellow' if state.startswith('waits') else 'lightpink')
        colour = 'orange' if p in members else colour
        label, style = fr'{label}\n{state}', f', style=filled, fillcolor={colour}'
    return f'  p{p} [label="{label}"{style}];\n'


def outside(network, c):
    shapes = {'source': 'shape=ellipse', 'sink': 'shape=ellipse, peripheries=2'}
    kind = network.kinds[c]
    return f'  c{c} [label="{kind}", {shapes[kind]}];\n' if kind in shapes else ''


def edge(network, audit, c, awaited_channels):
    writer, reader = (f'c{c}' if p is None else f'p{p}' for p in (network.writers[c], network.readers[c]))
    first, label, style = network.capacities[c], network.channels[c], ''
    if first is not None:
        label += f' ({first})'
    if audit:
        label += fr'\n{len(audit.written[c])} put, {len(audit.unread(c))} unread'
        if audit.capacities[c] != first:
            label, style = f'{label}, grown to {audit.capacities[c]}', ', style=bold'
        if c in awaited_channels:
            style += ', color=orangered, penwidth=3'
        elif audit.complete()[c]:
            style += ', color=darkgreen'
    return f'  {writer} -> {reader} [label="{label}"{style}];\n'


def drawing(network, trace=None, across=False):
    audit = replay(network, trace)[0] if trace else None
    members = {p for cycle in cycles_of(audit) for p in cycle} if trace else set()
    awaited_channels = {audit.blocked(p)[1] for p in members}
    boxes = ''.join(box(network, audit, p, members) for p in range(len(network.instances)))
    edges = ''.join(outside(network, c) + edge(network, audit, c, awaited_channels)
                    for c in range(len(network.channels)))
    legend = LEGEND % (r'\norange: processes that wait for each other' * bool(members)) if trace else ''
    return HEAD % ('TB' if across else 'LR') + boxes + edges + legend + '}\n'


# ---- what is said of a legal history that is not exact

def what_lacks(audit, complete, c):
    """What may put more on a sink: turns or input of the one for which its writer waits in the end, or room."""
    network, met, p = audit.network, set(), audit.network.writers[c]
    while p is not None and p not in met:
        met.add(p)
        wait = audit.blocked(p)
        if wait is None and not audit.has_ended(p):
            return 'a longer run'
        if wait and wait[0] == 'empty' and network.kinds[wait[1]] == 'source' and not complete[wait[1]]:
            return 'more input'
        p = awaited(audit, p)
    return 'more room (`cap`, `limit`)'


def sink_line(audit, c, is_complete, more):
    said = 'complete: nothing more is ever put there' if is_complete else f'not complete: {more} may put more there'
    return f'`{audit.network.channels[c]}` is {said}\n'


def unread_line(audit, c, complete):
    """Why nobody reads a full channel."""
    network = audit.network
    name, reader = f'`{network.channels[c]}`', network.readers[c]
    if reader is None:
        return f'{name} is full: the outside would have to take\n'
    wait = audit.blocked(reader)
    if wait is None:
        return f'{name} is full: its reader `{network.instances[reader]}` can go on\n'
    why, d = wait
    held, after = 'is full', why
    if why == 'empty' and complete[d]:
        held = 'holds an item that nobody will read'
        after = f'{"closed" if network.kinds[d] == "source" else "complete"} and used up'
    waits = f'`{network.instances[reader]}` waits on `{network.channels[d]}`, which is {after}'
    return f'{name} {held}: its reader {waits}\n'


# ---- what is said of rings

def ring_line(audit, ring):
    names, channels = audit.network.instances, audit.network.channels
    waits = ', '.join(f'{names[p]} waits on {channels[audit.blocked(p)[1]]} for {names[awaited(audit, p)]}'
                      for p in ring)
    who = 'it has' if len(ring) == 1 else 'one of them has'
    return f'deadlock: {waits}; {who} to write before it reads (a first item before its loop)\n'


def deadlock_text(audit):
    """The rings, what waits behind them, and the sources that have items left because of them."""
    network, rings = audit.network, rings_of(audit)
    members = {p for ring in rings for p in ring}
    held = {p for p in range(len(network.instances)) if members.intersection(way_from(audit, p))}
    behind = ', '.join(network.instances[p] for p in sorted(held - members))
    left = ', '.join(f'{network.channels[c]} {len(audit.unread(c))}' for c in network.of_kind('source')
                     if network.readers[c] in held and audit.unread(c))
    return (''.join(ring_line(audit, ring) for ring in rings)
            + (f'waiting behind it: {behind}\n' if behind else '')
            + (f'items left because of it: {left}\n' if left else ''))


FORMS = {'get': 'gets {item} from `{c}`', 'put': 'puts {item} on `{c}`', 'wait-empty': 'waits on `{c}` as empty',
         'wait-full': 'waits on `{c}` as full'}


def faults_text(network, history):
    """Of each event by which a process ends by a fault: its number, and what the process did before."""
    last, lines = {}, []
    for k, (word, p, *rest) in enumerate(history):
        if word in FORMS:
            c, *items = rest
            last[p] = 'right after `{}` '.format(network.instances[p]) + FORMS[word].format(
                c=network.channels[c], item=''.join(map(str, items)))
        elif word == 'end' and rest[0] != 'done':
            lines.append(f'fault: `{network.instances[p]}` ends with `{rest[0]}` at event {k}, '
                         + last.get(p, 'before it reads or writes')
                         + '; its readers get what is unread, and nothing more\n')
    return ''.join(lines)


def cut(line):
    """A line of an audit, with the first 20 items of a longer list."""
    name, mark, items = line.rstrip('\n').partition(':')
    more = len(items.split()) - MOST_ITEMS
    if more <= 0:
        return line
    return f'{name}{mark} {" ".join(items.split()[:MOST_ITEMS])} .. {more:,} more\n'


def explained(network, trace):
    """What is said of a legal trace."""
    audit = replay(network, trace)[0]
    said = deadlock_text(audit) + faults_text(network, trace.history)
    said += ''.join(map(cut, audit.text().splitlines(keepends=True)))
    if audit.is_quiet():
        return said
    complete = audit.complete()
    sinks = [sink_line(audit, c, complete[c], what_lacks(audit, complete, c)) for c in network.of_kind('sink')]
    full = [unread_line(audit, wait[1], complete) for wait in audit.waits() if wait and wait[0] == 'full']
    return said + ''.join(sinks + full)
