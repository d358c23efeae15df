"""When the gets and puts of a history take place, if each takes one tick and begins as early as it can. This is another
program than the proved one: it takes no event after another, but follows what each get and put waits for.
"""
import collections
import json
import typing
import xml.etree.ElementTree


class Place(typing.NamedTuple):
    """A get or put: of which process, on which channel, and which item of that channel it is."""
    process: int
    word: str
    channel: int
    item: int
    value: int
    room: int | None


def grown(network, trace, capacity):
    if trace.version == 1 or trace.growth == 'one':
        return capacity + 1
    return min(2 * capacity, network.growing.limit)


def places(network, trace):
    """The gets and puts in order. `room` is the number of the item that has to be read before a put; None if a put
    needs none."""
    written, read, capacities = collections.Counter(), collections.Counter(), list(network.capacities)
    for event in trace.history:
        word, *rest = event
        if word == 'grow':
            capacities[rest[1]] = grown(network, trace, capacities[rest[1]])
        elif word == 'get':
            p, c, value = rest
            yield Place(p, word, c, read[c], value, None)
            read[c] += 1
        elif word == 'put':
            p, c, value = rest
            needed = -1 if capacities[c] is None else written[c] - capacities[c]
            yield Place(p, word, c, written[c], value, needed if needed >= 0 else None)
            written[c] += 1
        elif word == 'feed':
            written[rest[0]] += 1
        elif word == 'take':
            read[rest[0]] += 1


class Timing:
    """The tick of each get and put of the history of a trace."""

    def __init__(self, network, trace, has_capacities=True):
        history = trace.history
        self.network, self.places = network, list(places(network, trace))
        self.has_capacities = has_capacities
        self.of_process = collections.defaultdict(list)
        self.puts, self.gets = {}, {}
        for k, place in enumerate(self.places):
            self.of_process[place.process].append(k)
            (self.puts if place.word == 'put' else self.gets)[place.channel, place.item] = k
        self.before = {}
        for numbers in self.of_process.values():
            self.before.update(zip(numbers[1:], numbers))
        self.ticks = self.follow()
        self.length = max(self.ticks, default=0)
        self.fed = collections.Counter(event[1] for event in history if event[0] == 'feed')
        self.taken = collections.Counter(event[1] for event in history if event[0] == 'take')

    def causes(self, k):
        """The gets and puts that have to be over before this one."""
        place = self.places[k]
        found = [self.before.get(k)]
        if place.word == 'get':
            found.append(self.puts.get((place.channel, place.item)))
        elif self.has_capacities and place.room is not None:
            reader = self.network.readers[place.channel]
            if (place.channel, place.room) in self.gets:
                found.append(self.gets[place.channel, place.room])
            elif reader is not None:
                found.append(max((j for j in self.of_process[reader] if j < k), default=None))
        return [cause for cause in found if cause is not None]

    def follow(self):
        ticks, left = [None] * len(self.places), list(range(len(self.places)))
        while left:
            k = left[-1]
            late = [cause for cause in self.causes(k) if ticks[cause] is None]
            if ticks[k] is None and late:
                left += late
                continue
            left.pop()
            if ticks[k] is None:
                ticks[k] = 1 + max((ticks[cause] for cause in self.causes(k)), default=0)
        return ticks

    def written(self, c):
        """The ticks of the items that were written on a channel; 0 of one that was fed."""
        puts = sorted((place.item, tick) for place, tick in zip(self.places, self.ticks)
                      if place.word == 'put' and place.channel == c)
        return [0] * self.fed[c] + [tick for _, tick in puts]

    def read(self, c):
        """The ticks of the items that were read; what is taken is taken at once."""
        gets = [tick for place, tick in zip(self.places, self.ticks) if place.word == 'get' and place.channel == c]
        return self.written(c)[:self.taken[c]] + gets

    def chain(self):
        """A longest chain of gets and puts from its end: each has a cause at the tick before, of its own process if there
        is one. It ends with the first process that has the last tick."""
        ends = [k for k, tick in enumerate(self.ticks) if tick == self.length]
        k = min(ends, key=lambda k: self.places[k].process, default=None)
        while k is not None:
            yield k
            late = [cause for cause in self.causes(k) if self.ticks[cause] == self.ticks[k] - 1]
            k = self.before.get(k) if self.before.get(k) in late else late[0] if late else None

    def shares(self):
        """How many ticks of the chain each process has."""
        return collections.Counter(self.places[k].process for k in self.chain())

    def needed(self, c):
        """The capacity with which the puts on a channel have these ticks."""
        written, read = self.written(c), self.read(c)
        return max([1, *(k + 1 - sum(other < tick for other in read) for k, tick in enumerate(written))])


# ---- the timeline

def line(**entries):
    return json.dumps(entries, separators=(',', ':')) + '\n'


def event_lines(network, timing, history):
    """The slices in the order of the history, and the growths."""
    latest, numbers = collections.Counter(), iter(range(len(timing.places)))
    for event in history:
        if event[0] == 'grow':
            p, c = event[1:3]
            yield line(ph='i', s='t', pid=1, tid=p + 1, ts=latest[p], name=f'{network.channels[c]} grows')
        if event[0] not in ('get', 'put'):
            continue
        k = next(numbers)
        place, tick = timing.places[k], timing.ticks[k]
        p, name, begin = place.process, network.channels[place.channel], latest[place.process]
        if tick - 1 > begin:
            full = ' full' if place.word == 'put' else ''
            yield line(ph='X', pid=1, tid=p + 1, ts=begin, dur=tick - 1 - begin, name=f'waits {name}{full}')
        yield line(ph='X', pid=1, tid=p + 1, ts=tick - 1, dur=1, name=f'{place.word} {name}',
                   args={'item': place.value})
        latest[p] = tick


def counter_lines(network, timing, c):
    """Writes and reads by their ticks; a read comes after the writes of its tick."""
    unread = 0
    writes = [(tick, 0) for tick in timing.written(c)]
    for tick, is_read in sorted(writes + [(tick, 1) for tick in timing.read(c)]):
        unread += -1 if is_read else 1
        yield line(ph='C', pid=1, ts=tick, name=network.channels[c], args={'unread': unread})


def last_wait_lines(network, timing, waits):
    """The waits that a history ends with go on for one tick after the last one."""
    for p, wait in enumerate(waits):
        if wait:
            full = ' full' if wait[0] == 'full' else ''
            begin = max((timing.ticks[k] for k in timing.of_process[p]), default=0)
            yield line(ph='X', pid=1, tid=p + 1, ts=begin, dur=timing.length + 1 - begin,
                       name=f'waits {network.channels[wait[1]]}{full}')


def timeline_text(network, trace, waits):
    """The timeline of a history, with the wait of each process at its end, or None."""
    timing = Timing(network, trace)
    tracks = [line(ph='M', pid=1, tid=p + 1, name='thread_name', args={'name': name})
              for p, name in enumerate(network.instances)]
    counters = [told for c in range(len(network.channels)) for told in counter_lines(network, timing, c)]
    first = line(ph='M', pid=1, name='process_name', args={'name': 'kpn'})
    slices = [*event_lines(network, timing, trace.history), *last_wait_lines(network, timing, waits)]
    lines = [first, *(f',{told}' for told in [*tracks, *slices, *counters])]
    text = '{"traceEvents":[\n' + ''.join(lines) + ']}\n'
    check_timeline(text)
    return text


def check_timeline(text):
    """Reads a timeline back: it is JSON, and the slices of a track do not overlap."""
    ends = collections.Counter()
    for event in json.loads(text)['traceEvents']:
        if event['ph'] == 'X':
            assert event['ts'] >= ends[event['tid']] and event['dur'] > 0, event
            ends[event['tid']] = event['ts'] + event['dur']


# ---- the picture

MOST_SLICES = 2000
STYLE = """<style>
text{font:12px sans-serif;fill:#222}
.name{text-anchor:end}
.mark{font-size:10px;text-anchor:middle;fill:#555}
.row{fill:#f4f4f4}
.tick{stroke:#ddd}
.get{fill:#56b4e9}
.put{fill:#0072b2}
.empty{fill:#d9d9d9}
.full{fill:#d55e00}
.grow{fill:#222}
rect.get,rect.put,rect.empty,rect.full{stroke:#fff;stroke-width:.5}
text.get,text.put,text.empty,text.full{font-size:9px;text-anchor:middle;fill:#222}
text.put,text.full{fill:#fff}
</style>
<rect width="100%" height="100%" fill="#fff"/>
"""
LEGEND = """<rect class="get" width="16" height="16"/><text x="22" y="12">get</text>
<rect class="put" x="60" width="16" height="16"/><text x="82" y="12">put</text>
<rect class="empty" x="120" width="16" height="16"/><text x="142" y="12">waits for an item</text>
<rect class="full" x="256" width="16" height="16"/><text x="278" y="12">waits for room</text>
<path class="grow" d="M384 4l5 8h-10z"/><text x="396" y="12">channel grows</text>
</g>
</svg>
"""
# up to this many ticks, how wide one is, and how many are between two numbers of the axis
SCALES = (24, 44, 1), (50, 20, 5), (100, 10, 10), (300, 5, 20)


def span(first, last):
    """These ticks in words."""
    return f'tick {first}' if first == last else f'ticks {first} to {last}'


class TooMany(Exception):
    """The picture would have more slices than it may have."""


class Picture:
    def __init__(self, network, trace, waits, first, last):
        self.network, self.timing = network, Timing(network, trace)
        self.front, self.back = first - 1, min(last, self.timing.length)
        self.ticks = max(self.back - self.front, 0)
        # After the last tick of a run there is room for one more.
        self.edge = self.back + (last > self.timing.length)
        found = [(wide, step) for most, wide, step in SCALES if self.ticks <= most]
        self.wide, self.step = found[0] if found else (2, 50)
        self.left = 24 + 7 * max(map(len, network.instances), default=0)
        self.bottom = 40 + 32 * len(network.instances)
        self.count, self.parts = 0, []
        for event in [*self.slices(trace.history), *self.last_waits(waits)]:
            self.draw(*event)
        if max(self.count, self.ticks) > MOST_SLICES:
            raise TooMany

    def slices(self, history):
        """What is drawn, in the order of the history: kind, process, channel, from when to when, and what it says."""
        latest, numbers = collections.Counter(), iter(range(len(self.timing.places)))
        for event in history:
            if event[0] == 'grow':
                yield 'grow', event[1], event[2], latest[event[1]], latest[event[1]], ''
            elif event[0] in ('get', 'put'):
                k = next(numbers)
                place, tick = self.timing.places[k], self.timing.ticks[k]
                p, c, before = place.process, place.channel, latest[place.process]
                name = self.network.channels[c]
                kind, what = ('empty', 'an item') if event[0] == 'get' else ('full', 'room')
                yield kind, p, c, before, tick - 1, f'waits for {what} on {name}, {span(before + 1, tick - 1)}'
                yield event[0], p, c, tick - 1, tick, f'{event[0]} {name}: item {place.value}, tick {tick}'
                latest[p] = tick

    def last_waits(self, waits):
        """What is drawn of the waits that the history ends with."""
        for p, wait in enumerate(waits):
            if wait:
                kind, c = wait
                begin = max((self.timing.ticks[k] for k in self.timing.of_process[p]), default=0)
                what = 'an item' if kind == 'empty' else 'room'
                title = f'waits for {what} on {self.network.channels[c]} from tick {begin + 1} to the end'
                yield kind, p, c, begin, self.timing.length + 1, title

    def at(self, when):
        return self.left + self.wide * (when - self.front)

    def draw(self, kind, p, c, begin, end, title):
        name, y = self.network.channels[c], 40 + 32 * p
        if kind == 'grow':
            if self.front <= begin <= self.back:
                self.count += 1
                self.parts.append(f'<path class="grow" d="M{self.at(begin)} {y + 1}l5 8h-10z">'
                                  f'<title>{name} grows</title></path>\n')
            return
        begin, end = max(begin, self.front), min(end, self.edge)
        if begin >= end:
            return
        self.count += 1
        x, wide = self.at(begin), self.wide * (end - begin)
        self.parts.append(f'<rect class="{kind}" x="{x}" y="{y + 6}" width="{wide}" height="20">'
                          f'<title>{title}</title></rect>\n')
        if 5 * len(name) + 4 <= wide:
            self.parts.append(f'<text class="{kind}" x="{x + wide // 2}" y="{y + 19}">{name}</text>\n')

    def text(self):
        shown = self.wide * max(self.edge - self.front, 0)
        wide, high = max(self.left + shown + 24, 500), self.bottom + 48
        head = (f'<svg xmlns="http://www.w3.org/2000/svg" width="{wide}" height="{high}" '
                f'viewBox="0 0 {wide} {high}">\n')
        rows = [f'<rect class="row" x="{self.left}" y="{40 + 32 * p + 2}" width="{shown}" height="28"/>\n'
                f'<text class="name" x="{self.left - 8}" y="{40 + 32 * p + 20}">{name}</text>\n'
                for p, name in enumerate(self.network.instances)]
        marks = [f'<path class="tick" d="M{self.at(when)} 36V{self.bottom}"/>\n'
                 f'<text class="mark" x="{self.at(when)}" y="32">{when}</text>\n'
                 for when in range(self.front, self.front + self.ticks + 1) if when % self.step == 0]
        length = self.timing.length
        what = f'{span(self.front + 1, self.back)} of {length}' if length else 'no ticks'
        caption = f'<text x="12" y="16">{what}</text>\n'
        legend = f'<g transform="translate(12,{self.bottom + 20})">\n'
        return head + STYLE + caption + ''.join([*rows, *marks, *self.parts]) + legend + LEGEND


def picture_text(network, trace, waits, first=1, last=10 ** 9):
    """The picture of a history, with the wait of each process at its end, or None."""
    text = Picture(network, trace, waits, first, last).text()
    xml.etree.ElementTree.fromstring(text)
    return text


def picture_answer(network, trace, waits, first=1, last=10 ** 9):
    """The picture, or the line that refuses a larger one."""
    try:
        return picture_text(network, trace, waits, first, last)
    except TooMany:
        return (f'kpn: usage: --from T and --to T, with at most {MOST_SLICES} gets, puts, waits and growths between '
                'them\n')
