"""Random networks for compiled programs: of all statements and operators, and of signal processes that fuse, with and
without a fault in one statement of a period."""
import pathlib
import runpy

import random_cells

# By its path, since the tests of the Python package have a module of this name too.
mixed_network = runpy.run_path(str(pathlib.Path(__file__).with_name('random_networks.py')))['network']
MARKS = ('+', '-', '*', '/', '%', '<', '<=', '>', '>=', '==', '!=', '&&', '||')
NUMBERS = ('0', '1', '2', '3', '7', '1000', '4294967296', '9223372036854775807', '(-9223372036854775807 - 1)', '-1')


def expression(random, known, depth=3):
    """An expression over known names, mostly without a fault."""
    kind = random.random()
    if depth == 0 or kind < 0.3:
        return random.choice(known) if random.random() < 0.7 else random.choice(NUMBERS[:6])
    if kind < 0.34:
        return random.choice(NUMBERS)
    if kind < 0.4:
        return random.choice('-!') + expression(random, known, depth - 1)
    mark = random.choice(MARKS)
    if mark in '/%' and random.random() < 0.8:
        return f'({expression(random, known, depth - 1)} {mark} {random.choice(("2", "3", "-1", "7", "1000"))})'
    return f'({expression(random, known, depth - 1)} {mark} {expression(random, known, depth - 1)})'


class Writer:
    """Writes the statements of a process."""

    def __init__(self, random, ins, outs, pars):
        self.random, self.ins, self.outs = random, ins, outs
        self.known = ['x', 'y', 'k', *pars]

    def expression(self, depth=3):
        return expression(self.random, self.known, depth)

    def loop(self, depth):
        """A loop: counted, long without a talk, over a condition of its own, or without end."""
        kind = self.random.random()
        if kind < 0.5:
            return f'k = 0; while (k < {self.random.randrange(1, 6)}) {{ k = (k + 1); {self.block(depth)} }}'
        if kind < 0.7:
            return f'k = 0; while (k < {self.random.choice((330, 333, 334, 500, 3000, 20000))}) {{ k = (k + 1); }}'
        if kind < 0.95:
            return f'y = {self.random.randrange(9)}; while (y > 0) {{ y = (y - 1); {self.block(depth)} y = (y % 9); }}'
        return f'while 1 {{ {self.block(depth)} }}'

    def statement(self, depth):
        talks = ['read'] * 3 * bool(self.ins) + ['write'] * 3 * bool(self.outs)
        kind = self.random.choice(['set', *talks, *['if', 'while'] * bool(depth)])
        if kind == 'read':
            return f'read {self.random.choice(self.ins)} {self.random.choice("xy")};'
        if kind == 'write':
            return f'write {self.random.choice(self.outs)} {self.expression()};'
        if kind == 'if':
            return f'if {self.expression()} {{ {self.block(depth - 1)} }} else {{ {self.block(depth - 1)} }}'
        if kind == 'while':
            return self.loop(depth - 1)
        return f'{self.random.choice(self.known)} = {self.expression()};'

    def block(self, depth):
        return ' '.join(self.statement(depth) for _ in range(self.random.randint(0, 4)))

    def body(self):
        body = self.block(2)
        if self.random.random() < 0.75:
            body = f'{self.block(1)} while 1 {{ {body} }} {self.block(1) if self.random.random() < 0.1 else ""}'
        return f'x = 1; y = 2; k = 0; {body}'


def settings(random):
    return [line for line, share in ((f'limit {random.randint(70, 90)};', 0.3), ('policy all;', 0.5),
                                     ('grow double;', 0.4)) if random.random() < share]


def process(name, ins, outs, pars, body):
    parts = [f'{word} {", ".join(ports)}' for word, ports in (('in', ins), ('out', outs), ('par', pars)) if ports]
    return f'process {name}({"; ".join(parts)}) {{ {body} }}\n'


def instance(name, of, ins, outs, values):
    given = f'; {", ".join(map(str, values))}' if values else ''
    return f'{name} = {of}({", ".join(ins)}; {", ".join(outs)}{given});'


def items(random, most=300):
    """Items of a source: small ones, or now and then of any size."""
    large = random.random() < 0.2
    return [random.randrange(-2**63, 2**63) if large and random.random() < 0.1 else random.randrange(-99, 100)
            for _ in range(random.choice((0, 1, 7, random.randrange(most))))]


def wild(random):
    """A network of all statements, in which processes may spin, flood, quit, fault, and talk to themselves."""
    count = random.randint(1, 6)
    ins, outs, lines, lists, text = [[] for _ in range(count)], [[] for _ in range(count)], settings(random), {}, ''
    for number in range(random.randint(count - 1, 2 * count)):
        lines.append(f'channel c{number} cap {random.choice((1, 1, 2, 3, 4, 17, 64))};')
        random.choice(outs).append(f'c{number}')
        random.choice(ins).append(f'c{number}')
    for number in range(random.randint(0, 2)):
        lines.append(f'source s{number};')
        random.choice(ins).append(f's{number}')
        lists[f's{number}'] = items(random)
    for number in range(random.randint(0, 3)):
        lines.append(f'sink z{number} cap {random.choice((1, 1, 5))};')
        random.choice(outs).append(f'z{number}')
    for p in range(count):
        ports = [f'i{k}' for k in range(len(ins[p]))], [f'o{k}' for k in range(len(outs[p]))]
        pars = [f'p{k}' for k in range(random.randrange(3))]
        text += process(f'f{p}', *ports, pars, Writer(random, *ports, pars).body())
        lines.append(instance(f'a{p}', f'f{p}', ins[p], outs[p], [random.randrange(-9, 9) for _ in pars]))
    return f'{text}network {{ {" ".join(lines)} }}\n', lists


class Signal:
    """A network of signal processes: each period reads and writes this many items at each port. Streams flow from
    sources through forks, joins and changes of rate into sinks; feedback begins with items."""

    def __init__(self, random):
        self.random, self.lines, self.text, self.count = random, settings(random), '', 0
        self.lists, self.channels = {}, 0

    def channel(self, kind='channel'):
        self.channels += 1
        name = f'{kind[0]}{self.channels}'
        cap = '' if kind == 'source' else f' cap {self.random.choice((1, 2, 3, 4, 8, 16, 64))}'
        self.lines.append(f'{kind} {name}{cap};')
        return name

    def add(self, ins, outs, rates, first=()):
        """A process whose period has this many talks at each port, in any order."""
        random, self.count = self.random, self.count + 1
        of_in, of_out = [f'i{k}' for k in range(len(ins))], [f'o{k}' for k in range(len(outs))]
        talks = [port for port, rate in zip([*of_in, *of_out], rates) for _ in range(rate)]
        random.shuffle(talks)
        begun = ['x = 0;', 'y = 0;', 'k = 0;', 'state = 0;', *(f'write {of_out[0]} {it};' for it in first)]
        lap = [statement for port in talks for statement in self.statements(port, port in of_in)]
        lap.append(f'state = ((state + x) % {random.choice((5, 1000, 1000003))});')
        body = f'{" ".join(begun)} {self.loop(lap)}'
        name = f'f{self.count}'
        self.text += process(name, of_in, of_out, ['h'], body)
        self.lines.append(instance(f'a{self.count}', name, ins, outs, [random.randrange(-3, 4)]))

    def loop(self, lap):
        """The loop of a process, of the statements of a lap."""
        return f'while 1 {{ {" ".join(lap)} }}'

    def statements(self, port, is_read):
        """A talk, and what comes before it in a lap."""
        random = self.random
        if random.random() < 0.1:
            yield from random.choice((['k = (k % 9);'], []))
            yield 'while (k > 0) { k = ((k - 1) % 99); y = (y + k); }'
        if random.random() < 0.1:
            yield 'if (x > 0) { state = (state + 1); } else { while (x < 0) { x = (x + 9); } y = x; }'
        if random.random() < 0.4:
            yield f'{random.choice(("state", "k", "y"))} = {self.value()};'
        yield f'read {port} x;' if is_read else f'write {port} {self.value()};'

    def value(self):
        """An expression that faults seldom: at one value of an item."""
        random, known = self.random, ('x', 'y', 'k', 'state', 'h')
        kind = random.random()
        if kind < 0.03:
            return f'(1000 / (x - {random.randrange(-99, 100)}))'
        if kind < 0.06:
            return f'(x * {random.choice(("9223372036854775807", "100000000000000000"))})'
        if kind < 0.5:
            return random.choice(known)
        return f'({random.choice(known)} {random.choice("+-")} (x * h))'

    def network(self):
        random = self.random
        streams, rates_of = [], (1,) if random.random() < 0.6 else (1, 1, 2, 3)
        for _ in range(random.randint(1, 2)):
            source = self.channel('source')
            self.lists[source] = items(random, 600)
            streams.append(source)
        for _ in range(random.randint(1, 7)):
            count = min(len(streams), random.randint(1, 2))
            ins = [streams.pop(random.randrange(len(streams))) for _ in range(count)]
            outs = [self.channel() for _ in range(random.randint(1, 2))]
            rate = random.choice(rates_of)
            rates = [rate] * len(ins) + [random.choice((rate, *rates_of))] * len(outs)
            first = ['7'] * random.choice((0, 0, 0, 1, 2))
            if random.random() < 0.25:
                back, forth = self.channel(), self.channel()
                self.add([*ins, back], [*outs, forth], [*rates[:len(ins)], 1, *rates[len(ins):], 1], first)
                self.add([forth], [back], [1, 1], ['0'] * random.randint(1, 2))
            else:
                self.add(ins, outs, rates, first)
            streams += outs
        for stream in streams:
            self.add([stream], [self.channel('sink')], [1, random.choice(rates_of)])
        return f'{self.text}network {{ {" ".join(self.lines)} }}\n', self.lists


# The turns of a loop that use up the fuel of a turn, or nearly, or more.
TURNS = (16382, 16383, 16384, 16385, 16386, 32768)


class Faulty(Signal):
    """Signal processes of which every third has a fault, or a loop at the limits of fuel, somewhere in one lap: in an
    assignment, a test, a branch or a write."""

    def loop(self, lap):
        random = self.random
        if random.random() < 0.65:
            return super().loop(lap)
        number, place = random.randrange(1, 120), random.randrange(len(lap))
        bad = random.choice((f'(1 / (n - {number}))', f'(y % (n - {number}))',
                             f'((n == {number}) * (9223372036854775807 + (n == {number})))'))
        turns = random.choice(TURNS)
        statements = [f'y = {bad};', f'if {bad} {{ y = 1; }} else {{ y = 2; }}', f'while (0 * {bad}) {{ y = 3; }}',
                      f'if (n == {number}) {{ y = {bad}; }} else {{ y = 4; }}',
                      f'if (n == {number}) {{ k = {turns}; while (k > 0) {{ k = (k - 1); }} }} else {{ }}']
        if lap[place].startswith('write'):
            word, port, value = lap[place].rstrip(';').split(' ', 2)
            lap[place] = f'{word} {port} ({value} + {bad});'
        else:
            lap.insert(place, random.choice(statements))
        return f'n = 0; {super().loop(["n = (n + 1);", *lap])}'


class Small(Signal):
    """Signal processes of which mostly no value depends on itself: delays, and sums, products and quotients by numbers.
    Most items have 16 bits, and most channels room for many."""

    def channel(self, kind='channel'):
        name = super().channel(kind)
        if kind != 'source' and self.random.random() < 0.8:
            self.lines[-1] = f'{kind} {name} cap {self.random.choice((32, 64))};'
        return name

    def statements(self, port, is_read):
        random = self.random
        if is_read:
            yield from random.choice((['k = y;', 'y = x;'], ['k = y;', 'y = x;'], [f'k = {self.value()};', 'y = x;']))
            yield f'read {port} x;'
        else:
            yield f'write {port} {self.value()};'

    def loop(self, lap):
        """Without the state that each lap of a signal process changes, or with one that is no sum."""
        last = self.random.choice(([], [], [], ['state = x;'], ['state = 5;'], ['state = (y - x);'], lap[-1:]))
        return f'while 1 {{ {" ".join([*lap[:-1], *last])} }}'

    def value(self):
        """An expression whose values become large seldom."""
        random = self.random
        known = ('x', 'y', 'y', 'k', 'k', 'state', 'h')
        left, right = random.choice(known), random.choice((*known, '0', '3', '300'))
        kind = random.random()
        if kind < 0.5:
            return random.choice((left, f'({left} {random.choice("+-")} {right})'))
        if kind < 0.7:
            return f'({left} {random.choice("/%")} {random.choice((1, 2, 7, 1000, 32768, 99999))})'
        if kind < 0.8:
            return f'(({left} * {right}) / {random.choice((1, 32768, 99999))})'
        compared = f'({left} {random.choice(MARKS[5:11])} {right})'
        return random.choice((compared, f'-({left} + {right})', f'!({left} % 7)'))

    def network(self):
        random = self.random
        text, lists = super().network()
        for name in lists:
            lists[name] = [random.randrange(-99, 100) for _ in range(random.randrange(600))]
            for _ in range(random.choice((0, 0, 0, 1, 3)) if lists[name] else 0):
                place = random.randrange(len(lists[name]))
                lists[name][place] = random.choice((-2**15, 2**15 - 1, 2**15, -2**15 - 1, 2**31, 2**62, -2**63))
        return text, lists


class Cells:
    """Processes of language 2 with arrays and tables."""

    def __init__(self, random):
        self.random = random

    def network(self):
        return random_cells.network(self.random)


KINDS = {'faults': Faulty, 'small': Small, 'cells': Cells}


def network(random, kind=''):
    """The text of a network, and a list of items for each of its sources by name."""
    if kind:
        return KINDS[kind](random).network()
    kind = random.random()
    if kind < 0.25:
        return mixed_network(random)
    return wild(random) if kind < 0.55 else Signal(random).network()
