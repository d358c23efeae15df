#!/usr/bin/env python3
"""Computes Kahn's n-th iterate of a network description. This is another program than the proved one.

Words: the description's file, n, and NAME=FILE for each source that has items. Like `kpn rounds`, it prints a line for
each channel. The tests' expected values come from here. It trusts its input: it does not check descriptions.
"""
import argparse
import operator
import pathlib
import re
import typing

TOKEN = re.compile(r'\s+|#[^\n]*|([A-Za-z_]\w*|\d\w*|\'(?:[^\\]|\\.)\''
                   r'|<<=|>>=|[-+*/%&|^]=|\.\.|<=|>=|==|!=|&&|\|\||<<|>>|[-(){}\[\];,=+*/%<>!?:~&|^])')
SMALLEST, LARGEST = -2**63, 2**63 - 1
LARGEST_CAPACITY = 1_048_576
# How tightly each operator binds, from the loosest on. Those of one row go from the left.
ROWS = (('||',), ('&&',), ('<', '<=', '>', '>=', '==', '!='), ('|',), ('^',), ('&',), ('<<', '>>'), ('+', '-'),
        ('*', '/', '%'))
TIGHTNESS = {mark: number for number, row in enumerate(ROWS, 1) for mark in row}
# What `x += e;`, `a[i] += e;` and the like compute.
COMPOUND = {f'{mark}=': mark for mark in ('+', '-', '*', '/', '%', '&', '|', '^', '<<', '>>')}
# The operators that are called.
CALLED = frozenset(('min', 'max'))
# The names of the variables that keep the ends of loops, and items on their way into cells, are fronts of these.
ENDS, ITEMS = 'to' + '_' * 30, 'item' + '_' * 28
DIGITS, ESCAPED = frozenset("0123456789'"), {'n': 10, '\\': 92, "'": 39, '0': 0}
COMPARING, SHIFTING, OPERAND = TIGHTNESS['<'], TIGHTNESS['<<'], len(ROWS) + 1


class Fault(Exception):
    """An expression has no value, which ends its process. The text for it is `overflow`, `zero-divisor`, `index` or
    `shift`."""


class Starved(Exception):
    """A read found its list empty."""


class Cut(Exception):
    """A loop has no turns left."""


class Growing(typing.NamedTuple):
    """Which channels grow, by how much, and up to which capacity. Under both policies the smallest full channel of a
    blocked cycle grows. Under `all`, when all stand still, so does the smallest on which a process waits as full."""
    policy: str
    growth: str
    limit: int

    def grown(self, capacity):
        """What a capacity below the limit becomes."""
        return capacity + 1 if self.growth == 'one' else min(2 * capacity, self.limit)


class Program(typing.NamedTuple):
    """A process as it is written. Its arrays have sizes, and tables have values. The shared ones are those of all."""
    parts: dict
    body: list
    arrays: dict
    tables: dict
    shared: dict

    def variables(self, values):
        """All variables at the start. An array or a table is one too, the list of its cells."""
        arrays = {name: [0] * size for name, size in self.arrays.items()}
        return {**self.shared, **self.tables, **arrays, **dict(zip(self.parts['par'], values))}


def without_constants(tokens):
    """The tokens that are left once the constants of a text are declared and replaced."""
    known, own, depth, place = set(), set(), 0, 0
    while place < len(tokens):
        token = tokens[place]
        if token == 'const' and tokens[place - 1] in ';{}' and ';' in tokens[place:]:
            (own if depth else known).add(tokens[place + 1])
            place = tokens.index(';', place)
        elif token not in known | own:
            yield token
        depth += (token == '{') - (token == '}')
        if depth == 0:
            own.clear()
        place += 1


class Parser:
    def __init__(self, text):
        self.tokens = [token for token in TOKEN.findall(text) if token]
        self.place = 0
        self.language, self.shared = 1, {}
        # Those for all that follows, and those of a process or of the network.
        self.constants, self.own, self.depth = {}, {}, 0
        # What channels have that say nothing.
        self.usual = None
        # How long such names are that the text has beside its constants, or that are too short.
        left = set(without_constants(self.tokens))
        self.ends, self.items = (max([least, *(len(it) for it in left if names.startswith(it))])
                                 for names, least in ((ENDS, 1), (ITEMS, 3)))

    def settle(self):
        """Goes past the constants that are declared here, and puts the value of one in place of its name."""
        while self.language == 2 and self.tokens[self.place:self.place + 1] == ['const'] \
                and self.tokens[self.place - 1] in ';{}':
            name = self.tokens[self.place + 1]
            assert self.tokens[self.place + 2] == '=', name
            self.place += 3
            found = value(self.expression(), {})
            self.next(';')
            (self.own if self.depth else self.constants)[name] = found
        for known in (self.constants, self.own):
            if self.place < len(self.tokens) and self.tokens[self.place] in known:
                found = known[self.tokens[self.place]]
                self.tokens[self.place:self.place + 1] = ['-'] * (found < 0) + [str(abs(found))]

    def peek(self):
        self.settle()
        return self.tokens[self.place] if self.place < len(self.tokens) else None

    def next(self, wanted=None):
        token = self.peek()
        assert token is not None and wanted in (None, token), (token, wanted)
        self.place += 1
        self.depth += (token == '{') - (token == '}')
        if self.depth == 0:
            self.own.clear()
        return token

    def took(self, token):
        if self.peek() == token:
            self.next()
            return True
        return False

    def listed(self, part):
        """One part or more, with a comma between two."""
        found = [part()]
        while self.took(','):
            found.append(part())
        return found

    def names(self):
        return [] if self.peek() in (';', ')') else self.listed(self.next)

    def number(self):
        sign = -1 if self.took('-') else 1
        return sign * number(self.next())

    def description(self):
        if self.took('language'):
            self.language = self.number()
            self.next(';')
            while self.took('table'):
                self.table(self.shared)
        processes = {}
        while self.took('process'):
            name = self.next()
            processes[name] = self.process()
        return processes, self.network()

    def process(self):
        parts = {'in': [], 'out': [], 'par': []}
        self.next('(')
        while not self.took(')'):
            part = self.next()
            parts[part] = self.names()
            self.took(';')
        self.next('{')
        arrays, tables = {}, {}
        while self.language == 2 and self.peek() in ('array', 'table'):
            if self.next() == 'table':
                self.table(tables)
            else:
                self.array(arrays)
        return Program(parts, self.statements(), arrays, tables, self.shared)

    def table(self, tables):
        name = self.next()
        self.next('=')
        tables[name] = self.listed(self.number)
        self.next(';')

    def array(self, arrays):
        name = self.next()
        self.next('[')
        arrays[name] = self.number()
        self.next(']')
        self.next(';')

    def block(self):
        self.next('{')
        return self.statements()

    def statements(self):
        """Those of a block, after its brace."""
        found = []
        while not self.took('}'):
            found += self.loop() if self.language == 2 and self.took('for') else self.plain(self.statement())
        return found

    def loop(self):
        """What a `for` stands for, after that word."""
        name = self.next()
        self.next('in')
        first = self.expression()
        self.next('..')
        end = ENDS[:self.ends + self.depth]
        return [('assign', name, first), ('assign', end, self.expression()),
                ('while', ('<', name, end), [*self.block(), ('assign', name, ('+', name, 1))])]

    def plain(self, statement):
        """What a statement stands for, which may be a read into a cell."""
        if statement[0] != 'read' or len(statement) == 3:
            return [statement]
        _, port, array, index = statement
        item = ITEMS[:self.items + 1]
        return [('read', port, item), ('set', array, index, item)]

    def statement(self):
        word = self.next()
        if word == 'if':
            test, first = self.expression(), self.block()
            return word, test, first, self.otherwise()
        if word == 'while':
            return word, self.expression(), self.block()
        if word == 'read':
            found = word, self.next(), self.next(), *([self.index()] if self.took('[') else [])
        elif word == 'write':
            found = word, self.next(), self.expression()
        elif self.took('['):
            index = self.index()
            found = 'set', word, index, self.assigned(('[]', word, index))
        else:
            found = 'assign', word, self.assigned(word)
        self.next(';')
        return found

    def assigned(self, target):
        """What a target gets."""
        if self.peek() in COMPOUND:
            return COMPOUND[self.next()], target, self.expression()
        self.next('=')
        return self.expression()

    def index(self):
        """The number of a cell, after its bracket."""
        found = self.expression()
        self.next(']')
        return found

    def otherwise(self):
        """The block after `else`, if there is one."""
        if not self.took('else'):
            return []
        return [self.statement()] if self.peek() == 'if' else self.block()

    def expression(self, least=1):
        """An expression with no operator looser than this outside parentheses. Its operators go from the left."""
        found, most = self.operand(), OPERAND
        while self.peek() in TIGHTNESS:
            mark, tightness = self.peek(), TIGHTNESS[self.peek()]
            is_loose = tightness == COMPARING and most < SHIFTING
            if is_loose or not least <= tightness <= most:
                break
            self.next()
            found = mark, found, self.expression(sides(mark)[1])
            # Nothing but `&&` and `||` goes on after a comparison.
            most = tightness - (tightness == COMPARING)
        return found

    def operand(self):
        token = self.next()
        if token in ('-', '!', '~'):
            return token, self.operand()
        if token == '(':
            found = self.expression()
            if self.took('?'):
                first = self.expression()
                self.next(':')
                found = '?', found, first, self.expression()
            self.next(')')
            return found
        if token[0] in DIGITS:
            return number(token)
        if self.language == 2 and token in CALLED and self.took('('):
            left = self.expression()
            self.next(',')
            right = self.expression()
            self.next(')')
            return token, left, right
        return ('[]', token, self.index()) if self.took('[') else token

    def network(self):
        self.next('network')
        self.next('{')
        growing, channels, instances = self.growing(), {}, {}
        while not self.took('}'):
            word = self.next()
            if word in ('channel', 'sink', 'source'):
                name = self.next()
                given = number(self.next()) if self.took('cap') else self.usual
                channels[name] = word, None if word == 'source' else given
            else:
                self.next('=')
                instances[word] = self.instance()
            self.next(';')
        return channels, instances, growing

    def growing(self):
        limit = LARGEST_CAPACITY
        self.capacity()
        if self.took('limit'):
            limit = number(self.next())
            self.next(';')
        policy, growth = self.choice('policy', 'cycles', 'all'), self.choice('grow', 'one', 'double')
        self.capacity()
        return Growing(policy, growth, limit)

    def capacity(self):
        """Goes past that of all channels, if it stands here among the settings."""
        if self.took('cap'):
            self.usual = number(self.next())
            self.next(';')

    def choice(self, word, *names):
        """The name after the word, if that is next; else the first of the names."""
        self.capacity()
        if not self.took(word):
            return names[0]
        found = self.next()
        assert found in names, found
        self.next(';')
        return found

    def instance(self):
        program = self.next()
        self.next('(')
        ins = self.names()
        self.next(';')
        outs = self.names()
        values = self.listed(self.number) if self.took(';') else []
        self.next(')')
        return program, ins, outs, values


def number(token):
    """The value of a number: of base 10, of base 16 or 2 after `0x` or `0b`, or a byte in quotes."""
    if token[0] == "'":
        return ESCAPED[token[2]] if token[1] == '\\' else ord(token[1])
    base = {'0x': 16, '0b': 2}.get(token[:2], 10)
    return int(token.replace('_', ''), base)


def sides(mark):
    """How tightly what stands on each side of an operator has to bind."""
    tightness = TIGHTNESS[mark]
    return (SHIFTING, SHIFTING) if tightness == COMPARING else (tightness, tightness + 1)


def exact(value):
    if not SMALLEST <= value <= LARGEST:
        raise Fault('overflow')
    return value


def quotient(a, b):
    if b == 0:
        raise Fault('zero-divisor')
    whole = abs(a) // abs(b)
    return exact(whole if (a < 0) == (b < 0) else -whole)


def shifted(by):
    """A shift by a count from 0 to 63."""
    def give(a, b):
        if not 0 <= b < 64:
            raise Fault('shift')
        return exact(by(a, b))
    return give


MARKS = {
    '+': lambda a, b: exact(a + b),
    '-': lambda a, b: exact(a - b),
    '*': lambda a, b: exact(a * b),
    '/': quotient,
    '%': lambda a, b: a - quotient(a, b) * b,
    '<': lambda a, b: int(a < b),
    '<=': lambda a, b: int(a <= b),
    '>': lambda a, b: int(a > b),
    '>=': lambda a, b: int(a >= b),
    '==': lambda a, b: int(a == b),
    '!=': lambda a, b: int(a != b),
    '&': operator.and_,
    '|': operator.or_,
    '^': operator.xor,
    '<<': shifted(operator.lshift),
    '>>': shifted(operator.rshift),
    'min': min,
    'max': max,
}


def number_of_cell(cells, tree, variables):
    number = value(tree, variables)
    if not 0 <= number < len(cells):
        raise Fault('index')
    return number


def set_cell(variables, name, tree, item):
    """The cell has to be there before its item is evaluated."""
    cells = variables[name]
    number = number_of_cell(cells, tree, variables)
    cells[number] = value(item, variables)


def value(tree, variables):
    if isinstance(tree, int):
        return tree
    if isinstance(tree, str):
        return variables.get(tree, 0)
    mark, *parts = tree
    if mark == '[]':
        cells = variables[parts[0]]
        return cells[number_of_cell(cells, parts[1], variables)]
    left = value(parts[0], variables)
    if mark == '!':
        return int(left == 0)
    if mark == '-' and len(parts) == 1:
        return exact(-left)
    if mark == '~':
        return ~left
    if mark == '?':
        return value(parts[1] if left else parts[2], variables)
    if mark == '&&':
        return int(left != 0 and value(parts[1], variables) != 0)
    if mark == '||':
        return int(left != 0 or value(parts[1], variables) != 0)
    return MARKS[mark](left, value(parts[1], variables))


def run(turns, block, variables, ins, outs):
    for statement in block:
        word = statement[0]
        if word == 'assign':
            variables[statement[1]] = value(statement[2], variables)
        elif word == 'set':
            set_cell(variables, *statement[1:])
        elif word == 'read':
            if not ins[statement[1]]:
                raise Starved
            variables[statement[2]] = ins[statement[1]].pop(0)
        elif word == 'write':
            outs[statement[1]].append(value(statement[2], variables))
        elif word == 'if':
            taken = statement[2] if value(statement[1], variables) else statement[3]
            run(turns, taken, variables, ins, outs)
        else:
            left = turns
            while value(statement[1], variables):
                if left == 0:
                    raise Cut
                left -= 1
                run(turns, statement[2], variables, ins, outs)


def rounds(text, turns, sources):
    processes, (channels, instances, _) = Parser(text).description()
    start = {name: sources.get(name, []) if kind == 'source' else [] for name, (kind, _) in channels.items()}
    now = start
    for _ in range(turns):
        following = dict(start)
        for program, ins, outs, values in instances.values():
            written = processes[program]
            put = {port: [] for port in written.parts['out']}
            try:
                run(turns, written.body, written.variables(values),
                    {port: list(now[channel]) for port, channel in zip(written.parts['in'], ins)}, put)
            except (Fault, Starved, Cut):
                pass
            for port, channel in zip(written.parts['out'], outs):
                following[channel] = put[port]
        now = following
    return now


def main():
    parser = argparse.ArgumentParser(description=__doc__, formatter_class=argparse.RawDescriptionHelpFormatter)
    parser.add_argument('file', type=pathlib.Path)
    parser.add_argument('n', type=int)
    parser.add_argument('given', nargs='*', metavar='NAME=FILE')
    asked = parser.parse_args()
    sources = {}
    for word in asked.given:
        name, _, items = word.partition('=')
        sources[name] = [int(line) for line in pathlib.Path(items).read_text().split()]
    for name, items in rounds(asked.file.read_text(), asked.n, sources).items():
        print(name + ':' + ''.join(f' {item}' for item in items))


if __name__ == '__main__':
    main()
