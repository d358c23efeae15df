"""Networks to measure: their descriptions, and the same as a plain list of words and as a Go program.

The language's parser is that of tools/rounds.py.
"""
import re
import sys

from measure import TOP

sys.dont_write_bytecode = True
sys.path.append(str(TOP / 'tools'))

import rounds  # pylint: disable=wrong-import-position

PROCESSES = '''
process count(out o; par n) { k = 0; while (k < n) { write o k; k = (k + 1); } }
process copy(in i; out o) { while 1 { read i x; write o x; } }
process sum(in i; out o; par n) { k = 0; t = 0; while (k < n) { read i x; t = (t + x); k = (k + 1); } write o t; }
'''


def network(processes, channels, instances):
    return processes + 'network {\n' + ''.join(f'  {line};\n' for line in channels + instances) + '}\n'


def row_of(process, stages, capacity, items):
    """The channels and instances of numbers that go through a row of such processes, and of their sum."""
    channels = [f'channel c{k} cap {capacity}' for k in range(stages + 1)] + ['sink z cap 1']
    ends = [f'count = count(; c0; {items})', f'sum = sum(c{stages}; z; {items})']
    return channels, ends + [f'{process}{k} = {process}(c{k}; c{k + 1})' for k in range(stages)]


def pipeline(copies, capacity, items):
    """Numbers through a row of copies, and their sum."""
    return network(PROCESSES, *row_of('copy', copies, capacity, items))


def fed_pipeline(copies, capacity):
    """The items of the source `a` through a row of copies to a sink."""
    channels = ['source a', *(f'channel c{k} cap {capacity}' for k in range(1, copies)), f'sink z cap {capacity}']
    names = ['a', *(f'c{k}' for k in range(1, copies)), 'z']
    return network(PROCESSES, channels, [f'copy{k} = copy({names[k]}; {names[k + 1]})' for k in range(copies)])


def split_and_join(capacity, items):
    """Numbers dealt out to two copies and merged again, and their sum."""
    processes = PROCESSES + '''
process split(in i; out a, b) { while 1 { read i x; write a x; read i x; write b x; } }
process join(in a, b; out o) { while 1 { read a x; write o x; read b x; write o x; } }
'''
    names = ['all', 'even', 'odd', 'even_copied', 'odd_copied', 'joined']
    instances = [f'count = count(; all; {items})', 'split = split(all; even, odd)', 'first = copy(even; even_copied)',
                 'second = copy(odd; odd_copied)', 'join = join(even_copied, odd_copied; joined)',
                 f'sum = sum(joined; z; {items})']
    return network(processes, [f'channel {name} cap {capacity}' for name in names] + ['sink z cap 1'], instances)


def kahn():
    """Kahn's example, which goes on for ever."""
    return (TOP / 'examples/kahn.kpn').read_text()


def passed(filters, largest):
    """How many numbers from 2 on pass a row of this many filters."""
    primes, left = 0, 0
    least = [0] * (largest + 1)
    for n in range(2, largest + 1):
        if least[n] == 0 and primes < filters:
            primes += 1
            for multiple in range(n, largest + 1, n):
                least[multiple] = least[multiple] or n
        elif least[n] == 0:
            left += 1
    return left


def sieve(filters, capacity, largest):
    """A sieve of primes: each filter keeps its first item, and lets through what that does not divide."""
    processes = PROCESSES.replace('k = 0; while (k < n) { write', 'k = 2; while (k < (n + 1)) { write') + '''
process filter(in i; out o) { read i p; while 1 { read i x; if (x % p) { write o x; } else { } } }
'''
    channels = [f'channel c{k} cap {capacity}' for k in range(filters + 1)] + ['sink z cap 1']
    row = [f'filter{k} = filter(c{k}; c{k + 1})' for k in range(filters)]
    ends = [f'count = count(; c0; {largest})', f'sum = sum(c{filters}; z; {passed(filters, largest)})']
    return network(processes, channels, ends + row)


def computing(processes, turns):
    """Processes that compute by themselves and write one item each."""
    text = '''
process compute(out o; par x, n) { k = 0; while (k < n) { x = ((x * 16807) % 2147483647); k = (k + 1); } write o x; }
'''
    instances = [f'compute{k} = compute(; z{k}; {k + 1}, {turns})' for k in range(processes)]
    return network(text, [f'sink z{k} cap 1' for k in range(processes)], instances)


def computing_pipeline(stages, capacity, items, turns):
    """Numbers through a row of stages, each of which goes `turns` turns of a loop for each item, and their sum. A turn
    takes three steps, and eight numbers of a random sequence."""
    item = 'x'
    for _ in range(8):
        item = f'(({item} * 16807) % 2147483647)'
    processes = PROCESSES + f'''
process stage(in i; out o) {{
  while 1 {{ read i x; k = 0; while (k < {turns}) {{ x = {item}; k = (k + 1); }} write o x; }}
}}
'''
    return network(processes, *row_of('stage', stages, capacity, items))


def writing_pipeline(stages, capacity, items, operators):
    """Numbers through a row of stages, each of which writes the value of one long expression for each item, and their
    sum."""
    processes = PROCESSES + f'''
process stage(in i; out o) {{ while 1 {{ read i x; write o ({total('x', operators)} % 2147483647); }} }}
'''
    return network(processes, *row_of('stage', stages, capacity, items))


def of_gallery(name, capacity, items):
    """A network of the gallery, whose sources are processes that count and whose sinks are sums: so no text is read or
    written."""
    text = re.sub(r'#.*', '', (TOP / f'examples/gallery/{name}.kpn').read_text())
    sources, sinks = (re.findall(rf'^  {kind} (\w+)', text, re.M) for kind in ('source', 'sink'))
    text = re.sub(r'^  (source|sink) (\w+).*;', r'  channel \2;', text, flags=re.M)
    text = re.sub(r'^  channel (\w+).*;', rf'  channel \1 cap {capacity};', text, flags=re.M)
    ends = [*(f'sink total_{name} cap 1' for name in sinks),
            *(f'count_{name} = count(; {name}; {items})' for name in sources),
            *(f'sum_{name} = sum({name}; total_{name}; {items})' for name in sinks)]
    return PROCESSES + text.rstrip().removesuffix('}') + ''.join(f'  {line};\n' for line in ends) + '}\n'


def total(variable, operators):
    """A sum by this many operators, of as few levels as there can be."""
    if operators == 0:
        return variable
    left = (operators - 1) // 2
    return f'({total(variable, left)} + {total(variable, operators - 1 - left)})'


# ---- as a list of words

class Words:
    """A process as words: its blocks by number, in the order in which they open."""

    def __init__(self, parts, body):
        self.ins, self.outs = parts['in'], parts['out']
        self.variables, self.blocks = list(parts['par']), []
        self.block(body)

    def variable(self, name):
        if name not in self.variables:
            self.variables.append(name)
        return str(self.variables.index(name))

    def expression(self, tree):
        if isinstance(tree, int):
            return f'number {tree}'
        if isinstance(tree, str):
            return f'variable {self.variable(tree)}'
        mark, *parts = tree
        word = {'-': 'neg', '!': 'not'}[mark] if len(parts) == 1 else mark
        return ' '.join([word, *map(self.expression, parts)])

    def block(self, statements):
        number = len(self.blocks)
        self.blocks.append(None)
        self.blocks[number] = ' '.join([str(len(statements)), *map(self.statement, statements)])
        return str(number)

    def statement(self, statement):
        word, *rest = statement
        if word == 'assign':
            return f'{word} {self.variable(rest[0])} {self.expression(rest[1])}'
        if word == 'read':
            return f'{word} {self.ins.index(rest[0])} {self.variable(rest[1])}'
        if word == 'write':
            return f'{word} {self.outs.index(rest[0])} {self.expression(rest[1])}'
        return ' '.join([word, self.expression(rest[0]), *map(self.block, rest[1:])])

    def text(self):
        return ' '.join([str(len(self.variables)), str(len(self.blocks)), *self.blocks])


def as_words(text):
    """What the plain program reads: policy, growth and limit, the processes, the channels and the instances."""
    processes, (channels, instances, growing) = rounds.Parser(text).description()
    numbers = {name: str(number) for number, name in enumerate(channels)}
    lines = [' '.join(map(str, growing)), str(len(processes))]
    lines += [Words(process.parts, process.body).text() for process in processes.values()]
    lines.append(str(len(channels)))
    lines += [f'{name} {kind} {capacity}' for name, (kind, capacity) in channels.items()]
    lines.append(str(len(instances)))
    for name, (program, ins, outs, values) in instances.items():
        line = [name, list(processes).index(program)]
        for part in ([numbers[c] for c in ins], [numbers[c] for c in outs], values):
            line += [len(part), *part]
        lines.append(' '.join(map(str, line)))
    return ''.join(f'{line}\n' for line in lines)


# ---- as a Go program

COMPARED = ('<', '<=', '>', '>=', '==', '!=')


def go_number(tree):
    if isinstance(tree, int):
        return str(tree)
    if isinstance(tree, str):
        return f'v_{tree}'
    mark, *parts = tree
    if mark in COMPARED or mark in ('&&', '||', '!'):
        return f'number({go_test(tree)})'
    if len(parts) == 1:
        return f'(-{go_number(parts[0])})'
    return f'({go_number(parts[0])} {mark} {go_number(parts[1])})'


def go_test(tree):
    if isinstance(tree, tuple):
        mark, *parts = tree
        if mark == '!':
            return f'!({go_test(parts[0])})'
        if mark in COMPARED:
            return f'({go_number(parts[0])} {mark} {go_number(parts[1])})'
        if mark in ('&&', '||'):
            return f'({go_test(parts[0])} {mark} {go_test(parts[1])})'
    return f'({go_number(tree)} != 0)'


def go_block(statements, indent):
    lines = []
    for word, *rest in statements:
        if word == 'assign':
            lines.append(f'{indent}v_{rest[0]} = {go_number(rest[1])}')
        elif word == 'read':
            lines.append(f'{indent}v_{rest[1]} = <-c_{rest[0]}')
        elif word == 'write':
            lines.append(f'{indent}c_{rest[0]} <- {go_number(rest[1])}')
        else:
            head = 'for' if word == 'while' else 'if'
            if word == 'if' or rest[0] != 1:
                head += f' {go_test(rest[0])}'
            lines += [f'{indent}{head} {{', *go_block(rest[1], indent + '\t')]
            if word == 'if':
                lines += [f'{indent}}} else {{', *go_block(rest[2], indent + '\t')]
            lines.append(indent + '}')
    return lines


def go_process(name, parts, body):
    ends = [f'c_{port} chan int64' for port in parts['in'] + parts['out']]
    given = ', '.join(ends + [f'v_{variable} int64' for variable in parts['par']])
    variables = sorted({f'v_{name}' for name in targets(body)} - {f'v_{name}' for name in parts['par']})
    lines = [f'func p_{name}({given}) {{']
    lines += [f'\tvar {variable} int64\n\t_ = {variable}' for variable in variables]
    return [*lines, *go_block(body, '\t'), '}']


def targets(statements):
    """The variables that are set."""
    for word, *rest in statements:
        if word in ('assign', 'read'):
            yield rest[0] if word == 'assign' else rest[1]
        elif word in ('if', 'while'):
            for block in rest[1:]:
                yield from targets(block)


def as_go(text, wanted):
    """A Go program of the same meaning, without journals and a history: it reads this many items of each sink, or one,
    and writes the sinks' lines."""
    processes, (channels, instances, _) = rounds.Parser(text).description()
    lines = ['package main', 'import ("bufio"; "fmt"; "os")',
             'func number(test bool) int64 { if test { return 1 }; return 0 }', 'var _ = number']
    for name, process in processes.items():
        lines += go_process(name, process.parts, process.body)
    lines.append('func main() {')
    lines += [f'\tc_{name} := make(chan int64, {capacity})' for name, (_, capacity) in channels.items()]
    for program, ins, outs, values in instances.values():
        given = [f'c_{c}' for c in ins + outs] + [str(value) for value in values]
        lines.append(f'\tgo p_{program}({", ".join(given)})')
    lines.append('\tout := bufio.NewWriter(os.Stdout)\n\tdefer out.Flush()')
    for name in (name for name, (kind, _) in channels.items() if kind == 'sink'):
        lines.append(f'\tfmt.Fprint(out, "sink {name}:")')
        lines.append(f'\tfor k := 0; k < {wanted or 1}; k++ {{ fmt.Fprint(out, " ", <-c_{name}) }}')
        lines.append('\tfmt.Fprintln(out)')
    return ''.join(f'{line}\n' for line in [*lines, '}'])
