"""Random networks of language 2 whose processes have arrays and tables, constants and shorter forms. Most indices are
right."""
OPERATORS = ('+', '-', '*', '/', '%', '&', '|', '^', '<<', '>>', '<', '<=', '==', '&&', '||')
CALLED = ('min', 'max')
COMPOUND = ('+=', '-=', '*=', '/=', '%=', '&=', '|=', '^=', '<<=', '>>=')
TABLE = 'table t = 3, LESS, 4, -1, 5;\n'
SIZES = {'a': 4, 'b': 3, 't': 5, 'u': 2}
# What a constant may be given as, in front of the processes, and in one of them.
SHARED = (('SIZE', ('4', '0x4', '2 << 1', "'D' - '@'", '-(-4)')), ('LESS', ('-1', '3 - SIZE', '~0', '-(SIZE / 3)')))
OWN = (('FEW', ('3', 'SIZE + LESS', '(SIZE > 3 ? 3 : 1 / 0)')), ('LOW', ('-7', 'LESS - 2 * FEW', '-FEW - SIZE')))


def constants(chance, choices):
    """Constants, each perhaps by those before."""
    return ' '.join(f'const {name} = {chance.choice(values)};' for name, values in choices)


def index(chance, name, known, depth):
    """The number of a cell: mostly one that is there."""
    size = SIZES[name]
    if chance.random() < 0.03:
        return chance.choice((str(size), '-1', expression(chance, known, 't', depth - 1)))
    if chance.random() < 0.4:
        return str(chance.randrange(size))
    return f'(({expression(chance, known, "t", 0)} % {size} + {size}) % {size})'


def expression(chance, known, cells, depth=3):
    """An expression over variables and cells, fully in parentheses."""
    kind = chance.random()
    if depth <= 0 or kind < 0.2:
        return chance.choice(known) if chance.random() < 0.7 else str(chance.choice((0, 1, 2, 3, 7, 40, 'SIZE', 'LOW')))
    if kind < 0.5:
        name = chance.choice(cells)
        return f'{name}[{index(chance, name, known, depth)}]'
    parts = [expression(chance, known, cells, depth - 1) for _ in range(3)]
    if kind < 0.58:
        return chance.choice('-!~') + f'({parts[0]})'
    if kind < 0.66:
        return f'({parts[0]} ? {parts[1]} : {parts[2]})'
    mark = chance.choice(OPERATORS + CALLED)
    if mark in CALLED:
        return f'{mark}({parts[0]}, {parts[1]})'
    if mark in ('/', '%', '<<', '>>') and chance.random() < 0.9:
        parts[1] = str(chance.choice((1, 2, 3)))
    return f'(({parts[0]}) {mark} ({parts[1]}))'


def statements(chance, cells, arrays):
    """What a process does between its read and its write."""
    known, found = ['x', 'y', 'k', 'max'], ['y = y & 1023;', 'max = x + 1;']
    for _ in range(chance.randrange(1, 5)):
        value = expression(chance, known, cells)
        if arrays and chance.random() < 0.6:
            name = chance.choice(arrays)
            cell = f'{name}[{index(chance, name, known, 2)}]'
            found.append(f'{cell} {chance.choice(COMPOUND[:-2])} {value}; {cell} &= 65535;' if chance.random() < 0.3
                         else f'{cell} = ({value}) & 65535;')
        elif chance.random() < 0.3:
            found.append(f'if {value} {{ y = {expression(chance, known, cells)}; }} else if x {{ y = 5; }}')
        elif chance.random() < 0.5:
            found.append(f'y {chance.choice(COMPOUND[:-2])} {value}; y %= 1000;')
        else:
            found.append(f'y = ({value}) % 1000;')
    if chance.random() < 0.2:
        found.append(f'y {chance.choice(COMPOUND[-2:])} {chance.choice(("1", "FEW", "x & 3"))}; y %= 1000;')
    if chance.random() < 0.5:
        found.append(loop(chance, f'{chance.choice(cells)}[k]'))
    return found


def loop(chance, cell):
    """A loop over the first two cells, and perhaps one around it."""
    first, end = chance.choice(('0', 'LESS + 1', 'SIZE - FEW - 1')), chance.choice(('2', 'FEW - 1', 'SIZE / 2'))
    body = chance.choice((f'y += {cell};', f'const THIS = FEW; y -= {cell} * THIS;', f'if x {{ y ^= {cell}; }}'))
    inner = counted(chance, 'k', first, end, body)
    return counted(chance, 'j', first, 'FEW', inner) if chance.random() < 0.3 else inner


def counted(chance, variable, first, end, body):
    """A loop over a range, in one of two ways to write it."""
    if chance.random() < 0.5:
        return f'for {variable} in {first}..{end} {{ {body} }}'
    return f'{variable} = {first}; while {variable} < {end} {{ {body} {variable} += 1; }}'


def read(chance, arrays):
    """Gets an item, perhaps by way of a cell."""
    if not arrays or chance.random() < 0.6:
        return 'read i x;'
    name = chance.choice(arrays)
    cell = f'{name}[{index(chance, name, ["x", "y", "k"], 1)}]'
    return f'read i {cell}; x = {cell}; {cell} &= 65535;'


def process(chance, name, has_arrays):
    """A process, which reads and writes in turn."""
    arrays = 'ab' if has_arrays else ''
    cells = 'tu' + arrays
    sizes = {**SIZES, **chance.choice(({}, {'a': 'SIZE', 'b': 'FEW'}))}
    declared = ['table u = LOW, 8;', *(f'array {it}[{sizes[it]}];' for it in arrays)]
    chance.shuffle(declared)
    body = ' '.join(statements(chance, cells, arrays))
    return f'process {name}(in i; out o) {{ {constants(chance, OWN)} {" ".join(declared)} y = 0; k = 0; ' \
           f'while 1 {{ {read(chance, arrays)} {body} write o y; }} }}\n'


def network(chance):
    """A row of processes, some of them without arrays, and items for its source `s`."""
    count = chance.randrange(1, 5)
    text = f'language 2;\n{constants(chance, SHARED)}\n{TABLE}'
    text += ''.join(process(chance, f'p{n}', chance.random() < 0.5) for n in range(count))
    ends = ['s', *(f'c{n}' for n in range(1, count)), 'z']
    channels = ' '.join(f'channel {it}{chance.choice(("", " cap SIZE", " cap 1"))};' for it in ends[1:-1])
    rows = ' '.join(f'i{n} = p{n}({ends[n]}; {ends[n + 1]});' for n in range(count))
    items = [chance.randrange(-9, 100) for _ in range(chance.choice((3, 40, 200)))]
    usual = chance.choice(('cap 1;', 'cap SIZE; grow double;', 'limit 9; const ROOM = SIZE / 2; cap ROOM; policy all;'))
    return f'{text}network {{ {usual} source s; {channels} sink z cap 2; {rows} }}\n', {'s': items}
