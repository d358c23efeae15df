"""Random networks of the language, with items for their sources."""

# what comes before the statements of each process, so that each variable is set when it is read
HEAD = 'x = 1; y = 2; k = 0; '
VARIABLES = ('x', 'y')
OPERATORS = ('+', '-', '*', '%', '<', '==')


def expression(random, depth=2):
    if depth == 0 or random.random() < 0.4:
        return random.choice([*VARIABLES, 'k', str(random.randrange(5))])
    left, right = expression(random, depth - 1), expression(random, depth - 1)
    return f'({left} {random.choice(OPERATORS)} {right})'


def statement(random, ins, outs, depth):
    """One that reads or writes more often than not, if there is a port for it."""
    kinds = ['set'] + ['read'] * 3 * bool(ins) + ['write'] * 3 * bool(outs) + ['if', 'while'] * bool(depth)
    kind = random.choice(kinds)
    if kind == 'read':
        return f'read {random.choice(ins)} {random.choice(VARIABLES)};'
    if kind == 'write':
        return f'write {random.choice(outs)} {expression(random)};'
    if kind == 'if':
        return f'if {expression(random)} {{ {block(random, ins, outs, depth - 1)} }} ' \
               f'else {{ {block(random, ins, outs, depth - 1)} }}'
    if kind == 'while':
        return f'k = 0; while (k < {random.randrange(1, 6)}) {{ k = (k + 1); {block(random, ins, outs, 0)} }}'
    return f'{random.choice(VARIABLES)} = {expression(random)};'


def block(random, ins, outs, depth):
    return ' '.join(statement(random, ins, outs, depth) for _ in range(random.randint(1, 4)))


def straight(random, ins, outs):
    """Only reads and writes, one after the other."""
    places = [*(f'read {port} x;' for port in ins), *(f'write {port} y;' for port in outs * 2)]
    return ' '.join(random.choice(places) for _ in range(random.randint(1, 20)) if places)


def process(random, name, ins, outs, is_straight):
    ports = '; '.join([*(['in ' + ', '.join(ins)] if ins else []), *(['out ' + ', '.join(outs)] if outs else [])])
    body = straight(random, ins, outs) if is_straight else block(random, ins, outs, 2)
    if not is_straight and random.random() < 0.7:
        body = f'while 1 {{ {body} }}'
    return f'process {name}({ports}) {{ {HEAD}{body} }}\n'


def network(random):
    """The text of a network, and a list of items for each of its sources by name. In every third one each process only
    reads and writes for a while, so that many stand still while somebody waits for room."""
    is_straight = random.random() < 0.33
    processes = random.randint(1, 6)
    ins, outs = [[] for _ in range(processes)], [[] for _ in range(processes)]
    lines, items = [], {}
    for number in range(random.randint(processes - 1, 2 * processes)):
        lines.append(f'channel c{number} cap {random.randint(1, 3)};')
        random.choice(outs).append(f'c{number}')
        random.choice(ins).append(f'c{number}')
    for number in range(random.randint(0, 2)):
        lines.append(f'source s{number};')
        random.choice(ins).append(f's{number}')
        items[f's{number}'] = [random.randrange(-9, 10) for _ in range(random.randrange(30))]
    for number in range(random.randint(1, 3)):
        lines.append(f'sink z{number} cap {random.randint(1, 3)};')
        random.choice(outs).append(f'z{number}')
    for setting, share in (('grow double;', 0.3), ('policy all;', 0.5), (f'limit {random.randint(3, 5)};', 0.2)):
        if random.random() < share:
            lines.insert(0, setting)
    texts = []
    for p in range(processes):
        of_in, of_out = [f'i{k}' for k in range(len(ins[p]))], [f'o{k}' for k in range(len(outs[p]))]
        texts.append(process(random, f'p{p}', of_in, of_out, is_straight))
        lines.append(f'a{p} = p{p}({", ".join(ins[p])}; {", ".join(outs[p])});')
    return ''.join(texts) + 'network {\n  ' + '\n  '.join(lines) + '\n}\n', items
