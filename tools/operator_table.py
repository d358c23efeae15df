#!/usr/bin/env python3
"""Writes the stored table of crates/check_language: each operator on pairs at the ends of the range, with the right
answer, shifts by counts at the ends of theirs, and indices of cells. It computes with whole numbers that have no bound.

It also writes the lines of crates/check_examples below the heading `# Operators in processes`: the same operators in
assignments, with a variable or a number on each side, and the comparisons as tests. Each pair without a value has a
process of its own. Those of bits are not among them."""
import argparse
import pathlib

LEAST, MOST = -2**63, 2**63 - 1
OPERANDS = [LEAST, LEAST + 1, -3037000500, -7, -2, -1, 0, 1, 2, 7, 3037000499, MOST - 1, MOST]
FEWER = [LEAST, -1, 0, 3, MOST]
PATTERNS = [0x5555555555555555, -0x5555555555555556, 0x00ff00ff00ff00ff, -0x100000000]
POWERS = [sign * 2**k + more for k in (1, 30, 31, 32, 61, 62) for sign in (-1, 1) for more in (-1, 0, 1)]
COUNTS = [LEAST, -64, -1, 0, 1, 2, 31, 32, 33, 61, 62, 63, 64, 65, 2**32, MOST]
FAULTS = ['overflow', 'zero-divisor']
CRATES = pathlib.Path(__file__).resolve().parent.parent / 'crates'
HEADING, NEXT = '# Operators in processes\n', '\n# '


def quotient(a, b):
    """Truncated towards zero."""
    size = abs(a) // abs(b)
    return size if (a < 0) == (b < 0) else -size


def in_range(value):
    return str(value) if LEAST <= value <= MOST else 'overflow'


def divided(a, b, give):
    if b == 0:
        return 'zero-divisor'
    return 'overflow' if in_range(quotient(a, b)) == 'overflow' else str(give(a, b))


OPERATORS = {
    '+': lambda a, b: in_range(a + b),
    '-': lambda a, b: in_range(a - b),
    '*': lambda a, b: in_range(a * b),
    '/': lambda a, b: divided(a, b, quotient),
    '%': lambda a, b: divided(a, b, lambda a, b: a - b * quotient(a, b)),
    '<': lambda a, b: str(int(a < b)),
    '<=': lambda a, b: str(int(a <= b)),
    '>': lambda a, b: str(int(a > b)),
    '>=': lambda a, b: str(int(a >= b)),
    '==': lambda a, b: str(int(a == b)),
    '!=': lambda a, b: str(int(a != b)),
    '&&': lambda a, b: str(int(a != 0 and b != 0)),
    '||': lambda a, b: str(int(a != 0 or b != 0)),
}
BITS = {
    '&': lambda a, b: str(a & b),
    '|': lambda a, b: str(a | b),
    '^': lambda a, b: str(a ^ b),
}
CALLED = {
    'min': lambda a, b: str(min(a, b)),
    'max': lambda a, b: str(max(a, b)),
}
SHIFTS = {
    '<<': lambda a, b: in_range(a << b) if 0 <= b < 64 else 'shift',
    '>>': lambda a, b: str(a >> b) if 0 <= b < 64 else 'shift',
}
NAMES = dict(zip(OPERATORS, 'sum difference product quotient rest lt le gt ge eq ne and or'.split()))


def rows():
    for a in OPERANDS:
        yield f'- {a}', in_range(-a)
        yield f'! {a}', str(int(a == 0))
        for b in OPERANDS:
            for spelling, give in (OPERATORS | CALLED).items():
                yield f'{a} {spelling} {b}', give(a, b)
    for a in OPERANDS + PATTERNS:
        yield f'~ {a}', str(~a)
        yield f'{a} ? 3 : 4', '3' if a else '4'
        for b in OPERANDS + PATTERNS:
            for spelling, give in BITS.items():
                yield f'{a} {spelling} {b}', give(a, b)
    for a in OPERANDS + PATTERNS + POWERS:
        for b in COUNTS:
            for spelling, give in SHIFTS.items():
                yield f'{a} {spelling} {b}', give(a, b)
    for cells in [], [7], [5, -3, MOST]:
        for index in [LEAST, -len(cells) - 1, -len(cells), -1, 0, 1, 2, len(cells), 2**32, 2**32 + 1, MOST]:
            answer = str(cells[index]) if 0 <= index < len(cells) else 'index'
            yield ' '.join([f'{index} in', *map(str, cells)]), answer


# ---- operators in processes

def number(value):
    return f'(-{MOST} - 1)' if value == LEAST else str(value)


def statements(names, spelling, a, b, is_test):
    """What writes `a OP b`. The operands that have names are variables."""
    sets = ''.join(f'{name} = {number(value)}; ' for name, value in zip('ab', (a, b)) if name in names)
    left, right = (name if name in names else number(value) for name, value in zip('ab', (a, b)))
    if is_test:
        return f'{sets}if ({left} {spelling} {right}) {{ write o 1; }} else {{ write o 0; }}'
    return f'{sets}c = ({left} {spelling} {right}); write o c;'


def bodies(names):
    """The name and the body of each process, and the items that it writes, or its fault."""
    for spelling, give in OPERATORS.items():
        answers = [(a, b, give(a, b)) for a in FEWER for b in FEWER]
        for is_test in [False] + [True] * (len(spelling) == 2 or spelling in '<>'):
            yield (f'if_{NAMES[spelling]}' if is_test else NAMES[spelling],
                   ' '.join(statements(names, spelling, a, b, is_test) for a, b, answer in answers
                            if answer not in FAULTS),
                   [answer for _, _, answer in answers if answer not in FAULTS])
        for k, (a, b, answer) in enumerate(row for row in answers if row[2] in FAULTS):
            yield f'{NAMES[spelling]}{k}', statements(names, spelling, a, b, False), answer


def network_of(names):
    """The lines of a network whose operands of these names are variables, and what is written for them."""
    parts = list(bodies(names))
    processes = ' '.join(f'process {name}(out o) {{ {body} }}' for name, body, _ in parts)
    channels = ' '.join(f'sink {name} cap 1;' for name, _, _ in parts)
    instances = ' '.join(f'{name} = {name}(; {name});' for name, _, _ in parts)
    lines = [f'file n {processes} network {{ {channels} {instances} }}', 'kpn run n']
    report = [f'sink {name}:' + ''.join(f' {item}' for item in answer if answer not in FAULTS)
              for name, _, answer in parts]
    report += [f'fault {name} {answer}' for name, _, answer in parts if answer in FAULTS]
    return lines, [f'$ {lines[0]}', f'$ {lines[1]}'] + report + ['ended']


def write_between(file, lines):
    """Writes the lines below the heading, up to the next."""
    before, _, rest = file.read_text().partition(HEADING)
    behind = rest.partition(NEXT)[2]
    file.write_text(before + HEADING + '\n'.join(lines) + NEXT + behind)


def main():
    argparse.ArgumentParser(description=__doc__, formatter_class=argparse.RawDescriptionHelpFormatter).parse_args()
    table = list(rows())
    (CRATES / 'check_language/stdin').write_text(''.join(f'{line}\n' for line, _ in table))
    (CRATES / 'check_language/stdout').write_text(''.join(f'{wanted}\n' for _, wanted in table))
    networks = [network_of(names) for names in ('ab', 'a', 'b')]
    write_between(CRATES / 'check_examples/stdin', sum((given for given, _ in networks), []))
    write_between(CRATES / 'check_examples/stdout', sum((wanted for _, wanted in networks), []))


if __name__ == '__main__':
    main()
