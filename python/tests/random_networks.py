"""Random networks, built through the package."""
from support import kpn

MARKS = ('+', '-', '*', '/', '%', '<', '<=', '>', '>=', '==', '!=', '&&', '||')


class Maker:
    """Makes random processes and networks of random numbers."""

    def __init__(self, random):
        self.random = random

    def blank(self):
        """White space or a comment between two tokens."""
        return self.random.choice((' ', '\n', '\t', '  \r\n', ' # a comment: { x = 1; }\n'))

    def expression(self, known, depth):
        """An expression over the known names."""
        kind = self.random.randrange(6 if depth else 2)
        if kind == 0 or kind == 1 and not known:
            return self.random.choice(('0', '007', '1', '9223372036854775807', str(self.random.randrange(1000))))
        if kind == 1:
            return self.random.choice(known)
        if kind == 2:
            return self.random.choice('-!') + self.blank() + self.expression(known, depth - 1)
        parts = (self.expression(known, depth - 1), self.random.choice(MARKS), self.expression(known, depth - 1))
        return f'({self.blank().join(parts)})'

    def block(self, ins, outs, known, depth):
        """The statements of a block."""
        found = []
        for _ in range(self.random.randrange(4)):
            kind = self.random.randrange(5 if depth else 3)
            if kind == 0 and ins:
                variable = self.random.choice('uvwxyz')
                found += ['read', self.random.choice(ins), variable, ';']
                known.append(variable)
            elif kind == 1 and outs:
                found += ['write', self.random.choice(outs), self.expression(known, 3), ';']
            elif kind < 3:
                value, variable = self.expression(known, 3), self.random.choice('uvwxyz')
                found += [variable, '=', value, ';']
                known.append(variable)
            else:
                found += ['if' if kind == 3 else 'while', self.expression(known, 2)]
                found += ['{', *self.block(ins, outs, known, depth - 1), '}']
                if kind == 3:
                    found += ['else', '{', *self.block(ins, outs, known, depth - 1), '}']
        return found

    def process(self):
        """A process with random ports, parameters and statements."""
        counts = [self.random.randrange(4), self.random.randrange(4), self.random.randrange(3)]
        names = [[f'{letter}{it}' for it in range(count)] for letter, count in zip('iop', counts)]
        head = '; '.join(f'{word} {", ".join(of)}' for word, of in zip(('in', 'out', 'par'), names) if of)
        body = self.block(names[0], names[1], list(names[2]), 3)
        name = self.random.choice(('a', 'filter', 'x_1', 'a_name_of_thirty_two_letters_abc'))
        return kpn.Process.from_text(f'process {name}({head}) {{{self.blank()}{self.blank().join(body)} }}')

    def network(self):
        """A network of some processes, with loops, forks, names and capacities."""
        random = self.random
        net = kpn.Network(random.choice((5, 100, 1_048_576)), random.choice(('cycles', 'all')),
                          random.choice(('one', 'double')), auto_fork=True)
        streams = [net.source(f'source_{it}') for it in range(random.randrange(3))]
        loops = [net.channel(random.choice((None, f'loop_{it}')), random.choice((None, 3))) for it in range(2)]
        streams += loops
        processes = [self.process() for _ in range(random.randrange(1, 5))]
        for number in range(random.randrange(1, 8)):
            process = random.choice(processes)
            ins, values = [random.choice(streams) for _ in process.ins], [random.randrange(-9, 9) for _ in process.pars]
            made = process(*ins, *values, net=net, name=random.choice((None, f'instance_{number}')),
                           cap=random.choice((None, 2)))
            streams += () if made is None else made if isinstance(made, tuple) else (made,)
        for loop in loops:
            loop.connect(kpn.parts.constant(net, 1))
        for number, stream in enumerate(streams):
            if not stream.channel.is_read:
                net.sink(f'sink_{number}', stream, random.choice((None, 4)))
        return net
