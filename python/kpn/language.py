"""The languages of networks: reads their texts as trees, and writes these in the canonical form.

A text that begins with `language 2;` is of language 2, and any other of language 1. Whether the names and the rules are
right is for `kpn` to say. The canonical form of a process has the tokens of its text but for some of `LEFT_OUT`, so
each one is found again there.
"""
from __future__ import annotations

import re
from dataclasses import replace
from typing import Any, Dict, Iterator, List, NamedTuple, NoReturn, Optional, Sequence, Tuple, Union

from .errors import LARGEST, KpnError, Spot
from .process import Process

LONGEST_TEXT = LARGEST_CAPACITY = 1_048_576
LONGEST_NAME = 32
RESERVED = frozenset('process in out par read write if else while network limit channel cap source sink policy grow'
                     .split())
# These words are reserved in language 2 besides.
RESERVED_IN_TWO = frozenset('language array table const for'.split())
MOST_LEVELS = 32
NUMBER = re.compile(r'[0-9]{1,19}')
# In language 2 besides: with a base, `_` after digits, and a byte in quotes.
BASED = re.compile(r'(0x)[0-9A-Fa-f][0-9A-Fa-f_]*|(0b)[01][01_]*|[0-9][0-9_]*')
ESCAPED = {'\\n': '\n', '\\\\': '\\', "\\'": "'", '\\0': '\0'}
NAME = re.compile(r'[A-Za-z_][A-Za-z0-9_]*')
SIGNS = {1: frozenset('-!'), 2: frozenset('-!~')}
# How tightly each operator of language 2 binds. Those of one row go from the left, but a comparison stands alone.
ROWS = (('||',), ('&&',), ('<', '<=', '>', '>=', '==', '!='), ('|',), ('^',), ('&',), ('<<', '>>'), ('+', '-'),
        ('*', '/', '%'))
TIGHTNESS = {mark: number for number, row in enumerate(ROWS, 1) for mark in row}
COMPARING, SHIFTING, OPERAND = TIGHTNESS['<'], TIGHTNESS['<<'], len(ROWS) + 1
OPERATORS_OF_ONE = frozenset(TIGHTNESS) - frozenset('& | ^ << >>'.split())
# The operators of language 2 that are called: min(a, b).
CALLED = frozenset(('min', 'max'))
# The mark of a cell in a tree.
INDEX = '[]'
# What the canonical form leaves out where it can.
LEFT_OUT = frozenset('( ) { } else -'.split())
SPACE = re.compile(r'(?:[ \t\r\n]|#[^\n]*)*')
MARKS = r'<=|>=|==|!=|&&|\|\||<<|>>|[-(){}\[\];,=+*/%<>!~&|^?:]'
QUOTED = r"'[ -&(-\[\]-~]'|'\\[n\\'0]'"
TOKEN = {1: re.compile(rf'{NAME.pattern}|[0-9]+|{MARKS}'),
         2: re.compile(rf'{NAME.pattern}|[0-9][A-Za-z0-9_]*|{QUOTED}|\.\.|{MARKS}')}


class Token(NamedTuple):
    """A token and the place where it begins, counted in characters."""

    text: str
    start: int


# A number, a name, an operator with its one, two or three operands, or INDEX with the name of cells and their number.
Expression = Union[int, str, Tuple['str', 'Expression'], Tuple['str', 'Expression', 'Expression'],
                   Tuple['str', 'Expression', 'Expression', 'Expression']]


class Assign(NamedTuple):
    """Sets a variable."""

    target: str
    value: Expression


class Store(NamedTuple):
    """Sets a cell of an array."""

    array: str
    cell: Expression
    value: Expression


class Read(NamedTuple):
    """Gets an item."""

    port: str
    target: str


class Write(NamedTuple):
    """Puts an item."""

    port: str
    value: Expression


class If(NamedTuple):
    """An `if` with both of its blocks."""

    condition: Expression
    first: Block
    second: Block


class While(NamedTuple):
    """A `while`."""

    condition: Expression
    body: Block


Statement = Union[Assign, Store, Read, Write, If, While]
Block = Tuple[Statement, ...]


class Array(NamedTuple):
    """An array and the number of its cells."""

    name: str
    size: int

    def __str__(self) -> str:
        return f'array {self.name}[{self.size}];'


class Table(NamedTuple):
    """A table and its values."""

    name: str
    values: Tuple[int, ...]

    def __str__(self) -> str:
        return f'table {self.name} = {", ".join(map(str, self.values))};'


class Code(NamedTuple):
    """What stands in a process."""

    arrays: Tuple[Array, ...]
    tables: Tuple[Table, ...]
    block: Block


class Declared(NamedTuple):
    """An array or a table, and its tokens."""

    thing: Any
    tokens: List[Token]


class Entry(NamedTuple):
    """An instance in a text: the process, the channels and the values of the parameters, by place."""

    process: str
    ins: Tuple[str, ...]
    outs: Tuple[str, ...]
    values: Tuple[int, ...]


class Description(NamedTuple):
    """A text that has been read. A channel has a kind (`channel`, `source` or `sink`) and its capacity. The tables are
    the shared ones."""

    language: int
    processes: List[Process]
    settings: Dict[str, str]
    channels: List[Tuple[str, str, Optional[int]]]
    instances: List[Tuple[str, Entry]]
    tables: Tuple[Table, ...] = ()


def tokens_of(text: str, language: int = 1) -> List[Token]:
    """The tokens of a text. The last one is `''` at its end, or a character that begins no token."""
    found, place = [], 0
    while True:
        place = SPACE.match(text, place).end()  # type: ignore[union-attr]
        match = TOKEN[language].match(text, place)
        found.append(Token(match[0] if match else text[place:place + 1], place))
        if match is None:
            return found
        place = match.end()


def sides_of(mark: str) -> Tuple[int, int]:
    """How tightly each side of an operator of language 2 has to bind, to stand without parentheses."""
    tightness = TIGHTNESS[mark]
    return (SHIFTING, SHIFTING) if tightness == COMPARING else (tightness, tightness + 1)


def is_name(word: str, language: int = 1) -> bool:
    """Whether a language takes a word as a name."""
    is_reserved = word in RESERVED or language == 2 and word in RESERVED_IN_TWO
    return NAME.fullmatch(word) is not None and not is_reserved and len(word) <= LONGEST_NAME


def number_of(word: str, language: int = 1) -> Optional[int]:
    """The value of a word that a language takes as a number, or nothing."""
    if language == 1:
        return int(word) if NUMBER.fullmatch(word) and int(word) <= LARGEST else None
    if word[:1] == "'" and len(word) > 2:
        return ord(ESCAPED.get(word[1:-1], word[1]))
    found = BASED.fullmatch(word)
    if found is None:
        return None
    digits = word.replace('_', '')
    if not (found[1] or found[2]):
        return number_of(digits.lstrip('0') or '0')
    value = int(digits, 16 if found[1] else 2)
    return value if value <= LARGEST else None


def text_of(tree: Expression, language: int, least: int = 1) -> str:
    """An expression in the canonical form, where operators that bind at least so tightly may stand without
    parentheses. Those of language 1 always have them."""
    if not isinstance(tree, tuple):
        return str(tree)
    mark, *parts = tree
    if mark == INDEX:
        return f'{parts[0]}[{text_of(parts[1], language)}]'
    if len(parts) == 1:
        return mark + text_of(parts[0], language, OPERAND)
    if mark == '?':
        return '({} ? {} : {})'.format(*(text_of(it, language) for it in parts))
    if mark in CALLED:
        return f'{mark}({text_of(parts[0], language)}, {text_of(parts[1], language)})'
    left, right = (text_of(it, language, side) for it, side in zip(parts, sides_of(mark)))
    is_free = language == 2 and TIGHTNESS[mark] >= least
    return f'{left} {mark} {right}' if is_free else f'({left} {mark} {right})'


def lines_of(block: Block, language: int, indent: str = '  ') -> Iterator[Tuple[str, Statement]]:
    """The lines of a block in the canonical form, without the braces, each with its statement."""
    for it in block:
        if isinstance(it, If):
            yield from lines_of_branch(it, language, indent, indent)
        elif isinstance(it, While):
            yield f'{indent}while {text_of(it.condition, language)} {{', it
            yield from lines_of(it.body, language, indent + '  ')
            yield indent + '}', it
        elif isinstance(it, Read):
            yield f'{indent}read {it.port} {it.target};', it
        elif isinstance(it, Write):
            yield f'{indent}write {it.port} {text_of(it.value, language)};', it
        else:
            target = it.target if isinstance(it, Assign) else text_of((INDEX, it.array, it.cell), language)
            yield f'{indent}{target} = {text_of(it.value, language)};', it


def lines_of_branch(branch: If, language: int, indent: str, before: str) -> Iterator[Tuple[str, Statement]]:
    """The lines of an `if`, the first of them after this. Language 2 leaves out what it can of an `else`."""
    yield f'{before}if {text_of(branch.condition, language)} {{', branch
    yield from lines_of(branch.first, language, indent + '  ')
    if language == 2 and len(branch.second) == 1 and isinstance(branch.second[0], If):
        yield from lines_of_branch(branch.second[0], language, indent, indent + '} else ')
        return
    if language == 1 or branch.second:
        yield indent + '} else {', branch
        yield from lines_of(branch.second, language, indent + '  ')
    yield indent + '}', branch


class Reader:
    """Reads a text, of the language that is given or else of the one that its first tokens say."""

    def __init__(self, text: str, what: str = 'text', language: int = 0):
        self.text, self.what = text, what
        self.tokens = tokens_of(text)
        opening = [it.text for it in self.tokens[:3]]
        is_two = opening[::2] == ['language', ';'] and number_of(opening[1]) == 2
        self.language, self.place = (language, 0) if language else (2, 3) if is_two else (1, 0)
        if self.language == 2:
            self.tokens = tokens_of(text, 2)

    def peek(self) -> str:
        """The next token; `''` at the end of the text."""
        return self.tokens[self.place].text

    def fail(self) -> NoReturn:
        """Refuses the text at its next token."""
        spot = Spot(self.what, self.text, self.tokens[self.place].start)
        raise KpnError('\n'.join(spot.show('no text of the language goes on so')), place=spot.place())

    def need(self, token: str) -> None:
        """Goes past this token, which has to be the next one."""
        if self.peek() != token:
            self.fail()
        self.place += 1

    def name(self) -> str:
        """Goes past a name."""
        if not is_name(self.peek(), self.language):
            self.fail()
        self.place += 1
        return self.tokens[self.place - 1].text

    def number(self) -> int:
        """Goes past a number."""
        value = number_of(self.peek(), self.language)
        if value is None:
            self.fail()
        self.place += 1
        return value

    def names(self) -> Tuple[str, ...]:
        """One or more names with commas between."""
        found = [self.name()]
        while self.peek() == ',':
            self.place += 1
            found.append(self.name())
        return tuple(found)

    def head(self) -> Tuple[str, Dict[str, Tuple[str, ...]]]:
        """Reads the name of a process, and its ports and parameters."""
        self.need('process')
        name = self.name()
        self.need('(')
        parts: Dict[str, Tuple[str, ...]] = {'in': (), 'out': (), 'par': ()}
        left, word = list(parts), self.peek()
        while word in left:
            self.place += 1
            parts[word] = self.names()
            left = left[left.index(word) + 1:]
            if self.peek() != ';':
                break
            self.place += 1
            word = self.peek()
            if word not in left:
                self.fail()
        self.need(')')
        if len({it for names in parts.values() for it in names}) < sum(map(len, parts.values())):
            self.fail()
        return name, parts

    def process(self, shared: Sequence[Declared] = ()) -> Process:
        """Reads a process. The shared tables that it names become its own."""
        start = shared[0].tokens[0].start if shared else self.tokens[self.place].start
        first = self.place
        name, parts = self.head()
        self.need('{')
        tokens = self.tokens[first:self.place]
        arrays, tables = self.declarations()
        first = self.place
        block = self.block(1)
        rest = self.tokens[first:self.place]
        words = {it.text for it in rest}
        declared = [*arrays, *(it for it in shared if it.thing.name in words), *tables]
        for it in declared:
            tokens += it.tokens
        body = (*(f'  {it.thing}' for it in declared), *(line for line, _ in lines_of(block, self.language)))
        made = Process(name, parts['in'], parts['out'], parts['par'], body,
                       self.text[start:rest[-1].start + 1], self.language)
        return replace(made, places=tuple(it - start for it in places_of(str(made), [*tokens, *rest])))

    def code(self) -> Code:
        """Reads what stands in a process, after its head."""
        self.need('{')
        arrays, tables = self.declarations()
        return Code(tuple(it.thing for it in arrays), tuple(it.thing for it in tables), self.block(1))

    def declarations(self) -> Tuple[List[Declared], List[Declared]]:
        """Reads the arrays and the tables at the head of a process."""
        found: Dict[str, List[Declared]] = {'array': [], 'table': []}
        while self.language == 2 and self.peek() in found:
            found[self.peek()].append(self.declared())
        return found['array'], found['table']

    def declared(self) -> Declared:
        """Reads an array or a table."""
        first = self.place
        thing = self.array() if self.peek() == 'array' else self.table()
        return Declared(thing, self.tokens[first:self.place])

    def array(self) -> Array:
        """Reads an array."""
        self.need('array')
        name = self.name()
        self.need('[')
        if number_of(self.peek(), self.language) == 0:
            self.fail()
        size = self.number()
        self.need(']')
        self.need(';')
        return Array(name, size)

    def table(self) -> Table:
        """Reads a table."""
        self.need('table')
        name = self.name()
        self.need('=')
        values = [self.value()]
        while self.peek() == ',':
            self.place += 1
            values.append(self.value())
        self.need(';')
        return Table(name, tuple(values))

    def value(self) -> int:
        """Reads a number, and its sign if it has one."""
        is_negative = self.peek() == '-'
        self.place += is_negative
        return -self.number() if is_negative else self.number()

    def block(self, level: int) -> Block:
        """Reads the statements of a block of a level, and the brace after them."""
        found: List[Statement] = []
        while self.peek() != '}':
            found.append(self.statement(level))
        self.need('}')
        return tuple(found)

    def inner(self, level: int) -> Block:
        """Reads a block of a level with its braces."""
        if level > MOST_LEVELS:
            self.fail()
        self.need('{')
        return self.block(level)

    def statement(self, level: int) -> Statement:
        """Reads a statement."""
        word = self.peek()
        if word == 'if':
            return self.branch(level)
        if word == 'while':
            self.place += 1
            return While(self.expression(), self.inner(level + 1))
        found = self.simple(word)
        self.need(';')
        return found

    def simple(self, word: str) -> Statement:
        """Reads a statement without blocks that begins with this word."""
        if word in ('read', 'write'):
            self.place += 1
            port = self.name()
            return Read(port, self.name()) if word == 'read' else Write(port, self.expression())
        name, index = self.name(), None
        if self.language == 2 and self.peek() == '[':
            self.place += 1
            index = self.expression()
            self.need(']')
        self.need('=')
        return Assign(name, self.expression()) if index is None else Store(name, index, self.expression())

    def branch(self, level: int) -> If:
        """Reads an `if`."""
        self.need('if')
        condition, first = self.expression(), self.inner(level + 1)
        if self.language == 2 and self.peek() != 'else':
            return If(condition, first, ())
        self.need('else')
        if self.language == 2 and self.peek() == 'if':
            return If(condition, first, (self.branch(level + 1),))
        return If(condition, first, self.inner(level + 1))

    def expression(self) -> Expression:
        """Reads an expression."""
        tree, levels = self.operand(0) if self.language == 1 else self.operation(0, 1)
        if levels > MOST_LEVELS:
            self.fail()
        return tree

    def operation(self, around: int, least: int) -> Tuple[Expression, int]:
        """Reads operators of language 2 that bind at least so tightly, from the left, with this many signs,
        parentheses and brackets around. It gives the tree and its levels."""
        (tree, levels), most = self.operand(around), OPERAND
        while self.peek() in TIGHTNESS:
            mark, tightness = self.peek(), TIGHTNESS[self.peek()]
            is_loose = tightness == COMPARING and most < SHIFTING
            if is_loose or not least <= tightness <= most:
                break
            self.place += 1
            right, others = self.operation(around, sides_of(mark)[1])
            tree, levels = (mark, tree, right), 1 + max(levels, others)
            # Nothing but `&&` and `||` goes on after a comparison.
            most = tightness - (tightness == COMPARING)
        return tree, levels

    def operand(self, around: int) -> Tuple[Expression, int]:
        """Reads an operand, with this many signs, parentheses and brackets around, and gives its tree and levels."""
        token = self.peek()
        if around == MOST_LEVELS:
            self.fail()
        if token in SIGNS[self.language]:
            self.place += 1
            tree, levels = self.operand(around + 1)
            return (token, tree), levels + 1
        if number_of(token, self.language) is not None:
            return self.number(), 1
        if token != '(':
            return self.element(around)
        self.place += 1
        found = self.within(around + 1)
        self.need(')')
        return found

    def element(self, around: int) -> Tuple[Expression, int]:
        """Reads a name, with an index if it has one, or a call, and gives the tree and its levels."""
        name = self.name()
        if self.language == 2 and name in CALLED and self.peek() == '(':
            return self.call(name, around + 1)
        if self.language == 1 or self.peek() != '[':
            return name, 1
        self.place += 1
        index, levels = self.operation(around + 1, 1)
        self.need(']')
        return (INDEX, name, index), levels + 1

    def call(self, name: str, around: int) -> Tuple[Expression, int]:
        """Reads both sides of an operator that is called, after its name, and gives the tree and its levels."""
        self.need('(')
        left, levels = self.operation(around, 1)
        self.need(',')
        right, others = self.operation(around, 1)
        self.need(')')
        return (name, left, right), 1 + max(levels, others)

    def within(self, around: int) -> Tuple[Expression, int]:
        """Reads what stands in parentheses, and gives its tree and its levels."""
        if self.language == 1:
            left, levels = self.operand(around)
            mark = self.peek()
            if mark not in OPERATORS_OF_ONE:
                self.fail()
            self.place += 1
            right, others = self.operand(around)
            return (mark, left, right), 1 + max(levels, others)
        condition, levels = self.operation(around, 1)
        if self.peek() != '?':
            return condition, levels
        self.place += 1
        first, others = self.operation(around, 1)
        self.need(':')
        second, last = self.operation(around, 1)
        return ('?', condition, first, second), 1 + max(levels, others, last)

    def shared(self) -> List[Declared]:
        """Reads the tables in front of the processes."""
        found = []
        while self.language == 2 and self.peek() == 'table':
            found.append(self.declared())
        return found

    def description(self) -> Description:
        """Reads a whole text."""
        found = Description(self.language, [], {}, [], [], tuple(it.thing for it in self.shared()))
        while self.peek() == 'process':
            found.processes.append(self.process())
        self.need('network')
        self.need('{')
        for word in ('limit', 'policy', 'grow'):
            if self.peek() == word:
                self.place += 1
                found.settings[word] = str(self.number()) if word == 'limit' else self.name()
                self.need(';')
        while self.peek() != '}':
            self.entry(found)
        self.need('}')
        self.need('')
        return found

    def entry(self, found: Description) -> None:
        """Reads a channel or an instance."""
        word = self.peek()
        if word in ('channel', 'source', 'sink'):
            self.place += 1
            name, capacity = self.name(), None
            if word != 'source':
                self.need('cap')
                capacity = self.number()
            found.channels.append((word, name, capacity))
        else:
            name = self.name()
            self.need('=')
            found.instances.append((name, self.instance()))
        self.need(';')

    def instance(self) -> Entry:
        """Reads the right side of an instance."""
        process = self.name()
        self.need('(')
        ins = () if self.peek() == ';' else self.names()
        self.need(';')
        outs = () if self.peek() in (';', ')') else self.names()
        values: List[int] = []
        while self.peek() == (',' if values else ';'):
            self.place += 1
            values.append(self.value())
        self.need(')')
        return Entry(process, ins, outs, tuple(values))


def places_of(lines: str, tokens: Sequence[Token]) -> List[int]:
    """Where the tokens of canonical lines stand among these, some of which the lines leave out."""
    left = iter(tokens)
    return [next(it.start for it in left if it.text == token.text or it.text not in LEFT_OUT)
            for token in tokens_of(lines)[:-1]]


def in_language(process: Process, language: int) -> Process:
    """A process as it stands in a text of a language; one that may not stand there stays as it is."""
    if process.language >= language:
        return process
    try:
        return Reader(process.source or str(process), language=language).process().renamed(process.name)
    except KpnError:
        return process


def code_of(process: Process) -> Code:
    """What stands in a process."""
    reader = Reader(str(process), language=process.language)
    reader.head()
    return reader.code()
