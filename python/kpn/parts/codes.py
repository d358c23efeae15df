"""Codes of whole numbers by bits. A code is a number and how many bits it has, on two streams in step."""
from __future__ import annotations

from typing import Any, Dict, List, Mapping, Tuple, cast

from ..errors import whole
from ..process import Process, Stream
from .wiring import need

MOST_BITS = 62
Codes = Mapping[int, Tuple[int, int]]


def exp_golomb(stream: Stream, signed: bool = False) -> Tuple[Stream, Stream]:
    """The Exp-Golomb code of each item of 0 or more: item + 1, after one 0 less than it has bits.

    With `signed` the items 1, -1, 2, -2 and so on have the codes of 1, 2, 3, 4. An item has to be below 2^31 - 1;
    one below 0 without `signed` has a code that nobody can read.
    Rates: one item on each out for one in. Faults: overflow, for items near 2^62. Source: J. Teuhola, "A compression
    method for clustered bit-vectors", 1978, of order 0.
    """
    fold = 'if (x > 0) { x = ((2 * x) - 1); } else { x = -(2 * x); }' if signed else ''
    return cast(Tuple[Stream, Stream], Process.from_text(f'''
        process exp_golomb(in i; out codes, lengths) {{
          while 1 {{
            read i x;
            {fold}
            x = (x + 1); n = 1; t = (x / 2);
            while (t > 0) {{ t = (t / 2); n = (n + 2); }}
            write codes x; write lengths n;
          }}
        }}''')(stream))


def exp_golomb_decode(bits: Stream, signed: bool = False) -> Stream:
    """The items that `exp_golomb` has coded, from a stream of bits.

    Rates: one out for 1 to 61 in. Faults: overflow, after 62 zeros. Source: that of `exp_golomb`.
    """
    fold = 'if (x % 2) { x = ((x + 1) / 2); } else { x = -(x / 2); }' if signed else ''
    return cast(Stream, Process.from_text(f'''
        process exp_golomb_decode(in bits; out o) {{
          while 1 {{
            n = 0; read bits b;
            while !b {{ n = (n + 1); read bits b; }}
            x = 1;
            while (n > 0) {{ read bits b; x = ((2 * x) + b); n = (n - 1); }}
            x = (x - 1);
            {fold}
            write o x;
          }}
        }}''')(bits))


def canonical_codes(lengths: Mapping[int, int]) -> Dict[int, Tuple[int, int]]:
    """The codes of symbols whose lengths are known, as JPEG, Deflate and others give them: short ones first, and of one
    length in the order of the mapping. Raises KpnError if there are too many for their lengths."""
    found, code, before = {}, 0, 0
    for symbol in sorted(lengths, key=lambda it: lengths[it]):
        length = whole('the length of a code', lengths[symbol], 1, MOST_BITS)
        code <<= length - before
        before = length
        need(code < 1 << length, f'the codes of {length} bits have to be fewer')
        found[symbol] = code, length
        code += 1
    return found


def huffman(stream: Stream, codes: Codes) -> Tuple[Stream, Stream]:
    """The code of each item by a table, a dict of (code, number of bits) by item, of 1 to 250 items.

    `kpn.parts.codes.canonical_codes` makes one of lengths. An item that is not in it has a code of no bits.
    Rates: one item on each out for one in. Faults: none. Source: D. A. Huffman, "A method for the construction of
    minimum-redundancy codes", 1952, by a search by halves.
    """
    whole('the number of codes', len(codes), 1, 250)
    rows = sorted((whole('an item', symbol, -2**62), *code_of(codes[symbol])) for symbol in codes)
    return cast(Tuple[Stream, Stream], Process.from_text(f'''
        process huffman(in i; out codes, lengths) {{
          while 1 {{ read i x; {search(rows)} write codes c; write lengths n; }}
        }}''')(stream))


def code_of(given: Tuple[int, int]) -> Tuple[int, int]:
    """A code of a table, if it fits into its length."""
    length = whole('the length of a code', given[1], 1, MOST_BITS)
    return whole(f'a code of {length} bits', given[0], 0, (1 << length) - 1), length


def search(rows: List[Tuple[int, int, int]]) -> str:
    """Statements that find the row of x."""
    if len(rows) == 1:
        symbol, code, length = rows[0]
        return f'if (x == {symbol}) {{ c = {code}; n = {length}; }} else {{ c = 0; n = 0; }}'
    half = len(rows) // 2
    return f'if (x < {rows[half][0]}) {{ {search(rows[:half])} }} else {{ {search(rows[half:])} }}'


def huffman_decode(bits: Stream, codes: Codes) -> Stream:
    """The items that `huffman` has coded by the same table, from a stream of bits. No code may begin another.

    A code has at most 28 bits. Bits that begin no code are left out, up to where they cannot.
    Rates: one out for the bits of a code. Faults: none. Source: a walk along the tree of the codes.
    """
    whole('the number of codes', len(codes), 1, 300)
    tree: Any = {}
    for symbol, given in codes.items():
        code, length = code_of(given)
        need(length <= 28, f'a code has {length} bits: they have to be at most 28')
        place = tree
        for it in range(length - 1, -1, -1):
            bit = code >> it & 1
            need(isinstance(place, dict) and (it > 0 or bit not in place), 'a code may not begin another')
            place = place.setdefault(bit, {} if it else whole('an item', symbol, -2**62))
    return cast(Stream, Process.from_text(f'process huffman_decode(in bits; out o) {{ while 1 {{ {walk(tree)} }} }}'
                                          )(bits))


def walk(place: Any) -> str:
    """Statements that read bits down a tree."""
    if not isinstance(place, dict):
        return f'write o {place};'
    return f'read bits b; if b {{ {walk(place.get(1, {}))} }} else {{ {walk(place.get(0, {}))} }}' if place else ''


def pack_bits(codes: Stream, lengths: Stream, width: int = 8, *, stuff: bool = False) -> Stream:
    """Puts codes one after the other into words of `width` bits, 1 to 62, the highest bit first.

    With `stuff` a word of 1s is followed by 0, as in JPEG. What does not fill the last word does not come out: end with
    a code of width - 1 bits that fills it. A length is 0 to 62.
    Rates: a word out for `width` bits in. Faults: overflow, for longer codes. Source: bit by bit.
    """
    full = 1 << whole('the width', width, 1, MOST_BITS)
    extra = f'if (word == {full - 1}) {{ write o 0; }} else {{ }}' if stuff else ''
    return cast(Stream, Process.from_text(f'''
        process pack_bits(in codes, lengths; out o) {{
          word = 0; count = 0;
          while 1 {{
            read codes c; read lengths n;
            p = (n > 0);
            while (n > 1) {{ p = (2 * p); n = (n - 1); }}
            while (p > 0) {{
              word = ((2 * word) + ((c / p) % 2)); count = (count + 1); p = (p / 2);
              if (count == {width}) {{ write o word; {extra} word = 0; count = 0; }} else {{ }}
            }}
          }}
        }}''')(codes, lengths))


def unpack_bits(stream: Stream, width: int = 8) -> Stream:
    """The bits of each word of `width` bits, 1 to 62, the highest first. A word is 0 to 2^width - 1.

    Rates: `width` out for one in. Faults: none. Source: bit by bit.
    """
    top = 1 << whole('the width', width, 1, MOST_BITS) - 1
    return cast(Stream, Process.from_text(f'''
        process unpack_bits(in i; out o) {{
          while 1 {{ read i x; p = {top}; while (p > 0) {{ write o ((x / p) % 2); p = (p / 2); }} }}
        }}''')(stream))
