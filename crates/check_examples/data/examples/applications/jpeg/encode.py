#!/usr/bin/env python3
"""Encodes a grey picture as JPEG. The network makes the bytes of the scan; this script adds the head and the end.

usage: encode.py PICTURE.pgm OUT.jpg      or: encode.py --network WIDTH HEIGHT > jpeg.kpn
"""
import pathlib
import re
import struct
import sys

import kpn
from kpn import parts
from kpn.parts.codes import canonical_codes

QUANTA = [16, 11, 10, 16, 24, 40, 51, 61, 12, 12, 14, 19, 26, 58, 60, 55, 14, 13, 16, 24, 40, 57, 69, 56,
          14, 17, 22, 29, 51, 87, 80, 62, 18, 22, 37, 56, 68, 109, 103, 77, 24, 35, 55, 64, 81, 104, 113, 92,
          49, 64, 78, 87, 103, 121, 120, 101, 72, 92, 95, 98, 112, 100, 103, 99]
# How many codes there are of 1, 2, .. 16 bits, and their symbols: of the means, and of the other items of a block.
MEAN_COUNTS = [0, 1, 5, 1, 1, 1, 1, 1, 1, 0, 0, 0, 0, 0, 0, 0]
MEANS = list(range(12))
OTHER_COUNTS = [0, 2, 1, 3, 3, 2, 4, 3, 5, 5, 4, 4, 0, 0, 1, 125]
OTHERS = list(bytes.fromhex('01020300041105122131410613516107227114328191a1082342b1c11552d1f02433627282'))
OTHERS += sorted({16 * run + size for run in range(16) for size in range(1, 11)} - set(OTHERS))
# In the network the symbols of means are from here on, and the last one fills the last byte.
MEAN, FILL = 256, 512
SIZE = '''t = v; if (t < 0) { t = -t; } else { }
          n = 0; p = 1; while (t > 0) { t = (t / 2); n = (n + 1); p = (2 * p); }
          if (v < 0) { v = (v + (p - 1)); } else { }'''
SYMBOLS = kpn.Process.from_text(f'''
    process symbols(in i; out symbol, bits, lengths; par blocks) {{
      mean = 0;
      while (blocks > 0) {{
        read i x;
        v = (x - mean); mean = x;
        {SIZE}
        write symbol ({MEAN} + n); write bits v; write lengths n;
        k = 1; run = 0;
        while (k < 64) {{
          read i v;
          if v {{
            while (run > 15) {{ write symbol 240; write bits 0; write lengths 0; run = (run - 16); }}
            {SIZE}
            write symbol ((16 * run) + n); write bits v; write lengths n;
            run = 0;
          }} else {{ run = (run + 1); }}
          k = (k + 1);
        }}
        if run {{ write symbol 0; write bits 0; write lengths 0; }} else {{ }}
        blocks = (blocks - 1);
      }}
      write symbol {FILL}; write bits 0; write lengths 0;
    }}''')


def codes_of(counts, symbols):
    """The codes of symbols, by how many of them have 1, 2, .. 16 bits."""
    lengths = [length for length, count in enumerate(counts, 1) for _ in range(count)]
    return canonical_codes(dict(zip(symbols, lengths)))


def build(width, height):
    """The encoder of the source `pixels`, by rows, with the sink `scan`. Both numbers are multiples of 8."""
    net = kpn.Network()
    blocks = parts.dct_blocks(parts.to_blocks(parts.offset(net.source('pixels'), -128), width))
    items = parts.zigzag(parts.quantize(blocks, QUANTA))
    symbols, bits, lengths = SYMBOLS(items, width * height // 64)
    means = {MEAN + it: code for it, code in codes_of(MEAN_COUNTS, MEANS).items()}
    codes, sizes = parts.huffman(symbols, {**means, **codes_of(OTHER_COUNTS, OTHERS), FILL: (127, 7)})
    net.sink('scan', parts.pack_bits(parts.merge([codes, bits]), parts.merge([sizes, lengths]), stuff=True))
    return net


def segment(mark, *data):
    """A segment of the file: its mark, its length, and its bytes."""
    joined = b''.join(map(bytes, data))
    return struct.pack('>BBH', 255, mark, len(joined) + 2) + joined


def head(width, height):
    """All before the scan: the quanta along the diagonals, the size, the codes."""
    order = sorted(range(64), key=lambda it: (it // 8 + it % 8, it // 8 if (it // 8 + it % 8) % 2 else it % 8))
    return (b'\xff\xd8' + segment(0xe0, b'JFIF\0\1\1\0\0\1\0\1\0\0')
            + segment(0xdb, [0], [QUANTA[it] for it in order])
            + segment(0xc0, [8], struct.pack('>HH', height, width), [1, 1, 0x11, 0])
            + segment(0xc4, [0], MEAN_COUNTS, MEANS) + segment(0xc4, [0x10], OTHER_COUNTS, OTHERS)
            + segment(0xda, [1, 1, 0, 0, 63, 0]))


def picture_of(path):
    """The width, the height and the rows of a PGM file."""
    data = pathlib.Path(path).read_bytes()
    found = re.match(rb'P5\s+(\d+)\s+(\d+)\s+255\s', data)
    if not found:
        sys.exit(f'{path} is no PGM file of bytes')
    width, height = int(found[1]), int(found[2])
    return width, height, [list(data[found.end() + width * it:][:width]) for it in range(height)]


def main():
    if sys.argv[1:2] == ['--network']:
        print(build(int(sys.argv[2]), int(sys.argv[3])), end='')
        return
    width, height, rows = picture_of(sys.argv[1])
    # The last pixels of rows and columns are repeated up to whole blocks.
    rows = [row + row[-1:] * (-width % 8) for row in rows]
    rows += rows[-1:] * (-height % 8)
    result = build(len(rows[0]), len(rows)).run([it for row in rows for it in row], max_commits=10**9)
    scan = bytes(result.check()['scan'])
    pathlib.Path(sys.argv[2]).write_bytes(head(width, height) + scan + b'\xff\xd9')


if __name__ == '__main__':
    main()
