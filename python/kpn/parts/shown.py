"""What `python -m kpn parts` shows of a part: its text, a call of it, and the network that the call makes."""
from __future__ import annotations

import html
import inspect
import re
from typing import Any, Dict, Iterable

from ..errors import KpnError
from ..network import Network

# A call of each part. The letters x, y, z and w are sources.
CALLS: Dict[str, str] = {
    'add': 'add(x, y)',
    'agc': 'agc(x, 8000, 16, 48, 4800)',
    'am_demodulate': 'am_demodulate(x, y, 48000)',
    'biquad': 'biquad(x, [318, 636, 318], [-23742, 8630], 14)',
    'bitonic_sort': 'bitonic_sort(x, 4)',
    'butterworth': "butterworth(x, 'low', 48000, 1000, 4)",
    'cascade': 'cascade(x, [[0.1, 0.2, 0.1, 1, -0.9, 0.3]])',
    'cic': 'cic(x, 2, 8)',
    'complex_multiply': 'complex_multiply(x, y, z, w, shift=15)',
    'compressor': 'compressor(x, 8000, 4, 48, 4800)',
    'constant': 'constant(net, 5)',
    'control': 'control(x, y, 4)',
    'count': 'count(net)',
    'dc_block': 'dc_block(x, 48000)',
    'dct': 'dct(x)',
    'dct_blocks': 'dct_blocks(x)',
    'deal': 'deal(x, 2)',
    'decimate': 'decimate(x, [1, 2, 3, 2, 1], 2)',
    'deemphasis': 'deemphasis(x, 48000)',
    'delay': 'delay(x, 3)',
    'dequantize': 'dequantize(x, [16, 11, 10])',
    'downsample': 'downsample(x, 3)',
    'drop': 'drop(x, 3)',
    'exp_golomb': 'exp_golomb(x)',
    'exp_golomb_decode': 'exp_golomb_decode(x)',
    'fft': 'fft(x, y, 4)',
    'fir': 'fir(x, [1, 4, 6, 4, 1], shift=4)',
    'fm_demodulate': 'fm_demodulate(x, y, rounds=8)',
    'fork': 'fork(x)',
    'from_blocks': 'from_blocks(x, 16)',
    'gain': 'gain(x, 3)',
    'hold': 'hold(x, 3)',
    'huffman': 'huffman(x, {0: (0, 1), 1: (2, 2), 2: (3, 2)})',
    'huffman_decode': 'huffman_decode(x, {0: (0, 1), 1: (2, 2), 2: (3, 2)})',
    'iir': 'iir(x, [900, 300], [-700, 211], 10)',
    'interpolate': 'interpolate(x, [1, 2, 3, 2, 1], 2)',
    'level': 'level(x, 48, 4800)',
    'linear': 'linear(x, [[1, 2], [3, 4]])',
    'matrix_product': 'matrix_product(x, y, 2, 2, 2)',
    'merge': 'merge([x, y])',
    'mix': 'mix(x, y, 48000, -1000)',
    'moving_sum': 'moving_sum(x, 8)',
    'multiply': 'multiply(x, y)',
    'nco': 'nco(x)',
    'notch': 'notch(x, 48000, 50)',
    'offset': 'offset(x, 3)',
    'oscillator': 'oscillator(net, 48000, 1000)',
    'pack_bits': 'pack_bits(x, y)',
    'permute': 'permute(x, [2, 0, 1])',
    'pid': 'pid(x, 900, 40, 300, 8, -5000, 5000)',
    'pointwise': "pointwise('(a * k)', a=x, k=3)",
    'polar': 'polar(x, y, rounds=8)',
    'polyphase': 'polyphase(x, [1, 2, 3, 4, 3, 2, 1], 4)',
    'quantize': 'quantize(x, [16, 11, 10])',
    'run_length_decode': 'run_length_decode(x, y)',
    'run_length_encode': 'run_length_encode(x)',
    'saturate': 'saturate(x, -32768, 32767)',
    'scale': 'scale(x, 16)',
    'second_order': "second_order(x, 'low', 48000, 1000)",
    'select': 'select(x, y, z)',
    'sort_streams': 'sort_streams([x, y, z, w])',
    'subtract': 'subtract(x, y)',
    'sum_of': 'sum_of([x, y, z])',
    'switch': 'switch(x, y)',
    'to_blocks': 'to_blocks(x, 16)',
    'transpose': 'transpose(x, 2, 2)',
    'two_tanks': 'two_tanks(x, 20, 40)',
    'unpack_bits': 'unpack_bits(x)',
    'upsample': 'upsample(x, 3)',
    'wrap': 'wrap(x, 16)',
    'zigzag': 'zigzag(x)',
    'zip_streams': 'zip_streams(x, y)',
}
STYLE = ('body { font-family: sans-serif; max-width: 60em; margin: 2em auto; padding: 0 1em } svg { max-width: 100% } '
         'pre { overflow-x: auto }')


def part_of(name: str) -> Any:
    """The part of this name; KpnError if there is none."""
    from .. import parts
    if name not in CALLS:
        raise KpnError(f'there is no part {name}: there are {", ".join(CALLS)}')
    return getattr(parts, name)


def network_of(name: str) -> Network:
    """The network that the call of a part makes, with a sink for each stream."""
    net = Network()
    names: Dict[str, Any] = {it: net.source(it) for it in 'xyzw' if re.search(rf'\b{it}\b', CALLS[name])}
    part = part_of(name)
    made = eval(CALLS[name], {name: part, 'net': net, **names})  # one of the constant texts above
    for number, stream in enumerate(made if isinstance(made, tuple) else (made,)):
        net.sink(f'out{number}', stream)
    return net


def head_of(name: str) -> str:
    """How a part is called."""
    return f'{name}{inspect.signature(part_of(name))}'.replace("'", '')


def text_of(name: str) -> str:
    """The text of a part, a call and its network."""
    doc = inspect.getdoc(part_of(name))
    return f'{head_of(name)}\n\n{doc}\n\nparts.{CALLS[name]} makes:\n\n{network_of(name)}'


def page_of(names: Iterable[str]) -> str:
    """A page in HTML with the text and the picture of parts. Without Graphviz there are no pictures."""
    rows = []
    for name in names:
        rows.append(f'<h2 id="{name}">{name}</h2>\n<pre>{html.escape(head_of(name))}</pre>\n'
                    f'<pre>{html.escape(inspect.getdoc(part_of(name)) or "")}</pre>\n'
                    f'<p><code>parts.{html.escape(CALLS[name])}</code></p>\n'
                    f'{picture_of(network_of(name))}\n'
                    f'<details><summary>Its text</summary><pre>{html.escape(str(network_of(name)))}</pre></details>\n')
    return (f'<!DOCTYPE html>\n<html lang="en"><meta charset="utf-8"><title>Parts</title><style>{STYLE}</style>\n'
            + ''.join(rows) + '</html>\n')


def picture_of(net: Network) -> str:
    """The picture of a network as an element of a page, or nothing."""
    svg = net._repr_svg_() or ''
    return svg[max(0, svg.find('<svg')):]
