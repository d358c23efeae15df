"""Ready parts of networks. Each takes streams and gives streams. Its text says at which rates, and with which faults.

A part is a Python function, so a loop over parts is an array, and a function that calls parts is a part. Each of them
raises KpnError for a stream that has a reader already, for a number that is not in the range that its text tells, and
for other words and numbers of streams than it tells. What is no stream or no whole number raises TypeError.

The items before the first are 0. Every filter gives the sum for an item at once: the delay of a part is what its
formula says, and one of frames waits for what it needs of a frame.
"""
from .arithmetic import add, gain, multiply, offset, pointwise, saturate, scale, subtract, sum_of, wrap
from .blocks import (bitonic_sort, dct, dct_blocks, dequantize, from_blocks, linear, matrix_product, permute, quantize,
                     sort_streams, to_blocks, transpose, zigzag)
from .codes import exp_golomb, exp_golomb_decode, huffman, huffman_decode, pack_bits, unpack_bits
from .control import pid, two_tanks
from .filters import biquad, cic, fft
from .levels import agc, compressor, level
from .radio import am_demodulate, complex_multiply, fm_demodulate, mix, nco, oscillator, polar
from .recursive import butterworth, cascade, dc_block, deemphasis, iir, notch, second_order
from .windows import decimate, fir, interpolate, moving_sum, polyphase
from .wiring import (constant, control, count, deal, delay, downsample, drop, fork, hold, merge, run_length_decode,
                     run_length_encode, select, switch, upsample, zip_streams)

__all__ = ['add', 'agc', 'am_demodulate', 'biquad', 'bitonic_sort', 'butterworth', 'cascade', 'cic', 'complex_multiply',
           'compressor', 'constant', 'control', 'count', 'dc_block', 'dct', 'dct_blocks', 'deal', 'decimate',
           'deemphasis', 'delay', 'dequantize', 'downsample', 'drop', 'exp_golomb', 'exp_golomb_decode', 'fft', 'fir',
           'fm_demodulate', 'fork', 'from_blocks', 'gain', 'hold', 'huffman', 'huffman_decode', 'iir', 'interpolate',
           'level', 'linear', 'matrix_product', 'merge', 'mix', 'moving_sum', 'multiply', 'nco', 'notch', 'offset',
           'oscillator', 'pack_bits', 'permute', 'pid', 'pointwise', 'polar', 'polyphase', 'quantize',
           'run_length_decode', 'run_length_encode', 'saturate', 'scale', 'second_order', 'select', 'sort_streams',
           'subtract', 'sum_of', 'switch', 'to_blocks', 'transpose', 'two_tanks', 'unpack_bits', 'upsample', 'wrap',
           'zigzag', 'zip_streams']
