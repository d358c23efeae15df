"""Parts that follow how loud a signal is, and make it louder or less loud."""
from __future__ import annotations

from typing import Tuple, cast

from ..errors import whole
from ..process import Process, Stream
from .wiring import need

# Follows |x| with 16 bits after the point; v is it without them.
FOLLOW = '''
    read i x;
    if (x < 0) { v = -x; } else { v = x; }
    v = (v * 65536);
    if (v > level) { level = (level + ((v - level) / attack)); } else { level = (level + ((v - level) / release)); }
    v = (level / 65536);
'''
ROUND = '''
    if (x < 0) { x = ((x - (d / 2)) / d); } else { x = ((x + (d / 2)) / d); }
    write o x;
'''
LEVEL = Process.from_text(f'process level(in i; out o; par attack, release) {{ level = 0; while 1 {{ {FOLLOW} '
                          'write o v; } }')
COMPRESSOR = Process.from_text(f'''
process compressor(in i; out o; par threshold, ratio, attack, release) {{
  level = 0;
  while 1 {{
    {FOLLOW}
    if (v > threshold) {{
      d = (v * ratio);
      x = (x * ((threshold * (ratio - 1)) + v));
      {ROUND}
    }} else {{ write o x; }}
  }}
}}''')
AGC = Process.from_text(f'''
process agc(in i; out o; par target, most, attack, release) {{
  level = 0;
  while 1 {{
    {FOLLOW}
    if ((v * most) <= target) {{ write o (x * most); }} else {{ x = (x * target); d = v; {ROUND} }}
  }}
}}''')


def level(stream: Stream, attack: int, release: int) -> Stream:
    """How loud the stream is: it rises to a larger |x| by a part `1 / attack` an item, and falls by `1 / release`.

    Both are 1 to 65536: a number of items, as fs times the seconds. Then it is within 1 of a level that stays.
    Rates: one out for one in. Faults: overflow, for items of 2^47 or more. Source: two leaky integrators.
    """
    return cast(Stream, LEVEL(stream, *times(attack, release)))


def times(attack: int, release: int) -> Tuple[int, int]:
    """The numbers of items for a level to follow."""
    return whole('the attack', attack, 1, 65536), whole('the release', release, 1, 65536)


def compressor(stream: Stream, threshold: int, ratio: int, attack: int, release: int) -> Stream:
    """Above a threshold, 0 or more, the level that comes out grows by only `1 / ratio` of the level that comes in.

    So level v becomes threshold + (v - threshold) / ratio, and each item is multiplied by the quotient of the two. The
    level is that of `level`; the ratio is 1 to 65536. A large one with attack 1 is a limiter.
    Rates: one out for one in. Faults: overflow, for items and thresholds whose product with the ratio and the largest
    item is near 2^63. Source: a feed-forward compressor that is linear in the height, and not in decibels.
    """
    threshold, ratio = whole('the threshold', threshold), whole('the ratio', ratio, 1, 65536)
    return cast(Stream, COMPRESSOR(stream, threshold, ratio, *times(attack, release)))


def agc(stream: Stream, target: int, most: int, attack: int, release: int) -> Stream:
    """Brings the level to a target, 1 or more, by a gain of at most `most`, 1 or more. The level is that of `level`.

    Rates: one out for one in. Faults: overflow, for items whose product with the target or with `most` is near 2^63.
    Source: a feed-forward gain of target / level.
    """
    target, most = whole('the target', target, 1), whole('the largest gain', most, 1)
    need(most * target < 2**62, 'the target times the largest gain has to be less than 2^62')
    return cast(Stream, AGC(stream, target, most, *times(attack, release)))
