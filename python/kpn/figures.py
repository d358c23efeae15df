"""Figures in SVG of any length: bars in time, and curves."""
from __future__ import annotations

import html
from typing import Dict, List, NamedTuple, Sequence, Tuple

STYLE = '''<style>
text{font:12px sans-serif;fill:#222}
.name{text-anchor:end}
.mark,.inner{font-size:10px;text-anchor:middle;fill:#555}
.row{fill:#f4f4f4}
.tick{stroke:#ddd}
.period{stroke:#d55e00;stroke-dasharray:4 3}
.even,.get{fill:#56b4e9}
.odd,.put{fill:#0072b2}
.empty{fill:#d9d9d9}
.full{fill:#d55e00}
.grow{fill:#222}
.curve{fill:none;stroke:#0072b2;stroke-width:2}
.point{fill:#d55e00}
.inner.odd,.inner.put,.inner.full{fill:#fff}
.inner.even,.inner.get,.inner.empty{fill:#222}
</style>
<rect width="100%" height="100%" fill="#fff"/>
'''
ROW, TOP, WIDTH = 32, 40, 1_000
LETTER = 7
# Where in its row a bar of a kind lies, and how high it is: gets above puts, so that both are seen in a long picture.
LANES = {'get': (6, 10), 'put': (16, 10)}
LANE = 6, 20


class Bar(NamedTuple):
    """A bar in a row, from a time to another one: its class, its text if there is room, and its title."""

    row: int
    start: float
    end: float
    kind: str
    text: str
    title: str


def head_of(width: float, height: float) -> str:
    """The first lines of a picture."""
    return (f'<svg xmlns="http://www.w3.org/2000/svg" width="{width:g}" height="{height:g}" '
            f'viewBox="0 0 {width:g} {height:g}">\n{STYLE}')


def step_of(length: float, most: int = 20) -> float:
    """The distance of marks on an axis of this length: 1, 2 or 5 times a power of 10, with at most `most` marks."""
    step = 1.0 if length >= 1 else 1e-12
    while True:
        for factor in (1, 2, 5):
            if length <= most * step * factor:
                return step * factor
        step *= 10


def bars_svg(names: Sequence[str], bars: Sequence[Bar], last: float, first: float = 0, marks: Sequence[float] = (),
             legend: Sequence[Tuple[str, str]] = ()) -> str:
    """Rows of bars from a first to a last time. Bars of a kind that are less than half a pixel wide are drawn as one
    where they meet, so a long picture stays small. Marks are dashed lines, and a legend names kinds."""
    length = max(last - first, 1)
    left, scale = 24 + LETTER * max(map(len, names), default=0), min(WIDTH / length, 44)
    bottom = TOP + ROW * len(names)

    def at(when: float) -> float:
        return left + scale * (min(max(when, first), last) - first)

    wide = max(at(last) + 24, 12 + 150 * len(legend))
    parts = [head_of(wide, bottom + 16 + 24 * bool(legend))]
    for row, name in enumerate(names):
        y = TOP + ROW * row
        parts.append(f'<rect class="row" x="{left}" y="{y + 2}" width="{scale * length:g}" height="28"/>\n'
                     f'<text class="name" x="{left - 8}" y="{y + 20}">{html.escape(name)}</text>\n')
    step = int(step_of(length))
    for when in range(-int(-first // step) * step, int(last) + 1, step):
        parts.append(f'<path class="tick" d="M{at(when):g} 36V{bottom}"/>\n'
                     f'<text class="mark" x="{at(when):g}" y="32">{when}</text>\n')
    for bar in merged([it for it in bars if it.end >= first and it.start <= last], 0.5 / scale):
        parts.append(drawn(bar, at(bar.start), at(bar.end) - at(bar.start)))
    parts += [f'<path class="period" d="M{at(it):g} 36V{bottom}"/>\n' for it in marks if first <= it <= last]
    for number, (kind, words) in enumerate(legend):
        x = 12 + 150 * number
        parts.append(f'<rect class="{kind}" x="{x}" y="{bottom + 12}" width="16" height="16"/>'
                     f'<text x="{x + 22}" y="{bottom + 24}">{words}</text>\n')
    return ''.join([*parts, '</svg>\n'])


def drawn(bar: Bar, x: float, wide: float) -> str:
    """A bar, with its text if it is wide enough."""
    down, high = LANES.get(bar.kind, LANE)
    y, least = TOP + ROW * bar.row + down, 1.5 if bar.start == bar.end else 0.1
    told = (f'<rect class="{bar.kind}" x="{x:g}" y="{y}" width="{max(wide, least):g}" height="{high}" '
            + 'stroke="#fff" stroke-width=".5"' * (wide > 4)
            + f'><title>{html.escape(bar.title)}</title></rect>\n')
    if 6 * len(bar.text) + 2 <= wide and bar.text:
        told += (f'<text class="inner {bar.kind}" x="{x + wide / 2:g}" y="{y + high / 2 + 4:g}">'
                 f'{html.escape(bar.text)}</text>\n')
    return told


def merged(bars: Sequence[Bar], narrow: float) -> List[Bar]:
    """The bars, but narrow ones of a row and of a kind that meet, or nearly do, as one."""
    found: List[Bar] = []
    open_bars: Dict[Tuple[int, str], int] = {}
    for bar in bars:
        key = bar.row, bar.kind
        before = open_bars.get(key)
        if bar.end - bar.start < narrow and before is not None and bar.start - found[before].end < narrow:
            found[before] = found[before]._replace(end=max(bar.end, found[before].end), text='', title='several')
            continue
        if bar.end - bar.start < narrow:
            open_bars[key] = len(found)
        found.append(bar)
    return found


def curve_svg(points: Sequence[Tuple[float, float, str]], right: str, up: str) -> str:
    """Points that a stair joins, with the words of both axes. A point has a title."""
    left, width, height = 90, 560, 320
    low, high = min((it[0] for it in points), default=0), max((it[0] for it in points), default=1)
    margin = max((high - low) * 0.05, 1)
    low, high, top = low - margin, high + margin, max((it[1] for it in points), default=1) * 1.1

    def across(x: float) -> float:
        return left + width * (x - low) / (high - low)

    def down(y: float) -> float:
        return 20 + height * (1 - y / top)

    parts = [head_of(left + width + 24, height + 70)]
    step = max(step_of(high - low, 10), 1)
    for number in range(int(-(-low // step)), int(high // step) + 1):
        x = across(number * step)
        parts.append(f'<path class="tick" d="M{x:g} 20V{20 + height}"/>\n'
                     f'<text class="mark" x="{x:g}" y="{36 + height}">{number * step:g}</text>\n')
    step = step_of(top, 8)
    for number in range(int(top // step) + 1):
        y = down(number * step)
        parts.append(f'<path class="tick" d="M{left} {y:g}H{left + width}"/>\n'
                     f'<text class="name" x="{left - 6}" y="{y + 4:g}">{number * step:.3g}</text>\n')
    stair = ''.join(f'H{across(x):g}V{down(y):g}' for x, y, _ in points)
    if points:
        parts.append(f'<path class="curve" d="M{across(points[0][0]):g} {down(0):g}{stair}H{left + width}"/>\n')
    parts += [f'<circle class="point" cx="{across(x):g}" cy="{down(y):g}" r="4"><title>{html.escape(title)}</title>'
              '</circle>\n' for x, y, title in points]
    parts.append(f'<text x="{left + width / 2:g}" y="{height + 58}" text-anchor="middle">{html.escape(right)}</text>\n'
                 f'<text x="12" y="14">{html.escape(up)}</text>\n')
    return ''.join([*parts, '</svg>\n'])
