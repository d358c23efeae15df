"""Where the boxes of a graph stand: by Graphviz if it is there, and else in layers."""
from __future__ import annotations

import json
import re
import subprocess
from typing import Any, Dict, Iterable, List, NamedTuple, Optional, Sequence, Tuple

Point = Tuple[float, float]
# The most seconds that Graphviz may take, and the most channels whose names it finds room for.
DRAWING, MOST_LABELS = 15, 150
# How wide a letter of a channel's name is, and the most letters for which layers stand apart.
SMALL_LETTER, MOST_LETTERS = 6.2, 18
# A graph that is more times as wide as high is folded, if it is wider than a screen.
WIDEST, SCREEN = 4.0, 1400.0
GAP_X, GAP_Y, MARGIN, HEAD = 56.0, 18.0, 14.0, 18.0
# How many letters the names of channels have, where there is no room for more.
FEW_LETTERS = 10
NUMBERED = re.compile(r'_[0-9]+$')


class Box(NamedTuple):
    """A box: its middle and its size."""

    x: float
    y: float
    width: float
    height: float


class Shape(NamedTuple):
    """What is drawn: nodes with sizes, edges by numbers of nodes with their labels, and the group of each node.

    A group is a number of `groups`, each with its name and the group around it; -1 is none.
    """

    sizes: List[Tuple[float, float]]
    edges: List[Tuple[int, int]]
    labels: List[str]
    groups: List[Tuple[str, int]]
    group_of: List[int]


class Layout(NamedTuple):
    """Where all stands. An edge is the points of a curve, 1 + 3 n of them."""

    width: float
    height: float
    nodes: List[Box]
    edges: List[List[Point]]
    labels: List[Optional[Point]]
    groups: List[Box]
    letters: int
    by: str


# ---- groups by the names that `net.scope` gives

def scope_of(instance: str, process: str) -> str:
    """The scope in the name of an instance: `left` of `left_add_2`, if its process is `add`. Empty if it has none."""
    for name in {process, NUMBERED.sub('', process)}:
        for whole in (instance, NUMBERED.sub('', instance)):
            if whole.endswith(f'_{name}'):
                return whole[:-len(name) - 1]
    return ''


def groups_of(names: Sequence[Tuple[str, str]]) -> Tuple[List[Tuple[str, int]], List[int]]:
    """The groups of instances, given with their processes, and the group of each. A group has two or more things."""
    scopes = [scope_of(*name) for name in names]
    within: Dict[str, int] = {}
    for scope in scopes:
        for part in parts_of(scope):
            within[part] = within.get(part, 0) + 1
    # A part of a scope is one too if it is a scope of its own, or if it is the same of scopes that differ.
    starts: Dict[str, set[str]] = {}
    for scope in set(scopes):
        for part in parts_of(scope):
            starts.setdefault(part, set()).add(scope)
    kept = [it for it in sorted(within) if within[it] > 1 and (it in scopes or len(starts[it]) > 1)]
    place = {scope: number for number, scope in enumerate(kept)}

    def innermost(parts: Iterable[str]) -> int:
        return max((place[it] for it in parts if it in place), key=lambda it: len(kept[it]), default=-1)
    return ([(scope, innermost(list(parts_of(scope))[:-1])) for scope in kept],
            [innermost(parts_of(scope)) for scope in scopes])


def parts_of(scope: str) -> Iterable[str]:
    """`a_b_c` gives `a`, `a_b` and `a_b_c`."""
    words = scope.split('_') if scope else []
    return ('_'.join(words[:count]) for count in range(1, len(words) + 1))


# ---- by Graphviz

def lay_out(shape: Shape, with_graphviz: bool = True) -> Layout:
    """Where all stands. A graph that is high goes from top to bottom if it is larger on a screen then. One that is too
    wide is laid out in layers and folded."""
    found = by_graphviz(shape, 'LR') if with_graphviz and shape.sizes else None
    if found and found.height > found.width:
        other = by_graphviz(shape, 'TB')
        found = min((it for it in (found, other) if it), key=lambda it: max(it.width / 2.2, it.height))
    if found and found.width <= WIDEST * max(found.height, 400):
        return found
    return in_layers(shape)


def by_graphviz(shape: Shape, way: str) -> Optional[Layout]:
    """The layout that Graphviz makes; None if it is not there, or makes none."""
    try:
        done = subprocess.run(['dot', '-Tjson0'], input=dot_of(shape, way), capture_output=True, text=True,
                              timeout=DRAWING)
        return read_dot(shape, json.loads(done.stdout)) if done.returncode == 0 else None
    except (OSError, subprocess.TimeoutExpired, ValueError, KeyError):
        return None


def dot_of(shape: Shape, way: str) -> str:
    """The graph in the language of Graphviz, by numbers alone. The way is LR or TB."""
    has_labels = len(shape.edges) <= MOST_LABELS
    apart = .45 if has_labels else SMALL_LETTER * (FEW_LETTERS + 6) / 72
    lines = ['digraph {', f'rankdir={way}; nodesep=.22; ranksep={apart:.2f};',
             'node [shape=box, fixedsize=true, label=""]; edge [fontsize=10, fontname="sans-serif"];',
             *cluster(shape, -1)]
    for number, (tail, head) in enumerate(shape.edges):
        # `x` stands for the letters of a name, so that nothing in it can mean something. Below it is a gauge.
        label = f', label="{"x" * (5 + len(shape.labels[number]))}\\nx"' if has_labels else ''
        lines.append(f'n{tail} -> n{head} [id=e{number}{label}];')
    return '\n'.join([*lines, '}', ''])


def cluster(shape: Shape, group: int) -> List[str]:
    """The nodes of a group, and the groups in it."""
    lines = []
    for number, (wide, high) in enumerate(shape.sizes):
        if shape.group_of[number] == group:
            lines.append(f'n{number} [width={wide / 72:.4f}, height={high / 72:.4f}];')
    for number, (_, around) in enumerate(shape.groups):
        if around == group:
            lines += [f'subgraph cluster_{number} {{ label="x"; fontsize=10; margin=6;', *cluster(shape, number), '}']
    return lines


def read_dot(shape: Shape, told: Dict[str, Any]) -> Layout:
    """What Graphviz has told, with y downwards."""
    _, _, wide, high = (float(it) for it in told['bb'].split(','))
    nodes: List[Box] = [Box(0, 0, 0, 0)] * len(shape.sizes)
    groups: List[Box] = [Box(0, 0, 0, 0)] * len(shape.groups)
    for thing in told.get('objects', []):
        if thing['name'].startswith('cluster_'):
            left, low, right, top = (float(it) for it in thing['bb'].split(','))
            groups[int(thing['name'][8:])] = Box((left + right) / 2, high - (low + top) / 2, right - left, top - low)
        else:
            number = int(thing['name'][1:])
            x, y = (float(it) for it in thing['pos'].split(','))
            nodes[number] = Box(x, high - y, *shape.sizes[number])
    edges: List[List[Point]] = [[] for _ in shape.edges]
    labels: List[Optional[Point]] = [None] * len(shape.edges)
    for edge in told.get('edges', []):
        number = int(edge['id'][1:])
        edges[number] = curve_of(edge['pos'], high)
        if 'lp' in edge:
            x, y = (float(it) for it in edge['lp'].split(','))
            labels[number] = x, high - y
    letters = 99 if len(edges) <= MOST_LABELS else FEW_LETTERS
    return Layout(wide, high, nodes, edges, labels, groups, letters, 'graphviz')


def curve_of(told: str, high: float) -> List[Point]:
    """The points of a curve, from its tail to the tip of its arrow."""
    points, tip = [], None
    for word in told.split():
        x, y = (float(it) for it in word.split(',')[-2:])
        if word.startswith('e,'):
            tip = x, high - y
        elif not word.startswith('s,'):
            points.append((x, high - y))
    if tip:
        points += [points[-1], tip, tip]
    return points


# ---- in layers

class Frame:
    """A layout in layers of one group: its own nodes, and the groups in it as if they were nodes."""

    def __init__(self, shape: Shape, group: int):
        self.shape, self.group = shape, group
        self.width: float
        self.height: float
        self.frames = [Frame(shape, it) for it, (_, around) in enumerate(shape.groups) if around == group]
        self.own = [it for it, its in enumerate(shape.group_of) if its == group]
        self.sizes = [*(shape.sizes[it] for it in self.own), *((it.width, it.height) for it in self.frames)]
        place: Dict[int, int] = {it: number for number, it in enumerate(self.own)}
        for number, frame in enumerate(self.frames, len(self.own)):
            place.update(dict.fromkeys(frame.all(), number))
        edges = [(place[a], place[b]) for a, b in shape.edges if a in place and b in place and place[a] != place[b]]
        self.corners, self.width, self.height = placed(self.sizes, edges, gap_of(shape), group < 0)
        if group >= 0:
            self.corners = [(x + MARGIN, y + MARGIN + HEAD) for x, y in self.corners]
            self.width, self.height = self.width + 2 * MARGIN, self.height + 2 * MARGIN + HEAD

    def all(self) -> List[int]:
        """All nodes in it, at any depth."""
        return [*self.own, *(node for frame in self.frames for node in frame.all())]

    def put(self, x: float, y: float, nodes: Dict[int, Box], groups: Dict[int, Box]) -> None:
        """Says where its nodes and groups stand, if its corner is at this place."""
        if self.group >= 0:
            groups[self.group] = Box(x + self.width / 2, y + self.height / 2, self.width, self.height)
        for number, (left, top) in enumerate(self.corners):
            wide, high = self.sizes[number]
            if number < len(self.own):
                nodes[self.own[number]] = Box(x + left + wide / 2, y + top + high / 2, wide, high)
            else:
                self.frames[number - len(self.own)].put(x + left, y + top, nodes, groups)


def in_layers(shape: Shape) -> Layout:
    """A layout in layers, group by group."""
    top = Frame(shape, -1)
    nodes: Dict[int, Box] = {}
    groups: Dict[int, Box] = {}
    top.put(MARGIN, MARGIN, nodes, groups)
    boxes = [nodes[it] for it in range(len(shape.sizes))]
    outs: List[List[int]] = [[] for _ in boxes]
    ins: List[List[int]] = [[] for _ in boxes]
    for number, (tail, head) in enumerate(shape.edges):
        outs[tail].append(number)
        ins[head].append(number)
    for lists, other in ((outs, 1), (ins, 0)):
        for edges in lists:
            edges.sort(key=lambda it: (boxes[shape.edges[it][other]].y, it))
    curves = []
    for number, (tail, head) in enumerate(shape.edges):
        out, into = ((edges.index(number) + 1) / (len(edges) + 1) for edges in (outs[tail], ins[head]))
        curves.append(curve(boxes[tail], boxes[head], out, into, 1.5 * gap_of(shape)))
    return Layout(top.width + 2 * MARGIN, top.height + 2 * MARGIN, boxes, curves, label_places(shape, curves),
                  [groups[it] for it in range(len(shape.groups))], letters_of(shape), 'layers')


def label_places(shape: Shape, curves: Sequence[Sequence[Point]]) -> List[Optional[Point]]:
    """The middles of curves. Of several ones between the same boxes each has another share of its way."""
    twins: Dict[Tuple[int, int], List[int]] = {}
    for number, edge in enumerate(shape.edges):
        twins.setdefault(edge, []).append(number)
    places: List[Optional[Point]] = []
    for number, edge in enumerate(shape.edges):
        share = (twins[edge].index(number) + 1) / (len(twins[edge]) + 1)
        rest, points = 1 - share, curves[number]
        weights = rest**3, 3 * rest**2 * share, 3 * rest * share**2, share**3
        x, y = (sum(weight * point[axis] for weight, point in zip(weights, points)) for axis in (0, 1))
        places.append((x, y))
    return places


def letters_of(shape: Shape) -> int:
    """How many letters of most names of channels there is room for."""
    lengths = sorted(map(len, shape.labels)) or [0]
    return max(4, min(MOST_LETTERS, lengths[int(.9 * (len(lengths) - 1))]))


def gap_of(shape: Shape) -> float:
    """How far apart layers stand: there is room for a name and a number."""
    return max(GAP_X, SMALL_LETTER * (letters_of(shape) + 5))


def curve(tail: Box, head: Box, out: float, into: float, far: float) -> List[Point]:
    """A curve from a box to another one, at these shares of their sides. What is far has a box between."""
    y1, y2 = tail.y + (out - .5) * tail.height, head.y + (into - .5) * head.height
    right, left = tail.x + tail.width / 2, head.x - head.width / 2
    if tail == head:
        top = tail.y - tail.height / 2
        return [(right, y1), (right + 26, top - 16), (left - 26, top - 16), (left, y2)]
    if right <= left:
        reach = max(24., (left - right) / 2)
        return [(right, y1), (right + reach, y1), (left - reach, y2), (left, y2)]
    if head.x + head.width / 2 <= tail.x - tail.width / 2:
        # It leads back: from the left side to the right one, in a bow if both stand at one height.
        start, end = tail.x - tail.width / 2, head.x + head.width / 2
        bow = 40. if abs(tail.y - head.y) < 4 and start - end > far else 0.
        reach = max(24., (start - end) / 2)
        return [(start, y1), (start - reach, y1 + bow), (end + reach, y2 + bow), (end, y2)]
    down = 1 if head.y > tail.y else -1
    x1, x2 = tail.x + (out - .5) * tail.width, head.x + (into - .5) * head.width
    start, end = tail.y + down * tail.height / 2, head.y - down * head.height / 2
    return [(x1, start), (x1, (start + end) / 2), (x2, (start + end) / 2), (x2, end)]


def placed(sizes: Sequence[Tuple[float, float]], edges: Sequence[Tuple[int, int]], gap: float,
           folds: bool) -> Tuple[List[Point], float, float]:
    """The corners of boxes in layers, and the size of all. With `folds` layers that go too far go back below."""
    layers = ordered(layers_of(len(sizes), edges), edges)
    widths = [max(sizes[it][0] for it in layer) for layer in layers]
    heights = [sum(sizes[it][1] + GAP_Y for it in layer) - GAP_Y for layer in layers]
    whole, high = sum(widths) + gap * len(layers), max(heights, default=0.)
    corners: List[Point] = [(0., 0.)] * len(sizes)
    x, top, band, far = 0., 0., 0, whole / (bands_of(whole, high) if folds else 1)
    first, right = 0, 0.
    for number, layer in enumerate(layers):
        if x + widths[number] > far * 1.05 + max(widths) and number > first:
            x, top, band, first = 0., top + high + 3 * GAP_Y, band + 1, number
        y = top + (high - heights[number]) / 2
        for node in layer:
            corners[node] = x + (widths[number] - sizes[node][0]) / 2, y
            y += sizes[node][1] + GAP_Y
        x += widths[number] + gap
        right = max(right, x - gap)
    if band:
        turned(corners, sizes, top / band, right)
    return corners, right, top + high


def bands_of(whole: float, high: float) -> int:
    """In how many bands layers stand that are so wide and high together: one, if a screen shows them well so."""
    bands = 1
    while whole > max(SCREEN, WIDEST * high) and whole > 2.2 * bands**2 * (high + 3 * GAP_Y):
        bands += 1
    return bands


def turned(corners: List[Point], sizes: Sequence[Tuple[float, float]], step: float, right: float) -> None:
    """Lets each second band of layers go from right to left, so that what follows is near."""
    for node, (x, y) in enumerate(corners):
        if int((y + .001) // step) % 2:
            corners[node] = right - x - sizes[node][0], y


def layers_of(count: int, edges: Sequence[Tuple[int, int]]) -> List[List[int]]:
    """The nodes by the longest way to them, where edges that lead back into a way count nothing."""
    after: List[List[int]] = [[] for _ in range(count)]
    before = [0] * count
    for tail, head in edges:
        after[tail].append(head)
        before[head] += 1
    depth, state = [0] * count, [0] * count
    finished: List[int] = []
    forward: List[Tuple[int, int]] = []
    for start in sorted(range(count), key=lambda it: (before[it] > 0, it)):
        stack = [(start, iter(after[start]))] if not state[start] else []
        state[start] = state[start] or 1
        while stack:
            node, others = stack[-1]
            other = next(others, None)
            if other is None:
                stack.pop()
                state[node] = 2
                finished.append(node)
                continue
            if state[other] != 1:
                forward.append((node, other))
            if not state[other]:
                state[other] = 1
                stack.append((other, iter(after[other])))
    heads: List[List[int]] = [[] for _ in range(count)]
    for tail, head in forward:
        heads[tail].append(head)
    for node in reversed(finished):
        for head in heads[node]:
            depth[head] = max(depth[head], depth[node] + 1)
    layers: List[List[int]] = [[] for _ in range(max(depth, default=-1) + 1)]
    for node in range(count):
        layers[depth[node]].append(node)
    return layers


def ordered(layers: List[List[int]], edges: Sequence[Tuple[int, int]]) -> List[List[int]]:
    """The layers with their nodes near to what they are joined with."""
    near: Dict[int, List[int]] = {}
    for tail, head in edges:
        near.setdefault(tail, []).append(head)
        near.setdefault(head, []).append(tail)
    place = {node: number - len(layer) / 2 for layer in layers for number, node in enumerate(layer)}
    for sweep in range(6):
        for layer in layers if sweep % 2 == 0 else reversed(layers):
            want = {node: sum(place[it] for it in near.get(node, [node])) / len(near.get(node, [node]))
                    for node in layer}
            layer.sort(key=lambda node: (want[node], node))
            place.update({node: number - len(layer) / 2 for number, node in enumerate(layer)})
    return layers
