"""A page that shows a run: one file of HTML, which needs no network and no server.

Python reads the description and the trace, packs the events, and finds places for the boxes. All that depends on where
a reader stands in the run is computed by the page itself, in `model.js`.
"""
from __future__ import annotations

import base64
import bisect
import hashlib
import json
import os
import pathlib
import re
from typing import Any, Dict, List, Optional, Sequence, Tuple, Union

from ..errors import KpnError
from ..forms import FullReader
from ..language import Description, tokens_of
from ..process import Process
from ..program import Program, call, failure
from .events import Events
from .layout import Layout, Shape, groups_of, lay_out

Path = Union[str, 'os.PathLike[str]']
HERE = pathlib.Path(__file__).parent
SCRIPTS = ('model.js', 'replay.js', 'graph.js', 'time.js', 'panel.js', 'page.js')
# The sizes of boxes, in pixels.
LETTER, HIGH, LEAST, MOST = 7.4, 38.0, 76.0, 210.0
POLICY = ("default-src 'none'; script-src '{script}'; style-src '{style}'; img-src data:; base-uri 'none'; "
          "form-action 'none'")
PAGE = '''<!DOCTYPE html>
<html lang="en">
<head>
<meta charset="utf-8">
<meta http-equiv="Content-Security-Policy" content="{policy}">
<meta name="viewport" content="width=device-width, initial-scale=1">
<title>{title}</title>
<style>{style}</style>
</head>
<body>
{body}
<script type="application/json" id="run">{run}</script>
<script type="text/plain" id="codes">{codes}</script>
<script type="text/plain" id="items">{items}</script>
<script>{script}</script>
</body>
</html>
'''


def page(file: Path, trace: Path, *, steps: Optional[int] = None, program: Program = None, title: Optional[str] = None,
         with_graphviz: bool = True) -> str:
    """The page of a run, whose trace is stored.

    Raises KpnError if `kpn stats` finds that the description is not right or that the trace is not legal.
    """
    stats = stats_of(file, trace, steps, program)
    found = FullReader(pathlib.Path(file).read_bytes().decode('utf-8', 'replace')).description()
    events = Events(trace, [cap for _, _, cap in found.channels]).data()
    shown = title if title is not None else f'{pathlib.Path(file).name}, {pathlib.Path(trace).name}'
    codes, items = events.pop('codes'), events.pop('items')
    run = {'title': shown, **network_of(found), **events, 'stats': stats, 'layout': layout_of(found, with_graphviz)}
    style = (HERE / 'page.css').read_text('utf-8')
    script = '\n'.join((HERE / name).read_text('utf-8') for name in SCRIPTS)
    policy = POLICY.format(script=hash_of(script), style=hash_of(style))
    return PAGE.format(policy=policy, title=escaped(shown), style=style, script=script, codes=codes, items=items,
                       body=(HERE / 'body.html').read_text('utf-8').rstrip(), run=as_json(run))


def as_json(thing: Any) -> str:
    """A thing as JSON that may stand in a page: without the marks that begin a tag, a comment or an entity."""
    text = json.dumps(thing, separators=(',', ':'))
    return text.replace('<', '\\u003c').replace('>', '\\u003e').replace('&', '\\u0026')


def escaped(text: str) -> str:
    """A text as it may stand between tags. What can't be written as UTF-8 becomes `?`."""
    text = text.replace('&', '&amp;').replace('<', '&lt;').replace('>', '&gt;')
    return text.encode('utf-8', 'replace').decode()


def hash_of(text: str) -> str:
    """The name of a script or a style for the policy of the page, under which no other one runs."""
    return 'sha256-' + base64.b64encode(hashlib.sha256(text.encode()).digest()).decode()


# ---- the tables of `kpn stats`

def stats_of(file: Path, trace: Path, steps: Optional[int] = None, program: Program = None) -> Dict[str, Any]:
    """What `kpn stats` writes, read back: the head, the tables and the advice."""
    words = ['stats', os.path.abspath(file), os.path.abspath(trace)]
    done = call([*words, *(['--steps', str(steps)] if steps else [])], program)
    if done.returncode and done.stdout:
        raise KpnError(f'{os.fspath(trace)}: {done.stdout.strip()}')
    if done.returncode:
        raise failure(done)
    head, channels, processes, advice = (done.stdout.split('\n\n') + [''] * 4)[:4]
    return {'head': head.splitlines(), 'channels': table_of(channels), 'processes': table_of(processes),
            'advice': advice.splitlines()}


def table_of(text: str) -> Dict[str, List[Any]]:
    """A table with two or more spaces between entries: its columns, and its rows with numbers as such."""
    columns, *rows = (re.split(r' {2,}', line.strip()) for line in text.splitlines())
    return {'columns': columns, 'rows': [[int(it) if it.isdigit() else it for it in row] for row in rows]}


# ---- the network

def network_of(found: Description) -> Dict[str, Any]:
    """The processes with their texts, the shared tables, the instances, and the channels with their ends."""
    place = {name: number for number, (_, name, _) in enumerate(found.channels)}
    which = {it.name: number for number, it in enumerate(found.processes)}
    writers, readers = [-1] * len(place), [-1] * len(place)
    instances = []
    for number, (name, entry) in enumerate(found.instances):
        ins, outs = [place[it] for it in entry.ins], [place[it] for it in entry.outs]
        for channel in ins:
            readers[channel] = number
        for channel in outs:
            writers[channel] = number
        instances.append({'name': name, 'process': which[entry.process], 'ins': ins, 'outs': outs,
                          'values': [str(it) for it in entry.values]})
    channels = [{'name': name, 'kind': kind, 'cap': cap, 'writer': writers[number], 'reader': readers[number]}
                for number, (kind, name, cap) in enumerate(found.channels)]
    return {'processes': [process_of(it) for it in found.processes], 'tables': [*map(str, found.tables)],
            'instances': instances, 'channels': channels}


def process_of(process: Process) -> Dict[str, Any]:
    """A process: its ports, its text as somebody wrote it, its canonical lines, and where these stand in the text."""
    canonical = str(process)
    lines, starts = canonical.splitlines(), [it.start for it in tokens_of(canonical)]
    ends = {it.start: it.start + len(it.text) for it in tokens_of(process.source, process.language)}
    spans, at = [], 0
    for line in lines:
        first, end = (bisect.bisect_left(starts, it) for it in (at + len(line) - len(line.lstrip()), at + len(line)))
        spans.append((process.places[first], ends[process.places[end - 1]]))
        at += len(line) + 1
    return {'name': process.name, 'ins': process.ins, 'outs': process.outs, 'pars': process.pars,
            'text': process.source, 'lines': lines, 'spans': spans}


# ---- the picture

def layout_of(found: Description, with_graphviz: bool = True) -> Dict[str, Any]:
    """Where the boxes and the channels stand. After the instances come the outside ends of sources and sinks."""
    groups, group_of = groups_of([(name, entry.process) for name, entry in found.instances])
    names = [within(name, groups, group) for (name, _), group in zip(found.instances, group_of)]
    sizes = [(min(MOST, max(LEAST, 24 + LETTER * len(name))), HIGH) for name in names]
    writer = {channel: number for number, (_, entry) in enumerate(found.instances) for channel in entry.outs}
    reader = {channel: number for number, (_, entry) in enumerate(found.instances) for channel in entry.ins}
    edges = []
    for kind, name, _ in found.channels:
        if kind != 'channel':
            (writer if kind == 'source' else reader)[name] = len(sizes)
            sizes.append((58., 26.))
            group_of.append(-1)
        edges.append((writer[name], reader[name]))
    labels = [within(name, groups, group_of[tail] if group_of[tail] == group_of[head] else -1)
              for (_, name, _), (tail, head) in zip(found.channels, edges)]
    layout = lay_out(Shape(sizes, edges, labels, groups, group_of), with_graphviz)
    return {**as_data(layout, groups), 'names': names, 'channels': labels}


def within(name: str, groups: Sequence[Tuple[str, int]], group: int) -> str:
    """A name as it is shown within a group: without what the group is called."""
    start = f'{groups[group][0]}_' if group >= 0 else ''
    return name[len(start):] if name.startswith(start) else name


def as_data(layout: Layout, groups: Sequence[Tuple[str, int]]) -> Dict[str, Any]:
    """A layout as JSON can hold it, to a tenth of a pixel."""
    def short(numbers: Sequence[float]) -> List[float]:
        return [round(it, 1) for it in numbers]
    return {'size': short([layout.width, layout.height]), 'nodes': [short(it) for it in layout.nodes], 'by': layout.by,
            'letters': layout.letters,
            'edges': [short([it for point in edge for it in point]) for edge in layout.edges],
            'labels': [None if it is None else short(it) for it in layout.labels],
            'groups': [{'name': name, 'box': short(box)} for (name, _), box in zip(groups, layout.groups)]}
