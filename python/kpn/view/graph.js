'use strict';
// The network as a picture, which follows the cursor.

const MARKS = {ready: '\u00b7 ready', get: '\u25b2 gets ', put: '\u25bc puts ', empty: '\u25cb waits ',
  full: '\u25a0 waits ', done: '\u2713 done', ...Object.fromEntries(FAULTS.map(word => [word, `\u2717 ${word}`]))};
const GAUGE = 34;

// An element of SVG or, without a name space, of HTML.
function svg(name, attributes = {}, ...children) {
  const element = document.createElementNS('http://www.w3.org/2000/svg', name);
  for (const [key, value] of Object.entries(attributes)) element.setAttribute(key, value);
  element.append(...children);
  return element;
}

// A text of at most this many letters.
const short = (text, most) => text.length <= most ? text : text.slice(0, most - 1) + '\u2026';

// The middle of a curve of 1 + 3 n points.
function middleOf(points) {
  const pieces = (points.length / 2 - 1) / 3, piece = Math.floor(pieces / 2);
  const at = k => [points[6 * piece + 2 * k], points[6 * piece + 2 * k + 1]];
  if (pieces % 2 === 0) return at(0);
  const [a, b, c, d] = [at(0), at(1), at(2), at(3)];
  return [0, 1].map(it => (a[it] + 3 * b[it] + 3 * c[it] + d[it]) / 8);
}

class Graph {
  constructor(app) {
    this.app = app;
    this.svg = document.querySelector('#graph svg');
    this.root = svg('g');
    const arrow = svg('marker', {id: 'arrow', viewBox: '0 0 8 8', refX: 7, refY: 4, markerWidth: 8, markerHeight: 8,
      markerUnits: 'userSpaceOnUse', orient: 'auto'}, svg('path', {d: 'M0 0L8 4L0 8z'}));
    this.svg.append(svg('defs', {}, arrow), this.root);
    this.draw();
    this.listen();
    this.fit();
  }

  draw() {
    const {run} = this.app, {layout} = run;
    for (const {name, box: [x, y, wide, high]} of layout.groups) {
      this.root.append(svg('g', {class: 'group'},
        svg('rect', {x: x - wide / 2, y: y - high / 2, width: wide, height: high, rx: 6}),
        svg('text', {x: x - wide / 2 + 6, y: y - high / 2 + 13}, name)));
    }
    this.edges = run.channels.map((_, c) => this.edge(c));
    this.nodes = run.instances.map((_, p) => this.node(p));
    let place = run.instances.length;
    for (const channel of run.channels) {
      if (channel.kind !== 'channel') this.outside(channel, layout.nodes[place++]);
    }
  }

  edge(c) {
    const {layout} = this.app.run, points = layout.edges[c];
    const [x, y] = layout.labels[c] || middleOf(points);
    const d = `M${points[0]} ${points[1]}C${points.slice(2).join(' ')}`;
    const level = svg('rect', {class: 'level', x: x - GAUGE / 2, y: y + 2, width: 0, height: 5});
    const text = svg('text', {x, y: y - 1});
    const line = svg('path', {d, 'marker-end': 'url(#arrow)'});
    const group = svg('g', {class: 'edge', tabindex: 0}, line, svg('path', {d, class: 'hit'}),
      svg('rect', {class: 'gauge', x: x - GAUGE / 2, y: y + 2, width: GAUGE, height: 5}), level, text);
    this.choosable(group, 'channel', c);
    this.root.append(group);
    const most = entryOf(this.app.run, 'channels', c, 'most');
    return {group, level, text, name: short(layout.channels[c], layout.letters), most, shown: ''};
  }

  node(p) {
    const {nodes, names} = this.app.run.layout, [x, y, wide, high] = nodes[p];
    const state = svg('text', {class: 'state', x, y: y + 12});
    const shownName = short(names[p], Math.floor((wide - 8) / 7)), name = svg('text', {class: 'name', x}, shownName);
    // From afar the name is all of the box, and somewhat more.
    const large = Math.max(12, Math.min(28, 2.5 * (wide - 4) / shownName.length));
    const group = svg('g', {class: 'node', tabindex: 0},
      svg('rect', {x: x - wide / 2, y: y - high / 2, width: wide, height: high, rx: 5}),
      name, state);
    this.choosable(group, 'process', p);
    this.root.append(group);
    return {group, state, name, large, y, letters: Math.floor((wide - 6) / 5.8), shown: ''};
  }

  outside({kind}, [x, y, wide, high]) {
    this.root.append(svg('g', {class: 'node outside'},
      svg('rect', {x: x - wide / 2, y: y - high / 2, width: wide, height: high}),
      svg('text', {x, y: y + 4}, kind)));
  }

  choosable(group, kind, number) {
    const choose = () => this.app.choose(kind, number);
    group.addEventListener('click', () => { if (!this.isDragged) choose(); });
    group.addEventListener('keydown', event => {
      if (event.key !== 'Enter') return;
      choose();
      event.stopPropagation();
    });
    group.addEventListener('mousemove', event => this.app.hint(event, this.app.sentence(kind, number)));
    group.addEventListener('mouseleave', () => this.app.hint());
  }

  show({channels, processes, cycle}) {
    const {run, chosen} = this.app;
    const ring = {process: new Set(cycle.map(it => it.process)), channel: new Set(cycle.map(it => it.channel))};
    const moved = new Set(processes.filter(it => it.word === 'get' || it.word === 'put').map(it => it.channel));
    const awaited = new Set(processes.filter(it => it.word === 'full').map(it => it.channel));
    const marks = (kind, number) => (ring[kind].has(number) ? ' ring' : '')
      + (chosen && chosen.kind === kind && chosen.number === number ? ' chosen' : '');
    this.nodes.forEach((node, p) => this.showNode(node, processes[p], marks('process', p)));
    this.edges.forEach((edge, c) => {
      const {left, cap} = channels[c], isFull = cap !== null && left >= cap;
      const words = (isFull ? ' fullnow' : '') + (awaited.has(c) ? ' awaited' : '') + (moved.has(c) ? ' moved' : '');
      this.showEdge(edge, channels[c], words + marks('channel', c));
    });
    const told = document.getElementById('cycle');
    const waits = cycle.map(it => `${run.instances[it.process].name} waits on ${run.channels[it.channel].name}`
      + (it.isFull ? ' (full)' : ''));
    const kind = cycle.some(it => it.isFull) ? ': a cycle with full channels' : ': a deadlock';
    told.textContent = cycle.length ? waits.join(' \u2192 ') + kind : '';
  }

  showNode(node, {word, channel}, marks) {
    const {run} = this.app;
    const kind = FAULTS.includes(word) ? 'fault' : word;
    const text = MARKS[word] + (channel >= 0 ? run.layout.channels[channel] : '');
    const shown = `node ${kind}${marks}|${text}`;
    if (node.shown === shown) return;
    node.shown = shown;
    node.group.setAttribute('class', `node ${kind}${marks}`);
    node.state.textContent = short(text, node.letters);
  }

  showEdge(edge, {left, cap}, marks) {
    const whole = cap === null ? Math.max(1, edge.most) : cap;
    const shown = `${marks}|${left}|${cap}`;
    if (edge.shown === shown) return;
    edge.shown = shown;
    edge.group.setAttribute('class', `edge${marks}`);
    edge.level.setAttribute('width', Math.min(GAUGE, GAUGE * left / whole).toFixed(1));
    edge.text.textContent = `${edge.name} ${left}${cap === null ? '' : '/' + cap}`;
  }

  // ---- where one looks

  fit() {
    const [wide, high] = this.app.run.layout.size, box = this.svg.getBoundingClientRect();
    const scale = Math.min(2, (box.width - 30) / wide, (box.height - 30) / high);
    this.look(scale, (box.width - wide * scale) / 2, (box.height - high * scale) / 2);
    this.isFitted = true;
  }

  look(scale, x, y) {
    Object.assign(this, {scale, x, y, isFitted: false});
    this.root.setAttribute('transform', `translate(${x} ${y}) scale(${scale})`);
    if (this.named === scale) return;
    this.named = scale;
    const isNear = scale >= .5;
    this.root.setAttribute('class', scale < .17 ? 'far farther' : isNear ? 'near' : 'far');
    for (const {name, large, y} of this.nodes) {
      const size = Math.min(large, 9 / scale);
      name.style.fontSize = isNear ? '' : `${size}px`;
      name.setAttribute('y', isNear ? y - 3 : y + size / 3);
    }
  }

  zoom(factor, x, y) {
    const scale = Math.min(6, Math.max(.02, this.scale * factor)), by = scale / this.scale;
    this.look(scale, x - (x - this.x) * by, y - (y - this.y) * by);
  }

  // Moves so that a thing is seen.
  reveal(kind, number) {
    const {layout} = this.app.run, box = this.svg.getBoundingClientRect();
    const [x, y] = kind === 'process' ? layout.nodes[number] : layout.labels[number] || middleOf(layout.edges[number]);
    const [left, top] = [this.x + x * this.scale, this.y + y * this.scale];
    if (left > 20 && top > 20 && left < box.width - 20 && top < box.height - 20) return;
    this.look(this.scale, box.width / 2 - x * this.scale, box.height / 2 - y * this.scale);
  }

  listen() {
    this.svg.addEventListener('wheel', event => {
      event.preventDefault();
      const box = this.svg.getBoundingClientRect();
      this.zoom(2 ** (-event.deltaY / 300), event.clientX - box.left, event.clientY - box.top);
    }, {passive: false});
    let start = null;
    this.svg.addEventListener('pointerdown', event => {
      start = {x: event.clientX - this.x, y: event.clientY - this.y, from: [event.clientX, event.clientY]};
      this.isDragged = false;
    });
    window.addEventListener('pointermove', event => {
      if (!start) return;
      if (Math.hypot(event.clientX - start.from[0], event.clientY - start.from[1]) > 4) this.isDragged = true;
      if (this.isDragged) this.look(this.scale, event.clientX - start.x, event.clientY - start.y);
    });
    window.addEventListener('pointerup', () => { start = null; });
    document.getElementById('fit').addEventListener('click', () => this.fit());
  }
}

// An entry of a table of `kpn stats`.
function entryOf(run, table, row, column) {
  const {columns, rows} = run.stats[table];
  return rows[row][columns.indexOf(column)];
}
