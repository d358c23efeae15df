'use strict';
// The run in time: an overview of all of it, and below it the part that one looks at, a row for each process.

const GUTTER = 150, AXIS = 20, TRACK = 58, MOST_SHAPES = 6000;
const FONT = 'system-ui, "DejaVu Sans", sans-serif';
const COLOURS = ['chain', 'select', 'text', 'soft', 'line', 'row', 'back', 'pane', 'on-put'];
const KEY = [['get', 'get'], ['put', 'put'], ['empty', 'waits for an item'], ['full', 'waits for room'],
  ['ready', 'ready'], ['done', 'ended'], ['fault', 'ended by a fault'], ['chain', 'chain that binds the length']];

// A step of 1, 2 or 5 and zeros, of which about `parts` make a length.
function stepOf(length, parts) {
  const rough = Math.max(1, length / parts), ten = 10 ** Math.floor(Math.log10(rough));
  return [1, 2, 5, 10].map(it => it * ten).find(it => it >= rough);
}

const grouped = number => number.toLocaleString('en').replace(/,/g, ' ');

// Adds the share that a slice has of each column.
function addShare(bins, kind, from, to, columns) {
  const first = Math.max(0, from), last = Math.min(columns, to);
  for (let column = Math.floor(first); column < last; column++) {
    bins[column * DOES.length + kind] += Math.min(last, column + 1) - Math.max(first, column);
  }
}

// A colour such as #0072b2 as a point of a picture.
const pointOf = colour => {
  const [red, green, blue] = [1, 3, 5].map(it => parseInt(colour.slice(it, it + 2), 16));
  return (0xff000000 | blue << 16 | green << 8 | red) >>> 0;
};

class Time {
  constructor(app) {
    this.app = app;
    this.overview = document.getElementById('overview');
    this.rows = document.getElementById('rows');
    this.small = this.overview.querySelector('canvas');
    this.large = this.rows.querySelector('canvas');
    this.legend();
    this.rowHigh = 0;
    this.listen();
  }

  legend() {
    document.getElementById('legend').append(...KEY.map(([name, text]) => {
      const item = document.createElement('li'), mark = document.createElement('i');
      mark.style.background = `var(--${name})`;
      item.append(mark, text);
      return item;
    }));
  }

  get length() { return Math.max(1, this.app.model.span(this.app.place.axis)); }

  whole() { this.look(0, this.length); }

  look(from, to) {
    const span = Math.min(this.length, Math.max(4, to - from));
    this.from = Math.min(Math.max(0, from), this.length - span);
    this.to = this.from + span;
    this.draw();
  }

  zoom(factor, middle) {
    const {from, to} = this, at = middle === undefined ? (from + to) / 2 : middle;
    this.look(at - (at - from) * factor, at + (to - at) * factor);
  }

  // Keeps the cursor in what one looks at.
  follow(at) {
    if (at >= this.from && at <= this.to) return;
    const span = this.to - this.from;
    this.look(at - span / 2, at + span / 2);
  }

  resize(isForced) {
    const size = `${this.rows.clientWidth} ${this.rows.clientHeight}`;
    if (this.size === size && !isForced) return;
    this.size = size;
    const count = this.app.run.instances.length || 1, high = this.rows.clientHeight - AXIS;
    // Rows with names, up to 64 of them; more are lower.
    if (!this.rowHigh) this.rowHigh = Math.min(24, Math.max(count > 64 ? 5 : 12, Math.floor(high / count)));
    this.wide = this.rows.clientWidth;
    this.columns = Math.max(10, this.wide - GUTTER - 6);
    this.rows.querySelector('.tall').style.height = `${AXIS + this.track + count * this.rowHigh}px`;
    this.drawn = null;
    this.draw();
  }

  setRows(factor) {
    this.rowHigh = Math.min(40, Math.max(3, Math.round(this.rowHigh * factor)));
    this.resize(true);
  }

  // How high the track of a channel below the rows is, if one is chosen.
  get track() { return this.app.chosen && this.app.chosen.kind === 'channel' ? TRACK : 0; }

  x(at) { return GUTTER + (at - this.from) / (this.to - this.from) * this.columns; }
  atX(x) { return this.from + (x - GUTTER) / this.columns * (this.to - this.from); }

  colours() {
    const style = getComputedStyle(document.documentElement);
    const read = name => style.getPropertyValue(`--${name}`).trim();
    return Object.fromEntries([...DOES, ...COLOURS].map(name => [name, read(name)]));
  }

  surface(canvas, wide, high) {
    const ratio = window.devicePixelRatio || 1;
    canvas.width = Math.round(wide * ratio);
    canvas.height = Math.round(high * ratio);
    canvas.style.width = `${wide}px`;
    canvas.style.height = `${high}px`;
    const pen = canvas.getContext('2d');
    pen.scale(ratio, ratio);
    return pen;
  }

  draw() {
    if (!this.columns) return;
    this.ink = this.colours();
    this.drawOverview();
    this.drawRows();
    this.showCursor();
  }

  // ---- the overview: how many processes do what

  drawOverview() {
    const {app, columns} = this, key = `${app.place.axis} ${columns} ${this.ink.back}`;
    const frame = this.overview.querySelector('.window');
    frame.style.left = `${GUTTER + this.from / this.length * columns}px`;
    frame.style.width = `${Math.max(4, (this.to - this.from) / this.length * columns)}px`;
    if (this.drawn === key) return;
    this.drawn = key;
    const count = app.run.instances.length || 1, high = this.overview.clientHeight;
    const bins = this.total(app.place.axis, columns);
    const pen = this.surface(this.small, this.wide, high);
    pen.fillStyle = this.ink.soft;
    pen.font = `11px ${FONT}`;
    pen.fillText('all processes:', 8, 18);
    pen.fillText('share of each state', 8, 34);
    for (let column = 0; column < columns; column++) {
      let y = high;
      for (let kind = 0; kind < DOES.length - 1; kind++) {
        const share = bins[column * DOES.length + kind] / count * high;
        if (!share) continue;
        pen.fillStyle = this.ink[DOES[kind]];
        pen.fillRect(GUTTER + column, y - share, 1, share);
        y -= share;
      }
    }
  }

  // The shares of all processes together, which are kept.
  total(axis, columns) {
    this.totals = this.totals || {};
    const key = `${axis} ${columns}`;
    if (!this.totals[key]) {
      const bins = new Float32Array(columns * DOES.length), scale = columns / this.length;
      this.app.run.instances.forEach((_, p) => this.app.model.slices(p, axis, 0, this.length,
        (begin, end, does) => addShare(bins, does, begin * scale, end * scale, columns)));
      this.totals = {[key]: bins};
    }
    return this.totals[key];
  }

  // ---- the rows

  drawRows() {
    const {rowHigh, wide} = this, high = this.rows.clientHeight, count = this.app.run.instances.length;
    const pen = this.surface(this.large, wide, high);
    this.first = Math.max(0, Math.floor(this.rows.scrollTop / rowHigh));
    this.top = AXIS - (this.rows.scrollTop - this.first * rowHigh);
    this.end = Math.min(count, this.first + Math.ceil((high - this.track - this.top) / rowHigh));
    pen.save();
    pen.beginPath();
    pen.rect(0, AXIS, wide, high - AXIS - this.track);
    pen.clip();
    this.drawNames(pen);
    if (this.isFine()) this.drawSlices(pen); else this.drawShares(pen);
    this.drawGrowths(pen);
    this.drawChain(pen);
    pen.restore();
    this.drawAxis(pen, high);
    if (this.track) this.drawTrack(pen, high);
  }

  // Whether each slice can have a box of its own.
  isFine() {
    const {model, place} = this.app;
    const span = (this.to - this.from) / this.columns;
    if (span > (place.axis === 'event' ? 4 : .7)) return false;
    let shapes = 0;
    for (let p = this.first; p < this.end && shapes <= MOST_SHAPES; p++) {
      model.slices(p, place.axis, this.from, this.to, () => { shapes++; });
    }
    return shapes <= MOST_SHAPES;
  }

  yOf(p) { return this.top + (p - this.first) * this.rowHigh; }

  drawNames(pen) {
    const {app, rowHigh} = this, {chosen} = app, each = Math.ceil(11 / rowHigh);
    for (let p = this.first; p < this.end; p++) {
      const isChosen = chosen && chosen.kind === 'process' && chosen.number === p;
      if (p % 2 === 0 || isChosen) {
        pen.fillStyle = isChosen ? this.ink.select : this.ink.row;
        pen.fillRect(0, this.yOf(p), isChosen ? GUTTER : this.wide, rowHigh);
      }
      // Of low rows some have their name.
      if (p % each && !isChosen) continue;
      pen.fillStyle = isChosen && each === 1 ? '#000000' : each > 1 ? this.ink.soft : this.ink.text;
      pen.font = `${isChosen ? 'bold ' : ''}${each > 1 ? 10 : Math.min(12, rowHigh - 2)}px ${FONT}`;
      pen.textAlign = 'right';
      pen.textBaseline = 'middle';
      pen.fillText(short(app.run.instances[p].name, 22), GUTTER - 6, this.yOf(p) + rowHigh / 2);
    }
  }

  drawSlices(pen) {
    const {app, rowHigh} = this, {model, run, place} = app, gap = rowHigh > 8 ? 1.5 : .5;
    pen.textAlign = 'center';
    pen.textBaseline = 'middle';
    pen.font = `10px ${FONT}`;
    for (let p = this.first; p < this.end; p++) {
      const y = this.yOf(p);
      model.slices(p, place.axis, this.from, this.to, (begin, end, does, k) => {
        const x1 = Math.max(GUTTER, this.x(begin)), x2 = Math.min(this.wide - 6, this.x(end)), kind = DOES[does];
        if (kind === 'ready' || x2 <= x1) return;
        pen.fillStyle = this.ink[kind];
        pen.fillRect(x1, y + gap, Math.max(.7, x2 - x1 - (x2 - x1 > 3 ? 1 : 0)), rowHigh - 2 * gap);
        const name = k >= 0 && model.channel(k) >= 0 ? run.channels[model.channel(k)].name : kind;
        if (rowHigh < 12 || x2 - x1 < 6.5 * name.length + 4) return;
        pen.fillStyle = kind === 'put' ? this.ink['on-put'] : kind === 'empty' ? this.ink.text
          : kind === 'fault' ? this.ink.back : '#000000';
        pen.fillText(name, (x1 + x2) / 2, y + rowHigh / 2 + .5);
      });
    }
  }

  // The shares that the states of a process have of a column, one above the other, as points of a picture.
  drawShares(pen) {
    const {app, columns, rowHigh} = this, {model, place} = app, scale = columns / (this.to - this.from);
    const rows = this.end - this.first, image = new ImageData(columns, Math.max(1, rows * rowHigh));
    const points = new Uint32Array(image.data.buffer), ink = DOES.map(does => pointOf(this.ink[does]));
    const bins = new Float32Array(columns * DOES.length);
    for (let row = 0; row < rows; row++) {
      bins.fill(0);
      model.slices(this.first + row, place.axis, this.from, this.to, (begin, end, does) =>
        addShare(bins, does, (begin - this.from) * scale, (end - this.from) * scale, columns));
      this.putShares(points, bins, row, ink);
    }
    const canvas = new OffscreenCanvas(image.width, image.height);
    canvas.getContext('2d').putImageData(image, 0, 0);
    pen.imageSmoothingEnabled = false;
    pen.drawImage(canvas, GUTTER, this.top, image.width, image.height);
  }

  putShares(points, bins, row, ink) {
    const {columns, rowHigh} = this, high = rowHigh - (rowHigh > 8 ? 2 : rowHigh > 3 ? 1 : 0);
    for (let column = 0; column < columns; column++) {
      let sum = 0, y = 0;
      for (let does = 0; does < READY; does++) {
        sum += bins[column * DOES.length + does];
        for (const top = Math.round(sum * high); y < top; y++) {
          points[(row * rowHigh + high - 1 - y) * columns + column] = ink[does];
        }
      }
    }
  }

  drawGrowths(pen) {
    const {app} = this, {axis} = app.place;
    pen.fillStyle = this.ink.text;
    app.model.channels.forEach(({growths}, c) => {
      const p = app.run.channels[c].writer;
      if (p < this.first || p >= this.end || growths.length > 2000) return;
      for (const growth of growths) {
        const at = axis === 'event' ? growth.event : growth.tick;
        if (at < this.from || at > this.to) continue;
        const x = this.x(at), y = this.yOf(p);
        pen.beginPath();
        pen.moveTo(x, y);
        pen.lineTo(x + 4, y + 7);
        pen.lineTo(x - 4, y + 7);
        pen.fill();
      }
    });
  }

  // The chain as a line from box to box, where it is on.
  drawChain(pen) {
    const {app} = this, {model} = app;
    if (app.place.axis !== 'tick' || !app.isChainOn) return;
    const chain = model.chain();
    const from = Math.max(0, Math.floor(this.from)), to = Math.min(chain.length, Math.ceil(this.to));
    const step = Math.max(1, Math.floor((to - from) / (this.columns * 4)));
    pen.strokeStyle = this.ink.chain;
    pen.lineWidth = 2;
    pen.beginPath();
    for (let tick = from; tick < to; tick += step) {
      const y = this.yOf(model.process(chain[tick])) + this.rowHigh * .8;
      pen.lineTo(this.x(tick), y);
      pen.lineTo(this.x(Math.min(to, tick + step)), y);
    }
    pen.stroke();
  }

  drawAxis(pen, high) {
    const step = stepOf(this.to - this.from, this.columns / 90);
    pen.fillStyle = this.ink.pane;
    pen.fillRect(0, 0, this.wide, AXIS);
    pen.font = `11px ${FONT}`;
    pen.textBaseline = 'middle';
    pen.textAlign = 'right';
    pen.fillStyle = this.ink.soft;
    pen.fillText(`${this.app.place.axis}s`, GUTTER - 6, AXIS / 2);
    pen.textAlign = 'center';
    for (let at = Math.ceil(this.from / step) * step; at <= this.to; at += step) {
      const x = this.x(at);
      pen.fillStyle = this.ink.line;
      pen.fillRect(x, AXIS - 4, 1, high);
      pen.fillStyle = this.ink.soft;
      pen.fillText(grouped(at), Math.min(this.wide - 20, Math.max(GUTTER + 14, x)), AXIS / 2);
    }
  }

  // Below the rows: how many items lie on the channel that is chosen.
  drawTrack(pen, high) {
    const {app, columns} = this, {chosen, model, place} = app, top = high - TRACK;
    pen.fillStyle = this.ink.pane;
    pen.fillRect(0, top, this.wide, TRACK);
    pen.textAlign = 'right';
    pen.font = `11px ${FONT}`;
    const levels = [], caps = [], span = this.to - this.from;
    for (let column = 0; column <= columns; column++) {
      const at = {axis: place.axis, at: Math.floor(this.from + column / columns * span)};
      levels.push(model.written(chosen.number, at) - model.gotten(chosen.number, at));
      caps.push(model.capacity(chosen.number, at) || 0);
    }
    const most = Math.max(1, ...levels, ...caps), y = level => high - 4 - level / most * (TRACK - 12);
    pen.fillStyle = this.ink.soft;
    pen.fillText(short(app.run.channels[chosen.number].name, 22), GUTTER - 6, top + 18);
    pen.fillText(`unread, up to ${grouped(most)}`, GUTTER - 6, top + 36);
    pen.fillStyle = this.ink.put;
    levels.forEach((level, column) => pen.fillRect(GUTTER + column, y(level), 1, y(0) - y(level) + 1));
    pen.fillStyle = this.ink.full;
    caps.forEach((cap, column) => { if (cap) pen.fillRect(GUTTER + column, y(cap) - 1, 1, 1.5); });
  }

  // ---- the cursor

  showCursor() {
    const {at} = this.app.place, x = this.x(at), line = this.rows.querySelector('.cursor');
    line.hidden = x < GUTTER - 1 || x > GUTTER + this.columns + 1;
    line.style.left = `${x}px`;
    line.style.top = `${this.rows.scrollTop}px`;
    line.style.height = `${this.rows.clientHeight}px`;
    this.overview.querySelector('.cursor').style.left = `${GUTTER + at / this.length * this.columns}px`;
  }

  rowAt(y) {
    const row = this.first + Math.floor((y - this.top) / this.rowHigh);
    return y > AXIS && y < this.rows.clientHeight - this.track && row < this.end ? row : -1;
  }

  // What lies under a place of the rows, in words.
  wordsAt(x, y) {
    const {app} = this, p = this.rowAt(y), at = this.atX(x);
    if (p < 0) return '';
    if (x < GUTTER) return app.sentence('process', p);
    let found = app.run.instances[p].name;
    app.model.slices(p, app.place.axis, at, at + 1e-9, (begin, end, does, k) => {
      if (at >= begin && at < end) found = app.sliceSentence(p, begin, end, does, k);
    });
    return found;
  }

  // ---- the mouse

  listen() {
    this.drags(this.rows, (event, start) => {
      const by = (start.x - event.x) / this.columns * (start.to - start.from);
      this.look(start.from + by, start.to + by);
    }, event => {
      const p = this.rowAt(event.y);
      if (event.x < GUTTER && p >= 0) this.app.choose('process', p);
      else if (event.x >= GUTTER) this.app.go(Math.round(this.atX(event.x)));
    });
    const at = x => Math.min(1, Math.max(0, (x - GUTTER) / this.columns)) * this.length;
    this.drags(this.overview, (event, start) => {
      const ends = [at(start.x), at(event.x)].sort((a, b) => a - b);
      this.look(...ends);
    }, event => {
      this.app.go(Math.round(at(event.x)));
    });
    this.rows.addEventListener('wheel', event => this.wheel(event), {passive: false});
    this.rows.addEventListener('scroll', () => this.draw());
    this.rows.addEventListener('mousemove', event => {
      const box = this.rows.getBoundingClientRect();
      this.app.hint(event, this.wordsAt(event.clientX - box.left, event.clientY - box.top));
    });
    this.rows.addEventListener('mouseleave', () => this.app.hint());
  }

  wheel(event) {
    const box = this.rows.getBoundingClientRect(), x = event.clientX - box.left;
    const isScrolled = this.rows.scrollHeight > this.rows.clientHeight + 1;
    if (event.shiftKey || Math.abs(event.deltaX) > Math.abs(event.deltaY)) {
      const by = (event.deltaX || event.deltaY) / this.columns * (this.to - this.from);
      this.look(this.from + by, this.to + by);
    } else if (event.ctrlKey || !isScrolled || x >= GUTTER && !event.altKey) {
      this.zoom(2 ** (event.deltaY / 300), this.atX(x));
    } else return;
    event.preventDefault();
  }

  // Tells a drag, with where it began, or a click.
  drags(element, drag, click) {
    let start = null;
    const spot = event => {
      const box = element.getBoundingClientRect();
      return {x: event.clientX - box.left, y: event.clientY - box.top};
    };
    element.addEventListener('pointerdown', event => {
      start = {...spot(event), from: this.from, to: this.to, isDragged: false};
    });
    window.addEventListener('pointermove', event => {
      if (!start) return;
      const place = spot(event);
      if (Math.hypot(place.x - start.x, place.y - start.y) > 4) start.isDragged = true;
      if (start.isDragged) drag(place, start);
    });
    window.addEventListener('pointerup', event => {
      if (start && !start.isDragged) click(spot(event));
      start = null;
    });
  }
}
