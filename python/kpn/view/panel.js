'use strict';
// The details beside the network: what is chosen, the tables of `kpn stats`, and the chain.

const PAGE_OF_ITEMS = 100, MOST_LINKS = 200, MOST_NAMES = 60, MOST_CELLS = 64;
const TABS = {chosen: 'chosen', channels: 'channels', processes: 'processes', chain: 'chain', summary: 'summary'};

// An element of the page; what it says is text, never markup.
function html(name, attributes = {}, ...children) {
  const element = document.createElement(name);
  for (const [key, value] of Object.entries(attributes)) {
    if (typeof value === 'function') element.addEventListener(key, value); else element.setAttribute(key, value);
  }
  element.append(...children);
  return element;
}

// A value of a variable, or the first cells of an array.
function valueText(value) {
  if (!Array.isArray(value)) return String(value);
  return value.slice(0, MOST_CELLS).join(' ') + (value.length > MOST_CELLS ? ' ..' : '');
}

const row = (cell, entries) => html('tr', {}, ...entries.map(it => html(cell, {}, it)));

class Panel {
  constructor(app) {
    this.app = app;
    this.tab = 'summary';
    this.details = document.getElementById('details');
    this.nav = document.querySelector('nav');
    this.sorted = {channels: null, processes: null};
    this.replays = new Map();
    for (const [name, text] of Object.entries(TABS)) {
      this.nav.append(html('button', {role: 'tab', id: `tab_${name}`, click: () => this.open(name)}, text));
    }
  }

  open(name) {
    this.tab = name;
    this.app.isChainOn = this.app.isChainOn || name === 'chain';
    this.show();
    this.app.time.draw();
  }

  // Shows what is open, as it is where the cursor stands.
  show() {
    for (const button of this.nav.children) {
      button.setAttribute('aria-selected', String(button.id === `tab_${this.tab}`));
    }
    const {scrollTop} = this.details, isSame = this.shown === this.tab;
    this.details.replaceChildren(...this[this.tab]());
    this.details.scrollTop = isSame ? scrollTop : 0;
    this.shown = this.tab;
    this.afterwards?.();
    this.afterwards = null;
  }

  // Whether the cursor changes what is shown.
  follows() { return this.tab === 'chosen' || this.tab === 'chain'; }

  link(kind, number) {
    const {run} = this.app;
    if (number < 0) return 'the outside';
    const {name} = kind === 'process' ? run.instances[number] : run.channels[number];
    return html('button', {class: 'link', click: () => this.app.choose(kind, number)}, name);
  }

  // ---- the summary

  summary() {
    const {run, model} = this.app, [word, why] = model.verdict();
    const {processes} = model.snapshot({axis: 'event', at: model.count});
    const list = (title, wanted, tell) => {
      const found = processes.map((state, p) => ({...state, p})).filter(it => wanted.includes(it.word));
      return found.length ? [html('h3', {}, `${title} (${found.length})`),
        html('p', {}, ...found.slice(0, MOST_NAMES).flatMap(it => [this.link('process', it.p), tell(it), ' \u00a0 ']),
          found.length > MOST_NAMES ? `and ${found.length - MOST_NAMES} more` : '')] : [];
    };
    const at = it => ` on ${run.channels[it.channel].name}`;
    return [html('h2', {}, run.title), html('p', {}, html('b', {}, word), `: ${why}`),
      ...run.stats.head.map(line => html('p', {}, line)),
      html('p', {}, `${run.instances.length} processes, ${run.channels.length} channels; `
        + `policy ${run.policy}, grow ${run.grow}`),
      html('h3', {}, 'At the end'),
      ...list('Ended by a fault', FAULTS, it => ` (${it.word})`),
      ...list('Wait for room', ['full'], at), ...list('Wait for an item', ['empty'], at),
      ...list('Could go on', ['ready', 'get', 'put'], () => ''), ...list('Done', ['done'], () => ''),
      ...(run.stats.advice.length ? [html('h3', {}, 'Advice on capacities')] : []),
      ...run.stats.advice.map(line => html('p', {}, line))];
  }

  // ---- the tables

  channels() { return this.table('channels', 'channel'); }
  processes() { return this.table('processes', 'process'); }

  table(name, kind) {
    const {columns, rows} = this.app.run.stats[name], sort = this.sorted[name];
    const numbers = rows.map((_, number) => number);
    if (sort) numbers.sort((a, b) => this.compare(rows[a][sort.column], rows[b][sort.column]) * sort.way || a - b);
    const head = columns.map((column, place) => {
      const [way, mark] = !sort || sort.column !== place ? ['none', ''] : sort.way > 0 ? ['ascending', ' \u2191']
        : ['descending', ' \u2193'];
      const act = {title: 'Sort by this column', click: () => this.sort(name, place)};
      return html('th', {'aria-sort': way}, html('button', act, column + mark));
    });
    const {chosen} = this.app;
    const body = numbers.map(number => html('tr', {tabindex: 0, click: () => this.app.choose(kind, number, false),
      ...(chosen && chosen.kind === kind && chosen.number === number ? {class: 'chosen'} : {})},
    ...rows[number].map(entry => html('td', {}, String(entry)))));
    const table = html('table', {id: `table_${name}`}, html('thead', {}, html('tr', {}, ...head)),
      html('tbody', {}, ...body));
    return [html('div', {class: 'wide'}, table)];
  }

  // Numbers come first, the larger ones later; other entries by their letters.
  compare(a, b) {
    if (typeof a === typeof b) return a < b ? -1 : a > b ? 1 : 0;
    return typeof a === 'number' ? 1 : -1;
  }

  sort(name, column) {
    const before = this.sorted[name], isNumber = typeof this.app.run.stats[name].rows[0]?.[column] === 'number';
    const way = before && before.column === column ? -before.way : isNumber ? -1 : 1;
    this.sorted[name] = {column, way};
    this.show();
  }

  // ---- what is chosen

  chosen() {
    const {chosen} = this.app;
    if (!chosen) return [html('p', {}, 'Click on a process or a channel, in the network, in the rows or in a table.')];
    return chosen.kind === 'channel' ? this.channel(chosen.number) : this.process(chosen.number);
  }

  channel(c) {
    const {app} = this, {model, run} = app, {name, kind, writer, reader} = run.channels[c];
    const {put, read, left, cap} = app.snapshot.channels[c];
    const items = model.items[c];
    const first = this.firstOf(c, read, items.length), last = Math.min(items.length, first + PAGE_OF_ITEMS);
    const canvas = html('canvas', {class: 'plot'});
    const body = [];
    for (let k = first; k < last; k++) body.push(this.item(c, k, read, put));
    const table = html('table', {id: 'table_items'},
      html('thead', {}, row('th', ['number', 'item', `put at ${app.place.axis}`, `read at ${app.place.axis}`])),
      html('tbody', {}, ...body));
    const scrolled = html('div', {class: 'items', tabindex: 0}, table);
    this.afterwards = () => {
      this.plot(canvas, items, read, put);
      const now = body[Math.min(read - first, body.length - 1)];
      if (now) scrolled.scrollTop = now.offsetTop - 60;
    };
    const turn = (text, place) => html('button', {click: () => { this.page = {c, first: place}; this.show(); }}, text);
    return [html('h2', {}, `${kind} ${name}`),
      html('p', {}, this.link('process', writer), ' \u2192 ', this.link('process', reader)),
      html('p', {}, `${put} put, ${read} read, ${left} unread` + (cap === null ? '' : `; capacity ${cap}`)
        + (model.channels[c].growths.length ? `, of which ${model.channels[c].growths.length} growths in all` : '')),
      canvas,
      html('p', {class: 'set'}, turn('|<', 0), turn('<', Math.max(0, first - PAGE_OF_ITEMS)),
        `items ${items.length ? first : 0} to ${Math.max(0, last - 1)} of ${grouped(items.length)}`,
        turn('>', Math.max(0, Math.min(items.length - 1, first + PAGE_OF_ITEMS))),
        turn('>|', Math.max(0, items.length - PAGE_OF_ITEMS))),
      scrolled];
  }

  // The first item that the table shows: the one that was turned to, or one shortly before the first that is unread.
  firstOf(c, read, count) {
    if (this.page && this.page.c === c) return this.page.first;
    return Math.max(0, Math.min(read - 10, count - PAGE_OF_ITEMS));
  }

  item(c, k, read, put) {
    const {model, place} = this.app, {puts, reads} = model.channels[c];
    const mark = k === read ? ' chosen' : '';
    const when = event => event === undefined ? '' : place.axis === 'event' ? event + 1 : model.tick[event];
    const state = k < read ? 'read' : k < put ? 'unread' : 'later';
    const act = {title: `${state}: click to go to its put`, click: () => this.app.go(when(puts[k]))};
    return html('tr', {class: state + mark, ...act},
      ...[k, model.items[c][k], when(puts[k]), when(reads[k])].map(it => html('td', {}, String(it))));
  }

  // The items as points, or as the least and the most of each column if there are many.
  plot(canvas, items, read, put) {
    const wide = canvas.clientWidth, high = canvas.clientHeight, pen = this.app.time.surface(canvas, wide, high);
    canvas.style.width = '';
    canvas.style.height = '';
    const {ink} = this.app.time, left = 6, span = wide - 12;
    let least = Infinity, most = -Infinity;
    for (const item of items) { const it = Number(item); if (it < least) least = it; if (it > most) most = it; }
    if (!items.length) return;
    const x = k => left + (items.length > 1 ? k / (items.length - 1) * span : span / 2);
    const y = it => high - 16 - (most > least ? (Number(it) - least) / (most - least) : .5) * (high - 32);
    pen.fillStyle = ink.row;
    pen.fillRect(x(Math.min(read, items.length - 1)), 0, Math.max(1, x(Math.max(0, put - 1)) - x(read)), high);
    pen.strokeStyle = pen.fillStyle = ink.put;
    if (items.length <= 2 * span) this.plotPoints(pen, items, x, y); else this.plotRanges(pen, items, span, left, y);
    pen.fillStyle = ink.select;
    pen.fillRect(x(Math.min(read, items.length - 1)) - 1, 0, 2, high);
    pen.fillStyle = ink.soft;
    pen.font = `10px ${FONT}`;
    pen.fillText(String(most), 4, 10);
    pen.fillText(String(least), 4, high - 3);
  }

  plotPoints(pen, items, x, y) {
    pen.beginPath();
    items.forEach((item, k) => pen.lineTo(x(k), y(item)));
    pen.stroke();
    if (items.length <= 100) items.forEach((item, k) => pen.fillRect(x(k) - 2, y(item) - 2, 4, 4));
  }

  plotRanges(pen, items, span, left, y) {
    for (let column = 0; column < span; column++) {
      let low = Infinity, high = -Infinity;
      const end = Math.floor((column + 1) / span * items.length);
      for (let k = Math.floor(column / span * items.length); k < end; k++) {
        const it = Number(items[k]);
        if (it < low) low = it;
        if (it > high) high = it;
      }
      pen.fillRect(left + column, y(high), 1, Math.max(1, y(low) - y(high)));
    }
  }

  process(p) {
    const {app} = this, {run, model} = app, instance = run.instances[p], text = run.processes[instance.process];
    const state = app.snapshot.processes[p], stand = this.stand(p, state.made);
    const ports = [...text.ins.map((port, k) => ['in', port, instance.ins[k]]),
      ...text.outs.map((port, k) => ['out', port, instance.outs[k]])];
    const rows = ports.map(([way, port, c]) => {
      const {left, cap} = app.snapshot.channels[c];
      return row('td', [`${way} ${port}`, this.link('channel', c), cap === null ? `${left}` : `${left}/${cap}`]);
    });
    const moves = model.processes[p].moves;
    const go = k => () => { if (k >= 0 && k < moves.length) app.goTo(moves[k]); };
    return [html('h2', {}, `${instance.name}: ${text.name}`),
      html('p', {}, app.stateSentence(p, state)),
      html('p', {class: 'set'},
        html('button', {title: 'Its get or put before (p)', click: go(state.made - 2)}, '< its move'),
        html('button', {title: 'Its next get or put (n)', click: go(state.made)}, 'its move >'),
        `${grouped(state.made)} of ${grouped(moves.length)} gets and puts`),
      html('table', {}, html('tbody', {}, ...rows)),
      ...this.text(text, stand), ...this.variables(stand)];
  }

  stand(p, made) {
    if (!this.replays.has(p)) this.replays.set(p, new Replay(this.app.model, p));
    return this.replays.get(p).stand(made);
  }

  text(text, {line, why}) {
    const letters = Array.from(text.text), [start, end] = line >= 0 ? text.spans[line] : [0, 0];
    const [before, here, after] = [[0, start], [start, end], [end]].map(it => letters.slice(...it).join(''));
    const number = before.split('\n').length;
    const said = why === 'lost' ? 'The text would do something else than the trace says.'
      : why === 'steps' ? 'It computes: where, the trace does not tell.' : `It stands in line ${number}.`;
    const shown = html('pre', {id: 'text'}, before, html('mark', {id: 'here'}, here), after);
    return [html('h3', {}, 'Text'), shown, html('p', {id: 'stands'}, said)];
  }

  variables({line, vars}) {
    if (line < 0 || !vars.size) return [];
    const rows = [...vars].map(([name, value]) => row('td', [name, valueText(value)]));
    return [html('h3', {}, 'Variables'), html('table', {id: 'variables'}, html('tbody', {}, ...rows))];
  }

  // ---- the chain

  chain() {
    const {app} = this, {model, run} = app, chain = model.chain();
    if (!chain.length) return [html('p', {}, 'There are no gets and puts.')];
    const at = app.place.axis === 'tick' ? app.place.at : model.tickOf(app.place.at);
    const shares = this.shares(chain), most = shares[0].ticks;
    const bars = shares.slice(0, 12).map(({p, ticks}) => row('td', [this.link('process', p), String(ticks),
      this.bar(ticks / most)]));
    const first = Math.max(0, Math.min(at - 8, chain.length - MOST_LINKS));
    const links = Array.from(chain.slice(first, first + MOST_LINKS), (k, it) => this.linkRow(k, first + it + 1, at));
    return [html('h2', {}, `What binds the run to ${grouped(model.length)} ticks`),
      html('p', {}, run.stats.head.find(line => line.startsWith('bound by')) || ''),
      html('p', {class: 'set'}, html('button', {title: 'C', click: () => app.followChain(-1)}, '< chain'),
        html('button', {title: 'c', click: () => app.followChain(1)}, 'chain >'),
        html('label', {}, this.chainBox(), ' in the rows')),
      html('table', {id: 'table_shares'}, html('tbody', {}, ...bars)),
      html('h3', {}, 'Links'),
      html('table', {id: 'table_chain'}, html('thead', {}, row('th', ['tick', 'process', 'does'])),
        html('tbody', {}, ...links))];
  }

  bar(share) {
    const bar = html('span', {class: 'bar'});
    bar.style.width = `${Math.round(100 * share)}px`;
    return bar;
  }

  chainBox() {
    const box = html('input', {type: 'checkbox', change: () => {
      this.app.isChainOn = box.checked;
      this.app.time.draw();
    }});
    box.checked = this.app.isChainOn;
    return box;
  }

  // How many ticks of the chain each process has, the most first.
  shares(chain) {
    if (this.counted) return this.counted;
    const {model} = this.app, ticks = model.processes.map(() => 0);
    for (const k of chain) ticks[model.process(k)]++;
    const found = ticks.map((it, p) => ({p, ticks: it})).filter(it => it.ticks);
    return this.counted = found.sort((a, b) => b.ticks - a.ticks || a.p - b.p);
  }

  linkRow(k, tick, at) {
    const {model, run} = this.app, p = model.process(k), c = model.channel(k);
    const go = () => {
      this.app.setAxis('tick');
      this.app.go(tick);
    };
    return html('tr', {...(tick === at ? {class: 'chosen'} : {}), click: go},
      html('td', {}, String(tick)), html('td', {}, this.link('process', p)),
      html('td', {}, `${KINDS[model.kind(k)]} ${run.channels[c].name} ${model.items[c][model.value[k]]}`));
  }
}
