'use strict';
// Joins the parts of the page: where the cursor stands, what is chosen, the keys.

const SPEEDS = [1, 2, 5, 10, 50, 100, 1000, 10000, 100000];
const HELP = [['Space', 'play, stop'], [', .', 'an event back, on'], ['[ ]', 'a tick back, on'],
  ['\u2190 \u2192', 'a step back, on; with Shift ten'], ['Home End', 'to the beginning, to the end'],
  ['+ - 0', 'zoom in, out, the whole run'], ['{ }', 'lower, higher rows'],
  ['n p', 'next move of the chosen process, the one before'],
  ['c C', 'along the chain that binds the length, back'], ['\u2191 \u2193', 'choose the process above, below'],
  ['f', 'all of the network'], ['/', 'find'], ['t e', 'ticks, events'], ['d', 'dark or light'],
  ['Escape', 'choose nothing']];
const TOLD = 'The wheel zooms, a drag moves. A click in the rows sets the cursor; a drag in the overview chooses what '
  + 'the rows show. In ticks each get and put takes one tick and begins as early as it can; in events all goes as the '
  + 'trace says.';
const byId = id => document.getElementById(id);

class App {
  constructor(model) {
    Object.assign(this, {model, run: model.run, chosen: null, isChainOn: false});
    this.place = {axis: model.length ? 'tick' : 'event', at: 0};
    this.place.at = model.end(this.place.axis);
    this.snapshot = model.snapshot(this.place);
    this.head();
    this.graph = new Graph(this);
    this.time = new Time(this);
    this.panel = new Panel(this);
    this.time.from = 0;
    this.time.to = this.time.length;
    this.time.resize();
    this.buttons();
    this.keys();
    this.edges();
    this.update();
    new ResizeObserver(() => this.time.resize()).observe(byId('rows'));
    new ResizeObserver(() => { if (this.graph.isFitted) this.graph.fit(); }).observe(byId('graph'));
  }

  head() {
    const {run, model} = this, [word, why] = model.verdict(), [length, events] = run.stats.head;
    byId('title').textContent = run.title;
    byId('verdict').replaceChildren(html('b', {}, word), `: ${why}. ${length}; ${events}.`);
    byId('names').append(...[...run.instances, ...run.channels].map(({name}) => html('option', {value: name})));
  }

  // ---- the cursor

  go(at) {
    this.place = {axis: this.place.axis, at: Math.min(this.model.end(this.place.axis), Math.max(0, at))};
    this.panel.page = null;
    this.update();
    this.time.follow(this.place.at);
  }

  step(axis, by) {
    this.setAxis(axis);
    this.go(this.place.at + by);
  }

  // Goes to where an event has just happened.
  goTo(k) { this.go(this.place.axis === 'event' ? k + 1 : this.model.tick[k]); }

  setAxis(axis) {
    if (axis === this.place.axis) return;
    const {model, time} = this;
    const convert = it => axis === 'event' ? model.eventOf(Math.floor(it))
      : model.tickOf(Math.min(model.count, Math.max(0, Math.floor(it))));
    const isWhole = time.from === 0 && time.to === time.length, [from, to] = [convert(time.from), convert(time.to)];
    this.place = {axis, at: convert(this.place.at)};
    this.update();
    if (isWhole) time.whole(); else time.look(from, to);
  }

  update() {
    const {axis, at} = this.place;
    this.snapshot = this.model.snapshot(this.place);
    this.graph.show(this.snapshot);
    this.time.showCursor();
    byId('at').value = at;
    byId('of').textContent = `of ${grouped(this.model.end(axis))} ${axis}s`;
    for (const radio of document.getElementsByName('axis')) radio.checked = radio.value === axis;
    if (this.panel.follows() || !this.panel.shown) this.panel.show();
  }

  play() {
    const button = byId('play');
    if (this.timer) {
      cancelAnimationFrame(this.timer);
      this.timer = null;
      button.textContent = 'play';
      return;
    }
    if (this.place.at >= this.model.end(this.place.axis)) this.go(0);
    button.textContent = 'stop';
    let last = performance.now(), rest = 0;
    const turn = now => {
      rest += (now - last) / 1000 * Number(byId('speed').value);
      last = now;
      if (rest >= 1) { this.go(this.place.at + Math.floor(rest)); rest %= 1; }
      if (this.place.at >= this.model.end(this.place.axis)) { this.play(); return; }
      this.timer = requestAnimationFrame(turn);
    };
    this.timer = requestAnimationFrame(turn);
  }

  followChain(by) {
    this.isChainOn = true;
    this.setAxis('tick');
    const chain = this.model.chain(), tick = Math.min(chain.length, Math.max(1, this.place.at + by));
    if (!chain.length) return;
    this.chosen = {kind: 'process', number: this.model.process(chain[tick - 1])};
    this.panel.tab = 'chain';
    this.go(tick);
    this.graph.reveal('process', this.chosen.number);
    this.time.draw();
  }

  // ---- what is chosen

  choose(kind, number, opens = true) {
    this.chosen = kind ? {kind, number} : null;
    this.panel.page = null;
    if (opens && kind) this.panel.tab = 'chosen';
    this.graph.show(this.snapshot);
    if (kind) this.graph.reveal(kind, number);
    this.panel.show();
    this.time.draw();
  }

  find(name) {
    const [p, c] = [this.run.instances, this.run.channels].map(list => list.findIndex(it => it.name === name));
    if (p >= 0) this.choose('process', p); else if (c >= 0) this.choose('channel', c);
  }

  // ---- sentences

  stateSentence(p, {word, channel}) {
    const on = channel >= 0 ? this.run.channels[channel].name : '';
    const words = {ready: 'is ready', get: `gets from ${on}`, put: `puts on ${on}`, empty: `waits for an item on ${on}`,
      full: `waits for room on ${on}`, done: 'has ended'};
    return `${this.run.instances[p].name} ${words[word] || `has ended by the fault ${word}`}`;
  }

  sentence(kind, number) {
    if (kind === 'process') return this.stateSentence(number, this.snapshot.processes[number]);
    const {put, read, left, cap} = this.snapshot.channels[number];
    const room = cap === null ? '' : `, capacity ${cap}`;
    return `${this.run.channels[number].name}: ${put} put, ${read} read, ${left} unread${room}`;
  }

  sliceSentence(p, begin, end, does, k) {
    const {model, run} = this, channel = k >= 0 && does !== READY ? model.channel(k) : -1;
    const word = does === FAULT ? run.table[model.codes[k]][3] : DOES[does];
    const item = word === 'get' || word === 'put' ? ` item ${model.items[channel][model.value[k]]}` : '';
    const {axis} = this.place, when = end - begin <= 1 ? `${axis} ${begin + 1}` : `${axis}s ${begin + 1} to ${end}`;
    return `${this.stateSentence(p, {word, channel})}${item}, ${when}`;
  }

  hint(event, text) {
    const box = byId('hint');
    box.hidden = !text;
    if (!text) return;
    box.textContent = text;
    const {innerWidth, innerHeight} = window;
    box.style.left = `${Math.min(event.clientX + 14, innerWidth - box.offsetWidth - 8)}px`;
    box.style.top = `${Math.min(event.clientY + 14, innerHeight - box.offsetHeight - 8)}px`;
  }

  // ---- buttons and keys

  actions() {
    const {time, graph} = this;
    return {first: () => this.go(0), last: () => this.go(this.model.end(this.place.axis)),
      event_back: () => this.step('event', -1), event_on: () => this.step('event', 1),
      tick_back: () => this.step('tick', -1), tick_on: () => this.step('tick', 1), play: () => this.play(),
      in: () => time.zoom(.5, this.place.at), out: () => time.zoom(2, this.place.at), whole: () => time.whole(),
      lower: () => time.setRows(.75), higher: () => time.setRows(1.35), theme: () => this.theme(),
      help: () => this.help(), fit: () => graph.fit()};
  }

  buttons() {
    for (const [id, action] of Object.entries(this.actions())) byId(id).addEventListener('click', action);
    byId('at').addEventListener('change', event => this.go(Math.floor(Number(event.target.value)) || 0));
    for (const radio of document.getElementsByName('axis')) {
      radio.addEventListener('change', () => this.setAxis(radio.value));
    }
    const speed = byId('speed'), wanted = this.model.end(this.place.axis) / 20;
    speed.append(...SPEEDS.map(it => html('option', {value: it}, `${grouped(it)} / s`)));
    speed.value = SPEEDS.find(it => it >= wanted) || SPEEDS[SPEEDS.length - 1];
    const find = byId('find');
    find.addEventListener('change', () => this.find(find.value));
    window.addEventListener('beforeprint', () => this.print(true));
    window.addEventListener('afterprint', () => this.print(false));
    matchMedia('(prefers-color-scheme: dark)').addEventListener('change', () => this.time.draw());
  }

  keys() {
    const {time} = this, to = this.actions();
    const own = by => this.step(this.place.axis, by);
    const keys = {' ': to.play, ',': to.event_back, '.': to.event_on, '[': to.tick_back, ']': to.tick_on,
      Home: to.first, End: to.last, '+': to.in, '=': to.in, '-': to.out, '0': to.whole, '{': to.lower, '}': to.higher,
      d: to.theme, '?': to.help, f: to.fit, t: () => this.setAxis('tick'), e: () => this.setAxis('event'),
      c: () => this.followChain(1), C: () => this.followChain(-1), n: () => this.move(1), p: () => this.move(-1),
      ArrowUp: () => this.chooseNext(-1), ArrowDown: () => this.chooseNext(1), Escape: () => this.choose(null),
      '/': () => byId('find').focus(), ArrowLeft: ten => own(ten ? -10 : -1), ArrowRight: ten => own(ten ? 10 : 1)};
    window.addEventListener('keydown', event => {
      const isTyping = /INPUT|SELECT|TEXTAREA/.test(event.target.tagName) && event.target.type !== 'radio';
      if (event.ctrlKey || event.altKey || event.metaKey || byId('helped').open) return;
      if (isTyping && event.key === 'Escape') { event.target.blur(); return; }
      if (isTyping || event.key === ' ' && event.target.tagName === 'BUTTON') return;
      if (!keys[event.key]) return;
      keys[event.key](event.shiftKey);
      event.preventDefault();
    });
    time.rows.tabIndex = 0;
  }

  // The edges between the parts of the page, which can be moved.
  edges() {
    const main = document.querySelector('main');
    for (const edge of document.querySelectorAll('.edge_of')) {
      const {size} = edge.dataset;
      edge.addEventListener('pointerdown', event => edge.setPointerCapture(event.pointerId));
      edge.addEventListener('pointermove', event => {
        if (!edge.hasPointerCapture(event.pointerId)) return;
        const box = main.getBoundingClientRect();
        const share = size === '--wide' ? (box.right - event.clientX) / box.width
          : (box.bottom - event.clientY) / box.height;
        main.style.setProperty(size, `${Math.min(85, Math.max(10, 100 * share)).toFixed(1)}%`);
      });
    }
  }

  // To the next get or put of the process that is chosen, or to the one before.
  move(by) {
    if (!this.chosen || this.chosen.kind !== 'process') return;
    const {moves} = this.model.processes[this.chosen.number], {made} = this.snapshot.processes[this.chosen.number];
    const k = made - 1 + by;
    if (k >= 0 && k < moves.length) this.goTo(moves[k]);
  }

  chooseNext(by) {
    const count = this.run.instances.length, {chosen} = this;
    const before = chosen && chosen.kind === 'process' ? chosen.number : by > 0 ? -1 : count;
    if (count) this.choose('process', Math.min(count - 1, Math.max(0, before + by)));
  }

  theme() {
    const {dataset} = document.documentElement, isDark = matchMedia('(prefers-color-scheme: dark)').matches;
    dataset.theme = (dataset.theme || (isDark ? 'dark' : 'light')) === 'dark' ? 'light' : 'dark';
    this.time.draw();
    this.panel.show();
  }

  // A printed page is light.
  print(begins) {
    const {dataset} = document.documentElement;
    if (begins) { this.before = dataset.theme; dataset.theme = 'light'; }
    else if (this.before) dataset.theme = this.before;
    else delete dataset.theme;
    this.time.resize(true);
    this.graph.fit();
    this.panel.show();
  }

  help() {
    const box = byId('helped'), marks = keys => keys.split(' ').flatMap(it => [html('kbd', {}, it), ' ']);
    const rows = HELP.map(([keys, text]) => html('tr', {}, html('td', {}, ...marks(keys)), html('td', {}, text)));
    box.replaceChildren(html('h2', {}, 'Keys'), html('table', {}, html('tbody', {}, ...rows)), html('p', {}, TOLD),
      html('form', {method: 'dialog'}, html('button', {}, 'close')));
    box.showModal();
  }

  // What the page knows, for tests.
  state() {
    const {model, run, place, snapshot} = this;
    return {place, count: model.count, length: model.length, chosen: this.chosen, tab: this.panel.tab,
      window: [this.time.from, this.time.to], verdict: model.verdict()[0],
      channels: snapshot.channels.map((it, c) => ({name: run.channels[c].name, ...it,
        shown: this.graph.edges[c].text.textContent})),
      processes: snapshot.processes.map((it, p) => ({name: run.instances[p].name, ...it,
        shown: this.graph.nodes[p].group.getAttribute('class')})),
      cycle: snapshot.cycle, shares: this.panel.shares(model.chain())};
  }
}

async function start() {
  const text = id => byId(id).textContent;
  const run = JSON.parse(text('run'));
  const [codes, items] = await Promise.all([unpack(text('codes')), unpack(text('items'))]);
  const app = new App(new Model(run, codesOf(codes), itemsOf(items, run.forms)));
  window.kpn = {app, state: () => app.state(), ready: performance.now()};
}

start().catch(error => {
  byId('verdict').textContent = `The page can't show the run: ${error.message}`;
  throw error;
});
