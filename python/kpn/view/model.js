'use strict';
// What a run is at each place of it, computed from its events. Nothing here touches the page.

const NEVER = 0xffffffff;
const [GET, PUT, EMPTY, FULL, END, FEED, CLOSE, TAKE, LEAVE, GROW] = Array(10).keys();
const KINDS = ['get', 'put', 'wait-empty', 'wait-full', 'end', 'feed', 'close', 'take', 'leave', 'grow'];
// What a process does for a while, in the order in which it is drawn from below.
const DOES = ['put', 'get', 'full', 'empty', 'done', 'fault', 'ready'];
const [PUTS, GETS, FULLS, EMPTIES, DONE, FAULT, READY] = Array(7).keys();
const FAULTS = ['overflow', 'zero-divisor', 'index', 'shift'];
const DOES_OF = {put: PUTS, get: GETS, full: FULLS, empty: EMPTIES, done: DONE, ready: READY,
  ...Object.fromEntries(FAULTS.map(word => [word, FAULT]))};
const TYPES = {b: Int8Array, h: Int16Array, i: Int32Array, q: BigInt64Array};

// Bytes that were packed and written as letters.
async function unpack(text) {
  const letters = atob(text);
  const bytes = new Uint8Array(letters.length);
  for (let k = 0; k < letters.length; k++) bytes[k] = letters.charCodeAt(k);
  const opened = new Blob([bytes]).stream().pipeThrough(new DecompressionStream('deflate'));
  return new Uint8Array(await new Response(opened).arrayBuffer());
}

// The codes of the events, whose low bytes come before the high ones.
function codesOf(bytes) {
  const count = bytes.length / 2;
  const codes = new Uint16Array(count);
  for (let k = 0; k < count; k++) codes[k] = bytes[k] | bytes[count + k] << 8;
  return codes;
}

// The items of each channel: numbers where all are exact as such, else whole numbers of 64 bits.
function itemsOf(bytes, forms) {
  let place = 0;
  return forms.map(({type, count}) => {
    const read = new TYPES[type](bytes.buffer, bytes.byteOffset + place, count);
    place += Math.ceil(read.byteLength / 8) * 8;
    if (type === 'q') return read;
    const items = new Float64Array(count);
    for (let k = 0, sum = 0; k < count; k++) items[k] = sum += read[k];
    return items;
  });
}

// How many of the first `count` things lie before: `at(k) < bound` holds for these and for no other ones.
function countBelow(count, at, bound) {
  let low = 0, high = count;
  while (low < high) {
    const middle = low + high >> 1;
    if (at(middle) < bound) low = middle + 1; else high = middle;
  }
  return low;
}
const countIn = (list, bound) => countBelow(list.length, k => list[k], bound);

class Model {
  constructor(run, codes, items) {
    Object.assign(this, {run, codes, items, count: codes.length});
    this.kindOf = run.table.map(([kind]) => KINDS.indexOf(kind));
    this.processOf = run.table.map(([, process]) => process);
    this.channelOf = run.table.map(([, , channel]) => channel);
    this.makeLists();
    // Of a get, put, feed or take the number of its item, of a wait where it is over, of a growth the capacity.
    this.value = new Uint32Array(this.count);
    // Of a get or put its tick, and of a take that of its put.
    this.tick = new Uint32Array(this.count);
    // The largest tick up to each event.
    this.reached = new Uint32Array(this.count + 1);
    this.follow();
    this.length = this.reached[this.count];
  }

  kind(k) { return this.kindOf[this.codes[k]]; }
  process(k) { return this.processOf[this.codes[k]]; }
  channel(k) { return this.channelOf[this.codes[k]]; }

  // The numbers of the events of each process and on each channel.
  makeLists() {
    const uses = new Uint32Array(this.run.table.length);
    for (const code of this.codes) uses[code]++;
    const sum = wanted => this.run.table.reduce((total, _, code) => total + (wanted(code) ? uses[code] : 0), 0);
    const list = wanted => new Uint32Array(sum(wanted));
    const is = (code, ...kinds) => kinds.includes(this.kindOf[code]);
    this.processes = this.run.instances.map((_, p) => ({
      events: list(code => this.processOf[code] === p && !is(code, GROW)),
      moves: list(code => this.processOf[code] === p && is(code, GET, PUT)), latest: 0, used: 0, moved: 0,
      waiting: -1, hasEnded: false}));
    this.channels = this.run.channels.map(({cap}, c) => ({
      puts: list(code => this.channelOf[code] === c && is(code, PUT, FEED)),
      reads: list(code => this.channelOf[code] === c && is(code, GET, TAKE)),
      growths: [], cap: cap === null ? Infinity : cap, put: 0, read: 0, closed: NEVER, left: NEVER}));
  }

  // Goes through all events once.
  follow() {
    const {run, value, tick, reached, codes, kindOf} = this;
    let grown = 0, most = 0;
    for (let k = 0; k < this.count; k++) {
      const kind = kindOf[codes[k]], p = this.processOf[codes[k]], c = this.channelOf[codes[k]];
      const process = this.processes[p], channel = this.channels[c];
      if (process && kind !== GROW) process.events[process.used++] = k;
      if (kind === PUT || kind === FEED) this.put(k, process, channel);
      else if (kind === GET || kind === TAKE) this.read(k, process, channel);
      else if (kind === EMPTY || kind === FULL) { process.waiting = k; value[k] = NEVER; }
      else if (kind === END) this.stop(k, process, p);
      else if (kind === CLOSE) channel.closed = k;
      else if (kind === LEAVE) { channel.left = k; this.wake(run.channels[c].writer, c, FULL, k); }
      else {
        value[k] = channel.cap = run.grown[grown++];
        channel.growths.push({event: k, cap: channel.cap, tick: process.latest});
        this.wake(run.channels[c].writer, c, FULL, k);
      }
      if (kind <= PUT && tick[k] > most) most = tick[k];
      reached[k + 1] = most;
    }
  }

  put(k, process, channel) {
    const {run, tick} = this;
    const c = this.channel(k), item = this.value[k] = channel.put;
    if (process) {
      const needed = item - channel.cap, reader = run.channels[c].reader;
      let before = process.latest;
      if (needed >= 0 && needed < channel.read) {
        if (reader >= 0) before = Math.max(before, tick[channel.reads[needed]]);
      } else if (needed >= 0 && reader >= 0) before = Math.max(before, this.processes[reader].latest);
      this.move(k, process, before + 1);
    }
    channel.puts[channel.put++] = k;
    this.wake(run.channels[c].reader, c, EMPTY, k);
  }

  read(k, process, channel) {
    const c = this.channel(k), item = this.value[k] = channel.read;
    const written = this.tick[channel.puts[item]];
    if (process) this.move(k, process, Math.max(process.latest, written) + 1);
    else this.tick[k] = written;
    channel.reads[channel.read++] = k;
    this.wake(this.run.channels[c].writer, c, FULL, k);
  }

  move(k, process, tick) {
    this.tick[k] = process.latest = tick;
    process.moves[process.moved++] = k;
    process.waiting = -1;
  }

  stop(k, process, p) {
    process.hasEnded = true;
    process.waiting = -1;
    for (const c of this.run.instances[p].ins) this.wake(this.run.channels[c].writer, c, FULL, k);
  }

  // Ends the wait of a process, if it waits so on this channel.
  wake(p, c, kind, k) {
    const process = this.processes[p];
    if (!process || process.waiting < 0) return;
    if (this.channel(process.waiting) !== c || this.kind(process.waiting) !== kind) return;
    this.value[process.waiting] = k + 1;
    process.waiting = -1;
  }

  // ---- the state at a place: { axis: 'event', at: how many events } or { axis: 'tick', at: the last tick }

  written(c, {axis, at}) {
    const {puts} = this.channels[c];
    return axis === 'event' ? countIn(puts, at) : countBelow(puts.length, k => this.tick[puts[k]], at + 1);
  }

  gotten(c, {axis, at}) {
    const {reads} = this.channels[c];
    return axis === 'event' ? countIn(reads, at) : countBelow(reads.length, k => this.tick[reads[k]], at + 1);
  }

  capacity(c, {axis, at}) {
    const {growths} = this.channels[c];
    const past = axis === 'event' ? countBelow(growths.length, k => growths[k].event, at)
      : growths.filter(it => it.tick <= at).length;
    return past ? growths[past - 1].cap : this.run.channels[c].cap;
  }

  // A state has a word (`ready`, `get`, `put`, `empty`, `full`, `done` or that of a fault), a channel, and the number
  // of its last get or put before, counted from 1.
  state(p, place) {
    return place.axis === 'event' ? this.stateAfter(p, place.at) : this.stateAt(p, place.at);
  }

  stateAfter(p, at) {
    const {events, moves} = this.processes[p];
    const last = countIn(events, at) - 1, made = countIn(moves, at);
    if (last < 0) return {word: 'ready', channel: -1, made};
    const k = events[last], kind = this.kind(k), channel = this.channel(k);
    if (kind === END) return {word: this.run.table[this.codes[k]][3], channel: -1, made};
    if (kind === EMPTY || kind === FULL) {
      if (this.value[k] <= at) return {word: 'ready', channel: -1, made};
      return {word: kind === EMPTY ? 'empty' : 'full', channel, made};
    }
    return k === at - 1 ? {word: KINDS[kind], channel, made} : {word: 'ready', channel: -1, made};
  }

  stateAt(p, at) {
    const {moves} = this.processes[p];
    const made = countBelow(moves.length, k => this.tick[moves[k]], at + 1);
    if (at >= this.length) return this.stateAfter(p, this.count);
    if (made && this.tick[moves[made - 1]] === at) {
      return {word: KINDS[this.kind(moves[made - 1])], channel: this.channel(moves[made - 1]), made};
    }
    if (made === moves.length) return {...this.stateAfter(p, this.count), made};
    if (!at) return {word: 'ready', channel: -1, made};
    return {word: this.kind(moves[made]) === GET ? 'empty' : 'full', channel: this.channel(moves[made]), made};
  }

  // All of the run at a place.
  snapshot(place) {
    const channels = this.channels.map((_, c) => {
      const put = this.written(c, place), read = this.gotten(c, place);
      return {put, read, left: put - read, cap: this.capacity(c, place)};
    });
    const processes = this.processes.map((_, p) => this.state(p, place));
    return {channels, processes, cycle: this.cycle(processes)};
  }

  // A cycle of processes that wait for each other, each with the channel on which it waits; empty if there is none.
  cycle(states) {
    const next = p => {
      const {word, channel} = states[p];
      if (word === 'empty') return this.run.channels[channel].writer;
      return word === 'full' ? this.run.channels[channel].reader : -1;
    };
    const seen = new Int32Array(states.length).fill(-1);
    for (let start = 0; start < states.length; start++) {
      let p = start;
      while (p >= 0 && seen[p] < 0) { seen[p] = start; p = next(p); }
      if (p < 0 || seen[p] !== start) continue;
      const ring = [];
      do { ring.push(p); p = next(p); } while (p !== ring[0]);
      return ring.map(it => ({process: it, channel: states[it].channel, isFull: states[it].word === 'full'}));
    }
    return [];
  }

  // How the trace ends, in a word and a sentence.
  verdict() {
    const {processes, cycle, channels} = this.snapshot({axis: 'event', at: this.count});
    const some = (wanted, is) => this.run.channels.some(({kind}, c) => kind === wanted && is(c));
    const isOpen = some('source', c => this.channels[c].closed === NEVER)
      || some('sink', c => channels[c].left && this.channels[c].left === NEVER);
    const ready = processes.filter(it => ['ready', 'get', 'put'].includes(it.word)).length;
    const full = processes.filter(it => it.word === 'full').length;
    if (cycle.some(it => it.isFull)) return ['jammed', 'a cycle of waiting processes has full channels'];
    const all = `${processes.length} processes`;
    const outside = isOpen ? ', and so could the outside' : '';
    if (ready || isOpen) return ['cut short', `${ready} of ${all} could go on${outside}`];
    if (full) return ['clogged', `${full} of ${all} wait on full channels`];
    if (cycle.length) return ['ended', 'in a deadlock: processes wait for each other on empty channels'];
    return ['ended', 'each process has ended or waits for an item that never comes'];
  }

  // ---- from events to ticks and back

  tickOf(at) { return this.reached[at]; }
  eventOf(tick) {
    return tick >= this.length ? this.count : countBelow(this.count + 1, k => this.reached[k], tick + 1) - 1;
  }
  end(axis) { return axis === 'event' ? this.count : this.length; }
  // How far a picture goes: after the last tick there is room for the waits that never end.
  span(axis) { return axis === 'event' ? this.count : this.length + Math.max(1, Math.ceil(this.length / 50)); }

  // ---- the slices of a process in time: from where to where, what it does, and the event

  slices(p, axis, from, to, tell) {
    if (axis === 'event') this.slicesByEvent(p, from, to, tell);
    else this.slicesByTick(p, from, to, tell);
  }

  slicesByEvent(p, from, to, tell) {
    const {events} = this.processes[p];
    let i = Math.max(0, countIn(events, from + 1) - 1);
    if (!events.length || events[0] > from) tell(0, events.length ? events[0] : this.count, READY, -1);
    for (; i < events.length && events[i] < to; i++) {
      const k = events[i], kind = this.kind(k), next = i + 1 < events.length ? events[i + 1] : this.count;
      if (kind === END) { tell(k, this.count, DOES_OF[this.run.table[this.codes[k]][3]], k); continue; }
      const over = kind <= PUT ? k + 1 : Math.min(this.value[k], next);
      tell(k, over, kind === GET ? GETS : kind === PUT ? PUTS : kind === EMPTY ? EMPTIES : FULLS, k);
      if (over < next) tell(over, next, READY, k);
    }
  }

  slicesByTick(p, from, to, tell) {
    const {moves, events} = this.processes[p];
    let i = countBelow(moves.length, k => this.tick[moves[k]], from + 1);
    let latest = i ? this.tick[moves[i - 1]] : 0;
    for (; i < moves.length && latest < to; i++) {
      const k = moves[i], kind = this.kind(k), tick = this.tick[k];
      if (latest < tick - 1) tell(latest, tick - 1, kind === GET ? EMPTIES : FULLS, k);
      tell(tick - 1, tick, kind === GET ? GETS : PUTS, k);
      latest = tick;
    }
    if (i < moves.length || latest >= this.span('tick')) return;
    const {word} = this.stateAfter(p, this.count), does = word === 'get' || word === 'put' ? READY : DOES_OF[word];
    tell(latest, this.span('tick'), does, events.length ? events[events.length - 1] : -1);
  }

  // ---- the chain that binds the run to its length

  before(k) {
    const {moves} = this.processes[this.process(k)];
    const made = countIn(moves, k);
    return made ? moves[made - 1] : -1;
  }

  // What else a get or put had to wait for: the put of its item, or what made room for it; -1 is nothing.
  other(k) {
    const c = this.channel(k), channel = this.channels[c], {reader} = this.run.channels[c];
    if (this.kind(k) === GET) {
      const put = channel.puts[this.value[k]];
      return this.kind(put) === PUT ? put : -1;
    }
    const cap = this.capacity(c, {axis: 'event', at: k});
    const needed = cap === null ? -1 : this.value[k] - cap;
    if (needed < 0 || reader < 0) return -1;
    if (needed < countIn(channel.reads, k)) return channel.reads[needed];
    const {moves} = this.processes[reader];
    const made = countIn(moves, k);
    return made ? moves[made - 1] : -1;
  }

  // The gets and puts of a longest chain, in order.
  chain() {
    if (this.found) return this.found;
    const chain = new Uint32Array(this.length);
    const last = this.processes.find(it => it.moved && this.tick[it.moves[it.moved - 1]] === this.length);
    let k = last ? last.moves[last.moved - 1] : -1;
    for (let tick = this.length; tick > 0; tick--) {
      chain[tick - 1] = k;
      const before = this.before(k);
      k = before >= 0 && this.tick[before] === tick - 1 ? before : this.other(k);
    }
    return this.found = chain;
  }
}

if (typeof module !== 'undefined') module.exports = {Model, unpack, codesOf, itemsOf, KINDS, DOES};
