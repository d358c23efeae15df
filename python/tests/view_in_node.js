// Computes by the scripts of pages what they would show, and writes it as JSON, a line for each page.
//
//     node python/tests/view_in_node.js PAGE ..
'use strict';
const fs = require('fs');
const path = require('path');

const folder = path.join(__dirname, '../kpn/view');
const text = ['model.js', 'replay.js'].map(name => fs.readFileSync(path.join(folder, name), 'utf8')).join('\n');
const {Model, Replay, unpack, codesOf, itemsOf, DOES} =
  new Function(`${text}\nreturn {Model, Replay, unpack, codesOf, itemsOf, DOES};`)();

async function modelOf(file) {
  const page = fs.readFileSync(file, 'utf8');
  const part = id => new RegExp(`<script type="[^"]*" id="${id}">(.*?)</script>`, 's').exec(page)[1];
  const run = JSON.parse(part('run'));
  return new Model(run, codesOf(await unpack(part('codes'))), itemsOf(await unpack(part('items')), run.forms));
}

// What the page shows when its cursor is at the end, and what its slices and texts come to.
function told(model) {
  const end = model.snapshot({axis: 'event', at: model.count});
  const slices = model.processes.map((_, p) => {
    const found = [];
    model.slices(p, 'tick', 0, model.span('tick'), (begin, end, does, k) => found.push([begin, end, DOES[does], k]));
    return found;
  });
  const shares = model.processes.map(() => 0);
  for (const k of model.chain()) shares[model.process(k)]++;
  const stands = model.processes.map((it, p) => {
    const replay = new Replay(model, p);
    const last = replay.stand(it.moves.length);
    const again = replay.stand(Math.floor(it.moves.length / 2));
    return {line: last.line, why: last.why, half: again.why};
  });
  return {count: model.count, length: model.length, span: model.span('tick'), verdict: model.verdict()[0], ...end,
    slices, shares, stands, ticks: Array.from(model.tick), items: model.items.map(it => Array.from(it, String))};
}

async function main() {
  for (const file of process.argv.slice(2)) {
    console.log(JSON.stringify(told(await modelOf(file)), (_, it) => it === Infinity ? null : it));
  }
}

main();
