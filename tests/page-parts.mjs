// What the page's scripts do without a browser. Expected values are document 01's, or come from a plain second way of working them out, here.

import assert from 'node:assert/strict';
import { execFileSync } from 'node:child_process';
import { mkdtempSync, readFileSync, rmSync, writeFileSync } from 'node:fs';
import { tmpdir } from 'node:os';
import { join } from 'node:path';

import { ACCEPTED, Library, MISSING, linesOf, recordOf } from '../page/library.js';
import { Books } from '../page/books.js';
import { cellsOf, scenarioFile } from '../page/cells.js';
import { billOf, kindOf, lineOf, namesOf, reportsOf } from '../page/files.js';
import { LossyLine, dice } from '../page/line.js';
import { Track, byName, bySlot, columnsOf, crossingsOf, sizes } from '../page/track.js';
import { REFUSALS, counted, docketOf, grouped, inWords, reportWord } from '../page/words.js';

const [module, page] = process.argv.slice(2);
const text = new TextEncoder();
const library = await Library.open(readFileSync(module));
const header = readFileSync(new URL('../include/sejjekoru.h', import.meta.url), 'utf8');
const tests = [];
/** A test, with the functions that it asks the module for. One that the header does not declare is not asked for yet, and that is said. */
const test = (name, run, needs = []) => tests.push({ name, run, lacking: needs.filter((needed) => !header.includes(`${needed}(`)) });

/** Document 01's yard T, and its orders Y1. */
const T = { bays: 4, rails: Uint16Array.of(0, 1, 1, 2, 1, 3) };
const Y1 = { start: Uint16Array.of(1, 0), goal: Uint16Array.of(0, 1) };
const Y1_PLAN = [[0, 1, 2], [1, 0, 1], [1, 1, 3], [0, 2, 1], [0, 1, 0], [1, 3, 1]];
const T_MAP = 'type octile\nheight 2\nwidth 3\nmap\n...\n@.@\n';
const packed = (list) => BigUint64Array.from(list.map(([c, a, b]) => (BigInt(c) << 32n) + (BigInt(a) << 16n) + BigInt(b)));
const taken = (plan) => {
  const { carrier, from, to } = crossingsOf(plan);
  return [...carrier.keys()].map((i) => [carrier[i], from[i], to[i]]);
};

test('numbers of a plan are taken apart', () => {
  const list = [[0, 0, 0], [253, 255, 254], [4294967295, 65535, 65534], [1, 2, 3]];
  assert.deepEqual(taken(packed(list)), list);
});

test('the library plans, checks and slots document 01\'s yards', () => {
  const { answer, value, plan } = library.plan(T, Y1);
  assert.deepEqual([answer, value], [0, 6]);
  assert.deepEqual(taken(plan), Y1_PLAN);
  assert.deepEqual([...library.slots(1, T, Y1, plan).slots], [1, 2, 3, 4, 5, 6]);
  assert.equal(library.check(T, Y1, plan).answer, ACCEPTED);
  const line = { bays: 4, rails: Uint16Array.of(0, 1, 1, 2, 2, 3) };
  const { answer: stopped, value: carrier } = library.plan(line, { start: Uint16Array.of(0, 1), goal: Uint16Array.of(1, 0) });
  assert.deepEqual([stopped, carrier], [7, 1]);
  assert.equal(library.plan({ bays: 2, rails: Uint16Array.of(0, 1) }, { start: Uint16Array.of(0), goal: Uint16Array.of(0) }).answer, 4);
});

test('a longer list than the module has memory for is lent all the same', () => {
  const long = packed(Array.from({ length: 65536 }, () => [0, 1, 2]));
  const { answer, value } = library.check(T, Y1, long);
  assert.deepEqual([answer, value], [9, 1]);
  assert.equal(library.check(T, Y1, packed(Array.from({ length: 65537 }, () => [0, 1, 2]))).answer, 1);
});

test('reports are answered, billed and played as document 01\'s Y7 says', () => {
  const plan = packed(Y1_PLAN);
  const books = new Books(library, T, Y1, plan, crossingsOf(plan));
  assert.equal(books.open(new Uint8Array(6)).answer, ACCEPTED);
  const told = [1, 6, 0, 0].map((name) => {
    const { answer, value } = books.report(name);
    return [answer, value];
  });
  assert.deepEqual(told, [[13, 0], [12, 0], [0, 0], [100, 0]]);
  assert.deepEqual([...books.marks], [1, 0, 0, 0, 0, 0]);
  assert.deepEqual(books.tally, { accepted: 1, already: 1, refused: 2 });
  assert.deepEqual([...books.played], [2, 0]);
  assert.deepEqual([...books.byMarks()], [2, 0]);
  assert.deepEqual(books.differing(), []);
  assert.ok(books.agrees());
  assert.deepEqual(books.lines, [{ carrier: 0, billed: 1, last: 0 }, { carrier: 1, billed: 0, last: 65536 }]);
  books.played[1] = 3;
  assert.deepEqual(books.differing(), [1], 'a carrier played elsewhere is seen');
  books.books.lines[4]++;
  assert.ok(!books.agrees(), 'a crossing too many in a line is seen');
});

test('the placement by the marks alone is where the crossings of document 01\'s Y1 lead', () => {
  const at = [[1, 0], [2, 0], [2, 1], [2, 3], [1, 3], [0, 3], [0, 1]];
  at.forEach((wanted, done) => {
    const marks = Uint8Array.from({ length: 6 }, (_, i) => (i < done ? 1 : 0));
    assert.deepEqual([...library.placement(T, Y1, packed(Y1_PLAN), marks).at], wanted);
  });
}, ['sejjekoru_placement']);

test('marks that do not fit are refused and change nothing', () => {
  const plan = packed(Y1_PLAN);
  const books = new Books(library, T, Y1, plan, crossingsOf(plan));
  books.open(Uint8Array.of(1, 1, 0, 0, 0, 0));
  assert.deepEqual([...books.played], [2, 1]);
  assert.equal(books.open(Uint8Array.of(0, 1, 0, 0, 0, 0)).answer, 11);
  assert.deepEqual([...books.marks], [1, 1, 0, 0, 0, 0]);
});

test('record and lines are read by the header\'s layout', () => {
  const record = new Uint8Array(520);
  const view = new DataView(record.buffer);
  view.setUint16(2, 513, true);
  view.setUint32(512, 70000, true);
  view.setUint32(516, 9, true);
  assert.deepEqual(recordOf(record, 2), { at: Uint16Array.of(0, 513), done: 70000, highest: 9 });
  const lines = new Uint8Array(24);
  new DataView(lines.buffer).setUint32(16, 65536, true);
  assert.deepEqual(linesOf(lines)[1], { carrier: 0, billed: 65536, last: 0 });
});

test('a function that the module lacks is said to be lacking', () => {
  const bare = new Library({ memory: library.memory, __heap_base: library.exports.__heap_base });
  assert.equal(bare.plan(T, Y1).answer, MISSING);
  assert.deepEqual([...bare.missing], ['sejjekoru_plan']);
  assert.match(inWords({ answer: MISSING, value: 0 }, 'sejjekoru_plan').text, /sejjekoru_plan/);
});

test('a map\'s cells are the library\'s bays, and an edited scenario reads back', () => {
  const map = text.encode(T_MAP);
  const { answer, yard } = library.map(map);
  assert.equal(answer, ACCEPTED);
  assert.deepEqual([yard.bays, ...yard.rails], [4, 0, 1, 1, 2, 1, 3]);
  const cells = cellsOf(library, map, yard.bays);
  assert.deepEqual([cells.width, cells.height, ...cells.bayAt], [3, 2, 0, 1, 2, -1, 3, -1]);
  assert.deepEqual([...cells.cellOf], [0, 1, 2, 4]);
  const again = library.scenario(map, scenarioFile(cells, Y1, 'T map.map'));
  assert.deepEqual([again.answer, [...again.orders.start], [...again.orders.goal]], [0, [1, 0], [0, 1]]);
  const { answer: bad, value } = library.map(text.encode('type octile\nheight 2\nwidth 3\nmap\n..x\n@.@\n'));
  assert.deepEqual([bad, value], [14, 5]);
  const wall = library.scenario(map, text.encode('version 1\n0\tm\t3\t2\t0\t1\t0\t0\t0\n'));
  assert.deepEqual([wall.answer, wall.value], [15, 2]);
}, ['sejjekoru_map', 'sejjekoru_scenario']);

/** Y1's plan as document 01 prints it. */
const Y1_PRINT = `${Y1_PLAN.map(([c, a, b]) => `(move c${c} b${a} b${b})\n`).join('')}; cost = 6 (unit cost)\n`;

test('a plan is printed as document 01 prints it', () => {
  const { answer, print } = library.printPlan(packed(Y1_PLAN));
  assert.equal(answer, ACCEPTED);
  assert.equal(new TextDecoder().decode(print), Y1_PRINT);
  const widest = packed(Array.from({ length: 100 }, () => [4294967295, 65535, 65535]));
  assert.equal(library.printPlan(widest).answer, ACCEPTED, 'the room lent is enough for the widest lines');
}, ['sejjekoru_print_plan']);

test('a printed plan is read', () => {
  assert.deepEqual(taken(library.readPlan(text.encode(Y1_PRINT)).plan), Y1_PLAN);
  assert.deepEqual(taken(library.readPlan(text.encode(Y1_PRINT.replaceAll('\n', '\r\n'))).plan), Y1_PLAN);
  const { answer: bad, value } = library.readPlan(text.encode('(move c0 b1 b2)\n(move c1 b0)\n'));
  assert.deepEqual([bad, value], [26, 2]);
}, ['sejjekoru_read_plan']);

test('a file of reports is read', () => {
  assert.deepEqual(library.readReports(text.encode('4\n0\n65536\n')).names, [4, 0, 65536]);
  const { answer, value } = library.readReports(text.encode('4\nx\n'));
  assert.deepEqual([answer, value], [27, 2]);
}, ['sejjekoru_read_reports']);

test('train slots: a carrier follows another in the same slot, as E8 says', () => {
  const line = { bays: 4, rails: Uint16Array.of(0, 1, 1, 2, 2, 3) };
  const orders = { start: Uint16Array.of(1, 0), goal: Uint16Array.of(2, 1) };
  const plan = packed([[0, 1, 2], [1, 0, 1]]);
  assert.deepEqual([...library.slots(1, line, orders, plan).slots], [1, 2]);
  assert.deepEqual([...library.slots(2, line, orders, plan).slots], [1, 1]);
}, ['sejjekoru_slots_of']);

test('slots become steps: every name once, by rising slot, in plan order within', () => {
  const roll = dice(3);
  const slots = Uint32Array.from({ length: 2000 }, () => 1 + Math.floor(roll() * 90));
  const { order, bounds } = bySlot(slots);
  const wanted = [...slots.keys()].sort((a, b) => slots[a] - slots[b] || a - b);
  assert.deepEqual([...order], wanted);
  for (let s = 0; s + 1 < bounds.length; s++) for (let i = bounds[s]; i < bounds[s + 1]; i++) assert.equal(slots[order[i]], s + 1);
  assert.equal(bounds[bounds.length - 1], 2000);
  assert.deepEqual([...sizes(bounds)].reduce((a, b) => a + b), 2000);
  assert.deepEqual([...bySlot(new Uint32Array(0)).bounds], [0]);
});

test('a placement anywhere in a long plan is the one played from the start', () => {
  const roll = dice(8);
  const list = Array.from({ length: 3000 }, () => [Math.floor(roll() * 9), 0, Math.floor(roll() * 50)]);
  const crossings = crossingsOf(packed(list));
  const start = Uint16Array.of(0, 1, 2, 3, 4, 5, 6, 7);
  const track = new Track(crossings, start, byName(3000));
  const at = [...start];
  for (let i = 0; i <= 3000; i++) {
    if (i % 97 === 0 || i === 3000 || i % 256 < 2) assert.deepEqual([...track.before(i)], at, `before ${i}`);
    if (i < 3000 && list[i][0] < 8) at[list[i][0]] = list[i][2];
  }
  assert.deepEqual([...track.names(12)], [12]);
  assert.equal(track.stepOf[2999], 2999);
  assert.equal(new Track(crossingsOf(packed([])), start, byName(0)).steps, 0);
});

test('columns of a picture keep the mean', () => {
  const counts = Uint32Array.from({ length: 1000 }, (_, i) => i % 7);
  const columns = columnsOf(counts, 40);
  const sum = (list) => list.reduce((a, b) => a + b, 0);
  assert.equal(columns.length, 40);
  assert.ok(Math.abs(sum(columns) * 25 - sum(counts)) < 1e-6);
  assert.deepEqual([...columnsOf(Uint32Array.of(3, 1), 40)], [3, 1]);
});

/** A log that takes names in rising order only, with the answers of the library. */
function strictLog() {
  const done = new Set();
  const accepted = [];
  const report = (name) => {
    if (done.has(name)) return { answer: 100, value: 0 };
    if (done.size !== name) return { answer: 13, value: done.size };
    done.add(name);
    accepted.push(name);
    return { answer: 0, value: 0 };
  };
  return { accepted, report };
}

test('the line brings every report through, whatever it loses, and the same for the same seed', () => {
  const names = [...Array(60).keys()];
  for (const faults of [[0, 0, 0], [0.5, 0, 0], [0, 0.9, 0], [0, 0, 1], [0.9, 0.9, 1], [0.2, 0.2, 0.3]]) {
    const runs = [1, 1, 2].map((seed) => {
      const { accepted, report } = strictLog();
      const line = new LossyLine({ loss: faults[0], repeat: faults[1], reorder: faults[2], seed }, names, report);
      const happened = [];
      while (!line.finished && line.time < 200000) happened.push(...line.tick());
      assert.ok(line.finished, `faults ${faults}`);
      assert.deepEqual(accepted, names, `faults ${faults}`);
      return { line, happened };
    });
    assert.deepEqual(runs[0].happened, runs[1].happened);
    if (faults.some((part) => part > 0 && part < 1)) assert.notDeepEqual(runs[0].happened, runs[2].happened);
    if (faults.every((part) => part === 0)) {
      assert.deepEqual(runs[0].line.counts, { sent: 120, lost: 0, twice: 0, late: 0 });
      assert.ok(runs[0].happened.every(({ kind }) => kind !== 'again'));
    }
  }
});

test('the dice are even', () => {
  const roll = dice(12345);
  const buckets = new Array(10).fill(0);
  for (let i = 0; i < 100000; i++) buckets[Math.floor(roll() * 10)]++;
  assert.ok(buckets.every((n) => n > 9500 && n < 10500), String(buckets));
});

test('files are told apart', () => {
  const kind = (name, content) => kindOf(name, typeof content === 'string' ? text.encode(content) : content);
  assert.equal(kind('a.map', ''), 'map');
  assert.equal(kind('A.SCEN', ''), 'scenario');
  assert.equal(kind('x', 'version 1\n'), 'scenario');
  assert.equal(kind('x', T_MAP), 'map');
  assert.equal(kind('plan.txt', '(move c0 b1 b2)\n'), 'plan');
  assert.equal(kind('plan.txt', '; cost = 0 (unit cost)\n'), 'plan');
  assert.equal(kind('x', Uint8Array.of(0, 1, 0)), 'marks');
  assert.equal(kind('bill.csv', ''), 'bill');
  assert.equal(kind('x', 'report,name,answer,number,value\n'), 'bill');
  assert.equal(kind('x', '12\n3\n'), 'reports');
  assert.equal(lineOf(text.encode('a\r\nb\n'), 2), 'b');
  assert.equal(lineOf(text.encode('a'), 5), null);
});

test('a bill is written by hand\'s count, and its names read back', () => {
  const books = {
    answers: [{ name: 1, answer: 13, value: 0 }, { name: 6, answer: 12, value: 0 }, { name: 0, answer: 0, value: 0 }, { name: 0, answer: 100, value: 0 }],
    orders: { start: Uint16Array.of(1, 0) }, record: { at: Uint16Array.of(2, 0) }, lines: [{ billed: 1, last: 0 }, { billed: 0, last: 65536 }],
  };
  const rows = ['report,name,answer,number,value', '1,1,refused,13,0', '2,6,refused,12,', '3,0,accepted,,', '4,0,already,,'];
  const bill = `${[...rows, '', 'carrier,start,now,billed,last', '0,1,2,1,0', '1,0,0,0,'].join('\n')}\n`;
  assert.equal(billOf(books), bill);
  assert.deepEqual(namesOf(bill), [1, 6, 0, 0]);
  assert.deepEqual(namesOf(bill.replaceAll('\n', '\r\n')), [1, 6, 0, 0]);
  assert.equal(namesOf('name,answer\n'), null);
  assert.equal(namesOf(bill.replace('4,0', '4,x')), null);
  assert.equal(namesOf(bill.slice(0, 60)), null);
  assert.equal(reportsOf(books.answers), '1\n6\n0\n0\n');
});

test('every refusal of the header has its words, with a value exactly where the header says so', () => {
  const listed = [...header.matchAll(/SEJJEKORU_(\w+) = (\d+),? *\/\* ([^*]*)/g)].map(([, name, number, says]) => ({ name, number: Number(number), says }));
  const refusals = listed.filter(({ number }) => number > 0 && number < 100);
  assert.ok(refusals.length >= 15);
  for (const { number, says } of refusals) {
    const words = REFUSALS[number];
    assert.ok(words, `refusal ${number} has no words`);
    assert.equal(docketOf({ answer: number, value: 7 }), says.startsWith('0') ? `refused ${number}` : `refused ${number} 7`, `refusal ${number}`);
    assert.ok(inWords({ answer: number, value: 7 }).text.length > 20);
  }
  assert.deepEqual(inWords({ answer: 3, value: 6 }).points, { bay: 6 });
  assert.deepEqual(inWords({ answer: 7, value: 2 }).points, { carrier: 2 });
  assert.deepEqual(inWords({ answer: 9, value: 5 }).points, { name: 5 });
  assert.equal(reportWord({ answer: 13, value: 4 }), '13 early 4');
  assert.equal(reportWord({ answer: 12, value: 0 }), '12 unknown');
});

test('numbers are easy to read', () => {
  assert.deepEqual([0, 999, 1000, 65536, 1234567].map(grouped), ['0', '999', '1,000', '65,536', '1,234,567']);
  assert.equal(counted(1, 'slot'), '1 slot');
  assert.equal(counted(2000, 'slot'), '2,000 slots');
});

test('the built page is one file that asks for nothing', () => {
  const html = readFileSync(page, 'utf8');
  const script = html.slice(html.indexOf('<script type="module">') + 22, html.lastIndexOf('</script>'));
  const room = mkdtempSync(join(tmpdir(), 'page-parts-'));
  writeFileSync(join(room, 'page.mjs'), script);
  execFileSync(process.execPath, ['--check', join(room, 'page.mjs')]);
  rmSync(room, { recursive: true });
  assert.doesNotMatch(script, /^(import|export) /m);
  assert.doesNotMatch(script, /\bfetch\(|XMLHttpRequest|WebSocket|importScripts|eval\(|new Function/);
  const urls = [...html.matchAll(/\b(?:https?:)?\/\/[a-z0-9.-]+\.[a-z]{2,}[^\s'"]*/gi)].map(([url]) => url);
  assert.deepEqual(urls.filter((url) => url !== 'http://www.w3.org/2000/svg'), []);
  assert.match(html, /Content-Security-Policy" content="default-src 'none'/);
  assert.ok(html.includes(readFileSync(module).toString('base64')));
});

/** The contrast of two colours, as the accessibility guidelines define it. */
function contrast(one, other) {
  const light = (colour) => {
    const [r, g, b] = [1, 3, 5].map((i) => parseInt(colour.slice(i, i + 2), 16) / 255).map((v) => (v <= 0.04045 ? v / 12.92 : ((v + 0.055) / 1.055) ** 2.4));
    return 0.2126 * r + 0.7152 * g + 0.0722 * b;
  };
  const [low, high] = [light(one), light(other)].sort((a, b) => a - b);
  return (high + 0.05) / (low + 0.05);
}

/** What is written on what, and what is drawn on what: at least 4.5 and 3, as the guidelines ask. */
const WORDS = [
  ['ink', 'card'], ['ink', 'ground'], ['ink', 'bay'], ['quiet', 'card'], ['quiet', 'bay'], ['quiet', 'ground'], ['on-accent', 'accent'],
  ['on-away', 'away'], ['on-home', 'home'], ['on-moving', 'moving'], ['card', 'goal'], ['bad', 'card'],
];
const DRAWN = [
  ['away', 'bay'], ['goal', 'bay'], ['bad', 'bay'], ['focus', 'card'], ['focus', 'bay'], ['second', 'card'], ['kept', 'card'], ['good', 'bay'],
];

test('words and marks stand out in both themes', () => {
  const style = readFileSync(new URL('../page/style.css', import.meta.url), 'utf8');
  const colours = (block) => Object.fromEntries([...block.matchAll(/--([\w-]+): (#[0-9a-f]{6})/g)].map(([, name, value]) => [name, value]));
  const themes = [...style.matchAll(/\{([^{}]*--ground:[^{}]*)\}/g)].map(([, block]) => colours(block));
  assert.equal(themes.length, 3);
  assert.deepEqual(themes[1], themes[2], 'dark is dark, by the system or by choice');
  for (const colour of themes) {
    for (const [pairs, least] of [[WORDS, 4.5], [DRAWN, 3]]) {
      for (const [one, other] of pairs) {
        const found = contrast(colour[one], colour[other]);
        assert.ok(found >= least, `${one} on ${other}: ${found.toFixed(2)}`);
      }
    }
  }
});

let failed = 0;
let ran = 0;
for (const { name, run, lacking } of tests) {
  if (lacking.length) {
    console.log(`page: not run: ${name}: the library has no ${lacking.join(', ')} yet`);
    continue;
  }
  ran++;
  try {
    await run();
  } catch (error) {
    failed++;
    console.log(`page: ${name}\n${error.stack}`);
  }
}
console.log(failed ? `page: ${failed} of ${ran} parts failed` : `page: all ${ran} parts do as they should`);
process.exit(failed ? 1 : 0);
