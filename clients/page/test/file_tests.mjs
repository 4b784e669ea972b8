// Trace files. What is expected comes from the documented format of a trace.
import assert from 'node:assert/strict';
import { writeFileSync } from 'node:fs';
import { test } from 'node:test';
import { DOCUMENTED, boxes, compared, figures, fileOf, keys, rows, textOf, traceLine } from './bench.mjs';

/** @param {import('./bench.mjs').Bench} bench */
export function fileTests(bench) {
  test('the documented trace is drawn', () => documentedTrace(bench));
  test('a line without a round says so', () => nothingAsked(bench));
  test('pairs, texts and all rows are told apart', () => kindsOfKeys(bench));
  test('several batches of a loader in a round are several boxes', () => limitedBatches(bench));
  test('calls one key at a time are shown where the line has them', () => oneKeyAtATime(bench));
  test('keys are text, whatever they look like', () => hostileKeys(bench));
  test('a long batch shows its keys in parts, and a long round its boxes', () => longBatches(bench));
  test('of very many batches the first are drawn, and all if asked', () => manyCells(bench));
  test('the same is there as a table', () => asTable(bench));
  test('lines that can’t be read are told at their numbers', () => unreadableLines(bench));
  test('other members are ignored, and white space and a missing last line feed are no fault', () => lenient(bench));
  test('100,000 lines are read piece by piece, and scrolled', context => longFile(bench, context));
  test('more lines than a browser can stack are gone through too', () => tallList(bench));
  test('lines are ordered, and gone to by their numbers', () => ordered(bench));
  test('a file can be dropped, and another one chosen', () => dropped(bench));
  test('the line that was chosen last is shown, however long others take', () => lateLine(bench));
  test('a file that has changed is told', () => changed(bench));
  test('an empty file, and one without line feeds', () => strangeFiles(bench));
  test('the keyboard reaches everything', () => keyboard(bench));
  test('a screen reader has names for it all', () => named(bench));
}

async function documentedTrace(bench) {
  const page = await bench.openFile(bench.write('documented.jsonl', fileOf(DOCUMENTED)));
  assert.deepEqual(await boxes(page), [
    { round: 'Round 1', lane: 'userById', keys: '1 key' },
    { round: 'Round 1', lane: 'allUsers', keys: '1 key' },
    { round: 'Round 2', lane: 'userById', keys: '1 key' },
  ]);
  assert.deepEqual(await figures(page, '#line-rounds'), { Rounds: '2', 'Calls made': '3', 'Keys asked': '3' });
  assert.equal(await compared(page, '#line-rounds'), null);
  assert.deepEqual(await rows(page), ['Line 1: 2 rounds, 3 calls, 3 keys', 'Line 2: 1 round, 1 call, 2 keys', 'Line 3: 0 rounds, 0 calls, 0 keys']);
  const totals = await figures(page, '#totals');
  assert.deepEqual(totals, { Lines: '3', Unreadable: '0', Rounds: '3', 'Most rounds in a line': '2', 'Calls made': '4', 'Keys asked': '5' });
  assert.equal(await compared(page, '#totals'), null);
  assert.deepEqual(await keys(page), ['1']);
  await page.point('#line-rounds .batch', 1);
  assert.deepEqual(await keys(page), ['all rows'], 'what the pointer is over');
  await page.point('h1');
  assert.deepEqual(await keys(page), ['1'], 'what is chosen, once the pointer has gone');
  await page.point('#line-rounds .batch', 2, true);
  await page.point('h1');
  assert.deepEqual(await keys(page), ['2'], 'what was clicked');
  assert.deepEqual(page.complaints, []);
  assert.deepEqual(page.requests.map(url => url.replace(/^.*\//, '')), ['index.html'], 'nothing is loaded');
  await bench.picture(page, 'documented');
  await page.close();
}

async function nothingAsked(bench) {
  const page = await bench.openFile(bench.write('nothing.jsonl', fileOf(DOCUMENTED)));
  await page.press('End');
  await bench.settled(page);
  assert.equal(await textOf(page, '#line-title'), 'Line 3');
  assert.deepEqual(await figures(page, '#line-rounds'), { Rounds: '0', 'Calls made': '0', 'Keys asked': '0' });
  assert.match(await textOf(page, '#line-rounds'), /Nothing was asked for this line/);
  assert.equal(await page.run(() => document.querySelector('#line-rounds .drawn').hidden), true);
  await page.close();
}

async function kindsOfKeys(bench) {
  const line = traceLine([[['votes', [['1', '10'], ['', 'a,b']]], ['users', ['all rows', 'null', '', ' x ']], ['all', [null]]]]);
  const page = await bench.openFile(bench.write('kinds.jsonl', fileOf([line])));
  const shown = [];
  for (const place of [0, 1, 2]) {
    await page.point('#line-rounds .batch', place, true);
    shown.push(await keys(page));
  }
  assert.deepEqual(shown, [['1|10', 'empty text|a,b'], ['all rows', 'null', 'empty text', ' x '], ['all rows']]);
  const kind = place => page.run(place => {
    document.querySelectorAll('#line-rounds .batch')[place].click();
    return document.querySelector('#line-rounds .chips').firstElementChild.firstElementChild.tagName;
  }, place);
  assert.deepEqual([await kind(1), await kind(2)], ['CODE', 'I'], 'the text “all rows” looks different from all rows');
  await page.close();
}

async function limitedBatches(bench) {
  const line = traceLine([[['users', ['1', '2']], ['users', ['3', '4']], ['users', ['5']]], [['posts', ['9']], ['users', ['6']]]]);
  const page = await bench.openFile(bench.write('limited.jsonl', fileOf([line])));
  assert.deepEqual((await boxes(page)).sort((one, other) => one.round.localeCompare(other.round) || other.lane.localeCompare(one.lane)), [
    { round: 'Round 1', lane: 'users', keys: '2 keys' },
    { round: 'Round 1', lane: 'users', keys: '2 keys' },
    { round: 'Round 1', lane: 'users', keys: '1 key' },
    { round: 'Round 2', lane: 'users', keys: '1 key' },
    { round: 'Round 2', lane: 'posts', keys: '1 key' },
  ]);
  assert.deepEqual(await page.run(() => [...document.querySelectorAll('.lane-name')].map(name => name.textContent)), ['users', 'posts']);
  assert.deepEqual(await figures(page, '#line-rounds'), { Rounds: '2', 'Calls made': '5', 'Keys asked': '7' });
  await page.close();
}

async function oneKeyAtATime(bench) {
  const rounds = [[['users', [null]]], [['posts', ['1', '2', '3', '4']]], [['users', ['1', '2']]]];
  const lines = [traceLine(rounds, 8), DOCUMENTED[1], traceLine([[['users', ['1']]]], 1)];
  const page = await bench.openFile(bench.write('one.jsonl', fileOf(lines)));
  assert.deepEqual(await compared(page, '#line-rounds'), { 'Calls made': '3', 'One key at a time': '8' });
  const lengths = await page.run(() => [...document.querySelectorAll('#line-rounds .length')].map(bar => bar.getBoundingClientRect().width));
  assert.ok(Math.abs(lengths[0] / lengths[1] - 3 / 8) < 0.02, `the bars are as 3 to 8: ${lengths}`);
  assert.deepEqual(await rows(page), [
    'Line 1: 3 rounds, 3 calls, 7 keys, one key at a time 8 calls',
    'Line 2: 1 round, 1 call, 2 keys',
    'Line 3: 1 round, 1 call, 1 key, one key at a time 1 call',
  ]);
  assert.deepEqual(await compared(page, '#totals'), { 'Calls made': '4', 'One key at a time': '9' }, 'only lines that have both are compared');
  assert.match(await textOf(page, '#totals'), /over the 2 lines that say/);
  await page.press('ArrowDown');
  await bench.settled(page);
  assert.equal(await compared(page, '#line-rounds'), null);
  await page.close();
}

async function hostileKeys(bench) {
  const markup = '<img src=x onerror="window.broken=1"><script>window.broken=1</script>';
  const line = traceLine([[[markup, [markup, 'a\nb', '\u202egnp.exe', '\u0000']]]]);
  const page = await bench.openFile(bench.write('hostile.jsonl', fileOf([line, `${markup}`])));
  assert.deepEqual(await keys(page), [markup, 'a\\nb', '\\u202egnp.exe', '\\u0000']);
  assert.equal((await boxes(page))[0].lane, markup);
  await page.press('ArrowDown');
  await bench.settled(page);
  assert.match(await textOf(page, '#line-fault'), /<img src=x/);
  assert.deepEqual(await page.run(() => [document.images.length, document.scripts.length, window.broken ?? null]), [0, 1, null]);
  const refused = await page.run(() => {
    try {
      document.body.innerHTML = '<b>markup</b>';
      return false;
    } catch (error) {
      return error instanceof TypeError;
    }
  });
  assert.ok(refused, 'the browser refuses markup from text');
  await page.close();
}

async function longBatches(bench) {
  const many = Array.from({ length: 1234 }, (_, place) => `k${place}`);
  const batches = many.map(key => ['each', [key]]);
  const page = await bench.openFile(bench.write('long.jsonl', fileOf([traceLine([[['one', many]]]), traceLine([batches])])));
  let shown = await keys(page);
  assert.deepEqual([shown[0], shown[199], shown[200], shown.length], ['k0', 'k199', '1,034 more', 201]);
  await page.run(() => document.querySelector('#line-rounds .chips button').click());
  shown = await keys(page);
  assert.deepEqual([shown[200], shown[1199], shown[1200]], ['k200', 'k1199', '34 more']);
  assert.equal(await page.run(() => document.activeElement.textContent), 'k200', 'the focus is at the first new key');
  await page.run(() => document.querySelector('#line-rounds .chips button').click());
  assert.deepEqual(await keys(page), many);
  await page.run(() => document.querySelector('#next').click());
  await bench.settled(page);
  assert.deepEqual(await figures(page, '#line-rounds'), { Rounds: '1', 'Calls made': '1,234', 'Keys asked': '1,234' });
  const drawn = () => page.run(() => [document.querySelectorAll('#line-rounds .batch').length, document.querySelector('#line-rounds .more').textContent]);
  assert.deepEqual(await drawn(), [24, '1,210 more']);
  await page.run(() => document.querySelector('#line-rounds .more').click());
  assert.deepEqual(await drawn(), [144, '1,090 more']);
  await page.close();
}

async function manyCells(bench) {
  const rounds = Array.from({ length: 6 }, (_, round) => Array.from({ length: 200 }, (_, loader) => [`loader${loader}`, [`${round}`]]));
  const page = await bench.openFile(bench.write('cells.jsonl', fileOf([traceLine(rounds), DOCUMENTED[0]])));
  const state = () => page.run(() => [document.querySelectorAll('#line-rounds .batch').length, document.querySelector('#line-rounds .part').hidden]);
  assert.deepEqual(await state(), [1000, false]);
  assert.match(await textOf(page, '#line-rounds .part'), /The first 1,000 of 1,200 batches are drawn\./);
  assert.deepEqual(await figures(page, '#line-rounds'), { Rounds: '6', 'Calls made': '1,200', 'Keys asked': '1,200' });
  await page.run(() => document.querySelector('#line-rounds .part button').click());
  assert.deepEqual(await state(), [1200, true]);
  assert.deepEqual((await boxes(page)).at(-1), { round: 'Round 6', lane: 'loader199', keys: '1 key' });
  await page.run(() => document.querySelector('#next').click());
  await bench.settled(page);
  assert.deepEqual(await state(), [3, true]);
  await page.close();
}

async function asTable(bench) {
  const line = traceLine([[['users', [null]]], [['votes', [['1', '10'], ['2', '12']]], ['users', ['7']]]]);
  const page = await bench.openFile(bench.write('table.jsonl', fileOf([line])));
  await page.run(() => document.querySelector('#line-rounds summary').click());
  await bench.settled(page);
  const table = await page.run(() => {
    const textOf = cell => [...cell.querySelectorAll('li')].map(item => item.textContent).join('; ') || cell.textContent;
    return [...document.querySelectorAll('#line-rounds table tr')].map(row => [...row.cells].map(textOf));
  });
  assert.deepEqual(table, [
    ['Round', 'Loader', 'Keys', 'Keys as asked'],
    ['1', 'users', '1', 'all rows'],
    ['2', 'votes', '2', '1 and 10; 2 and 12'],
    ['2', 'users', '1', '7'],
  ]);
  await page.close();
}

const UNREADABLE = [
  ['not json', /isn’t JSON/],
  ['', /empty/],
  ['[]', /isn’t an object/],
  ['null', /isn’t an object/],
  ['{}', /“rounds” is missing/],
  ['{"rounds":{}}', /“rounds” isn’t an array/],
  ['{"rounds":[[],{}]}', /round 2 isn’t an array/],
  ['{"rounds":[[[]]]}', /round 1, batch 1 isn’t an object/],
  ['{"rounds":[[{"keys":["1"]}]]}', /round 1, batch 1: “loader” is missing/],
  ['{"rounds":[[{"loader":7,"keys":["1"]}]]}', /round 1, batch 1: “loader” isn’t a string/],
  ['{"rounds":[[{"loader":"a","keys":["1"]},{"loader":"a"}]]}', /round 1, batch 2: “keys” is missing/],
  ['{"rounds":[[{"loader":"a","keys":"1"}]]}', /“keys” isn’t an array/],
  ['{"rounds":[[{"loader":"a","keys":["1",2]}]]}', /round 1, batch 1, key 2 is neither a text, nor a pair of texts, nor null/],
  ['{"rounds":[[{"loader":"a","keys":[["1","2","3"]]}]]}', /key 1 is neither/],
  ['{"rounds":[[{"loader":"a","keys":[["1",null]]}]]}', /key 1 is neither/],
  ['{"rounds":[],"keyByKey":"5"}', /“keyByKey” isn’t a whole number/],
  ['{"rounds":[],"keyByKey":-1}', /“keyByKey” isn’t a whole number/],
  ['\ufeff{"rounds":[]}', /isn’t JSON/],
];

async function unreadableLines(bench) {
  const good = DOCUMENTED[1];
  const lines = [good, ...UNREADABLE.map(([line]) => line), good];
  const bytes = Buffer.concat([Buffer.from(fileOf(lines)), Buffer.from([0x22, 0xff, 0x22, 0x0a]), Buffer.from('{"rounds":[[{"loader":"a","ke')]);
  const page = await bench.openFile(bench.write('unreadable.jsonl', bytes));
  const faults = UNREADABLE.map(([, reason], place) => [place + 2, reason]);
  faults.push([lines.length + 1, /isn’t UTF-8/], [lines.length + 2, /the file ends within it/]);
  await page.run(() => document.querySelector('#list').focus());
  const told = [];
  for (let line = 1; line <= lines.length + 2; line += 1) {
    told.push(await page.run(() => document.querySelector('#list [aria-selected=true]').getAttribute('aria-label')));
    await page.press('ArrowDown');
  }
  for (const [line, reason] of faults) {
    assert.match(told[line - 1], new RegExp(`^Line ${line} can’t be read: `));
    assert.match(told[line - 1], reason);
  }
  for (const line of [1, lines.length]) assert.equal(told[line - 1], `Line ${line}: 1 round, 1 call, 2 keys`);
  const figure = await figures(page, '#totals');
  assert.deepEqual([figure.Lines, figure.Unreadable, figure['Calls made']], [String(lines.length + 2), String(faults.length), '2']);
  assert.match(await textOf(page, '#unreadable'), new RegExp(`^${faults.length} lines can’t be read`));
  await page.run(() => [...document.querySelectorAll('#unreadable button')].find(go => go.textContent === 'Line 9').click());
  await bench.settled(page);
  assert.equal(await textOf(page, '#line-title'), 'Line 9');
  assert.match(await textOf(page, '#line-fault'), /round 1, batch 1 isn’t an object[^]*\{"rounds":\[\[\[\]\]\]\}/);
  await page.run(() => document.querySelector('#only-faults').click());
  await bench.settled(page);
  assert.equal((await rows(page)).every(row => row.includes('can’t be read')), true);
  assert.equal(await page.run(() => document.querySelector('#list [role=option]').getAttribute('aria-setsize')), String(faults.length));
  await bench.picture(page, 'unreadable');
  await page.close();
}

async function lenient(bench) {
  const text = ' { "rounds" : [ ] , "more" : 1 } \r\n{"rounds":[[{"loader":"a","keys":[],"more":{}}],[]]}';
  const page = await bench.openFile(bench.write('lenient.jsonl', text));
  assert.deepEqual(await rows(page), ['Line 1: 0 rounds, 0 calls, 0 keys', 'Line 2: 2 rounds, 1 call, 0 keys']);
  assert.equal(await page.run(() => document.querySelector('#unreadable').hidden), true);
  await page.press('ArrowDown');
  await bench.settled(page);
  assert.deepEqual(await boxes(page), [{ round: 'Round 1', lane: 'a', keys: '0 keys' }]);
  await page.close();
}

const MANY = 100_000;

/** Many lines, with what they come to. */
function manyLines() {
  const sums = { rounds: 0, calls: 0, keys: 0, keyByKey: 0 };
  const lines = [];
  for (let line = 0; line < MANY; line += 1) {
    const rounds = Array.from({ length: line % 5 }, (_, round) => [[`loader${round}`, Array.from({ length: 1 + (line % 7) }, (_, key) => `${line}-${key}`)]]);
    sums.rounds += line % 5;
    sums.calls += line % 5;
    sums.keys += (line % 5) * (1 + (line % 7));
    sums.keyByKey += line % 50;
    lines.push(traceLine(rounds, line % 50));
  }
  return { text: fileOf(lines), sums };
}

/** @param {import('./bench.mjs').Bench} bench @param {import('node:test').TestContext} context */
async function longFile(bench, context) {
  const { text, sums } = manyLines();
  const path = bench.write('many.jsonl', text);
  const page = await bench.openFile();
  await page.run(() => {
    window.turns = 0;
    setInterval(() => window.turns++, 5);
  });
  const started = Date.now();
  await bench.choose(page, path);
  const took = Date.now() - started;
  const turns = await page.run(() => window.turns);
  assert.ok(turns > 1, 'the page did nothing else meanwhile');
  context.diagnostic(`100,000 lines: ${took} ms, in which the page had ${turns} turns`);
  const grouped = number => number.toLocaleString('en');
  assert.deepEqual(await figures(page, '#totals'), {
    Lines: '100,000',
    Unreadable: '0',
    Rounds: grouped(sums.rounds),
    'Most rounds in a line': '4',
    'Calls made': grouped(sums.calls),
    'Keys asked': grouped(sums.keys),
  });
  assert.deepEqual(await compared(page, '#totals'), { 'Calls made': grouped(sums.calls), 'One key at a time': grouped(sums.keyByKey) });
  assert.ok((await rows(page)).length < 100, 'only rows in view are made');
  await page.press('End');
  await bench.settled(page);
  assert.equal(await textOf(page, '#line-title'), 'Line 100,000');
  assert.equal((await rows(page)).at(-1), 'Line 100,000: 4 rounds, 4 calls, 20 keys, one key at a time 49 calls');
  assert.deepEqual(await keys(page), ['99999-0', '99999-1', '99999-2', '99999-3', '99999-4']);
  await page.run(() => document.querySelector('#list').scrollTo(0, document.querySelector('#list').scrollHeight / 2));
  await bench.settled(page);
  const middle = Number((await rows(page))[0].match(/^Line ([\d,]+)/)[1].replace(',', ''));
  assert.ok(middle > 45_000 && middle < 55_000, `the middle is at line ${middle}`);
  await page.press('PageUp');
  await bench.settled(page);
  assert.ok(await page.run(() => document.querySelector('#list [aria-selected=true]') !== null), 'the chosen line comes back into view');
  await page.close();
}

async function tallList(bench) {
  const lines = 400_000;
  const page = await bench.openFile(bench.write('tall.jsonl', '{"rounds":[]}\n'.repeat(lines)));
  const chosen = () => page.run(() => {
    const row = document.querySelector('#list [aria-selected=true]');
    const { top, bottom } = row.getBoundingClientRect();
    const list = document.querySelector('#list').getBoundingClientRect();
    const head = document.querySelector('.list-head').getBoundingClientRect();
    return [row.firstElementChild.textContent, top >= head.bottom - 1 && bottom <= list.bottom + 1];
  });
  const walked = [];
  for (const key of ['End', 'ArrowUp', 'PageUp', 'ArrowDown', 'Home', 'ArrowDown']) {
    await page.press(key);
    await bench.settled(page);
    walked.push(await chosen());
  }
  assert.deepEqual(walked.filter(([, inView]) => !inView), []);
  assert.deepEqual([walked[0][0], walked[1][0], walked[4][0], walked[5][0]], ['400,000', '399,999', '1', '2']);
  await page.run(() => document.querySelector('#list').scrollTo(0, document.querySelector('#list').scrollHeight / 2));
  await bench.settled(page);
  const middle = Number((await rows(page))[0].match(/^Line ([\d,]+)/)[1].replace(',', ''));
  assert.ok(middle > 180_000 && middle < 220_000, `the middle is at line ${middle}`);
  await page.close();
}

async function ordered(bench) {
  const lines = [3, 1, 4, 1, 5].map(count => traceLine([[['a', Array.from({ length: count }, (_, key) => String(key))]]]));
  const page = await bench.openFile(bench.write('ordered.jsonl', fileOf(lines)));
  await page.run(() => {
    const order = document.querySelector('#order');
    order.value = 'keys';
    order.dispatchEvent(new Event('change'));
  });
  await bench.settled(page);
  assert.deepEqual((await rows(page)).map(row => row.slice(0, 6)), ['Line 5', 'Line 3', 'Line 1', 'Line 2', 'Line 4']);
  const chosen = await page.run(() => document.querySelector('#list [aria-selected=true]').getAttribute('aria-label'));
  assert.equal(chosen, 'Line 1: 1 round, 1 call, 3 keys', 'the same line is chosen');
  await page.run(() => document.querySelector('#next').click());
  await bench.settled(page);
  assert.equal(await textOf(page, '#line-title'), 'Line 2');
  await page.run(() => document.querySelector('#go-to').focus());
  await page.type('4');
  await page.press('Enter');
  await bench.settled(page);
  assert.equal(await textOf(page, '#line-title'), 'Line 4');
  assert.equal(await page.run(() => document.querySelector('#next').disabled), true);
  await page.close();
}

async function dropped(bench) {
  const page = await bench.openFile(bench.write('first.jsonl', fileOf(DOCUMENTED)));
  await page.run(text => {
    const dataTransfer = new DataTransfer();
    dataTransfer.items.add(new File([text], 'dropped.jsonl'));
    const send = kind => document.querySelector('h1').dispatchEvent(new DragEvent(kind, { dataTransfer, bubbles: true, cancelable: true }));
    if (send('dragover')) throw new Error('the page doesn’t take it');
    send('drop');
  }, fileOf([DOCUMENTED[1]]));
  await page.until(() => document.querySelector('#trace-status').textContent === 'dropped.jsonl: 1 line.');
  await bench.settled(page);
  assert.deepEqual(await rows(page), ['Line 1: 1 round, 1 call, 2 keys']);
  assert.deepEqual(await boxes(page), [{ round: 'Round 1', lane: 'userById', keys: '2 keys' }]);
  assert.equal((await figures(page, '#totals')).Lines, '1');
  await page.close();
}

async function lateLine(bench) {
  const page = await bench.openFile(bench.write('late.jsonl', fileOf(DOCUMENTED)));
  await page.run(() => {
    const read = Blob.prototype.arrayBuffer;
    let waits = 300;
    Blob.prototype.arrayBuffer = async function () {
      const wait = waits;
      waits = 0;
      await new Promise(resolve => setTimeout(resolve, wait));
      return read.call(this);
    };
  });
  await page.press('ArrowDown');
  await page.press('ArrowDown');
  await bench.settled(page);
  assert.equal(await textOf(page, '#line-title'), 'Line 3');
  await page.run(() => new Promise(resolve => setTimeout(resolve, 500)));
  assert.equal(await textOf(page, '#line-title'), 'Line 3');
  assert.match(await textOf(page, '#line-rounds'), /Nothing was asked/);
  await page.close();
}

async function changed(bench) {
  const path = bench.write('changing.jsonl', fileOf(DOCUMENTED));
  const page = await bench.openFile(path);
  writeFileSync(path, 'something else that is longer or shorter');
  await page.press('ArrowDown');
  await bench.settled(page);
  assert.match(await textOf(page, '#line-fault'), /has changed since it was opened/);
  writeFileSync(path, fileOf([DOCUMENTED[1]]));
  await page.send('Page.setInterceptFileChooserDialog', { enabled: true });
  await page.point('#file', 0, true);
  await bench.choose(page, path);
  assert.deepEqual(await rows(page), ['Line 1: 1 round, 1 call, 2 keys'], 'the same file can be chosen again');
  await page.close();
}

async function strangeFiles(bench) {
  const page = await bench.openFile(bench.write('empty.jsonl', ''));
  assert.equal(await textOf(page, '#trace-status'), 'empty.jsonl is empty.');
  assert.equal(await page.run(() => document.querySelector('#file-view').hidden), true);
  await bench.choose(page, bench.write('bytes.bin', Buffer.alloc(3_000_000, 0xfe)));
  assert.equal(await textOf(page, '#trace-status'), 'bytes.bin: 1 line, of which 1 can’t be read.');
  assert.deepEqual(page.complaints, []);
  await page.close();
}

/** What has the focus, in words for a test. */
const focused = page => page.run(() => {
  const { id, className, tagName, textContent } = document.activeElement;
  return id || className || `${tagName.toLowerCase()} ${textContent}`;
});

async function keyboard(bench) {
  const line = traceLine([[['a', ['1']], ['b', ['2']]], [['b', ['3']]], [['a', ['4']], ['c', ['5']], ['c', ['6']]]], 9);
  const page = await bench.openFile(bench.write('keyboard.jsonl', fileOf([line, DOCUMENTED[0]])));
  assert.equal(await focused(page), 'list', 'the list has the focus once a file is read');
  await page.run(() => {
    document.activeElement.blur();
    document.querySelector('.skip').focus();
  });
  const order = [];
  for (let step = 0; step < 9; step += 1) {
    order.push(await focused(page));
    assert.ok(await page.run(() => {
      const { outlineStyle, outlineWidth } = getComputedStyle(document.activeElement);
      return outlineStyle !== 'none' && parseFloat(outlineWidth) >= 1;
    }), `the focus is seen at ${order.at(-1)}`);
    await page.press('Tab');
  }
  assert.deepEqual(order, ['skip', 'file', 'summary Totals by loader (5)', 'order', 'go-to', 'list', 'next', 'batch', 'summary The batches as a table']);
  await page.run(() => document.querySelector('#line-rounds .batch[tabindex="0"]').focus());
  const walked = [];
  for (const key of ['ArrowDown', 'ArrowRight', 'ArrowRight', 'ArrowDown', 'ArrowRight', 'ArrowRight', 'ArrowUp', 'ArrowLeft', 'Home', 'End']) {
    await page.press(key);
    walked.push((await keys(page)).join());
  }
  assert.deepEqual(walked, ['2', '3', '4', '5', '6', '6', '4', '3', '1', '6']);
  await page.press('Enter');
  assert.equal(await focused(page), 'keys', 'Enter goes to the keys');
  await page.press('Escape');
  assert.equal(await focused(page), 'batch', 'Escape comes back');
  assert.deepEqual(await keys(page), ['6']);
  await page.run(() => document.querySelector('#list').focus());
  await page.press('ArrowDown');
  await bench.settled(page);
  assert.equal(await textOf(page, '#line-title'), 'Line 2');
  await page.press('ArrowDown');
  await page.press('Home');
  await bench.settled(page);
  assert.equal(await textOf(page, '#line-title'), 'Line 1');
  const active = await page.run(() => document.activeElement.getAttribute('aria-activedescendant'));
  assert.equal(active, await page.run(() => document.querySelector('#list [aria-selected=true]').id));
  await page.close();
}

async function named(bench) {
  const page = await bench.openFile(bench.write('named.jsonl', fileOf(DOCUMENTED)));
  const buttons = await page.names('button');
  for (const words of [['Round 1', 'userById', '1 key', '1'], ['Round 1', 'allUsers', '1 key', 'all rows'], ['Round 2', 'userById', '1 key', '2']]) {
    assert.ok(buttons.some(name => words.every(word => name.includes(word))), `a box named ${words}: ${buttons}`);
  }
  assert.equal(buttons.includes(''), false, 'no button is without a name');
  const lines = (await page.names('option')).filter(name => name.startsWith('Line'));
  assert.deepEqual(lines, ['Line 1: 2 rounds, 3 calls, 3 keys', 'Line 2: 1 round, 1 call, 2 keys', 'Line 3: 0 rounds, 0 calls, 0 keys']);
  assert.deepEqual(await page.names('listbox'), ['Lines']);
  assert.equal((await page.names('main')).length, 1);
  await page.close();
}
