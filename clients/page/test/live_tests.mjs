// The live mode, before a server of canned answers. What is expected comes from what the server answers.
import assert from 'node:assert/strict';
import { test } from 'node:test';
import { boxes, compared, figures, keys, textOf } from './bench.mjs';

const ROUNDS = [
  [{ loader: 'customers', keys: [null], milliseconds: 0.5, statement: 'SELECT id, name FROM customer' }],
  [
    { loader: 'ordersByCustomer', keys: ['1', '2', '3'], milliseconds: 1.25, statement: 'SELECT id FROM "order" WHERE customer IN (?, ?, ?)' },
    { loader: 'reviewsByPair', keys: [['1', 'a']], milliseconds: 2, failed: 'no <b>table' },
  ],
];
const DATA = '{"customers":[{"name":"Ada <b>","price":1.50,"orders":[]}]}';
const ANSWER = `{"data":${DATA},"extensions":{"rounds":${JSON.stringify(ROUNDS)},"keyByKey":12}}`;

/** @param {import('./bench.mjs').Bench} bench */
export function liveTests(bench) {
  test('an answer and its rounds are shown', () => answered(bench));
  test('what is asked is what was written', () => asked(bench));
  test('variables that aren’t an object are told, and nothing is asked', () => badVariables(bench));
  test('errors are marked at their places', () => errors(bench));
  test('places count characters, and may stand at the end', () => places(bench));
  test('the server’s examples, or the one that is built in', () => examples(bench));
  test('the server’s schema', () => schema(bench));
  test('what was written by hand can be chosen again', () => ownText(bench));
  test('a server that fails is told', () => failures(bench));
  test('Escape stops a request, and a later one replaces it', () => stopped(bench));
  test('rounds of another shape are told', () => strangeRounds(bench));
  test('a long answer is shown in parts', () => longAnswer(bench));
  test('the modes are tabs', () => tabs(bench));
  test('from a file there is no live mode', () => fromFile(bench));
}

/** Writes a text into a field as a user does. */
async function write(page, selector, text) {
  await page.run(selector => {
    const field = document.querySelector(selector);
    field.focus();
    field.select();
  }, selector);
  if (text === '') await page.press('Delete');
  else await page.type(text);
}

/** Runs the query, and waits for its answer. */
async function runQuery(bench, page) {
  await page.run(() => {
    document.querySelector('#live-status').textContent = '';
    document.querySelector('#query').focus();
  });
  await page.press('Control+Enter');
  await page.until(() => !/^(Running\.)?$/.test(document.querySelector('#live-status').textContent));
  await bench.settled(page);
}

async function answered(bench) {
  const { page, server } = await bench.openLive({ answer: { text: ANSWER } });
  await runQuery(bench, page);
  assert.deepEqual(await boxes(page), [
    { round: 'Round 1', lane: 'customers', keys: '1 key 0.50 ms' },
    { round: 'Round 2', lane: 'ordersByCustomer', keys: '3 keys 1.25 ms' },
    { round: 'Round 2', lane: 'reviewsByPair', keys: '1 key 2.00 ms' },
  ]);
  assert.deepEqual(await figures(page, '#live-rounds'), { Rounds: '2', 'Statements run': '3', 'Keys asked': '5', 'Time in batches': '3.75 ms' });
  assert.deepEqual(await compared(page, '#live-rounds'), { 'Statements run': '3', 'One for each key': '5', 'One key at a time': '12' });
  await page.point('#live-rounds .batch', 1, true);
  assert.equal(await textOf(page, '#live-rounds .statement'), ROUNDS[1][0].statement);
  assert.deepEqual(await compared(page, '#live-rounds .keys'), { 'This statement': '1', 'One for each key': '3' });
  assert.deepEqual(await keys(page), ['1', '2', '3']);
  await page.point('#live-rounds .batch', 2, true);
  assert.equal(await page.run(() => document.querySelector('#live-rounds .statement')), null, 'a batch without a statement');
  assert.equal(await textOf(page, '#live-rounds .keys .fault'), 'It failed: no <b>table');
  assert.deepEqual(await page.run(() => [...document.querySelectorAll('#live-rounds .failed')].map(box => box.textContent)), ['Round 2, reviewsByPair: failed, 1 key 2.00 ms (1, a)']);
  assert.equal(await page.run(() => document.querySelector('#live-rounds .keys .compare')), null);
  assert.deepEqual(await keys(page), ['1|a']);
  const data = '{\n  "data": {\n    "customers": [\n      {\n        "name": "Ada <b>",\n        "price": 1.50,\n        "orders": []\n      }\n    ]\n  }\n}';
  assert.equal(await page.run(() => document.querySelector('#answer-text').textContent), data);
  await page.run(() => document.querySelector('#with-extensions').click());
  const whole = await page.run(() => document.querySelector('#answer-text').textContent);
  assert.deepEqual(JSON.parse(whole), JSON.parse(ANSWER));
  assert.match(await textOf(page, '#live-status'), /2 rounds, 3 statements for 5 keys; one key at a time 12\./);
  await page.run(() => document.querySelector('#live-rounds summary').click());
  await bench.settled(page);
  const table = await page.run(() => [...document.querySelectorAll('#live-rounds tbody tr')].map(row => [1, 3, 5].map(cell => row.cells[cell].textContent)));
  assert.deepEqual(table, [
    ['customers', '0.50', ROUNDS[0][0].statement],
    ['ordersByCustomer', '1.25', ROUNDS[1][0].statement],
    ['reviewsByPair', '2.00', ''],
  ]);
  assert.equal(server.asked.length, 1);
  await bench.picture(page, 'live');
  await page.close();
}

async function asked(bench) {
  const { page, server } = await bench.openLive();
  const query = 'query Q($n: Int) {\n  a(n: $n)\n}';
  await write(page, '#query', query);
  await write(page, '#variables', '{"n": 12345678901234567890, "f": 1.0}');
  await write(page, '#operation', 'Q');
  await runQuery(bench, page);
  await write(page, '#variables', '');
  await write(page, '#operation', '');
  await page.run(() => document.querySelector('#run').click());
  while (server.asked.length < 2) await bench.settled(page);
  assert.deepEqual(server.asked.map(({ method, type }) => [method, type]), Array(2).fill(['POST', 'application/json']));
  assert.match(server.asked[0].accept, /^application\/vnd\.rudzkvano\.rounds\+json,/, 'the rounds are asked for');
  assert.match(server.asked[0].body, /12345678901234567890/, 'a number keeps its digits');
  const [first, second] = server.asked.map(({ body }) => JSON.parse(body));
  assert.deepEqual([first.query, first.operationName, first.variables.f], [query, 'Q', 1]);
  assert.deepEqual([second.query, second.operationName ?? null, second.variables ?? null], [query, null, null]);
  await page.close();
}

async function badVariables(bench) {
  const { page, server } = await bench.openLive();
  for (const [text, fault] of [['{', /isn’t JSON/], ['[1]', /isn’t an object/], ['7', /isn’t an object/]]) {
    await write(page, '#variables', text);
    await page.press('Control+Enter');
    await bench.settled(page);
    assert.match(await textOf(page, '#variables-fault'), fault);
    assert.equal(await page.run(() => document.activeElement.id), 'variables');
  }
  assert.deepEqual(server.asked, []);
  await write(page, '#variables', '{}');
  assert.equal(await textOf(page, '#variables-fault'), '', 'the fault is gone once the text changes');
  await page.close();
}

const marks = page => page.run(() => [...document.querySelectorAll('#editor mark')].map(mark => mark.textContent));
const faultyLines = page => page.run(() => [...document.querySelectorAll('.line-numbers .at-fault')].map(line => line.textContent));

async function errors(bench) {
  const text = JSON.stringify({
    errors: [
      { message: '5.3.1 Field Selections: age', locations: [{ line: 3, column: 5 }] },
      { message: 'no <i>rows</i>', locations: [{ line: 2, column: 3 }], path: ['users', 0, 'name'] },
      { message: 'answer too long' },
    ],
    data: null,
  });
  const { page } = await bench.openLive({ answer: { text } });
  await write(page, '#query', '{\n  users {\n    age\n  }\n}');
  await runQuery(bench, page);
  assert.deepEqual(await marks(page), ['users', 'age']);
  assert.deepEqual(await faultyLines(page), ['2', '3']);
  const told = (await textOf(page, '#errors')).split('\n').map(line => line.replace(/\s+/g, ' ').trim()).filter(line => line !== '');
  assert.deepEqual(told, ['3 errors', '5.3.1 Field Selections: age line 3, column 5', 'no <i>rows</i> line 2, column 3 at users.0.name', 'answer too long']);
  assert.equal(await page.run(() => document.querySelector('#query').getAttribute('aria-invalid')), 'true');
  await page.run(() => document.querySelector('#errors button').click());
  const selection = await page.run(() => {
    const { id, value, selectionStart, selectionEnd } = document.activeElement;
    return [id, value.slice(selectionStart, selectionEnd)];
  });
  assert.deepEqual(selection, ['query', 'age']);
  const over = await page.run(() => {
    const mark = document.querySelector('#editor mark').getBoundingClientRect();
    const text = document.querySelector('#query').getBoundingClientRect();
    return [mark.left - text.left, mark.top - text.top];
  });
  assert.ok(over[0] > 20 && over[0] < 60 && over[1] > 20 && over[1] < 60, `the mark lies behind line 2, column 3: ${over}`);
  await bench.picture(page, 'errors');
  await page.type('x');
  assert.deepEqual(await marks(page), [], 'the marks are gone once the text changes');
  await page.close();
}

async function places(bench) {
  const at = (line, column) => JSON.stringify({ errors: [{ message: 'm', locations: [{ line, column }] }] });
  const { page, server } = await bench.openLive();
  for (const [query, line, column, marked] of [
    ['{\n  user(name: "😀😀") { nam }\n}', 2, 22, ['nam']],
    ['{a', 1, 3, [' ']],
    ['{a\n}}', 2, 2, ['}']],
    ['{a(b: $c)}', 1, 7, ['$c']],
    ['{...F}', 1, 2, ['...']],
    ['{a}', 9, 1, []],
    ['{a}', 1, 9, []],
    ['{a}', 0, 0, []],
  ]) {
    server.answer = { text: at(line, column) };
    await write(page, '#query', query);
    await runQuery(bench, page);
    assert.deepEqual(await marks(page), marked, `${query} at ${line}:${column}`);
  }
  await page.close();
}

const exampleNames = page => page.run(() => [...document.querySelectorAll('#examples option')].map(option => option.textContent));

async function examples(bench) {
  const list = [{ name: 'One', query: '{one}' }, { name: 'Two', query: 'query Two($x: ID) {two(x: $x)}', variables: { x: '7' }, operationName: 'Two' }];
  const served = await bench.openLive({ examples: JSON.stringify(list), schema: 'type Query { one: Int }' });
  assert.deepEqual(await exampleNames(served.page), ['One', 'Two']);
  assert.equal(await served.page.run(() => document.querySelector('#query').value), '{one}');
  await served.page.run(() => document.querySelector('#examples').focus());
  await served.page.press('ArrowDown');
  await bench.settled(served.page);
  const fields = await served.page.run(() => ['query', 'variables', 'operation'].map(id => document.querySelector(`#${id}`).value));
  assert.deepEqual([fields[0], JSON.parse(fields[1]), fields[2]], [list[1].query, list[1].variables, 'Two']);
  assert.deepEqual(served.page.complaints, []);
  await served.page.close();
  const without = await bench.openLive();
  assert.equal((await exampleNames(without.page)).length, 1);
  assert.match(await without.page.run(() => document.querySelector('#query').value), /__typename/);
  await without.page.close();
  const strange = await bench.openLive({ examples: '[{"name":1}]' });
  assert.match(await textOf(strange.page, '#examples-note'), /This one is built in/);
  await strange.page.close();
}

async function schema(bench) {
  const text = 'type Query {\n  one: Int\n}\n';
  const { page } = await bench.openLive({ schema: text });
  await page.run(() => document.querySelector('#schema summary').click());
  assert.equal(await textOf(page, '#schema-text'), text);
  await page.close();
  const without = await bench.openLive();
  assert.equal(await without.page.run(() => document.querySelector('#schema').hidden), true);
  await without.page.close();
}

async function ownText(bench) {
  const { page } = await bench.openLive();
  const [first] = await exampleNames(page);
  await write(page, '#query', '{mine}');
  assert.deepEqual((await exampleNames(page)).slice(0, 2), ['Your own', first]);
  const pick = value => page.run(value => {
    const list = document.querySelector('#examples');
    list.value = value;
    list.dispatchEvent(new Event('change'));
    return document.querySelector('#query').value;
  }, value);
  assert.match(await pick('0'), /__typename/);
  assert.equal(await pick('own'), '{mine}');
  assert.deepEqual(await page.run(() => [...document.querySelectorAll('.line-numbers div')].map(line => line.textContent)), ['1']);
  await page.close();
}

async function failures(bench) {
  const { page, server } = await bench.openLive({ answer: { status: 500, text: '<h1>Oh</h1>' } });
  await runQuery(bench, page);
  assert.match(await textOf(page, '#live-status'), /status 500, but not with an answer/);
  server.answer = { status: 400, text: '{"errors":[{"message":"not a request"}]}' };
  await runQuery(bench, page);
  assert.match(await textOf(page, '#live-status'), /status 400/);
  assert.match(await textOf(page, '#errors'), /not a request/);
  server.answer = { text: '[]' };
  await runQuery(bench, page);
  assert.match(await textOf(page, '#live-status'), /isn’t an object/);
  await server.stop();
  await runQuery(bench, page);
  assert.match(await textOf(page, '#live-status'), /The server didn’t answer/);
  assert.equal(await page.run(() => document.querySelector('#errors').hidden && document.querySelector('#answer').hidden), true);
  await page.close();
}

async function stopped(bench) {
  let release = () => {};
  const wait = new Promise(resolve => { release = () => resolve(); });
  const { page, server } = await bench.openLive({ answer: { text: '{"data":{"slow":1}}', wait } });
  await page.run(() => document.querySelector('#query').focus());
  await page.press('Control+Enter');
  await page.until(() => !document.querySelector('#stop').hidden);
  await page.press('Escape');
  await page.until(() => document.querySelector('#live-status').textContent === 'Stopped.');
  assert.equal(await page.run(() => document.querySelector('#stop').hidden), true);
  for (const number of [2, 3]) {
    await page.press('Control+Enter');
    while (server.asked.length < number) await bench.settled(page);
    const state = await page.run(() => [document.querySelector('#live-status').textContent, document.querySelector('#stop').hidden]);
    assert.deepEqual(state, ['Running.', false], 'a request that was replaced says nothing');
  }
  server.answer = { text: '{"data":{"quick":1}}' };
  await runQuery(bench, page);
  release();
  await bench.settled(page);
  assert.match(await textOf(page, '#answer-text'), /quick/);
  await page.close();
}

async function strangeRounds(bench) {
  const { page, server } = await bench.openLive({ answer: { text: '{"data":{}}' } });
  await runQuery(bench, page);
  assert.match(await textOf(page, '#live-status'), /doesn’t say what it asked/);
  assert.equal(await page.run(() => document.querySelector('#live-rounds').hidden), true);
  for (const [rounds, fault] of [
    ['[[{"loader":"a","keys":[1]}]]', /round 1, batch 1, key 1/],
    ['[[{"loader":"a","keys":[],"milliseconds":"1"}]]', /“milliseconds”/],
    ['[[{"loader":"a","keys":[],"statement":1}]]', /“statement”/],
    ['[[{"loader":"a","keys":[],"failed":true}]]', /“failed”/],
    ['{}', /“rounds” isn’t an array/],
  ]) {
    server.answer = { text: `{"data":{},"extensions":{"rounds":${rounds}}}` };
    await runQuery(bench, page);
    assert.match(await textOf(page, '#live-status'), fault);
    assert.equal(await page.run(() => document.querySelector('#live-rounds').hidden), true);
  }
  server.answer = { text: '{"data":{},"extensions":{"rounds":[]}}' };
  await runQuery(bench, page);
  assert.match(await textOf(page, '#live-rounds'), /Nothing was asked for this request/);
  await page.close();
}

async function longAnswer(bench) {
  const names = Array.from({ length: 40_000 }, (_, place) => `name ${place} \\ "`);
  const { page } = await bench.openLive({ answer: { text: JSON.stringify({ extensions: { rounds: [] }, data: { names, extensions: { kept: true } } }) } });
  await runQuery(bench, page);
  const length = () => page.run(() => document.querySelector('#answer-text').textContent.length);
  assert.equal(await length(), 200_001);
  await page.run(() => document.querySelector('#answer-all').click());
  const whole = await page.run(() => document.querySelector('#answer-text').textContent);
  assert.deepEqual(JSON.parse(whole), { data: { names, extensions: { kept: true } } }, 'only the answer’s own extensions are left out');
  assert.equal(await page.run(() => document.querySelector('#answer-all').hidden), true);
  await page.close();
}

async function tabs(bench) {
  const { page } = await bench.openLive();
  const shown = () => page.run(() => ['live', 'trace'].filter(id => document.querySelector(`#${id}`).offsetParent !== null).join());
  assert.equal(await shown(), 'live');
  assert.deepEqual(await page.names('tab'), ['Live', 'Trace file']);
  await page.run(() => document.querySelector('#live-tab').focus());
  await page.press('ArrowRight');
  assert.equal(await shown(), 'trace');
  assert.equal(await page.run(() => document.activeElement.id), 'trace-tab');
  await page.press('Home');
  assert.equal(await shown(), 'live');
  await page.point('#trace-tab', 0, true);
  assert.equal(await shown(), 'trace');
  await bench.choose(page, bench.write('tabs.jsonl', '{"rounds":[[{"loader":"a","keys":["1"]}]]}\n'));
  assert.deepEqual(await boxes(page), [{ round: 'Round 1', lane: 'a', keys: '1 key' }]);
  await page.close();
}

async function fromFile(bench) {
  const page = await bench.openFile();
  const hidden = await page.run(() => ['live', 'tabs'].map(id => document.querySelector(`#${id}`).offsetParent === null));
  assert.deepEqual(hidden, [true, true]);
  assert.equal(page.requests.length, 1);
  await page.close();
}
