// The page before a server that answers by the library: the example server clients/python/examples/shop. How many keys a batch has is compared
// with what stands in the answer.
import assert from 'node:assert/strict';
import { spawn, spawnSync } from 'node:child_process';
import { once } from 'node:events';
import { existsSync, readFileSync } from 'node:fs';
import { after, before, test } from 'node:test';
import { fileURLToPath } from 'node:url';
import { boxes, compared, figures, keys, textOf } from './bench.mjs';

const SHOP = fileURLToPath(new URL('../../python/examples/shop', import.meta.url));
const BUILT = fileURLToPath(new URL('../../../crates/rudzkvano_c/out/librudzkvano_c.so', import.meta.url));
const EXAMPLES = JSON.parse(readFileSync(`${SHOP}/examples.json`, 'utf8'));

/** @returns {string | false} why the tests can't run */
function leftOut() {
  if (spawnSync('python3', ['-c', 'import sys; sys.exit(sys.version_info < (3, 10))']).status !== 0) return 'left out: the shop wants Python 3.10';
  return existsSync(process.env.RUDZKVANO_LIBRARY ?? BUILT) ? false : 'left out: the C library isn’t built, which the shop answers by';
}

/** @param {import('./bench.mjs').Bench} bench */
export function shopTests(bench) {
  const skip = leftOut();
  const shop = { address: '', process: undefined };
  before(async () => {
    if (skip) return;
    shop.process = spawn('python3', ['-B', SHOP, '--port', '0', '--database', `${bench.folder}/shop.sqlite`], { stdio: ['ignore', 'pipe', 'inherit'] });
    const [line] = await Promise.race([once(shop.process.stdout, 'data'), once(shop.process, 'exit').then(() => { throw new Error('the shop ended'); })]);
    shop.address = String(line).trim();
  });
  after(() => shop.process?.kill());
  test('a query that is typed is answered and drawn', { skip }, () => typed(bench, shop.address));
  test('each example is answered and drawn', { skip }, () => examples(bench, shop.address));
  test('a fault is marked at its place', { skip }, () => fault(bench, shop.address));
  for (const width of [360, 1280]) test(`all is done by keys, ${width} px wide`, { skip }, () => byKeys(bench, shop.address, width));
}

async function open(bench, address, look) {
  const page = await bench.browser.open(address, look);
  await page.until(() => document.querySelector('#examples').options.length > 1);
  return page;
}

/** Runs the query by Ctrl+Enter, and waits until its answer is drawn. @returns {Promise<string>} the status */
async function runQuery(bench, page) {
  await page.run(() => { document.querySelector('#live-status').textContent = ''; });
  await page.press('Control+Enter');
  await page.until(() => /^Answered/.test(document.querySelector('#live-status').textContent));
  await bench.settled(page);
  return textOf(page, '#live-status');
}

const answerOf = async page => JSON.parse(await page.run(() => document.querySelector('#answer-text').textContent));

async function typed(bench, address) {
  const page = await open(bench, address);
  await page.run(() => document.querySelector('#query').select());
  await page.type('query In($city: String!) {\n  customersIn(city: $city) {\n    name\n    orders {\n      id\n      lines {\n        quantity\n      }\n    }\n  }\n}');
  await page.run(() => document.querySelector('#variables').select());
  await page.type('{ "city": "Bergen" }');
  assert.match(await runQuery(bench, page), /^Answered in .* 3 rounds, 3 statements for \d+ keys\.$/);
  const { data } = await answerOf(page);
  const customers = data.customersIn.length;
  const orders = data.customersIn.flatMap(customer => customer.orders);
  assert.ok(customers > 10 && orders.length > customers);
  const drawn = (await boxes(page)).map(({ round, lane, keys }) => [round, lane, ...keys.match(/^(\d+) keys? \d+\.\d\d ms$/).slice(1)]);
  assert.deepEqual(drawn, [
    ['Round 1', 'customersByCity', '1'],
    ['Round 2', 'ordersByCustomer', String(customers)],
    ['Round 3', 'linesByOrder', String(orders.length)],
  ]);
  await statementOf(page, 0, 'select id, name, email, city, joined from customers where city in (', 'order by id', 1);
  assert.deepEqual(await keys(page), ['Bergen']);
  await statementOf(page, 2, 'select order_id, product_id, quantity, price from lines where order_id in (', 'order by product_id', orders.length);
  const all = String(1 + customers + orders.length);
  assert.deepEqual(await compared(page, '#live-rounds'), { 'Statements run': '3', 'One for each key': all });
  assert.equal((await figures(page, '#live-rounds'))['Keys asked'], all);
  assert.deepEqual(page.complaints, []);
  await bench.picture(page, 'shop');
  await page.close();
}

/** Chooses a box, and compares the statement that is shown with this one, which has `placeholders` placeholders. */
async function statementOf(page, box, head, tail, placeholders) {
  await page.point('#live-rounds .batch', box, true);
  const marks = Array(placeholders).fill('?').join(', ');
  assert.equal(await textOf(page, '#live-rounds .statement'), `${head}${marks}) ${tail}`);
  assert.deepEqual(await compared(page, '#live-rounds .keys'), { 'This statement': '1', 'One for each key': String(placeholders) });
}

async function examples(bench, address) {
  const page = await open(bench, address);
  const names = await page.run(() => [...document.querySelectorAll('#examples option')].map(option => option.textContent));
  assert.deepEqual(names, EXAMPLES.map(({ name }) => name));
  await page.run(() => document.querySelector('#examples').focus());
  for (const [place, { name, query }] of EXAMPLES.entries()) {
    if (place > 0) await page.press('ArrowDown');
    assert.equal(await page.run(() => document.querySelector('#query').value), query);
    const status = await runQuery(bench, page);
    if (name === 'A query with a fault') continue;
    assert.match(status, / statements? for /, name);
    assert.equal(await page.run(() => document.querySelector('#errors').hidden), true, name);
    assert.ok((await boxes(page)).length > 0, name);
    await bench.picture(page, `shop-example-${place + 1}`);
  }
  await page.close();
}

async function fault(bench, address) {
  const page = await open(bench, address);
  await page.run(() => document.querySelector('#query').select());
  await page.type('{\n  products {\n    name colour\n  }\n}');
  assert.match(await runQuery(bench, page), /^Answered with status 400 /);
  assert.deepEqual(await page.run(() => [...document.querySelectorAll('#editor mark')].map(mark => mark.textContent)), ['colour']);
  assert.match(await textOf(page, '#errors'), /5\.3\.1 Field Selections: colour\s+line 3, column 10/);
  assert.match(await textOf(page, '#live-rounds'), /Nothing was asked for this request/);
  await page.close();
}

/** What has the focus, and whether that is seen. */
const focused = page => page.run(() => {
  const { id, className, tagName } = document.activeElement;
  const frame = document.activeElement.closest('.editor') ?? document.activeElement;
  const shown = element => getComputedStyle(element).outlineStyle !== 'none' || getComputedStyle(element).boxShadow !== 'none';
  return { name: id || className || tagName, seen: shown(document.activeElement) || shown(frame) };
});

async function byKeys(bench, address, width) {
  const page = await open(bench, address, { width, height: 800 });
  const order = ['skip', 'live-tab', 'examples', 'run', 'query', 'variables', 'operation', 'SUMMARY'];
  const found = [];
  for (const name of order) {
    await page.press('Tab');
    const { name: at, seen } = await focused(page);
    found.push(at);
    assert.ok(seen, `the focus is seen at ${name}`);
  }
  assert.deepEqual(found, order);
  await runQuery(bench, page);
  await page.press('Tab');
  assert.deepEqual(await focused(page), { name: 'batch', seen: true });
  await page.press('End');
  assert.match(await textOf(page, '#live-rounds .heading'), /^Round 3, productById/);
  await page.press('Enter');
  assert.equal(await page.run(() => document.activeElement.className), 'keys');
  await page.press('Escape');
  assert.deepEqual(await focused(page), { name: 'batch', seen: true });
  const overflow = await page.run(() => document.documentElement.scrollWidth - document.documentElement.clientWidth);
  assert.equal(overflow, 0);
  await bench.picture(page, `shop-${width}`);
  await page.close();
}
