// How the page looks: narrow, wide, light, dark, without motion.
import assert from 'node:assert/strict';
import { test } from 'node:test';
import { DOCUMENTED, boxes, fileOf, traceLine } from './bench.mjs';

const LONG = traceLine([
  [['aLoaderWithAVeryLongNameThatDoesNotFitIntoANarrowColumn', [null]]],
  ...Array.from({ length: 9 }, (_, round) => [[`loader${round}`, ['1', 'x'.repeat(500), `${'word '.repeat(80)}`]], ['other', [['p'.repeat(200), 'q']]]]),
], 1234567);

const ANSWER = JSON.stringify({
  errors: [{ message: `no ${'w'.repeat(300)}`, locations: [{ line: 2, column: 3 }], path: ['a', 0, 'b'] }],
  data: { text: 't'.repeat(400) },
  extensions: {
    keyByKey: 40,
    rounds: [
      [{ loader: 'customers', keys: [null], milliseconds: 1234.5, statement: `SELECT ${'column_name, '.repeat(30)}` }],
      [{ loader: 'orders', keys: Array.from({ length: 4686 }, (_, key) => `${key}`), milliseconds: 1234.5 }, { loader: 'lines', keys: ['1'], failed: 'f'.repeat(300) }],
    ],
  },
});

/** @param {import('./bench.mjs').Bench} bench */
export function lookTests(bench) {
  for (const width of [320, 360, 768, 1280, 2560]) test(`nothing stands beyond the edge of ${width} px`, () => fits(bench, width));
  for (const scheme of ['light', 'dark']) test(`text can be read, ${scheme}`, () => readable(bench, scheme));
  test('dark is dark and light is light', () => schemes(bench));
  test('nothing moves where that isn’t wanted', () => still(bench));
  test('a box that is reached by keys is in view', () => inView(bench));
}

const answered = page => page.until(() => document.querySelector('#live-status').textContent.startsWith('Answered'));

/** Opens the live mode with an answer in it. */
async function liveWithAnswer(bench, look) {
  const { page } = await bench.openLive({ answer: { text: ANSWER } }, look);
  await page.run(() => document.querySelector('#run').click());
  await answered(page);
  await page.run(() => document.querySelectorAll('#live details').forEach(one => { one.open = true; }));
  await bench.settled(page);
  return page;
}

/** Opens a trace with long names, and all that can be opened in it. */
async function fileWithAll(bench, look) {
  const page = await bench.openFile(bench.write('looks.jsonl', fileOf([LONG, 'not json', ...DOCUMENTED])), look);
  await page.run(() => document.querySelectorAll('#trace details').forEach(one => { one.open = true; }));
  await bench.settled(page);
  return page;
}

const overflow = page => page.run(() => document.documentElement.scrollWidth - document.documentElement.clientWidth);

async function fits(bench, width) {
  const look = { width, height: 800 };
  const file = await fileWithAll(bench, look);
  assert.equal(await overflow(file), 0);
  const drawn = await boxes(file);
  assert.equal(drawn.length, 19);
  assert.deepEqual(drawn[0], { round: 'Round 1', lane: 'aLoaderWithAVeryLongNameThatDoesNotFitIntoANarrowColumn', keys: '1 key' });
  assert.deepEqual(drawn.slice(-2), [{ round: 'Round 10', lane: 'other', keys: '1 key' }, { round: 'Round 10', lane: 'loader8', keys: '3 keys' }]);
  await bench.picture(file, `file-${width}`);
  await file.close();
  const live = await liveWithAnswer(bench, look);
  assert.equal(await overflow(live), 0);
  const small = await live.run(() => [...document.querySelectorAll('button, select, input, summary')]
    .filter(one => one.offsetParent !== null && (one.closest('label.check') ?? one).getBoundingClientRect().height < 22)
    .map(one => one.outerHTML));
  assert.deepEqual(small, [], 'what is clicked is large enough');
  const clipped = await live.run(() => [...document.querySelectorAll('#live .numbers')].filter(one => one.scrollWidth > one.clientWidth).map(one => one.textContent));
  assert.deepEqual(clipped, [], 'numbers stand inside their boxes');
  await bench.picture(live, `live-${width}`);
  await live.close();
}

/** The texts in view whose contrast is below that of WCAG's level AA, and the edges of fields below 3 to 1. */
const faint = page => page.run(() => {
  const numbers = colour => colour.match(/[\d.]+/g).map(Number);
  const clear = colour => numbers(colour).length === 4 && numbers(colour)[3] === 0;
  const linear = part => (part / 255 <= 0.04045 ? part / 255 / 12.92 : ((part / 255 + 0.055) / 1.055) ** 2.4);
  const light = colour => {
    const [red, green, blue] = numbers(colour).map(linear);
    return 0.2126 * red + 0.7152 * green + 0.0722 * blue;
  };
  const contrast = (one, other) => {
    const [low, high] = [light(one), light(other)].sort((a, b) => a - b);
    return (high + 0.05) / (low + 0.05);
  };
  const ground = element => {
    for (let at = element; at !== null; at = at.parentElement) {
      const { backgroundColor } = getComputedStyle(at);
      if (!clear(backgroundColor)) return backgroundColor;
    }
    return 'rgb(255, 255, 255)';
  };
  const found = [];
  const walker = document.createTreeWalker(document.body, NodeFilter.SHOW_TEXT);
  let texts = 0;
  while (walker.nextNode()) {
    const element = walker.currentNode.parentElement;
    if (element.offsetParent === null || walker.currentNode.data.trim() === '' || element.closest('.marks, .unseen, option, :disabled')) continue;
    texts += 1;
    const ratio = contrast(getComputedStyle(element).color, ground(element));
    if (ratio < 4.5) found.push(`${element.className || element.tagName} “${walker.currentNode.data.slice(0, 30)}” ${ratio.toFixed(2)}`);
  }
  for (const field of document.querySelectorAll('select, textarea.box, input, .batch, button:not(.plain, :disabled), .editor')) {
    const { borderTopColor, backgroundColor } = getComputedStyle(field);
    if (field.offsetParent === null || clear(borderTopColor) || field.matches('[type=file], [type=checkbox]')) continue;
    const around = ground(field.parentElement);
    const ratio = Math.max(contrast(borderTopColor, around), clear(backgroundColor) ? 1 : contrast(backgroundColor, around));
    if (ratio < 3) found.push(`the edge of ${field.id || field.className} ${ratio.toFixed(2)}`);
  }
  return { found, texts };
});

async function readable(bench, scheme) {
  const look = { media: { 'prefers-color-scheme': scheme, 'prefers-reduced-motion': 'reduce' } };
  const file = await fileWithAll(bench, look);
  const inFile = await faint(file);
  assert.deepEqual(inFile.found, []);
  assert.ok(inFile.texts > 60, `${inFile.texts} texts were looked at`);
  await bench.picture(file, `file-${scheme}`);
  await file.run(() => document.querySelector('#list').focus());
  await file.press('ArrowDown');
  await bench.settled(file);
  assert.deepEqual((await faint(file)).found, [], 'a line that can’t be read');
  await file.close();
  const live = await liveWithAnswer(bench, look);
  assert.deepEqual((await faint(live)).found, []);
  await bench.picture(live, `live-${scheme}`);
  await live.close();
}

async function schemes(bench) {
  const page = await bench.openFile();
  const ground = () => page.run(() => getComputedStyle(document.body).backgroundColor.match(/\d+/g).map(Number).reduce((sum, part) => sum + part) / 3);
  await page.setMedia({ 'prefers-color-scheme': 'light' });
  assert.ok((await ground()) > 220);
  await page.setMedia({ 'prefers-color-scheme': 'dark' });
  assert.ok((await ground()) < 50);
  await page.close();
}

async function still(bench) {
  const moving = page => page.run(() => [...document.querySelectorAll('*')].filter(element => {
    const { transitionDuration, animationName } = getComputedStyle(element);
    return animationName !== 'none' || transitionDuration.split(', ').some(time => parseFloat(time) > 0);
  }).length);
  const page = await fileWithAll(bench, { media: { 'prefers-reduced-motion': 'reduce' } });
  assert.equal(await moving(page), 0);
  await page.close();
}

async function inView(bench) {
  for (const width of [360, 1280]) {
    const page = await bench.openFile(bench.write('view.jsonl', fileOf([LONG])), { width, height: 800 });
    await page.run(() => document.querySelector('.batch').focus());
    for (const key of ['End', 'Home', 'ArrowRight', 'ArrowRight', 'ArrowRight', 'ArrowRight', 'ArrowRight', 'ArrowLeft', 'ArrowLeft', 'ArrowLeft']) {
      await page.press(key);
      await bench.settled(page);
      const covered = await page.run(() => {
        const { left, right, top, bottom } = document.activeElement.getBoundingClientRect();
        const corners = [[left + 3, top + 3], [right - 3, bottom - 3]];
        return corners.filter(([x, y]) => document.elementFromPoint(x, y)?.closest('.batch') !== document.activeElement).length;
      });
      assert.equal(covered, 0, `after ${key} at ${width} px`);
    }
    await page.close();
  }
}
