// What tests share: a browser, a folder of files, a server, and ways to read what the page shows.
import { mkdirSync, mkdtempSync, rmSync, writeFileSync } from 'node:fs';
import { tmpdir } from 'node:os';
import { join } from 'node:path';
import { fileURLToPath } from 'node:url';
import { Browser } from './browser.mjs';
import { StubServer } from './stub_server.mjs';

export const PAGE = new URL('../index.html', import.meta.url);

/** The trace of three request lines, as the documentation of `--trace` has it. */
export const DOCUMENTED = [
  '{"rounds":[[{"loader":"userById","keys":["1"]},{"loader":"allUsers","keys":[null]}],[{"loader":"userById","keys":["2"]}]]}',
  '{"rounds":[[{"loader":"userById","keys":["3","1"]}]]}',
  '{"rounds":[]}',
];

/** Lines with a line feed behind each. @param {string[]} lines */
export const fileOf = lines => lines.map(line => `${line}\n`).join('');

/** @param {[string, (string | [string, string] | null)[]][][]} rounds  for each batch its loader and keys @param {number} [keyByKey] */
export function traceLine(rounds, keyByKey) {
  const written = rounds.map(round => round.map(([loader, keys]) => ({ loader, keys })));
  return JSON.stringify({ rounds: written, keyByKey });
}

export class Bench {
  browser = new Browser();
  folder = mkdtempSync(join(tmpdir(), 'rounds-files-'));
  /** @type {StubServer[]} */ #servers = [];

  /** @param {string} name @param {string | Buffer} text @returns {string} the file's path */
  write(name, text) {
    const path = join(this.folder, name);
    writeFileSync(path, text);
    return path;
  }

  /** Opens the page from its file, and a trace file in it. @param {string} [path] @param {object} [look] */
  async openFile(path, look) {
    const page = await this.browser.open(PAGE.href, look);
    if (path === undefined) return page;
    await this.choose(page, path);
    return page;
  }

  /** Chooses a trace file, and waits until it is read. */
  async choose(page, path) {
    await page.run(() => { document.querySelector('#trace-status').textContent = ''; });
    await page.choose('#file', path);
    await page.until(() => document.querySelector('#progress').hidden && document.querySelector('#trace-status').textContent !== '');
    await this.settled(page);
  }

  /** Serves the page by a stub of a server, and opens it. @param {Partial<StubServer>} [settings] @param {object} [look] */
  async openLive(settings = {}, look = undefined) {
    const server = Object.assign(new StubServer(), settings);
    this.#servers.push(server);
    const page = await this.browser.open(await server.start(), look);
    await page.until(() => document.querySelector('#examples').options.length > 0);
    return { page, server };
  }

  /** Waits until what was chosen is drawn. */
  async settled(page) {
    await page.until(() => document.querySelector('#trace-rounds').getAttribute('aria-busy') !== 'true');
    await page.run(() => new Promise(resolve => requestAnimationFrame(() => requestAnimationFrame(() => setTimeout(resolve)))));
  }

  /** Keeps a picture of the page, if pictures are wanted. */
  async picture(page, name) {
    const folder = process.env.PICTURES;
    if (folder === undefined) return;
    mkdirSync(folder, { recursive: true });
    writeFileSync(join(folder, `${name}.png`), await page.picture());
  }

  async close() {
    await this.browser.close();
    for (const server of this.#servers) await server.stop();
    rmSync(this.folder, { recursive: true, force: true });
  }

  get pagePath() {
    return fileURLToPath(PAGE);
  }
}

/**
 * The boxes of the drawing in view, each with the round above it and the loader of the lane in which it stands.
 * Both are found by where things stand on the screen.
 * @returns {Promise<{round: string, lane: string, keys: string}[]>}
 */
export function boxes(page) {
  return page.run(() => {
    const drawing = [...document.querySelectorAll('.drawing')].find(one => one.offsetParent !== null);
    const area = element => element.getBoundingClientRect();
    const middle = (low, high) => (low + high) / 2;
    const rounds = [...drawing.querySelectorAll('.round-name')];
    const lanes = [...drawing.querySelectorAll('.lane-name')].sort((one, other) => area(one).top - area(other).top);
    return [...drawing.querySelectorAll('.batch')].map(box => {
      const { left, right, top, bottom } = area(box);
      const round = rounds.find(one => area(one).left <= middle(left, right) && middle(left, right) < area(one).right);
      const lane = lanes.filter(one => area(one).top <= middle(top, bottom)).at(-1);
      return { round: round?.textContent ?? '', lane: lane?.textContent ?? '', keys: box.querySelector('.numbers').textContent };
    });
  });
}

/** The keys in view, a pair with a bar between its parts. @returns {Promise<string[]>} */
export function keys(page) {
  return page.run(() => [...document.querySelectorAll('.keys')].filter(one => one.offsetParent !== null)
    .flatMap(panel => [...panel.querySelectorAll('.chips li')])
    .map(item => [...item.querySelectorAll('code, i, button')].map(part => part.textContent).join('|')));
}

/** Names and figures of the first list of figures inside an element. @returns {Promise<Record<string, string>>} */
export function figures(page, selector) {
  return page.run(selector => Object.fromEntries([...document.querySelector(selector).querySelectorAll('.figures > div')]
    .map(pair => [pair.querySelector('dt').textContent, pair.querySelector('dd').textContent])), selector);
}

/** The two compared numbers inside an element, or null if they aren't shown. @returns {Promise<Record<string, string> | null>} */
export function compared(page, selector) {
  return page.run(selector => {
    const list = document.querySelector(selector).querySelector('.compare');
    if (list === null || list.offsetParent === null) return null;
    return Object.fromEntries([...list.children].map(pair => [pair.querySelector('dt').textContent, pair.querySelector('dd').textContent]));
  }, selector);
}

/** What a screen reader has of the rows that are made. @returns {Promise<string[]>} */
export function rows(page) {
  return page.run(() => [...document.querySelectorAll('#list [role=option]')].map(row => row.getAttribute('aria-label')));
}

/** @returns {Promise<string>} the text of an element */
export function textOf(page, selector) {
  return page.run(selector => document.querySelector(selector).innerText, selector);
}
