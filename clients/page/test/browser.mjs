// A headless Chromium, driven over a pipe by its DevTools protocol. It needs no package.
import { spawn } from 'node:child_process';
import { mkdtempSync, rmSync } from 'node:fs';
import { tmpdir } from 'node:os';
import { join } from 'node:path';

const PATIENCE = 30_000;
const WORDS = [
  '--headless=new', '--remote-debugging-pipe', '--no-first-run', '--no-default-browser-check', '--disable-gpu',
  '--disable-dev-shm-usage', '--disable-extensions', '--disable-background-networking', '--disable-component-update',
  '--force-color-profile=srgb', '--lang=en',
];

/** Keys that aren't the character which they type: their name, code and number. */
const KEYS = {
  Tab: 9, Enter: 13, Escape: 27, ' ': 32, PageUp: 33, PageDown: 34, End: 35, Home: 36,
  ArrowLeft: 37, ArrowUp: 38, ArrowRight: 39, ArrowDown: 40, Delete: 46,
};
const MODIFIERS = { Alt: 1, Control: 2, Meta: 4, Shift: 8 };

/** @param {number} milliseconds */
export const sleep = milliseconds => new Promise(resolve => setTimeout(resolve, milliseconds));

/** A browser with a profile of its own, which is gone when it is closed. */
export class Browser {
  #waiting = new Map();
  #number = 0;
  #read = '';
  /** @type {Error | undefined} */ #failure;
  /** @type {Page[]} */ #pages = [];

  constructor() {
    this.profile = mkdtempSync(join(tmpdir(), 'rounds-page-'));
    const words = [...WORDS, `--user-data-dir=${this.profile}`];
    if (process.getuid?.() === 0) words.push('--no-sandbox');
    const stdio = ['ignore', 'ignore', 'ignore', 'pipe', 'pipe'];
    this.process = spawn(process.env.CHROMIUM ?? 'chromium', [...words, 'about:blank'], { stdio });
    this.process.on('error', error => this.#fail(error));
    this.process.on('exit', () => this.#fail(new Error('the browser ended')));
    this.process.stdio[4].setEncoding('utf8').on('data', text => this.#take(text));
    this.process.stdio[3].on('error', () => {});
  }

  /** @param {Error} error  why there is no browser, or none any more */
  #fail(error) {
    this.#failure ??= error;
    for (const { reject } of this.#waiting.values()) reject(error);
    this.#waiting.clear();
  }

  /** @param {string} text  messages end with a zero */
  #take(text) {
    const messages = (this.#read + text).split('\0');
    this.#read = messages.pop() ?? '';
    for (const message of messages) this.#receive(JSON.parse(message));
  }

  #receive({ id, result, error, method, params, sessionId }) {
    if (id === undefined) {
      this.#pages.find(page => page.session === sessionId)?.receive(method, params);
      return;
    }
    const { resolve, reject } = this.#waiting.get(id) ?? {};
    this.#waiting.delete(id);
    if (error) reject?.(new Error(error.message));
    else resolve?.(result);
  }

  /** Sends a command, and returns its result. @param {string} method @param {object} [params] @param {string} [sessionId] */
  send(method, params = {}, sessionId) {
    if (this.#failure !== undefined) return Promise.reject(this.#failure);
    const id = ++this.#number;
    this.process.stdio[3].write(`${JSON.stringify({ id, method, params, sessionId })}\0`);
    return new Promise((resolve, reject) => {
      const timer = setTimeout(() => reject(new Error(`no answer to ${method}`)), PATIENCE);
      this.#waiting.set(id, {
        resolve: result => (clearTimeout(timer), resolve(result)),
        reject: error => (clearTimeout(timer), reject(error)),
      });
    });
  }

  /** Opens a page. @param {string} url @param {{width?: number, height?: number, media?: Record<string, string>}} [look] */
  async open(url, { width = 1280, height = 900, media = {} } = {}) {
    const { targetId } = await this.send('Target.createTarget', { url: 'about:blank' });
    const { sessionId } = await this.send('Target.attachToTarget', { targetId, flatten: true });
    const page = new Page(this, sessionId, targetId);
    this.#pages.push(page);
    for (const domain of ['Page', 'Runtime', 'Network', 'Log', 'DOM']) await page.send(`${domain}.enable`);
    await page.resize(width, height);
    await page.setMedia(media);
    await page.goTo(url);
    return page;
  }

  async #end() {
    const gone = new Promise(resolve => this.process.once('exit', resolve));
    this.send('Browser.close').catch(() => {});
    await Promise.race([gone, sleep(5000)]);
    this.process.kill('SIGKILL');
    await Promise.race([gone, sleep(2000)]);
  }

  async close() {
    if (this.#failure === undefined) await this.#end();
    rmSync(this.profile, { recursive: true, force: true, maxRetries: 5 });
  }
}

/** A page of the browser, with what it asked of the network and complained about. */
export class Page {
  /** @type {string[]} */ requests = [];
  /** @type {string[]} */ complaints = [];

  constructor(browser, session, target) {
    this.browser = browser;
    this.session = session;
    this.target = target;
  }

  send(method, params) {
    return this.browser.send(method, params, this.session);
  }

  receive(method, params) {
    if (method === 'Network.requestWillBeSent') this.requests.push(params.request.url);
    if (method === 'Runtime.exceptionThrown') this.complaints.push(params.exceptionDetails.exception?.description ?? params.exceptionDetails.text);
    if (method === 'Log.entryAdded' && params.entry.level === 'error') this.complaints.push(params.entry.text);
  }

  async goTo(url) {
    await this.send('Page.navigate', { url });
    await this.until(() => document.readyState === 'complete' && location.href !== 'about:blank');
  }

  /**
   * Runs a function in the page with these values.
   * @template T
   * @param {(...values: any[]) => T} act
   * @param {...unknown} values
   * @returns {Promise<Awaited<T>>}
   */
  async run(act, ...values) {
    const expression = `(${act})(...${JSON.stringify(values)})`;
    const { result, exceptionDetails } = await this.send('Runtime.evaluate', { expression, returnByValue: true, awaitPromise: true, userGesture: true });
    if (exceptionDetails) throw new Error(exceptionDetails.exception?.description ?? exceptionDetails.text);
    return result.value;
  }

  /**
   * Waits until a function says yes in the page.
   * @param {(...values: any[]) => unknown} holds
   * @param {...unknown} values
   */
  async until(holds, ...values) {
    const end = Date.now() + PATIENCE;
    while (!(await this.run(holds, ...values).catch(() => false))) {
      if (Date.now() > end) throw new Error(`waited in vain for ${holds}`);
      await sleep(20);
    }
  }

  resize(width, height) {
    return this.send('Emulation.setDeviceMetricsOverride', { width, height, deviceScaleFactor: 1, mobile: false });
  }

  /** @param {Record<string, string>} media  features, as `prefers-color-scheme` */
  setMedia(media) {
    return this.send('Emulation.setEmulatedMedia', { features: Object.entries(media).map(([name, value]) => ({ name, value })) });
  }

  /** Presses a key. @param {string} key  as in `Control+Enter` */
  async press(key) {
    const words = key.split('+');
    const name = words.pop();
    const modifiers = words.reduce((sum, word) => sum + MODIFIERS[word], 0);
    const event = { key: name, code: name === ' ' ? 'Space' : name, windowsVirtualKeyCode: KEYS[name] ?? name.toUpperCase().charCodeAt(0), modifiers };
    const text = { Enter: '\r', ' ': ' ' }[name] ?? (name.length === 1 ? name : undefined);
    await this.send('Input.dispatchKeyEvent', { type: text ? 'keyDown' : 'rawKeyDown', text, ...event });
    await this.send('Input.dispatchKeyEvent', { type: 'keyUp', ...event });
  }

  /** Types a text where the focus is. @param {string} text */
  type(text) {
    return this.send('Input.insertText', { text });
  }

  /** Moves the pointer to the middle of an element, and clicks there if asked to. */
  async point(selector, place = 0, click = false) {
    const { x, y } = await this.run((selector, place) => {
      const found = document.querySelectorAll(selector)[place];
      found.scrollIntoView({ block: 'nearest' });
      const { left, top, width, height } = found.getBoundingClientRect();
      return { x: left + width / 2, y: top + height / 2 };
    }, selector, place);
    await this.send('Input.dispatchMouseEvent', { type: 'mouseMoved', x, y });
    if (!click) return;
    await this.send('Input.dispatchMouseEvent', { type: 'mousePressed', x, y, button: 'left', clickCount: 1 });
    await this.send('Input.dispatchMouseEvent', { type: 'mouseReleased', x, y, button: 'left', clickCount: 1 });
  }

  /** Chooses a file in a file field. @param {string} selector @param {string} path */
  async choose(selector, path) {
    const { root } = await this.send('DOM.getDocument');
    const { nodeId } = await this.send('DOM.querySelector', { nodeId: root.nodeId, selector });
    await this.send('DOM.setFileInputFiles', { files: [path], nodeId });
  }

  /** The names that a screen reader has, of all elements of a role. @param {string} role */
  async names(role) {
    const { nodes } = await this.send('Accessibility.getFullAXTree');
    return nodes.filter(node => !node.ignored && node.role?.value === role).map(node => node.name?.value ?? '');
  }

  /** A picture of the whole page, as the bytes of a PNG. */
  async picture() {
    const [width, height] = await this.run(() => [innerWidth, document.documentElement.scrollHeight]);
    const clip = { x: 0, y: 0, width, height, scale: 1 };
    const { data } = await this.send('Page.captureScreenshot', { captureBeyondViewport: true, clip });
    return Buffer.from(data, 'base64');
  }

  close() {
    return this.browser.send('Target.closeTarget', { targetId: this.target });
  }
}
