// Rudzkvano for Node: a GraphQL query executor that asks your batch functions, over the C library.
//
//     const server = new Server({ schema, bindings });
//     const { data, errors } = await server.answer({ query, variables }, { userById: (ids) => selectUsers(ids) });
'use strict';

const { addon, border, call, code, readLoaders, readLog, HEAD, RudzkvanoError } = require('./border.js');
const { executor } = require('./execute.js');
const { LoadFault, PublicError } = require('./faults.js');
const { aligned, checkForms, inAnyOrder } = require('./forms.js');
const { Introspection } = require('./introspection.js');
const { writeItem, writeKeys } = require('./rows.js');
const { Run } = require('./run.js');

const BAD_SCHEMA = -4;
/** The largest word. */
const MOST_WORD = 0xffffffff;
/** The words that a client without limits is opened with. */
const NO_LIMITS = [0, 0, 0, 0, 0, 0];

/** What holds nothing now, for clients that answer once. */
const spare = [];

/** A schema or its bindings are refused: by the fault S`number`, at this line and column, which are 0 where it has none. */
class SchemaFault extends RudzkvanoError {
  constructor([number, line, column, inBindings], reason) {
    super(BAD_SCHEMA);
    Object.assign(this, { number, line, column, inBindings: inBindings === 1 });
    this.message = `S${number} at ${inBindings ? 'bindings' : 'schema'}:${line}:${column}: ${reason}`;
  }
}

function countOf(value, what) {
  if (value === undefined) return 0;
  if (!Number.isSafeInteger(value) || value < 0) throw new RangeError(`${what} is no whole number from 0: ${value}`);
  return value;
}

/** A limit as a word. Where no word holds it: so many keys are refused as others that are too many, and no answer takes so many rounds. */
function wordOf(value, what) {
  return Math.min(countOf(value, what), MOST_WORD);
}

/** A limit as two words. */
function twoWordsOf(value, what) {
  const count = countOf(value, what);
  return [count % 2 ** 32, Math.floor(count / 2 ** 32)];
}

/** Ends a promise, with an error or with what is read of a result. */
function settle(resolve, reject, error, result, read) {
  if (result === undefined) return reject(error);
  try {
    return resolve(read(result));
  } catch (why) {
    return reject(why);
  }
}

/** A schema with its bindings. */
class Server {
  #handle = addon.hold(false);
  #introspection;
  #byName;
  #closed = false;
  /** The batch functions that were checked last. */
  #checked;

  constructor({ schema, bindings }) {
    const fault = addon.open(this.#handle, schema, bindings);
    if (code() === BAD_SCHEMA) throw new SchemaFault(border.words.subarray(1, 5), fault);
    if (code() < 0) throw new RudzkvanoError(code());
    this.#introspection = new Introspection(schema);
    this.loaders = Object.freeze(readLoaders(this.#handle));
    this.#byName = new Map(this.loaders.map((loader) => [loader.name, loader]));
  }

  /** Answers a request, and knows nothing of other requests. */
  answer(request, loaders, options) {
    return this.#answer(request, loaders, options, JSON.parse);
  }

  /** The same, as the text of the response. */
  answerText(request, loaders, options) {
    return this.#answer(request, loaders, options, String);
  }

  /** A client, which knows nothing yet, and keeps what its requests load. */
  client(loaders = {}, options = {}) {
    this.#check(loaders);
    checkForms(this.loaders, options.rows);
    const limits = this.#limits(options);
    const handle = addon.hold(false);
    call('client', limits, handle, this.#handle);
    return new Client(handle, this.loaders, this.#introspection, loaders, options);
  }

  /** Frees what the server holds. Its clients, and the requests that are being answered, go on. */
  close() {
    this.#closed = true;
    addon.close(this.#handle);
  }

  #answer(request, functions = {}, options = {}, read) {
    return new Promise((resolve, reject) => {
      this.#check(functions);
      checkForms(this.loaders, options.rows);
      const introspected = this.#introspection.answerText(request, options);
      if (introspected !== undefined) return resolve(read(introspected));
      const limits = this.#limits(options);
      const handle = spare.pop() ?? addon.hold(true);
      const run = new Run({ handle, server: this.#handle, limits }, this.loaders, functions, options, (error, text) => {
        spare.push(handle);
        settle(resolve, reject, error, text, read);
      });
      run.start(request);
    });
  }

  #check(functions) {
    if (functions === this.#checked) return;
    for (const name in functions) {
      if (!this.#byName.has(name)) throw new TypeError(`the bindings have no loader ${name}`);
      if (typeof functions[name] !== 'function') throw new TypeError(`the loader ${name} is no function`);
    }
    this.#checked = functions;
  }

  /** The words that a client is opened with. */
  #limits({ maxBatch, maxAnswer, maxWork, maxRounds }) {
    if (this.#closed) throw new Error('the server is closed');
    if (maxBatch === undefined && maxAnswer === undefined && maxWork === undefined && maxRounds === undefined) return NO_LIMITS;
    const batches = this.#batches(maxBatch);
    const answers = [...twoWordsOf(maxAnswer, 'maxAnswer'), ...twoWordsOf(maxWork, 'maxWork'), wordOf(maxRounds, 'maxRounds')];
    return [batches.length, ...answers, 0, 0, ...batches];
  }

  /** For each loader how many keys one batch may have; or no element. */
  #batches(maxBatch) {
    if (maxBatch === undefined) return [];
    if (typeof maxBatch !== 'object') return this.loaders.map(() => wordOf(maxBatch, 'maxBatch'));
    for (const name in maxBatch) if (!this.#byName.has(name)) throw new TypeError(`the bindings have no loader ${name}`);
    return this.loaders.map(({ name }) => wordOf(maxBatch[name], 'maxBatch'));
  }
}

/** A memory of what the batch functions returned. It answers one request at a time, or loads keys. */
class Client {
  #handle;
  #loaders;
  #introspection;
  #functions;
  #options;
  /** The columns that are left out of what is known, by name, each with the reason. */
  #unread = new Map();
  #run;

  constructor(handle, loaders, introspection, functions, options) {
    this.#handle = handle;
    this.#loaders = loaders;
    this.#introspection = introspection;
    this.#functions = functions;
    this.#options = options;
  }

  answer(request, options) {
    return this.#answer(request, options, JSON.parse);
  }

  answerText(request, options) {
    return this.#answer(request, options, String);
  }

  /**
   * For each key its rows, in order, or a LoadFault. Keys that aren't known are asked for in one round, of equal keys only the first.
   */
  loadMany(loader, keys, options) {
    return new Promise((resolve) => {
      const of = this.#loader(loader);
      const texts = Array.from(keys, (key) => this.#texts(of, key));
      resolve(this.#do(options, ({ outcomes }) => outcomes, (run) => run.startLoad(of, texts)));
    });
  }

  /** Knows this for a key, unless something is known of it. Returns whether it was added. */
  prime(loader, key, item) {
    const of = this.#loader(loader);
    const texts = writeItem(of, this.#texts(of, key), item);
    call('prime', [], this.#handle, ...texts);
    return border.words[1] === 1;
  }

  /** Forgets a key. Returns whether something was known of it. */
  clear(loader, key) {
    const of = this.#loader(loader);
    const texts = this.#texts(of, key);
    const text = writeKeys(texts, HEAD);
    call('clear', [of.number, texts.length, 0, 0, 0, text.length, 0], this.#handle, text, '');
    return border.words[1] === 1;
  }

  /** Forgets all keys of a loader. */
  clearAll(loader) {
    call('clearAll', [this.#loader(loader).number], this.#handle);
  }

  /** Forgets all keys, and what was asked. */
  restart() {
    call('restart', [], this.#handle);
    this.#unread.clear();
  }

  /** The batches that a loader was asked for since the client was made or restarted. */
  log(loader) {
    return readLog(this.#handle, this.#loader(loader));
  }

  /** Frees what the client holds. A request that is being answered is given up. */
  close() {
    this.#run?.stop(new Error('the client is closed'));
    addon.close(this.#handle);
  }

  async #answer(request, options, read) {
    const introspected = this.#introspection.answerText(request, { ...this.#options, ...options });
    return introspected === undefined ? this.#do(options, read, (run) => run.start(request)) : read(introspected);
  }

  /** Has a run begin something, and reads its result. */
  #do(options, read, begin) {
    return new Promise((resolve, reject) => {
      if (this.#run) throw new Error('the client is answering another request');
      checkForms(this.#loaders, options?.rows);
      const client = { handle: this.#handle, unread: this.#unread };
      const run = new Run(client, this.#loaders, this.#functions, { ...this.#options, ...options }, (error, result) => {
        this.#run = undefined;
        settle(resolve, reject, error, result, read);
      });
      this.#run = run;
      begin(run);
    });
  }

  #loader(name) {
    const loader = this.#loaders.find((it) => it.name === name);
    if (!loader) throw new TypeError(`the bindings have no loader ${name}`);
    return loader;
  }

  /** The texts of a key: a text or number, a pair of them, or nothing for a loader by no column. */
  #texts(loader, key) {
    const parts = key === undefined || key === null ? [] : Array.isArray(key) ? key : [key];
    if (parts.length !== loader.columns.length) throw new TypeError(`a key of ${loader.name} has ${loader.columns.length} parts`);
    return parts.map(String);
  }
}

module.exports = { aligned, Client, executor, inAnyOrder, LoadFault, PublicError, RudzkvanoError, SchemaFault, Server };
