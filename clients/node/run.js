// One request that is being answered, or keys that are loaded: from each step of the library to the next, with the batches in between.
'use strict';

const {
  addon, border, code, giveBackWords, leaveHead, makeRoom, readOutcomes, readRound, refusal, DONE, HEAD, NEED_ROOM, NO_KEY_COLUMN, NOT_ASKED, ROUND,
  WAITING,
} = require('./border.js');
const { editErrors, faultText, messageOf, plainText, shownBy, withExtensions } = require('./faults.js');
const { formOf } = require('./forms.js');
const { handInPage } = require('./page.js');
const { leaveWithoutCasts, writeKeys, writeReply } = require('./rows.js');
const { jsonOf } = require('./text.js');

/** The step that begins the answer to a request, and goes on. */
function requestStep(request) {
  if (typeof request === 'string') return (handle, server) => addon.begin(handle, server, request);
  const { query, operationName, variables } = request;
  const operation = operationName ?? '';
  if (typeof query !== 'string' || typeof operation !== 'string' || operationName === '') {
    const line = jsonOf(request, 'a request');
    return (handle, server) => addon.begin(handle, server, line);
  }
  const values = variables === undefined || variables === null ? '' : jsonOf(variables, 'variables');
  return (handle, server) => addon.beginRequest(handle, server, query, operation, values);
}

/** The step that begins to load keys, which are arrays of texts, and goes on. */
function loadStep(loader, keys) {
  const texts = keys.flat();
  return (handle) => {
    const text = writeKeys(texts, HEAD + keys.length);
    border.words.fill(loader.columns.length, HEAD, HEAD + keys.length);
    border.words.set([loader.number, keys.length, texts.length, text.length]);
    return addon.beginLoad(handle, text);
  };
}

class Run {
  /** One stays, since V8 drops the code that it made for a kind of objects with the last of them. */
  static kept = new Run({}, [], {}, {});

  /**
   * `client` has the handle, and the columns that are left out of what it knows; one that answers once also its server, and the words that it is
   * opened with. `functions` are the batch functions by name. `ended` is called once: with an error, or with undefined and the answer's text or the
   * outcomes of what was loaded, as `{ outcomes }`.
   */
  constructor({ handle, unread, server, limits }, loaders, functions, { signal, onRound, onError, rows }, ended) {
    this.handle = handle;
    this.unread = unread;
    this.server = server;
    this.limits = limits;
    this.loaders = loaders;
    this.functions = functions;
    this.onRound = onRound;
    this.onError = onError;
    this.rows = rows;
    this.ended = ended;
    this.signal = signal;
    this.abort = signal && (() => this.stop(signal.reason));
    this.over = false;
    this.rounds = 0;
    /** What `onRound` is to be told of the round that is out. */
    this.batches = undefined;
    /** Whether keys are loaded. */
    this.loads = false;
  }

  /** Begins to answer a request. */
  start(request) {
    this.begin(() => requestStep(request));
  }

  /** Begins to load keys of a loader. */
  startLoad(loader, keys) {
    this.loads = true;
    this.begin(() => loadStep(loader, keys));
  }

  /** Makes the first step, and goes on. */
  begin(firstStep) {
    try {
      this.signal?.throwIfAborted();
      // a getter of the request may stop it
      const step = firstStep();
      this.signal?.throwIfAborted();
      if (this.over) return;
      this.signal?.addEventListener('abort', this.abort);
      if (this.server) leaveHead(this.limits);
      this.go(this.left(step(this.handle, this.server)));
    } catch (error) {
      this.stop(error);
    }
  }

  /** What a step of the library left: the orders of a round, the text of the answer or outcomes, or undefined where it waits for replies. */
  left(text) {
    switch (code()) {
      case DONE:
        if (this.loads) return { outcomes: readOutcomes(text) };
        return withExtensions(this.explained(text));
      case ROUND:
        return readRound(this.loaders, text);
      case WAITING:
        return undefined;
      case NEED_ROOM:
        makeRoom(border.words[1]);
        return this.left(addon.look(this.handle));
      default:
        throw refusal(code());
    }
  }

  /** Goes on from what a step left, as far as it goes without waiting. */
  go(left) {
    while (Array.isArray(left) && !this.over) left = this.ask(left);
    if (left !== undefined && !this.over) this.end(undefined, left);
  }

  /** Asks for all batches of a round. Returns what the last step left. */
  ask(orders) {
    let left;
    this.rounds++;
    if (this.onRound) this.batches = orders.map(({ loader, keys }) => ({ loader: loader.name, keys, milliseconds: performance.now() }));
    for (const order of orders) left = this.run(order);
    return left;
  }

  /** Calls a batch function. Returns what the step after it left, or undefined where the reply comes later. */
  run(order) {
    if (this.over) return undefined;
    const { name } = order.loader;
    let returned;
    try {
      if (!Object.hasOwn(this.functions, name)) throw new Error(`no function for loader ${name}`);
      // a copy, which the function may sort
      returned = this.functions[name](order.keys.slice());
    } catch (why) {
      return this.fail(order, why);
    }
    if (typeof returned?.then !== 'function') return this.reply(order, returned);
    Promise.resolve(returned).then(
      (rows) => this.resume(() => this.reply(order, rows)),
      (why) => this.resume(() => this.fail(order, why)),
    );
    return undefined;
  }

  /** Goes on when a reply has come. */
  resume(reply) {
    try {
      this.go(reply());
    } catch (error) {
      this.stop(error);
    }
  }

  /** Hands what a batch function returned to the library. */
  reply(order, returned) {
    if (this.over) return undefined;
    const { loader, keys } = order;
    const faultOf = (error, ofKeys) => this.faultOf(error, loader, ofKeys);
    let left;
    try {
      left = writeReply(loader, keys, returned, formOf(loader, this.rows), faultOf);
    } catch (why) {
      return this.fail(order, why);
    }
    let text = this.handIn(order, left);
    if (code() === NO_KEY_COLUMN || code() === NOT_ASKED) {
      try {
        left = leaveWithoutCasts(loader, keys, left, faultOf);
      } catch (why) {
        return this.fail(order, why);
      }
      text = this.handIn(order, left);
    }
    if (this.over) return undefined;
    for (const it of left.unread) (this.unread ??= new Map()).set(it.column, { ...it, loader });
    return this.told(order, this.left(text));
  }

  /** Has the library take a reply, unless a getter of a row, or a hook, has stopped the request. Returns what the step left. */
  handIn(order, { page, text }) {
    if (this.over) return undefined;
    page.words[0] = order.number;
    return handInPage(this.handle, page, text);
  }

  /** Tells the library that a batch failed. */
  fail(order, why) {
    if (this.over) return undefined;
    if (this.batches) this.batches[order.number].failed = messageOf(why);
    const text = this.faultOf(why, order.loader, order.keys.slice());
    if (this.over) return undefined;
    border.words[0] = order.number;
    return this.told(order, this.left(addon.fail(this.handle, text)));
  }

  /** The text of an answer, whose errors say of a column that was left out why it was. */
  explained(text) {
    if (!this.unread?.size) return text;
    const reasons = new Map();
    return editErrors(text, (error) => {
      const [, column] = /^no column ([^]*)$/.exec(error.message) ?? [];
      const it = this.unread.get(column);
      if (!it) return;
      if (!reasons.has(column)) reasons.set(column, this.faultOf(it.error, it.loader, it.keys));
      error.message = reasons.get(column);
    });
  }

  /** The text for the library of an error that a batch function threw, or returned for a key. */
  faultOf(error, loader, keys) {
    if (!this.onError) return plainText(error);
    try {
      return faultText(shownBy(this.onError(error, { loader: loader.name, keys }), error));
    } catch (why) {
      this.stop(why);
      return '';
    }
  }

  /** Tells `onRound` of the round, where this was its last order. Returns what was left. */
  told(order, left) {
    const { batches } = this;
    if (batches) {
      batches[order.number].milliseconds = performance.now() - batches[order.number].milliseconds;
      if (left !== undefined) this.onRound({ round: this.rounds, batches });
    }
    return left;
  }

  /** Gives up what was begun. */
  stop(error) {
    if (this.over) return;
    addon.cancel(this.handle);
    this.end(error);
  }

  end(error, result) {
    this.over = true;
    this.signal?.removeEventListener('abort', this.abort);
    giveBackWords();
    this.ended(error, result);
  }
}

module.exports = { Run };
