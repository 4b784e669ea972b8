// The JavaScript side of the border that addon.c describes: the words, which both sides hold.
'use strict';

const { constants } = require('node:buffer');
const { loadAddon } = require('./load_addon.js');
const { LoadFault, readFault } = require('./faults.js');

const addon = loadAddon();

/** How many words stand before the others, how many there are at first, and how many stay where a request needed more. */
const [HEAD, FIRST_WORDS, KEPT_WORDS] = [8, 1 << 12, 1 << 16];
/** The codes of a step, where it isn't refused. */
const [DONE, ROUND, WAITING, NEED_ROOM] = [0, 1, 2, 3];
/** The codes of rows that aren't those of the keys of their order. */
const [NO_KEY_COLUMN, NOT_ASKED] = [-20, -21];
/** The code of the addon for a text that is longer than a string may be. */
const TEXT_TOO_LONG = -1000;
/** In the place of a number of rows: the batch failed, and above it: the key has a fault. In the place of a number of columns: those of the row before. */
const [BATCH_FAULT, SAME_COLUMNS] = [0xfffffffe, 0xffffffff];

const border = { words: new Uint32Array(FIRST_WORDS) };
addon.share(border.words);
addon.limitTexts(constants.MAX_STRING_LENGTH);

/** A call of the library was refused. */
class RudzkvanoError extends Error {
  constructor(code) {
    super(addon.codeText(code));
    this.code = code;
    this.name = addon.codeName(code);
  }
}

/** The error of a code that is a refusal. */
function refusal(code) {
  if (code === TEXT_TOO_LONG) return new RangeError('the text is longer than a string of V8 may be: the option maxAnswer limits answers');
  return new RudzkvanoError(code);
}

/** Words for at least `count` numbers. What was there may be lost. */
function makeRoom(count) {
  if (count > border.words.length) {
    border.words = new Uint32Array(count + (count >> 1));
    addon.share(border.words);
  }
  return border.words;
}

/** Gives back the words that a large request needed. What was there is lost. */
function giveBackWords() {
  if (border.words.length > KEPT_WORDS) {
    border.words = new Uint32Array(FIRST_WORDS);
    addon.share(border.words);
  }
}

/** The code that the last call left. */
function code() {
  return border.words[0] | 0;
}

/** Leaves the first words of a call. */
function leaveHead(head) {
  const words = makeRoom(head.length);
  for (let place = 0; place < head.length; place++) words[place] = head[place];
}

/** Makes a call of the addon, again where it needs more room, and returns what it returns. `head` is its first words. */
function call(name, head, ...values) {
  leaveHead(head);
  const returned = addon[name](...values);
  if (code() === NEED_ROOM) {
    makeRoom(border.words[1]);
    return call(name, head, ...values);
  }
  if (code() < 0) throw refusal(code());
  return returned;
}

/** Cuts texts off the front of a string, one after another. */
class Cutter {
  /** One stays, since V8 drops the code that it made for a kind of objects with the last of them. */
  static kept = new Cutter('', 0);

  constructor(text, place) {
    this.text = text;
    this.place = place;
    this.at = 0;
  }

  next() {
    const start = this.at;
    this.at = border.words[this.place++];
    return this.text.slice(start, this.at);
  }

  /** So many keys of a loader: texts, or pairs of them. A loader by no column has no keys. */
  keys({ columns: { length } }, count) {
    const keys = new Array(length === 0 ? 0 : count);
    for (let i = 0; i < keys.length; i++) keys[i] = length === 1 ? this.next() : [this.next(), this.next()];
    return keys;
  }
}

/** The orders of the round that is out, of which `text` has the keys. */
function readRound(loaders, text) {
  const { words } = border;
  const count = words[1];
  const cutter = new Cutter(text, HEAD + 2 * count + words[2]);
  const orders = new Array(count);
  for (let number = 0; number < count; number++) {
    const loader = loaders[words[HEAD + number]];
    orders[number] = { number, loader, keys: cutter.keys(loader, words[HEAD + count + number]) };
  }
  return orders;
}

/** So many rows, each with the names of its columns or those of the row before. An empty text is null. */
function readRows(cutter, place, count) {
  const rows = [];
  let names = [];
  for (let row = 0; row < count; row++) {
    const width = border.words[place + row];
    if (width !== SAME_COLUMNS) names = Array.from({ length: width }, () => cutter.next());
    rows.push(Object.fromEntries(names.map((name) => [name, cutter.next() || null])));
  }
  return rows;
}

/** The outcomes of loaded keys, of which `text` has the rows and the faults: for each key its rows, or a fault. */
function readOutcomes(text) {
  const [, keys, count] = border.words;
  const cutter = new Cutter(text, HEAD + keys + count);
  const rows = readRows(cutter, HEAD + keys, count);
  let next = 0;
  return Array.from(border.words.slice(HEAD, HEAD + keys), (number) => {
    if (number >= BATCH_FAULT) return new LoadFault(readFault(cutter.next()), number === BATCH_FAULT);
    next += number;
    return rows.slice(next - number, next);
  });
}

/** The loaders of a server. */
function readLoaders(server) {
  const text = call('loaders', [], server);
  const count = border.words[1];
  const cutter = new Cutter(text, HEAD + count);
  const kinds = border.words.slice(HEAD, HEAD + count);
  return Array.from(kinds, (kind, number) => {
    const [name, table, first, second] = [cutter.next(), cutter.next(), cutter.next(), cutter.next()];
    return Object.freeze({ number, name, table, columns: Object.freeze([first, second].slice(0, kind % 4)), folds: kind >= 4 });
  });
}

/** The batches that a loader was asked for. */
function readLog(client, loader) {
  const text = call('log', [loader.number], client);
  const { words } = border;
  const count = words[1];
  const cutter = new Cutter(text, HEAD + 3 * count + words[2]);
  return Array.from({ length: count }, (_, i) => ({
    round: words[HEAD + i],
    stored: words[HEAD + count + i] === 1,
    keys: cutter.keys(loader, words[HEAD + 2 * count + i]),
  }));
}

module.exports = {
  addon, border, call, code, giveBackWords, leaveHead, makeRoom, readLoaders, readLog, readOutcomes, readRound, refusal, RudzkvanoError, DONE,
  FIRST_WORDS, HEAD, KEPT_WORDS, NEED_ROOM, NO_KEY_COLUMN, NOT_ASKED, ROUND, WAITING,
};
