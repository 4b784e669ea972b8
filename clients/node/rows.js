// From what a batch function returned to the reply that the library takes.
'use strict';

const { inspect } = require('node:util');
const { isDate, isNativeError } = require('node:util/types');
const { border, makeRoom, HEAD } = require('./border.js');
const { plainText } = require('./faults.js');
const { Aligned, InAnyOrder } = require('./forms.js');
const { takePage, Page } = require('./page.js');
const { unpaired, wellFormed } = require('./text.js');

/** In the place of a number of rows: the key has a fault. */
const KEY_FAULT = 0xffffffff;
/** The columns that are left out of most replies. */
const NONE = Object.freeze([]);
/** A reply of more rows, or with a longer text, is written as one string, which is faster for these. */
const [MOST_ROWS, MOST_UNITS] = [16, 64];

/** The text of a value, or undefined where it has none; null is the empty text. */
function textOf(value) {
  switch (typeof value) {
    case 'string':
      return value;
    case 'undefined':
      return '';
    case 'number':
      return Number.isFinite(value) ? String(value) : undefined;
    case 'boolean':
    case 'bigint':
      return String(value);
  }
  if (value === null) return '';
  return isDate(value) && Number.isFinite(value.getTime()) ? value.toISOString() : undefined;
}

function typeName(value) {
  return value === null || value === undefined ? String(value) : (value.constructor?.name ?? typeof value);
}

/** Says that a value in a column has no text, and of which row. */
function noText(loader, column, row, value) {
  const what = typeof value === 'number' ? value : `a value of type ${typeName(value)}`;
  return new TypeError(`loader ${loader.name}, column ${column}, ${row}: ${what} has no text`);
}

/** Whether an element is an error, which most rows are seen not to be at a glance. */
function isFault(element) {
  return element.constructor !== Object && (element instanceof Error || isNativeError(element));
}

function isRow(element) {
  return typeof element === 'object' && element !== null && !Array.isArray(element) && !isFault(element);
}

function noRow(loader, element) {
  return new TypeError(`loader ${loader.name}: a row of type ${typeName(element)}`);
}

function checkArray(loader, returned) {
  if (!Array.isArray(returned)) throw new TypeError(`loader ${loader.name}: its function returned ${typeName(returned)}, and no array`);
}

// ---- The keys of rows.

/** One text for a key, so that the texts of two keys are the same where the loader takes the keys for the same. */
function keyText(loader, key) {
  const text = JSON.stringify([key].flat().map(wellFormed));
  return loader.folds ? text.replace(/[A-Z]/g, (letter) => letter.toLowerCase()) : text;
}

/** What a message says of a key: a text, or a pair. */
function quoted(key) {
  return [key].flat().map((text) => inspect(text)).join(', ');
}

/** The first column of a loader that a row hasn't. */
function lacking(loader, row) {
  return loader.columns.find((column) => row[column] === undefined);
}

/** The place of the first element that is no row or hasn't all of the loader's columns, or -1. */
function placeOfOther(loader, elements) {
  return elements.findIndex((element) => !isRow(element) || lacking(loader, element) !== undefined);
}

/** The texts of the key of a row, which is the one of this number. `columns` are the names of its columns, where it is an array. */
function keyOf(loader, row, number, columns) {
  return loader.columns.map((column) => {
    const value = row[columns ? columns.indexOf(column) : column];
    const text = textOf(value);
    if (text === undefined) throw noText(loader, column, `row ${number}`, value);
    return text;
  });
}

// ---- A reply: its rows in the order of the keys, for each key how many of them it has or KEY_FAULT, and the faults. The rows of a keyed reply are
// in any order, counted as those of one key: the library aligns them. After their count come the places of the keys with a fault.

/** The reply of rows in any order. A loader by no column has no keys. */
function unsorted(loader, rows, columns) {
  return { rows, columns, counts: [rows.length], faults: [], isKeyed: loader.columns.length > 0 };
}

/** The reply of elements that are aligned with the keys: an array of rows, one row, nothing, or an error, of which `faultOf` makes a text. */
function ofItems(loader, keys, elements, faultOf) {
  if (elements.length !== keys.length) throw new RangeError(`loader ${loader.name}: ${elements.length} items for ${keys.length} keys`);
  const [rows, counts, faults] = [[], [], []];
  let next = 0;
  for (const element of elements) {
    const key = keys[next++];
    if (element === null || element === undefined) {
      counts.push(0);
    } else if (isRow(element)) {
      counts.push(1);
      rows.push(element);
    } else if (Array.isArray(element)) {
      counts.push(element.length);
      for (const row of element) {
        if (!isRow(row)) throw noRow(loader, row);
        rows.push(row);
      }
    } else if (isFault(element)) {
      counts.push(KEY_FAULT);
      faults.push(faultOf(element, [key]));
    } else {
      throw noRow(loader, element);
    }
  }
  return { rows, counts, faults };
}

function isArrays(returned) {
  return Array.isArray(returned?.columns) && Array.isArray(returned.rows);
}

/** The reply of rows in any order, which are objects, or arrays beside the names of their columns. */
function ofRows(loader, returned) {
  if (isArrays(returned)) {
    const { columns, rows } = returned;
    for (const row of rows) {
      if (!Array.isArray(row)) throw noRow(loader, row);
      if (row.length !== columns.length) throw new RangeError(`loader ${loader.name}: a row of ${row.length} values for ${columns.length} columns`);
    }
    return unsorted(loader, rows, columns);
  }
  checkArray(loader, returned);
  const place = placeOfOther(loader, returned);
  if (place < 0) return unsorted(loader, returned);
  if (!isRow(returned[place])) throw noRow(loader, returned[place]);
  throw new TypeError(`loader ${loader.name}: row ${place + 1} has no column ${lacking(loader, returned[place])}`);
}

/**
 * Refuses elements that are read as aligned only because of what was found: some rows among them have the loader's columns, so that these would be
 * sorted where there is nothing else.
 */
function refuseDoubt(loader, keys, elements) {
  const doubt = (why) => new TypeError(`loader ${loader.name}: ${why}: its function has to return aligned(items) or inAnyOrder(rows)`);
  const rows = [...elements.keys()].filter((place) => isRow(elements[place]));
  const isWhole = (place) => lacking(loader, elements[place]) === undefined;
  const whole = rows.filter(isWhole);
  for (const place of whole) {
    const key = keyOf(loader, elements[place], place + 1);
    if (keyText(loader, key) === keyText(loader, keys[place])) continue;
    throw doubt(`row ${place + 1} has the key ${quoted(key)}, and stands for the key ${quoted(keys[place])}`);
  }
  const other = rows.find((place) => !isWhole(place));
  if (whole.length === 0 || other === undefined) return;
  throw doubt(`row ${other + 1} has no column ${lacking(loader, elements[other])}, which row ${whole[0] + 1} has`);
}

/** The reply of an array of which each element is nothing or the row of the key in its place, so that it says the same however it is read. */
function ofOwnRows({ columns }, keys, elements) {
  if (columns.length !== 1 || elements.length !== keys.length) return undefined;
  const counts = new Array(keys.length);
  for (let place = 0; place < keys.length; place++) {
    const element = elements[place];
    const isRowOrNone = element === null || element === undefined || (isRow(element) && textOf(element[columns[0]]) === keys[place]);
    if (!isRowOrNone) return undefined;
    counts[place] = element ? 1 : 0;
  }
  return { rows: counts.includes(0) ? elements.filter(Boolean) : elements, counts, faults: [] };
}

/** The reply of an array of which nobody says how it is to be read. */
function ofBareArray(loader, keys, elements, faultOf) {
  const own = ofOwnRows(loader, keys, elements);
  if (own) return own;
  if (placeOfOther(loader, elements) < 0) return unsorted(loader, elements);
  if (elements.length !== keys.length) {
    throw new RangeError(`loader ${loader.name}: ${elements.length} items for ${keys.length} keys, which aren't all rows with its columns`);
  }
  if (elements.some(isRow)) refuseDoubt(loader, keys, elements);
  return ofItems(loader, keys, elements, faultOf);
}

/** The reply that a function returned, of whose bare arrays an option says the form. */
function replyOf(loader, keys, returned, form, faultOf) {
  if (returned instanceof InAnyOrder) return ofRows(loader, returned.rows);
  const isAligned = returned instanceof Aligned;
  if (isAligned && loader.columns.length === 0) throw new TypeError(`loader ${loader.name}: it has no keys that items are aligned with`);
  if (!isAligned && (isArrays(returned) || loader.columns.length === 0 || form === 'inAnyOrder')) return ofRows(loader, returned);
  const elements = isAligned ? returned.items : returned;
  checkArray(loader, elements);
  return (isAligned || form === 'aligned' ? ofItems : ofBareArray)(loader, keys, elements, faultOf);
}

// ---- Its texts.

function namesIn(row) {
  const names = [];
  for (const name in row) names.push(name);
  return names;
}

/** The names of columns as one text and its bytes, and where each ends. */
class Heading {
  constructor(columns) {
    const names = columns.map(unpaired);
    let end = 0;
    this.columns = columns;
    this.text = names.join('');
    this.bytes = Buffer.from(this.text);
    this.ends = names.map(({ length }) => (end += length));
  }

  /** Whether these are the names of a row's members, in order. */
  isOf(row) {
    let column = 0;
    for (const name in row) if (name !== this.columns[column++]) return false;
    return column === this.columns.length;
  }
}

/** For each loader the heading of the rows that were written last. */
const headings = new WeakMap();

/** The heading of a reply, which is that of its first row. */
function headingOf(loader, { columns, rows }) {
  if (columns || rows.length === 0) return new Heading(columns ?? []);
  const last = headings.get(loader);
  if (last?.isOf(rows[0])) return last;
  const heading = new Heading(namesIn(rows[0]));
  headings.set(loader, heading);
  return heading;
}

/** Stands for the text of rows in which a value has none. */
const NO_TEXT = Symbol('no text');

/**
 * Adds the members of rows to a text, and their ends to the words from a place on. Returns undefined where not all rows have these columns, and
 * NO_TEXT.
 */
function writeRows(columns, rows, text, words, place) {
  for (const row of rows) {
    let column = 0;
    for (const name in row) {
      if (name !== columns[column++]) return undefined;
      const value = row[name];
      const own = typeof value === 'string' ? value : textOf(value);
      if (own === undefined) return NO_TEXT;
      text += unpaired(own);
      words[place++] = text.length;
    }
    if (column !== columns.length) return undefined;
  }
  return text;
}

function writeArrays(columns, rows, text, words, place) {
  for (const row of rows) {
    for (let column = 0; column < columns.length; column++) {
      const own = textOf(row[column]);
      if (own === undefined) return NO_TEXT;
      text += unpaired(own);
      words[place++] = text.length;
    }
  }
  return text;
}

function writeTexts(texts, text, words, place) {
  for (const it of texts) {
    text += unpaired(it);
    words[place++] = text.length;
  }
  return text;
}

/** A reply whose rows are arrays, in which each row has the columns of all. */
function widened(reply) {
  if (reply.columns) return reply;
  const columns = [...new Set(reply.rows.flatMap(namesIn))];
  return { ...reply, columns, rows: reply.rows.map((row) => columns.map((name) => row[name])) };
}

const NUMBER = /^([+-]?)(\d*)(?:\.(\d*))?(?:e([+-]?\d{1,9}))?$/;

/** What is the same for texts that a database may take for the same: a number, or a text without case and blanks around it. */
function castOf(text) {
  const plain = text.trim().toLowerCase();
  const [, sign, whole = '', fraction = '', exponent = '0'] = NUMBER.exec(plain) ?? [];
  if (whole + fraction === '') return plain;
  const digits = (whole + fraction).replace(/^0+/, '');
  let end = digits.length;
  while (digits[end - 1] === '0') end--;
  return end === 0 ? '0' : `${sign === '-' ? sign : ''}${digits.slice(0, end)}e${Number(exponent) - fraction.length + digits.length}`;
}

/**
 * A keyed reply, whose rows have these columns, without those of which the database cast the key, as 1 for 01, and with a fault of each key that it
 * cast. Throws what is wrong with it where a row has another key that wasn't asked for, or a column of the loader is missing.
 */
function withoutCasts(loader, keys, reply, columns, faultOf) {
  const misfit = (why) => new RangeError(`loader ${loader.name}: ${why}`);
  const missing = loader.columns.find((column) => !columns.includes(column));
  if (missing !== undefined) throw new TypeError(`loader ${loader.name}: its rows have no column ${missing}`);
  const castText = (key) => JSON.stringify([key].flat().map(castOf));
  const found = reply.rows.map((row, i) => keyOf(loader, row, i + 1, reply.columns));
  const texts = found.map((key) => keyText(loader, key));
  const [asked, having] = [new Set(keys.map((key) => keyText(loader, key))), new Set(texts)];
  const places = [...keys.keys()].filter((place) => !having.has(keyText(loader, keys[place])));
  const casts = new Map(places.map((place) => [castText(keys[place]), undefined]));
  const isAsked = texts.map((text, i) => {
    if (asked.has(text)) return true;
    const where = `column${loader.columns.length === 2 ? 's' : ''} ${loader.columns.join(' and ')}`;
    if (!casts.has(castText(found[i]))) throw misfit(`row ${i + 1} has the key ${quoted(found[i])} in ${where}, which wasn't asked for`);
    casts.set(castText(found[i]), found[i]);
    return false;
  });
  const rows = reply.rows.filter((_, i) => isAsked[i]);
  const cast = places.filter((place) => casts.get(castText(keys[place])) !== undefined);
  const faults = cast.map((place) => {
    const [other, key] = [casts.get(castText(keys[place])), keys[place]];
    return faultOf(misfit(`a row of the key ${quoted(other)} for the key ${quoted(key)}`), [key]);
  });
  return { ...reply, columns: reply.columns ?? (rows.length === 0 ? columns : undefined), rows, counts: [rows.length, ...cast], faults };
}

/** The key of a row of a reply, and what a message says of the row. */
function whose(loader, keys, { columns, rows, counts, isKeyed }, row) {
  if (loader.columns.length === 0) return { row: `row ${row + 1}` };
  let [key, before] = [0, row];
  if (isKeyed) {
    const found = rows.slice(0, row + 1).map((it, i) => keyText(loader, keyOf(loader, it, i + 1, columns)));
    key = keys.findIndex((it) => keyText(loader, it) === found[row]);
    before = found.filter((it) => it === found[row]).length - 1;
  } else {
    for (; counts[key] === KEY_FAULT || counts[key] <= before; key++) if (counts[key] !== KEY_FAULT) before -= counts[key];
  }
  return { key: keys[key], row: `row ${before + 1} of the key ${quoted(keys[key])}` };
}

/** A reply of texts, without the columns in which a value has none. `unread` says of each why it is left out, and by which key. */
function readable(loader, keys, reply) {
  const wide = widened(reply);
  const { columns, rows, isKeyed } = wide;
  const texts = rows.map((row) => row.map(textOf));
  const unread = [];
  const places = [...columns.keys()].filter((place) => {
    const number = texts.findIndex((row) => row[place] === undefined);
    if (number < 0) return true;
    if (isKeyed && loader.columns.includes(columns[place])) throw noText(loader, columns[place], `row ${number + 1}`, rows[number][place]);
    const { key, row } = whose(loader, keys, wide, number);
    unread.push({ column: columns[place], error: noText(loader, columns[place], row, rows[number][place]), keys: key === undefined ? [] : [key] });
    return false;
  });
  if (places.length === 0) throw unread[0].error;
  const kept = (row) => places.map((place) => row[place]);
  return { ...wide, columns: kept(columns), rows: texts.map(kept), unread };
}

/** Writes ASCII to bytes, from a place on, and returns where it ends; or -1, where there is no room or it is no ASCII. */
function writeAscii(text, bytes, at) {
  if (at + text.length > bytes.length) return -1;
  for (let i = 0; i < text.length; i++) {
    const unit = text.charCodeAt(i);
    if (unit > 0x7f) return -1;
    bytes[at + i] = unit;
  }
  return at + text.length;
}

/** Writes the members of a row to the bytes of a page, and their ends to its words. Returns where the last one ends, or -1 where it can't. */
function writeRow(columns, row, { words, bytes }, place, at) {
  let column = 0;
  for (const name in row) {
    if (name !== columns[column++]) return -1;
    const value = row[name];
    const own = typeof value === 'string' ? value : textOf(value);
    if (own === undefined || own.length > MOST_UNITS) return -1;
    at = writeAscii(own, bytes, at);
    if (at < 0) return -1;
    words[place++] = at;
  }
  return column === columns.length ? at : -1;
}

/** Whether a reply may have few texts, which are short. */
function isShort({ text, bytes }, { columns, rows, faults }, page) {
  return !columns && faults.length === 0 && rows.length <= MOST_ROWS && bytes.length === text.length && bytes.length <= page.bytes.length;
}

/** Writes a reply under a heading, as `write` does, with its texts as the bytes of the page. Returns undefined where it has others. */
function writeShort({ columns, bytes, ends }, { rows }, page, place) {
  const count = columns.length;
  const texts = count * (1 + rows.length);
  const words = page.makeRoom(place + texts);
  let at = bytes.length;
  for (let i = 0; i < at; i++) page.bytes[i] = bytes[i];
  for (let column = 0; column < count; column++) words[place + column] = ends[column];
  for (let row = 0; row < rows.length; row++) {
    at = writeRow(columns, rows[row], page, place + count * (1 + row), at);
    if (at < 0) return undefined;
  }
  return { text: undefined, length: at, columns, texts, unread: NONE };
}

/** Writes any reply under a heading in the same way, with its texts as one string. Returns undefined or NO_TEXT as `writeRows` does. */
function writeLong({ columns, text: names, ends }, reply, page, place) {
  const { rows, faults, unread = NONE } = reply;
  const end = place + columns.length * (1 + rows.length);
  const words = page.makeRoom(end + faults.length);
  for (let column = 0; column < columns.length; column++) words[place + column] = ends[column];
  const fields = (reply.columns ? writeArrays : writeRows)(columns, rows, names, words, place + columns.length);
  if (typeof fields !== 'string') return fields;
  const text = writeTexts(faults, fields, words, end);
  return { text, length: text.length, columns, texts: end + faults.length - place, unread };
}

/**
 * Leaves the ends of a reply's texts among the words of a page, from a place on. Returns its texts, unless they are the page's bytes, how long they
 * are, the names of its columns, how many texts there are, and the columns that are left out.
 */
function write(loader, keys, reply, page, place) {
  const heading = headingOf(loader, reply);
  const short = isShort(heading, reply, page) ? writeShort(heading, reply, page, place) : undefined;
  const written = short ?? writeLong(heading, reply, page, place);
  if (written === undefined) return write(loader, keys, widened(reply), page, place);
  if (written === NO_TEXT) return write(loader, keys, readable(loader, keys, reply), page, place);
  if (reply.rows.length > 0 && written.columns.length === 0) throw new TypeError(`loader ${loader.name}: a row has no columns`);
  return written;
}

/**
 * Leaves a reply on a page, but for the order's number. Returns it, the page, its texts, the names of its columns, and the columns that are left out
 * of them, since they have a value that has no text.
 */
function leave(loader, keys, reply) {
  const { counts, isKeyed } = reply;
  const page = takePage();
  const { text, length, columns, texts, unread } = write(loader, keys, reply, page, HEAD + counts.length);
  const { words } = page;
  words[1] = columns.length;
  words[2] = counts.length;
  words[3] = texts;
  words[4] = length;
  words[5] = isKeyed ? 1 : 0;
  words[6] = text === undefined ? 1 : 0;
  for (let key = 0; key < counts.length; key++) words[HEAD + key] = counts[key];
  return { reply, page, text, columns, unread };
}

/** Leaves a keyed reply that the library refused once more, without the rows that it refused, or throws why it can't. */
function leaveWithoutCasts(loader, keys, { reply, columns }, faultOf) {
  return leave(loader, keys, withoutCasts(loader, keys, reply, columns, faultOf));
}

/** Leaves what a batch function returned on a page. `form` is how a bare array is read, if somebody says it. */
function writeReply(loader, keys, returned, form, faultOf) {
  return leave(loader, keys, replyOf(loader, keys, returned, form, faultOf));
}

/** Leaves texts, and how many there are of each key, among the words, from a place on. Returns them as one. */
function writeKeys(texts, place) {
  return writeTexts(texts, '', makeRoom(place + texts.length), place);
}

/** Leaves a key and what is to be known of it among the words, and returns the texts of both. */
function writeItem(loader, key, item) {
  const keys = [key.length === 1 ? key[0] : key];
  const reply = isArrays(item) ? { ...item, counts: [item.rows.length], faults: [] } : ofItems(loader, keys, [item], plainText);
  const page = new Page(0, 0);
  const { text = '', columns, texts, unread } = write(loader, keys, reply, page, 0);
  if (unread.length > 0) throw unread[0].error;
  const words = makeRoom(HEAD + key.length + texts);
  const keyText = writeKeys(key, HEAD);
  for (let i = 0; i < texts; i++) words[HEAD + key.length + i] = page.words[i];
  words.set([loader.number, key.length, columns.length, reply.counts[0], texts, keyText.length, text.length]);
  return [keyText, text];
}

module.exports = { leaveWithoutCasts, writeItem, writeKeys, writeReply };
