// How what a batch function returns is read: as an item for each key, in order, or as rows in any order. The function says it, or the option
// `rows`; a bare array is read by its elements, where these leave no doubt.
'use strict';

const FORMS = ['aligned', 'inAnyOrder'];

class Aligned {
  constructor(items) {
    this.items = items;
  }
}

class InAnyOrder {
  constructor(rows) {
    this.rows = rows;
  }
}

/** An item for each key, in the order of the keys: rows, one row, nothing, or an error. */
function aligned(items) {
  return new Aligned(items);
}

/** Rows of all keys, each of which has its key in the loader's columns. */
function inAnyOrder(rows) {
  return new InAnyOrder(rows);
}

/** Refuses an option `rows` that is no form, or names a loader that the bindings don't have. */
function checkForms(loaders, rows) {
  if (rows === undefined) return;
  const isByName = typeof rows === 'object' && rows !== null;
  for (const name in isByName ? rows : {}) {
    if (!loaders.some((loader) => loader.name === name)) throw new TypeError(`the bindings have no loader ${name}`);
  }
  for (const form of isByName ? Object.values(rows) : [rows]) {
    if (form !== undefined && !FORMS.includes(form)) throw new TypeError(`rows is 'aligned' or 'inAnyOrder', and not ${form}`);
  }
}

/** What the option `rows` says of the bare arrays of a loader. */
function formOf(loader, rows) {
  return typeof rows === 'object' ? rows[loader.name] : rows;
}

module.exports = { aligned, checkForms, formOf, inAnyOrder, Aligned, InAnyOrder };
