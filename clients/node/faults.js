// Why a batch or a key has no rows: what a caller reads of it, and the text that stands for that in the library.
'use strict';

const { randomBytes } = require('node:crypto');
const { inspect } = require('node:util');

/** What a caller reads of an error that isn't meant for callers. */
const HIDDEN = 'internal error';
/** Stands in a fault's text between the message and the JSON of its extensions. Nobody else knows it. */
const MARK = `#${randomBytes(16).toString('hex')}#`;
/** Whether a fault with extensions was made. */
let marked = false;

/** An error whose message, and extensions, are meant for callers. */
class PublicError extends Error {
  constructor(message, { extensions, ...options } = {}) {
    super(message, options);
    this.name = 'PublicError';
    this.extensions = extensions;
  }
}

/** A key that was loaded has no rows, for this reason. `ofBatch`: its whole batch failed. */
class LoadFault extends Error {
  constructor({ message, extensions }, ofBatch) {
    super(message);
    this.name = 'LoadFault';
    this.ofBatch = ofBatch;
    if (extensions !== undefined) this.extensions = extensions;
  }
}

/** What an error says by itself. */
function messageOf(error) {
  if (error instanceof Error) return String(error.message);
  return typeof error === 'string' ? error : inspect(error);
}

/** What a caller reads of an error, of which a hook returned this. */
function shownBy(returned, error) {
  if (typeof returned === 'string') return { message: returned };
  const shown = returned ?? (error instanceof PublicError ? error : undefined);
  return typeof shown?.message === 'string' ? shown : { message: HIDDEN };
}

/** The text of an error without a hook. */
function plainText(error) {
  return faultText({ message: messageOf(error), extensions: error instanceof PublicError ? error.extensions : undefined });
}

/** The text that stands for a message with extensions in the library. */
function faultText({ message, extensions }) {
  const json = JSON.stringify(extensions);
  if (json === undefined) return message;
  marked = true;
  return message + MARK + json;
}

/** What a fault's text stands for. */
function readFault(text) {
  const [message, json] = text.split(MARK);
  return { message, extensions: json && JSON.parse(json) };
}

/** The text of a response, with the extensions of its errors. */
function withExtensions(text) {
  if (!marked) return text;
  const [first, ...others] = text.split(MARK);
  // a string of JSON ends at the first quote that isn't escaped
  return others.reduce((before, part) => {
    const [json] = /^[^"\\]*(?:\\.[^"\\]*)*/.exec(part);
    return `${before}","extensions":${JSON.parse(`"${json}"`)}${part.slice(json.length + 1)}`;
  }, first);
}

const ERRORS = '{"errors":';

/** Where an object or a list that begins at a place of a JSON text ends. */
function endOf(text, place) {
  const token = /"(?:[^"\\]|\\.)*"|[[\]{}]/g;
  token.lastIndex = place;
  let depth = 0;
  do {
    const [found] = token.exec(text);
    if (found === '[' || found === '{') depth++;
    if (found === ']' || found === '}') depth--;
  } while (depth > 0);
  return token.lastIndex;
}

/** The text of a response, with its errors edited. All else stays as it is. */
function edited(response, edit) {
  if (!response.startsWith(ERRORS)) return response;
  const end = endOf(response, ERRORS.length);
  const errors = JSON.parse(response.slice(ERRORS.length, end));
  errors.forEach(edit);
  return ERRORS + JSON.stringify(errors) + response.slice(end);
}

/** The same of the text of a response, or of an array of these. */
function editErrors(text, edit) {
  if (!text.startsWith('[')) return edited(text, edit);
  const responses = [];
  for (let [start, end] = [1, 0]; start < text.length; start = end + 1) {
    end = endOf(text, start);
    responses.push(edited(text.slice(start, end), edit));
  }
  return `[${responses.join()}]`;
}

module.exports = { editErrors, faultText, messageOf, plainText, readFault, shownBy, withExtensions, LoadFault, PublicError };
