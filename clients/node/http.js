// GraphQL over HTTP for Node's own servers:
//
//     http.createServer(handler(server, (request) => loadersFor(request))).listen(4000);
'use strict';

const { PublicError } = require('./faults.js');

const GRAPHQL = 'application/graphql-response+json';
const JSON_TYPE = 'application/json';
/** How many bytes a body, and the text of an answer, may have, and how much work a request may be. */
const [MAX_BODY, MAX_ANSWER, MAX_WORK] = [1 << 20, 1 << 24, 1_000_000];
const READING = ['GET', 'HEAD'];
/** The answer to a request that the library doesn't read. */
const NOT_READ = '{"errors":[{"message":"not a request"}]}';
const UNREAD_JSON = 'the JSON is nested too deep, or has a number that is too large or an escape of half a character';
/** A weight of an Accept header, by RFC 9110, but with any number of digits. */
const WEIGHT = /^q=(0(?:\.\d*)?|1(?:\.0*)?)$/;

/** A request that gets this status, and no answer of the library. A function of loaders may throw it. */
class HttpError extends Error {
  constructor(status, message, headers = {}) {
    super(message);
    if (!Number.isInteger(status) || status < 400 || status > 599) throw new RangeError(`the status of an HttpError is from 400 to 599: ${status}`);
    this.name = 'HttpError';
    this.status = status;
    this.headers = headers;
  }
}

/** How much an Accept header wants a media type: its weight of the most specific range that has it, and how specific that is. */
function wanted(accept, type) {
  let best = { specific: -1, weight: 0 };
  for (const range of accept.split(',')) {
    const [name, ...parameters] = range.split(';').map((part) => part.trim().toLowerCase());
    const specific = ['*/*', 'application/*', type].indexOf(name);
    const [, weight = '1'] = parameters.map((parameter) => WEIGHT.exec(parameter)).find(Boolean) ?? [];
    if (specific > best.specific) best = { specific, weight: Number(weight) };
  }
  return best;
}

/** The media type that an Accept header prefers, or undefined where it takes none. Without a range it takes all. */
function mediaType(header = '') {
  const accept = /[^\s,]/.test(header) ? header : '*/*';
  const [graphql, json] = [wanted(accept, GRAPHQL), wanted(accept, JSON_TYPE)];
  if (graphql.weight === 0 && json.weight === 0) return undefined;
  return json.weight > graphql.weight || (json.weight === graphql.weight && json.specific > graphql.specific) ? JSON_TYPE : GRAPHQL;
}

function parsed(text, what) {
  try {
    return JSON.parse(text);
  } catch {
    throw new HttpError(400, `${what} isn't JSON`);
  }
}

function tooLong(maxBody) {
  return new HttpError(413, `the body has more than ${maxBody} bytes`, { Connection: 'close' });
}

/** The text of a body, without a byte order mark. */
async function bodyOf(request, maxBody) {
  const [type, ...parameters] = (request.headers['content-type'] ?? '').toLowerCase().split(';').map((part) => part.trim());
  const charset = parameters.find((parameter) => parameter.startsWith('charset=')) ?? 'charset=utf-8';
  if (type !== JSON_TYPE || !/^charset="?utf-8"?$/.test(charset)) throw new HttpError(415, `the Content-Type isn't ${JSON_TYPE} in UTF-8`);
  if (Number(request.headers['content-length']) > maxBody) throw tooLong(maxBody);
  const parts = [];
  let length = 0;
  for await (const part of request.iterator({ destroyOnReturn: false })) {
    length += part.length;
    if (length > maxBody) throw tooLong(maxBody);
    parts.push(part);
  }
  try {
    return new TextDecoder('utf-8', { fatal: true }).decode(Buffer.concat(parts));
  } catch {
    throw new HttpError(400, "the body isn't UTF-8");
  }
}

/** The text of a request, whose members have the right types. It goes on as it came, since JSON.parse changes large numbers. */
function checked(text) {
  const request = parsed(text, 'the body');
  if (typeof request !== 'object' || request === null || Array.isArray(request)) throw new HttpError(400, 'the body is no object');
  const { query, operationName, variables } = request;
  if (typeof query !== 'string') throw new HttpError(400, 'there is no query, which is a string');
  if (typeof (operationName ?? '') !== 'string') throw new HttpError(400, 'operationName is no string');
  if (typeof (variables ?? {}) !== 'object' || Array.isArray(variables)) throw new HttpError(400, 'variables is no object');
  return text;
}

/** The text of the request that the parameters of an address are. */
function fromParameters(url) {
  const [, parameters = ''] = url.split(/\?(.*)/s);
  const { variables, ...texts } = Object.fromEntries(new URLSearchParams(parameters));
  const members = ['query', 'operationName'].filter((name) => texts[name]).map((name) => `"${name}":${JSON.stringify(texts[name])}`);
  if (variables) {
    parsed(variables, 'variables');
    members.push(`"variables":${variables}`);
  }
  return `{${members.join()}}`;
}

async function requestOf(request, maxBody) {
  return checked(READING.includes(request.method) ? fromParameters(request.url) : await bodyOf(request, maxBody));
}

/** The status of an answer that is refused, where it isn't that of other answers. */
function refusedBy(text, method) {
  if (text === NOT_READ) return new HttpError(400, UNREAD_JSON);
  if (READING.includes(method) && text.startsWith('{"errors":[{"message":"not served: mutation"')) {
    return new HttpError(405, 'a mutation is asked by POST', { Allow: 'POST' });
  }
  return undefined;
}

/** Whether the text of a response has the member `data`. It stands first, or after errors. */
function hasData(text) {
  return text.startsWith('{"data"') || 'data' in JSON.parse(text);
}

function send(response, status, type, text, headers) {
  const body = Buffer.from(text);
  response.writeHead(status, { 'Content-Type': `${type}; charset=utf-8`, 'Content-Length': body.length, ...headers });
  response.end(body);
}

/** Hides what a batch function threw from the caller, and shows it to who runs the server. */
function logged(error) {
  if (!(error instanceof PublicError)) console.error(error);
}

/**
 * A listener for the requests of a server of node:http. `loaders` are the batch functions, or a function that makes them for a request. `options`
 * are those of Server.answer, and `maxBody`: how many bytes a body may have.
 */
function handler(server, loaders, { maxBody = MAX_BODY, maxAnswer = MAX_ANSWER, maxWork = MAX_WORK, onError = logged, ...options } = {}) {
  /** The text of the answer to a request, by its media type. */
  async function answer(request, type, signal) {
    const { method } = request;
    if (method !== 'POST' && !READING.includes(method)) throw new HttpError(405, 'GraphQL is asked by GET or POST', { Allow: 'GET, HEAD, POST' });
    if (!type) throw new HttpError(406, `the response is ${GRAPHQL} or ${JSON_TYPE}`);
    const asked = await requestOf(request, maxBody);
    const functions = typeof loaders === 'function' ? await loaders(request) : loaders;
    const text = await server.answerText(asked, functions, { ...options, maxAnswer, maxWork, onError, signal });
    const refused = refusedBy(text, method);
    if (refused) throw refused;
    return text;
  }

  return async (request, response) => {
    const type = mediaType(request.headers.accept);
    const gone = new AbortController();
    response.on('close', () => gone.abort());
    try {
      const text = await answer(request, type, gone.signal);
      send(response, type === JSON_TYPE || hasData(text) ? 200 : 400, type, text);
    } catch (error) {
      if (response.destroyed) return;
      const refused = error instanceof HttpError ? error : new HttpError(500, 'internal error');
      if (refused !== error) console.error(error);
      send(response, refused.status, type ?? JSON_TYPE, JSON.stringify({ errors: [{ message: refused.message }] }), refused.headers);
    }
  };
}

module.exports = { handler, HttpError };
