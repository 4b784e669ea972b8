// GraphQL over HTTP: the media types and the statuses.
'use strict';

const assert = require('node:assert/strict');
const { once } = require('node:events');
const http = require('node:http');
const { after, before, describe, it, mock } = require('node:test');
const net = require('node:net');
const { PublicError } = require('..');
const { handler, HttpError } = require('../http.js');
const { loadersOver, openFriends, openWorld, tables } = require('./tables.js');

const GRAPHQL = 'application/graphql-response+json';
const JSON_TYPE = 'application/json';
const GOOD = { query: '{user(id:1){name}}' };
const ADA = '{"data":{"user":{"name":"Ada"}}}';
const BOTH = 'query A($i:ID!){user(id:$i){name}} query B{users{id}}';
const UNKNOWN = { query: '{user(id:1){age}}' };

/** A request, and what comes back: the status, the media type, and the text or what it matches. */
function ask(port, { method = 'POST', path = '/graphql', type = JSON_TYPE, accept = GRAPHQL, body = '' }) {
  const headers = { ...(type && { 'content-type': type }), ...(accept !== null && { accept }) };
  return new Promise((resolve, reject) => {
    const request = http.request({ port, method, path, headers }, async (response) => {
      let text = '';
      for await (const part of response.setEncoding('utf8')) text += part;
      const type = response.headers['content-type'].replace('; charset=utf-8', '');
      resolve({ status: response.statusCode, type, allow: response.headers.allow, text, headers: response.headers });
    });
    request.on('error', reject).end(typeof body === 'object' && !Buffer.isBuffer(body) ? JSON.stringify(body) : body);
  });
}

const get = (members) => ({ method: 'GET', type: '', path: `/graphql?${new URLSearchParams(members)}` });
const deep = (levels) => `{"query":"{user(id:1){name}}","variables":${'{"a":'.repeat(levels)}1${'}'.repeat(levels)}}`;

const cases = [
  // what, the request, the status, the media type, the text
  ['a query by POST', { body: GOOD }, 200, GRAPHQL, ADA],
  ['a query by GET', get(GOOD), 200, GRAPHQL, ADA],
  ['variables by GET', get({ query: 'query($i:ID!){user(id:$i){name}}', variables: '{"i":1}', operationName: '' }), 200, GRAPHQL, ADA],
  ['variables by POST', { body: { query: BOTH, operationName: 'A', variables: { i: 1 } } }, 200, GRAPHQL, ADA],
  ['a byte order mark', { body: `\ufeff${JSON.stringify(GOOD)}` }, 200, GRAPHQL, ADA],
  ['two byte order marks', { body: `\ufeff\ufeff${JSON.stringify(GOOD)}` }, 400, GRAPHQL, /isn't JSON/],
  ['a byte order mark before variables by GET', get({ ...GOOD, variables: '\ufeff{}' }), 400, GRAPHQL, /isn't JSON/],
  ['members that come twice', { body: '{"query":"{","query":"{user(id:1){name}}"}' }, 200, GRAPHQL, ADA],
  ['parameters that come twice', { ...get([['query', '{'], ['query', GOOD.query]]) }, 200, GRAPHQL, ADA],
  ['HEAD', { ...get(GOOD), method: 'HEAD' }, 200, GRAPHQL, ''],
  ['HEAD of a query that is refused', { ...get(UNKNOWN), method: 'HEAD' }, 400, GRAPHQL, ''],
  ['NaN', { body: `{"query":${JSON.stringify(GOOD.query)},"variables":{"i":NaN}}` }, 400, GRAPHQL, /isn't JSON/],
  ['NaN by GET', get({ ...GOOD, variables: '{"i":-Infinity}' }), 400, GRAPHQL, /isn't JSON/],
  ['20,000 levels', { body: deep(20_000) }, 400, GRAPHQL, /nested too deep/],
  ['20,000 levels, as application/json', { accept: JSON_TYPE, body: deep(20_000) }, 400, JSON_TYPE, /nested too deep/],
  ['126 levels', { body: deep(126) }, 200, GRAPHQL, ADA],
  ['half a character', { body: '{"query":"{users{id}}","variables":{"i":"\\ud83d"}}' }, 400, GRAPHQL, /half a character/],
  ['a mutation by GET', get({ query: 'mutation{user(id:1){name}}' }), 405, GRAPHQL, /by POST/, 'POST'],
  ['no name of two operations', { body: { query: BOTH, variables: { i: 1 } } }, 400, GRAPHQL, /operation name needed/],
  ['null members', { body: { ...GOOD, operationName: null, variables: null, extensions: {} } }, 200, GRAPHQL, ADA],
  ['a charset', { type: 'application/json; charset=UTF-8', body: GOOD }, 200, GRAPHQL, ADA],
  ['application/json', { accept: JSON_TYPE, body: GOOD }, 200, JSON_TYPE, ADA],
  ['no Accept', { accept: null, body: GOOD }, 200, GRAPHQL, ADA],
  ['an empty Accept', { accept: '', body: GOOD }, 200, GRAPHQL, ADA],
  ['an Accept of commas', { accept: ' , ,', body: GOOD }, 200, GRAPHQL, ADA],
  ['a weight that is none', { accept: '*/*;q=abc', body: GOOD }, 200, GRAPHQL, ADA],
  ['a weight over 1', { accept: `${GRAPHQL};q=0.5, ${JSON_TYPE};q=7`, body: GOOD }, 200, JSON_TYPE, ADA],
  ['a weight of many digits', { accept: `${GRAPHQL};Q=0.12345, ${JSON_TYPE};q=0.12344`, body: GOOD }, 200, GRAPHQL, ADA],
  ['any Accept', { accept: '*/*', body: GOOD }, 200, GRAPHQL, ADA],
  ['Accept of a browser', { accept: 'text/html,application/json;q=0.9,*/*;q=0.8', body: GOOD }, 200, JSON_TYPE, ADA],
  ['Accept by preference', { accept: `${JSON_TYPE};q=0.5, ${GRAPHQL}`, body: GOOD }, 200, GRAPHQL, ADA],
  ['Accept that excludes', { accept: `${GRAPHQL};q=0, application/*`, body: GOOD }, 200, JSON_TYPE, ADA],
  ['Accept that fits none', { accept: 'text/html', body: GOOD }, 406, JSON_TYPE, /errors/],
  ['a field that failed', { body: { query: '{user(id:4){name}}' } }, 200, GRAPHQL, /"data":\{"user":null\}/],
  ['data that is null', { body: { query: '{users{name}}' } }, 200, GRAPHQL, /"data":null/],
  ['a query that is refused', { body: UNKNOWN }, 400, GRAPHQL, /5\.3\.1 Field Selections: age/],
  ['a query that is refused, as application/json', { accept: JSON_TYPE, body: UNKNOWN }, 200, JSON_TYPE, /5\.3\.1 Field Selections: age/],
  ['a text that is no document', { body: { query: '{' } }, 400, GRAPHQL, /unexpected end/],
  ['a text that is no document, as application/json', { accept: JSON_TYPE, body: { query: '{' } }, 200, JSON_TYPE, /unexpected end/],
  ['a mutation', { body: { query: 'mutation{user(id:1){name}}' } }, 400, GRAPHQL, /not served: mutation/],
  ['a body that is no JSON', { body: '{"query":' }, 400, GRAPHQL, /the body isn't JSON/],
  ['a body that is no JSON, as application/json', { accept: JSON_TYPE, body: '{"query":' }, 400, JSON_TYPE, /the body isn't JSON/],
  ['a body that is no UTF-8', { body: Buffer.from([0x22, 0xff, 0x22]) }, 400, GRAPHQL, /UTF-8/],
  ['a body that is no object', { body: '[]' }, 400, GRAPHQL, /no object/],
  ['no query', { accept: JSON_TYPE, body: { variables: {} } }, 400, JSON_TYPE, /no query/],
  ['no query by GET', get({}), 400, GRAPHQL, /no query/],
  ['variables that are no object', { body: { ...GOOD, variables: [1] } }, 400, GRAPHQL, /variables is no object/],
  ['variables by GET that are no JSON', get({ ...GOOD, variables: '{' }), 400, GRAPHQL, /variables isn't JSON/],
  ['a name of an operation that is no string', { body: { ...GOOD, operationName: 3 } }, 400, GRAPHQL, /operationName/],
  ['another Content-Type', { type: 'text/plain', body: GOOD }, 415, GRAPHQL, /Content-Type/],
  ['no Content-Type', { type: '', body: GOOD }, 415, GRAPHQL, /Content-Type/],
  ['another charset', { type: 'application/json; charset=latin1', body: GOOD }, 415, GRAPHQL, /Content-Type/],
  ['another method', { method: 'PUT', body: GOOD }, 405, GRAPHQL, /GET or POST/, 'GET, HEAD, POST'],
  ['another method, and an Accept that fits none', { method: 'PUT', accept: 'text/html' }, 405, JSON_TYPE, /GET or POST/, 'GET, HEAD, POST'],
  ['a body that is too long', { body: { query: ' '.repeat(400_000) } }, 413, GRAPHQL, /more than 262144 bytes/],
];

describe('GraphQL over HTTP', () => {
  const { server } = openWorld();
  const users = loadersOver(server, tables, 'aligned rows');
  let listening;
  before(() => {
    listening = http.createServer(handler(server, users, { maxBody: 1 << 18 })).listen(0);
  });
  after(() => {
    listening.close();
    server.close();
  });

  for (const [what, request, status, type, text, allow] of cases) {
    it(`${status}: ${what}`, async () => {
      const found = await ask(listening.address().port, request);
      assert.deepEqual([found.status, found.type, found.allow], [status, type, allow]);
      if (typeof text === 'string') assert.equal(found.text, text);
      else assert.match(found.text, text);
      if (status !== 200 && found.text) assert.equal('data' in JSON.parse(found.text), false);
    });
  }

  /** The first lines of the response to these, of a connection that stays open. */
  const said = (headers) =>
    new Promise((resolve, reject) => {
      const socket = net.connect(listening.address().port);
      socket.on('error', reject).on('data', (data) => (socket.destroy(), resolve(String(data))));
      socket.write(`POST /graphql HTTP/1.1\r\nHost: here\r\nContent-Type: application/json\r\n${headers}\r\n\r\n`);
    });

  it('413 before a byte of the body has come', async () => {
    const response = await said(`Content-Length: ${(1 << 18) + 1}`);
    assert.match(response, /^HTTP\/1.1 413 [^]*\r\nConnection: close\r\n[^]*more than 262144 bytes/);
  });

  it('413 as soon as a body of parts is too long', async () => {
    const part = `40000\r\n${' '.repeat(1 << 18)}\r\n`;
    assert.match(await said(`Transfer-Encoding: chunked\r\n\r\n${part}1\r\n `), /^HTTP\/1.1 413 /);
  });

  it('400 for a Content-Length of 5,000 digits', async () => assert.match(await said(`Content-Length: ${'1'.repeat(5000)}`), /^HTTP\/1.1 400 /));

  it('HEAD has the headers of GET', async () => {
    const { port } = listening.address();
    const [head, got] = [await ask(port, { ...get(GOOD), method: 'HEAD' }), await ask(port, get(GOOD))];
    assert.equal(head.headers['content-length'], got.headers['content-length']);
    assert.equal(got.headers['content-length'], String(ADA.length));
  });

  it('large numbers are the keys that they were', async () => {
    const asked = [];
    const other = http.createServer(handler(server, { userById: (ids) => (asked.push(...ids), ids.map(() => null)) })).listen(0);
    try {
      const query = 'query($i:ID!){user(id:$i){name}}';
      const variables = '{"i":9007199254740993}';
      await ask(other.address().port, { body: `{"query":${JSON.stringify(query)},"variables":${variables}}` });
      await ask(other.address().port, get({ query, variables }));
      assert.deepEqual(asked, ['9007199254740993', '9007199254740993']);
    } finally {
      other.close();
    }
  });

  it('an answer has at most 16,777,216 bytes, unless it may have more', async () => {
    const name = 'a'.repeat(1 << 24);
    const cases = [
      [{}, 400, '{"errors":[{"message":"answer too long"}]}'],
      [{ maxAnswer: 0 }, 200, `{"data":{"user":{"name":"${name}"}}}`],
    ];
    for (const [options, status, text] of cases) {
      const other = http.createServer(handler(server, { userById: () => [{ id: 1, name }] }, options)).listen(0);
      try {
        const found = await ask(other.address().port, { body: GOOD });
        assert.equal(found.status, status);
        assert.ok(found.text === text, found.text.slice(0, 100));
      } finally {
        other.close();
      }
    }
  });

  it('a request is at most 1,000,000 work, unless it may be more', async () => {
    const friends = openFriends();
    const refused = '{"errors":[{"message":"too much work"}]}';
    // with 17 levels of friends it is 524,287 work, and with 18 it is 1,048,575
    const cases = [
      [{}, 17, GRAPHQL, 200, friends.answer(17)],
      [{}, 18, GRAPHQL, 400, refused],
      [{}, 18, JSON_TYPE, 200, refused],
      [{ maxWork: 0 }, 18, GRAPHQL, 200, friends.answer(18)],
      [{ maxRounds: 1 }, 1, GRAPHQL, 400, '{"errors":[{"message":"too many rounds"}]}'],
    ];
    for (const [options, levels, accept, status, text] of cases) {
      const other = http.createServer(handler(friends.server, friends.loaders, options)).listen(0);
      try {
        const found = await ask(other.address().port, { accept, body: { query: friends.query(levels) } });
        assert.equal(found.status, status);
        assert.ok(found.text === text, found.text.slice(0, 100));
      } finally {
        other.close();
      }
    }
    friends.server.close();
  });

  it('batch functions for each request; one that is given up asks for no further batch', async () => {
    let asked = 0;
    let handled;
    let outgoing;
    /** Gives the request up while its first batch runs. */
    const givingUp = (incoming) => async (ids) => {
      asked++;
      outgoing.destroy();
      await once(incoming.socket, 'close');
      return users.userById(ids);
    };
    const listener = handler(server, (incoming) => ({ ...users, userById: givingUp(incoming) }));
    const other = http.createServer((incoming, response) => (handled = listener(incoming, response))).listen(0);
    try {
      outgoing = http.request({ port: other.address().port, method: 'POST', headers: { 'content-type': JSON_TYPE } });
      outgoing.end(JSON.stringify({ query: '{user(id:1){best{best{name}}}}' }));
      await once(outgoing, 'error');
      await handled;
      assert.equal(asked, 1);
    } finally {
      other.close();
    }
  });

  it('a function of loaders answers with a status of its own', async () => {
    const log = mock.method(console, 'error', () => {});
    const thrown = [
      // what it throws, the status, the text, and the header
      [new HttpError(401, 'sign in first', { 'WWW-Authenticate': 'Bearer' }), 401, /"sign in first"/, 'Bearer'],
      [new HttpError(403, 'not for you'), 403, /"not for you"/],
      [new HttpError(503, 'later'), 503, /"later"/],
      [new Error('secret'), 500, /"internal error"/],
    ];
    let why;
    const other = http.createServer(handler(server, async () => { throw why; })).listen(0);
    try {
      for (const [error, status, text, header] of thrown) {
        why = error;
        const found = await ask(other.address().port, { body: GOOD });
        assert.deepEqual([found.status, found.type, found.headers['www-authenticate']], [status, GRAPHQL, header]);
        assert.match(found.text, text);
      }
      assert.deepEqual(log.mock.calls.map(({ arguments: [error] }) => error.message), ['secret']);
      for (const status of [200, 302, 600, '401']) assert.throws(() => new HttpError(status, 'no'), RangeError);
    } finally {
      log.mock.restore();
      other.close();
    }
  });

  it('callers read the errors that are meant for them', async () => {
    const log = mock.method(console, 'error', () => {});
    const secret = new Error('password of db is hunter2');
    const open = new PublicError('no such user', { extensions: { code: 'GONE' } });
    const userById = ([id]) => { throw id === '1' ? secret : open; };
    const other = http.createServer(handler(server, { userById }, { maxBatch: 1 })).listen(0);
    try {
      const { text } = await ask(other.address().port, { body: { query: '{a:user(id:1){name} b:user(id:2){name}}' } });
      const [first, second] = JSON.parse(text).errors;
      assert.deepEqual([first.message, first.extensions], ['internal error', undefined]);
      assert.deepEqual([second.message, second.extensions], ['no such user', { code: 'GONE' }]);
      assert.deepEqual(log.mock.calls.map(({ arguments: [error] }) => error), [secret]);
    } finally {
      log.mock.restore();
      other.close();
    }
  });
});
