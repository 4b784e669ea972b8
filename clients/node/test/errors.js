// What a caller reads of an error, and what the hook is told.
'use strict';

const assert = require('node:assert/strict');
const { describe, it } = require('node:test');
const { LoadFault, PublicError, Server } = require('..');
const { openWorld } = require('./tables.js');

const { server } = openWorld();
const down = new Error('password of db is hunter2');
const gone = new PublicError('no such user', { extensions: { code: 'GONE', at: ['"é"\\', { n: 1 }] } });
const HIDDEN = 'internal error';

/** Batch functions of users: of the ids 7 and 8 the batch fails, of 9 the key. */
const loaders = {
  userById: async (ids) => {
    if (ids.includes('7')) throw down;
    if (ids.includes('8')) throw gone;
    return ids.map((id) => (id === '9' ? gone : { id, name: `#${id}` }));
  },
};
const ask = (ids, options) =>
  server.answer({ query: `{${ids.map((id) => `u${id}:user(id:${id}){name}`).join(' ')}}` }, loaders, { maxBatch: 1, ...options });
const shown = ({ errors }) => errors.map(({ message, extensions }) => [message, extensions]);

describe('without a hook', () => {
  it('messages are shown, and the extensions of a PublicError', async () => {
    const found = await ask([1, 7, 8, 9]);
    assert.deepEqual(shown(found), [[down.message, undefined], [gone.message, gone.extensions], [gone.message, gone.extensions]]);
    assert.deepEqual(found.data, { u1: { name: '#1' }, u7: null, u8: null, u9: null });
  });
});

describe('onError', () => {
  it('is told what was thrown, of which loader and keys', async () => {
    const told = [];
    const found = await ask([7, 8, 9], { onError: (error, batch) => void told.push([error, batch]) });
    assert.deepEqual(told.map(([, batch]) => batch), ['7', '8', '9'].map((key) => ({ loader: 'userById', keys: [key] })));
    assert.deepEqual(told.map(([error]) => error), [down, gone, gone]);
    assert.match(told[0][0].stack, /errors\.js/);
    assert.deepEqual(shown(found), [[HIDDEN, undefined], [gone.message, gone.extensions], [gone.message, gone.extensions]]);
  });

  it('says what is shown', async () => {
    const returned = [
      // what it returns, and what is shown
      ['try again', ['try again', undefined]],
      [{ message: 'try again', extensions: { code: 'DOWN', retry: true } }, ['try again', { code: 'DOWN', retry: true }]],
      [new Error('try again'), ['try again', undefined]],
      [{ extensions: {} }, [HIDDEN, undefined]],
      [undefined, [HIDDEN, undefined]],
      [null, [HIDDEN, undefined]],
    ];
    for (const [value, wanted] of returned) assert.deepEqual(shown(await ask([7], { onError: () => value })), [wanted]);
  });

  it('is told of what a function returned that is none of the forms, and of a loader without a function', async () => {
    const told = [];
    const onError = (error) => void told.push(error.message);
    const query = '{user(id:1){name}}';
    for (const functions of [{ userById: () => 7 }, {}]) {
      assert.equal((await server.answer({ query }, functions, { onError })).errors[0].message, HIDDEN);
    }
    assert.deepEqual(told, ['loader userById: its function returned Number, and no array', 'no function for loader userById']);
  });

  it('rejects the answer where it throws', async () => {
    for (const id of [7, 9]) await assert.rejects(ask([id], { onError: () => { throw new Error('full'); } }), { message: 'full' });
    assert.deepEqual((await ask([1])).data, { u1: { name: '#1' } });
  });

  it('holds for requests that share their rounds, for later requests of a client, and for loaded keys', async () => {
    const client = server.client(loaders, { onError: () => undefined });
    const query = '{user(id:9){name}}';
    const answers = await client.answer([{ query }, { query: '{user(id:1){name}}' }, { query }]);
    assert.deepEqual(answers.map(({ errors }) => errors?.[0].extensions), [gone.extensions, undefined, gone.extensions]);
    assert.deepEqual(shown(await client.answer({ query })), [[gone.message, gone.extensions]]);
    const [fault] = await client.loadMany('userById', [9]);
    assert.ok(fault instanceof LoadFault);
    assert.deepEqual([fault.message, fault.extensions, fault.ofBatch], [gone.message, gone.extensions, false]);
    const [hidden] = await client.loadMany('userById', [7]);
    assert.deepEqual([hidden.message, hidden.extensions, hidden.ofBatch], [HIDDEN, undefined, true]);
    client.close();
  });

  it('leaves the text of the answer else as it is', async () => {
    const text = await server.answerText({ query: '{user(id:9){name}}' }, loaders);
    const extensions = JSON.stringify(gone.extensions);
    const error = `{"message":"no such user","extensions":${extensions},"locations":[{"line":1,"column":2}],"path":["user"]}`;
    assert.equal(text, `{"errors":[${error}],"data":{"user":null}}`);
  });

  it('leaves other faults as they are', async () => {
    const { server: other } = openWorld();
    const userById = (ids) => ids.map((id) => ({ id }));
    const { errors } = await other.answer({ query: '{user(id:1){name}}' }, { userById }, { onError: () => 'hidden' });
    assert.match(errors[0].message, /no column name/);
    other.close();
  });
});
