// Texts that are too long for a string, the memory of large requests, and short queries with long answers.
'use strict';

const assert = require('node:assert/strict');
const { constants } = require('node:buffer');
const { describe, it } = require('node:test');
const { addon, border } = require('../border.js');
const { openFriends, openWorld } = require('./tables.js');

const { server } = openWorld();
const users = (name) => ({ userById: async (ids) => ids.map((id) => ({ id, name })) });
const query = '{user(id:1){name}}';
const TOO_LONG = { name: 'RangeError', message: /longer than a string of V8 may be: the option maxAnswer/ };

/** Does something while no string may have more units than this. */
async function limited(units, does) {
  addon.limitTexts(units);
  try {
    await does();
  } finally {
    addon.limitTexts(constants.MAX_STRING_LENGTH);
  }
}

describe('a text that is longer than a string may be', () => {
  it('rejects the answer', () =>
    limited(1000, async () => {
      await assert.rejects(server.answerText({ query }, users('a'.repeat(1000))), TOO_LONG);
      await assert.rejects(server.answer({ query }, users('é'.repeat(1000))), TOO_LONG);
      assert.deepEqual(await server.answer({ query }, users('é'.repeat(900))), { data: { user: { name: 'é'.repeat(900) } } });
      assert.deepEqual(await server.answer({ query }, users('b')), { data: { user: { name: 'b' } } });
    }));

  it('rejects a request whose keys are too long together, and loaded keys', () =>
    limited(1000, async () => {
      const client = server.client(users('a'.repeat(600)));
      await assert.rejects(client.loadMany('userById', [1, 2]), TOO_LONG);
      await assert.rejects(client.loadMany('userById', ['3'.repeat(2000)]), TOO_LONG);
      await assert.rejects(client.answer({ query: `{user(id:"${'4'.repeat(2000)}"){name}}` }), TOO_LONG);
      assert.throws(() => client.log('userById'), TOO_LONG);
      assert.equal((await client.loadMany('userById', [1]))[0][0].id, '1');
      client.close();
    }));
});

describe('what a large request needed', () => {
  const query = '{users{id name}}';
  const loaders = { allUsers: () => Array.from({ length: 100_000 }, (_, i) => ({ id: i, name: 'a'.repeat(50) })) };
  const assertSmall = () => assert.deepEqual([addon.room() <= 1 << 20, border.words.length <= 1 << 16], [true, true]);

  it('is given back', async () => {
    const full = { onRound: () => { throw new Error('full'); } };
    assert.ok((await server.answerText({ query }, loaders)).length > 5_000_000);
    assertSmall();
    await assert.rejects(server.answer({ query }, loaders, full), { message: 'full' });
    assertSmall();
    const client = server.client(loaders);
    assert.equal((await client.loadMany('allUsers', [undefined]))[0].length, 100_000);
    assertSmall();
    client.close();
  });
});

describe('a short query with a long answer', () => {
  const { server, loaders, query, answer } = openFriends();
  const TOO_MUCH = '{"errors":[{"message":"too much work"}]}';
  /** As many levels of friends as a query may have: with `user` and `id` these are 128 fields on a path. */
  const MOST_LEVELS = 126;

  it('is refused, and nothing more is asked once that is known', async () => {
    const asked = [];
    const onRound = ({ batches }) => asked.push(...batches.map(({ loader, keys }) => [loader, keys]));
    assert.equal(await server.answerText({ query: query(MOST_LEVELS) }, loaders, { maxWork: 1_000_000, onRound }), TOO_MUCH);
    assert.deepEqual(asked, [['userById', ['1']], ['friendsByUser', ['1']], ['friendsByUser', ['2']]]);
  });

  it('is answered if its work is within the limit', async () => {
    for (const levels of [0, 1, 5]) {
      const maxWork = 4 * 2 ** levels - 1;
      assert.equal(await server.answerText({ query: query(levels) }, loaders, { maxWork }), answer(levels));
      assert.equal(await server.answerText({ query: query(levels) }, loaders, { maxWork: maxWork - 1 }), TOO_MUCH);
    }
  });
});

describe('what a server keeps of queries', () => {
  it('serves answers with whatever limits', async () => {
    for (let i = 1; i <= 100; i++) {
      const limits = { maxBatch: i, maxAnswer: 1000 + i, maxWork: 1000 + i, maxRounds: i };
      assert.deepEqual(await server.answer({ query: '{user(id:1){name}}' }, users('Ada'), limits), { data: { user: { name: 'Ada' } } });
    }
  });
});
