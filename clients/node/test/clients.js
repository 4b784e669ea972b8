// What a request may be given, and what a client keeps.
'use strict';

const assert = require('node:assert/strict');
const { once } = require('node:events');
const { describe, it } = require('node:test');
const { Worker } = require('node:worker_threads');
const { LoadFault } = require('..');
const { loadersOver, openWorld, tables } = require('./tables.js');

const { server } = openWorld();
const users = loadersOver(server, tables, 'aligned rows');
const wait = (milliseconds) => new Promise((resolve) => setTimeout(resolve, milliseconds));

/** Batch functions, and the calls that they got. */
function counted(functions = users) {
  const calls = [];
  const counting = ([name, ask]) => [name, (keys) => (calls.push([name, [...keys]]), ask(keys))];
  return { calls, loaders: Object.fromEntries(Object.entries(functions).map(counting)) };
}

describe('options', () => {
  it('maxBatch limits the keys of a batch, for all loaders or by name', async () => {
    const query = '{usersByIds(ids:[1,2,3]){name}}';
    const limits = [
      [2, [['1', '2'], ['3']]],
      [{ userById: 1 }, [['1'], ['2'], ['3']]],
      [{ postById: 1 }, [['1', '2', '3']]],
      [0, [['1', '2', '3']]],
    ];
    for (const [maxBatch, wanted] of limits) {
      const { calls, loaders } = counted();
      const text = await server.answerText({ query }, loaders, { maxBatch });
      assert.equal(text, '{"data":{"usersByIds":[{"name":"Ada"},{"name":"Bob"},{"name":"Cy"}]}}');
      assert.deepEqual(calls.map(([, keys]) => keys), wanted);
    }
  });

  it('maxAnswer limits the bytes of an answer', async () => {
    const query = '{user(id:1){name}}';
    const { length } = '{"data":{"user":{"name":"Ada"}}}';
    assert.equal((await server.answerText({ query }, users, { maxAnswer: length })).length, length);
    assert.equal(await server.answerText({ query }, users, { maxAnswer: length - 1 }), '{"errors":[{"message":"answer too long"}]}');
    for (const maxAnswer of [0, undefined, 2 ** 32 + length - 1]) {
      assert.equal((await server.answerText({ query }, users, { maxAnswer })).length, length);
    }
  });

  it('maxWork limits the positions of an answer, and of those of an array together', async () => {
    const [query, ada, refused] = ['{user(id:1){name}}', '{"data":{"user":{"name":"Ada"}}}', '{"errors":[{"message":"too much work"}]}'];
    // the positions are the response, the user and the name, and at first the response and a user that waits
    for (const [maxWork, text, asked] of [[3, ada, 1], [2, refused, 1], [1, refused, 0], [0, ada, 1], [undefined, ada, 1], [2 ** 32 + 1, ada, 1]]) {
      const { calls, loaders } = counted();
      assert.equal(await server.answerText({ query }, loaders, { maxWork }), text);
      assert.equal(calls.length, asked);
    }
    const requests = [{ query }, { query: '{nosuch}' }, { query }];
    const wrong = '{"errors":[{"message":"5.3.1 Field Selections: nosuch","locations":[{"line":1,"column":2}]}]}';
    assert.equal(await server.answerText(requests, users, { maxWork: 6 }), `[${ada},${wrong},${ada}]`);
    assert.equal(await server.answerText(requests, users, { maxWork: 5 }), `[${refused},${wrong},${refused}]`);
  });

  it('maxRounds limits the rounds of an answer, and what they brought stays known', async () => {
    const query = '{user(id:1){best{name}}}';
    const [bob, refused] = ['{"data":{"user":{"best":{"name":"Bob"}}}}', '{"errors":[{"message":"too many rounds"}]}'];
    for (const [maxRounds, text, asked] of [[2, bob, 2], [1, refused, 1], [0, bob, 2], [undefined, bob, 2], [2 ** 32, bob, 2]]) {
      const { calls, loaders } = counted();
      assert.equal(await server.answerText({ query }, loaders, { maxRounds }), text);
      assert.deepEqual(calls, [['userById', ['1']], ['userById', ['2']]].slice(0, asked));
    }
    const client = server.client(users, { maxRounds: 1 });
    assert.equal(await client.answerText({ query }), refused);
    assert.equal(await client.answerText({ query }), bob);
    client.close();
  });

  it('onRound is told of each round', async () => {
    const rounds = [];
    const loaders = { ...users, userById: async () => { await wait(20); throw new Error('down'); } };
    await server.answer({ query: '{user(id:1){name} users{id posts{id}}}' }, loaders, { onRound: (round) => rounds.push(round) });
    const told = rounds.map(({ round, batches }) => [round, batches.map(({ loader, keys, failed }) => [loader, keys, failed])]);
    assert.deepEqual(told, [
      [1, [['userById', ['1'], 'down'], ['allUsers', [], undefined]]],
      [2, [['postsByAuthor', ['1', '2', '3', '4'], undefined]]],
    ]);
    const [slow, fast] = rounds[0].batches;
    assert.ok(slow.milliseconds >= 19 && fast.milliseconds >= 0 && fast.milliseconds < slow.milliseconds);
  });

  it('the batches of a round run at the same time', async () => {
    let running = 0;
    let most = 0;
    const slowly = ([name, ask]) => [name, async (keys) => {
      most = Math.max(most, ++running);
      await wait(10);
      running--;
      return ask(keys);
    }];
    await server.answer({ query: '{user(id:1){name} users{id} named(id:1){name}}' }, Object.fromEntries(Object.entries(users).map(slowly)));
    assert.equal(most, 3);
  });

  it('a signal gives a request up, and no further batch is asked for', async () => {
    const query = '{user(id:1){best{name}} users{id}}';
    for (const [when, count] of [['before', 0], ['during a call', 1], ['while it waits', 2]]) {
      const abort = new AbortController();
      const { calls, loaders } = counted();
      const { userById } = loaders;
      loaders.userById = (keys) => {
        if (when === 'during a call') abort.abort(new Error('enough'));
        return wait(10).then(() => userById(keys));
      };
      if (when === 'before') abort.abort(new Error('enough'));
      const answer = server.answer({ query }, loaders, { signal: abort.signal });
      if (when === 'while it waits') abort.abort(new Error('enough'));
      await assert.rejects(answer, { message: 'enough' });
      await wait(30);
      assert.equal(calls.length, count, when);
      assert.equal(await server.answerText({ query: '{user(id:1){best{name}}}' }, users), '{"data":{"user":{"best":{"name":"Bob"}}}}');
    }
  });

  it('requests, keys and replies that need much room', async () => {
    const ids = Array.from({ length: 20_000 }, (_, i) => `é😀${i}`);
    const name = (id) => `${id} ${'ü'.repeat(Number(id.slice(3)) % 50)}`;
    const client = server.client({ userById: (keys) => keys.map((id) => ({ id, name: name(id) })) });
    const wanted = { data: { usersByIds: ids.map((id) => ({ name: name(id) })) } };
    assert.deepEqual(await client.answer({ query: 'query($ids:[ID!]!){usersByIds(ids:$ids){name}}', variables: { ids } }), wanted);
    assert.deepEqual(client.log('userById'), [{ round: 1, stored: true, keys: ids }]);
    client.close();
  });

  it('an error of onRound rejects the answer', () =>
    assert.rejects(server.answer({ query: '{users{id}}' }, users, { onRound: () => { throw new Error('full'); } }), { message: 'full' }));
});

describe('a client', () => {
  const query = '{user(id:1){name}}';
  const ada = '{"data":{"user":{"name":"Ada"}}}';

  it('keeps what its requests loaded', async () => {
    const { calls, loaders } = counted();
    const client = server.client(loaders);
    for (let i = 0; i < 3; i++) assert.equal(await client.answerText({ query }), ada);
    assert.deepEqual(calls, [['userById', ['1']]]);
    assert.deepEqual(client.log('userById'), [{ round: 1, stored: true, keys: ['1'] }]);
    assert.equal(client.clear('userById', 1), true);
    assert.equal(client.clear('userById', '1'), false);
    await client.answer({ query });
    assert.equal(calls.length, 2);
    client.clearAll('userById');
    await client.answer({ query });
    assert.equal(calls.length, 3);
    client.restart();
    assert.deepEqual(client.log('userById'), []);
    await client.answer({ query });
    assert.equal(calls.length, 4);
    client.close();
  });

  it('is primed', async () => {
    const items = [
      // the item, and the answer
      [{ name: 'Eve' }, { user: { name: 'Eve' } }],
      [[{ name: 'É' }, { name: 'F' }], { user: { name: 'É' } }],
      [[], { user: null }],
      [null, { user: null }],
      [{ columns: ['name'], rows: [[7]] }, { user: { name: '7' } }],
      [new Error('gone'), { user: null }],
    ];
    for (const [item, data] of items) {
      const client = server.client({});
      assert.equal(client.prime('userById', '1', item), true);
      assert.equal(client.prime('userById', 1, { name: 'late' }), false);
      const found = await client.answer({ query });
      assert.deepEqual(found.data, data);
      assert.equal(found.errors?.[0].message, item instanceof Error ? 'gone' : undefined);
      client.close();
    }
  });

  it('is primed for a pair and for all rows', async () => {
    const { server: votes } = openWorld('votes');
    const client = votes.client({});
    const pair = votes.loaders.find(({ columns }) => columns.length === 2);
    assert.equal(client.prime(pair.name, ['é', 12], { user: 'é', post: 12, stars: 5 }), true);
    assert.equal(client.clear(pair.name, ['é', '12']), true);
    assert.throws(() => client.prime(pair.name, '1', null), /a key of \w+ has 2 parts/);
    const all = votes.loaders.find(({ columns }) => columns.length === 0);
    assert.equal(client.prime(all.name, undefined, [{ id: 1, name: 'Ada' }]), true);
    assert.equal(client.clear(all.name), true);
    client.close();
    votes.close();
  });

  it('loads keys, over what it knows', async () => {
    const { calls, loaders } = counted();
    const rounds = [];
    const client = server.client(loaders, { onRound: ({ round, batches }) => rounds.push([round, batches.map(({ keys }) => keys)]) });
    client.prime('userById', 1, { id: 1, name: 'É', no: null });
    const [eve, bob, same] = await client.loadMany('userById', ['1', 2, '2']);
    assert.deepEqual([eve, bob], [[{ id: '1', name: 'É', no: null }], same]);
    assert.equal(bob[0].name, 'Bob');
    assert.deepEqual([calls, rounds], [[['userById', ['2']]], [[1, [['2']]]]]);
    assert.deepEqual(client.log('userById'), [{ round: 1, stored: true, keys: ['2'] }]);
    assert.deepEqual(await client.loadMany('userById', []), []);
    assert.deepEqual(await client.loadMany('userById', [2]), [bob]);
    assert.equal(await client.answerText({ query: '{user(id:2){name}}' }), '{"data":{"user":{"name":"Bob"}}}');
    assert.equal(calls.length, 1);
    const [all] = await client.loadMany('allUsers', [undefined]);
    assert.equal(all.length, tables.users.rows.length);
    client.close();
  });

  it('tells why loaded keys have no rows', async () => {
    const asks = async (keys) => {
      if (keys.includes('5')) throw new Error('düwn');
      return keys.map((id) => (id === '4' ? new Error('göne') : { id }));
    };
    const client = server.client({ userById: asks }, { maxBatch: 1 });
    const [rows, gone, down] = await client.loadMany('userById', [3, 4, 5]);
    assert.deepEqual(rows, [{ id: '3' }]);
    assert.ok(gone instanceof LoadFault && down instanceof LoadFault);
    assert.deepEqual([gone.message, gone.ofBatch, down.message, down.ofBatch], ['göne', false, 'düwn', true]);
    await client.loadMany('userById', [4, 5]);
    assert.deepEqual(client.log('userById').map(({ round, keys }) => [round, keys]), [[1, ['3']], [1, ['4']], [1, ['5']], [2, ['5']]]);
    client.close();
  });

  it('loads many keys, with much room', async () => {
    const ids = Array.from({ length: 20_000 }, (_, i) => `é😀${i}`);
    const client = server.client({ userById: (keys) => keys.map((id) => ({ id, name: 'ü'.repeat(Number(id.slice(3)) % 50) })) });
    const loaded = await client.loadMany('userById', ids);
    assert.deepEqual(loaded.map(([{ id, name }]) => [id, name?.length ?? 0]), ids.map((id) => [id, Number(id.slice(3)) % 50]));
    client.close();
  });

  it('refuses keys that are none, and loads while it is busy', async () => {
    const client = server.client({ userById: () => wait(5).then(() => [{ id: 1, name: 'Ada' }]) });
    await assert.rejects(client.loadMany('userByID', [1]), /the bindings have no loader userByID/);
    await assert.rejects(client.loadMany('userById', [1, ['1', '2']]), /a key of userById has 1 parts/);
    const first = client.loadMany('userById', [1]);
    await assert.rejects(client.loadMany('userById', [1]), /the client is answering another request/);
    await assert.rejects(client.answer({ query }), /the client is answering another request/);
    assert.deepEqual(await first, [[{ id: '1', name: 'Ada' }]]);
    const abort = new AbortController();
    const stopped = client.loadMany('userById', [2], { signal: abort.signal });
    abort.abort(new Error('enough'));
    await assert.rejects(stopped, { message: 'enough' });
    assert.equal(await client.answerText({ query }), ada);
    client.close();
  });

  it('answers one request at a time', async () => {
    const client = server.client({ userById: () => wait(5).then(() => [{ id: 1, name: 'Ada' }]) });
    const first = client.answerText({ query });
    await assert.rejects(client.answer({ query }), /the client is answering another request/);
    assert.throws(() => client.clearAll('userById'), { name: 'RZ_BUSY', code: -7 });
    assert.equal(await first, ada);
    client.close();
  });

  it('is closed', async () => {
    const client = server.client({ userById: () => wait(5) });
    const answer = client.answer({ query });
    client.close();
    await assert.rejects(answer, /the client is closed/);
    assert.throws(() => client.restart(), { name: 'RZ_BAD_HANDLE' });
    await assert.rejects(client.answer({ query }), { name: 'RZ_BAD_HANDLE' });
    client.close();
  });

  it('outlives its server', async () => {
    const { server: closed } = openWorld();
    const clients = [{}, { maxBatch: 1 }, { maxAnswer: 1000 }, { maxWork: 1000, maxRounds: 10 }].map((options) => closed.client(users, options));
    const late = { ...users, userById: (keys) => wait(5).then(() => users.userById(keys)) };
    const answers = [1, 2].map(() => closed.answerText({ query: '{user(id:1){best{name}}}' }, late));
    closed.close();
    closed.close();
    const requests = [{ query }, { query }, { query: 'query($id:ID!){user(id:$id){name}}', variables: { id: 1 } }];
    for (const client of clients) {
      for (const request of requests) assert.equal(await client.answerText(request), ada);
      assert.equal((await client.loadMany('userById', [2]))[0][0].name, 'Bob');
      client.close();
    }
    assert.deepEqual(await Promise.all(answers), Array(2).fill('{"data":{"user":{"best":{"name":"Bob"}}}}'));
    await assert.rejects(closed.answer({ query }, users), /the server is closed/);
    assert.throws(() => closed.client(users), /the server is closed/);
  });

  it('answers in a worker', async () => {
    const source = `
      const { loadersOver, openWorld, tables } = require(${JSON.stringify(require.resolve('./tables.js'))});
      const { server } = openWorld();
      const answer = server.answerText({ query: ${JSON.stringify(query)} }, loadersOver(server, tables, 'aligned rows'));
      answer.then((text) => require('node:worker_threads').parentPort.postMessage(text));`;
    const worker = new Worker(source, { eval: true });
    assert.deepEqual(await Promise.all([once(worker, 'message'), once(worker, 'exit')]), [[ada], [0]]);
  });

  it('has its own requests when a batch function asks the server', async () => {
    const nested = async (keys) => {
      const { data } = await server.answer({ query: '{users{id}}' }, users);
      return users.userById(keys.filter((key) => data.users.some(({ id }) => id === key)));
    };
    assert.equal(await server.answerText({ query }, { userById: nested }), ada);
  });
});
