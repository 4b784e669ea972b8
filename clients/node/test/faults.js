// What a batch function may return, and what comes of it.
'use strict';

const assert = require('node:assert/strict');
const { readFileSync } = require('node:fs');
const { describe, it } = require('node:test');
const { aligned, inAnyOrder, PublicError, RudzkvanoError, SchemaFault, Server } = require('..');

const SCHEMA = `type Query { user(id: ID!): User users: [User] named(name: ID!): User vote(user: ID!, post: ID!): Vote }
type User { id: ID name: String age: Int active: Boolean }
type Vote { stars: Int }`;
const BINDINGS = `bindings 2
loader userById users by id
loader allUsers users
loader userByName users by name fold
loader voteByBoth votes by user post
field Query.user one userById arg id
field Query.users many allUsers all
field Query.named one userByName arg name
field Query.vote one voteByBoth arg user and arg post
`;
const server = new Server({ schema: SCHEMA, bindings: BINDINGS });

/** The answer to a query, of which one loader returns this. */
async function answer(query, loader, returned, options) {
  return server.answer({ query }, { [loader]: async () => returned }, options);
}

describe('texts', () => {
  const names = ['', 'a', 'b'.repeat(63), 'c'.repeat(64), 'd'.repeat(65), 'e'.repeat(5000), 'é', 'é'.repeat(3000), '😀', 'a😀'.repeat(40)];
  for (const count of [1, 2, 16, 17, 100]) {
    it(`of each length in ${count} rows`, async () => {
      for (const shift of names.keys()) {
        const rows = Array.from({ length: count }, (_, i) => ({ id: i, name: names[(i + shift) % names.length], âge: 'x' }));
        for (const few of [rows, rows.map(({ id, name }) => ({ id, name }))]) {
          const { data } = await answer('{users{id name}}', 'allUsers', few);
          assert.deepEqual(data.users, rows.map(({ id, name }) => ({ id: String(id), name: name || null })));
        }
      }
    });
  }
});

describe('values', () => {
  const values = [
    // the field, the value, and what the field has
    ['name', 'é😀', 'é😀'],
    ['name', '', null],
    ['name', null, null],
    ['name', undefined, null],
    ['name', 1.5, '1.5'],
    ['name', 1e21, '1e+21'],
    ['name', 12345678901234567890n, '12345678901234567890'],
    ['name', true, 'true'],
    ['name', new Date(Date.UTC(2024, 1, 29, 12)), '2024-02-29T12:00:00.000Z'],
    ['name', '\ud800', '\ufffd'],
    ['age', 36, 36],
    ['age', '36', 36],
    ['active', false, false],
    ['active', 'true', true],
  ];
  for (const [field, value, wanted] of values) {
    it(`${typeof value} ${String(value)} for ${field}`, async () => {
      const query = `{user(id:1){${field}}}`;
      for (const returned of [[{ id: 1, [field]: value }], [[{ [field]: value }]], { columns: ['id', field], rows: [[1, value]] }]) {
        assert.deepEqual(await answer(query, 'userById', returned), { data: { user: { [field]: wanted } } });
      }
    });
  }
});

describe('faults', () => {
  const one = '{user(id:1){name}}';
  const two = '{a:user(id:1){name} b:user(id:2){name}}';
  const vote = '{vote(user:1,post:23){stars}}';
  const votes = '{a:vote(user:1,post:23){stars} b:vote(user:"é",post:3){stars}}';
  const notAsked = (name, key, columns = 'column id', row = 1) => `loader ${name}: row ${row} has the key ${key} in ${columns}, which wasn't asked for`;
  const twice = (message) => [message, message];
  const fewer = "loader userById: 1 items for 2 keys, which aren't all rows with its columns";
  const fewerItems = (count) => `loader userById: ${count} items for 2 keys`;
  const inDoubt = (why) => `loader userById: ${why}: its function has to return aligned(items) or inAnyOrder(rows)`;
  const cases = [
    // the query, the loader, what it returns, the messages of the errors, and the data
    [two, 'userById', [new Error('gone'), { name: 'Bob' }], ['gone'], { a: null, b: { name: 'Bob' } }],
    [two, 'userById', [[{ name: 'Ada' }, { name: 'Eve' }], null], [], { a: { name: 'Ada' }, b: null }],
    [two, 'userById', [], [], { a: null, b: null }],
    [two, 'userById', [{ id: '2', name: 'Bob' }, { name: 'Ada', id: 1 }], [], { a: { name: 'Ada' }, b: { name: 'Bob' } }],
    [two, 'userById', [{ name: 'Bob', id: 2 }], [], { a: null, b: { name: 'Bob' } }],
    [two, 'userById', [[{ name: 'Ada' }], [{ nick: 'B', name: 'Bob' }]], [], { a: { name: 'Ada' }, b: { name: 'Bob' } }],
    [two, 'userById', [{ name: 'Bob' }], [fewer, fewer], { a: null, b: null }],
    [two, 'userById', [{ id: 2, name: 'Bob' }, null], twice(inDoubt("row 1 has the key '2', and stands for the key '1'")), { a: null, b: null }],
    [two, 'userById', [new Error('gone'), { id: 1 }], twice(inDoubt("row 2 has the key '1', and stands for the key '2'")), { a: null, b: null }],
    [two, 'userById', [{ id: 1, name: 'Ada' }, { name: 'Bob' }], twice(inDoubt('row 2 has no column id, which row 1 has')), { a: null, b: null }],
    [two, 'userById', [null, { id: 2, name: 'Bob' }], [], { a: null, b: { name: 'Bob' } }],
    [two, 'userById', aligned([{ id: 2, name: 'Bob' }, null]), [], { a: { name: 'Bob' }, b: null }],
    [two, 'userById', aligned([{ id: 2, name: 'Bob' }, { name: 'Ada' }]), [], { a: { name: 'Bob' }, b: { name: 'Ada' } }],
    [two, 'userById', aligned([]), twice(fewerItems(0)), { a: null, b: null }],
    [two, 'userById', aligned([{ id: 1, name: 'Ada' }]), twice(fewerItems(1)), { a: null, b: null }],
    [two, 'userById', inAnyOrder([{ id: 2, name: 'Bob' }]), [], { a: null, b: { name: 'Bob' } }],
    [two, 'userById', inAnyOrder([]), [], { a: null, b: null }],
    [two, 'userById', inAnyOrder({ columns: ['id', 'name'], rows: [[2, 'Bob']] }), [], { a: null, b: { name: 'Bob' } }],
    [two, 'userById', inAnyOrder([{ id: 1, name: 'Ada' }, { name: 'Bob' }]), twice('loader userById: row 2 has no column id'), { a: null, b: null }],
    [two, 'userById', inAnyOrder([{ id: 1 }, null]), twice('loader userById: a row of type null'), { a: null, b: null }],
    [two, 'userById', inAnyOrder([{ id: 1 }, { id: 9 }]), twice(notAsked('userById', "'9'", 'column id', 2)), { a: null, b: null }],
    [one, 'userById', inAnyOrder(7), ['loader userById: its function returned Number, and no array'], { user: null }],
    ['{users{name}}', 'allUsers', aligned([[{ name: 'Ada' }]]), ['loader allUsers: it has no keys that items are aligned with'], { users: null }],
    ['{users{name}}', 'allUsers', inAnyOrder([{ name: 'Ada' }]), [], { users: [{ name: 'Ada' }] }],
    [one, 'userById', [{ id: 9, name: 'Eve' }], [notAsked('userById', "'9'")], { user: null }],
    [one, 'userById', [{ id: null, name: 'Eve' }], [notAsked('userById', "''")], { user: null }],
    [one, 'userById', undefined, ['loader userById: its function returned undefined, and no array'], { user: null }],
    [one, 'userById', { id: 1 }, ['loader userById: its function returned Object, and no array'], { user: null }],
    [one, 'userById', ['Ada'], ['loader userById: a row of type String'], { user: null }],
    [one, 'userById', [[null]], ['loader userById: a row of type null'], { user: null }],
    [one, 'userById', [[{ id: 1, name: 'Ada' }, 5, 'Eve']], ['loader userById: a row of type Number'], { user: null }],
    [one, 'userById', [[{ id: 1 }, { id: 1, name: 'Ada' }, 'Eve']], ['loader userById: a row of type String'], { user: null }],
    ['{users{name}}', 'allUsers', [{ name: 'Ada' }, { age: 1 }, [{ name: 'Bob' }]], ['loader allUsers: a row of type Array'], { users: null }],
    [one, 'userById', [{}], ['loader userById: a row has no columns'], { user: null }],
    [one, 'userById', [{ id: 1 }], ['no column name'], { user: { name: null } }],
    [one, 'userById', { columns: ['id', 'name'], rows: [{ id: 1 }] }, ['loader userById: a row of type Object'], { user: null }],
    [one, 'userById', { columns: ['name'], rows: [['Ada']] }, ['loader userById: its rows have no column id'], { user: null }],
    [one, 'userById', { columns: ['id', 'name'], rows: [[1]] }, ['loader userById: a row of 1 values for 2 columns'], { user: null }],
    [one, 'userById', { columns: ['id', 'name'], rows: [[2, 'Bob']] }, [notAsked('userById', "'2'")], { user: null }],
    ['{user(id:1){age}}', 'userById', [{ id: 1, age: 1.5 }], ['bad value in column age'], { user: { age: null } }],
    ['{users{name}}', 'allUsers', [{ name: 'Ada' }, { name: 2 }], [], { users: [{ name: 'Ada' }, { name: '2' }] }],
    ['{users{name}}', 'allUsers', { columns: ['name'], rows: [['Ada']] }, [], { users: [{ name: 'Ada' }] }],
    ['{users{name}}', 'allUsers', [null], ['loader allUsers: a row of type null'], { users: null }],
    ['{users{name}}', 'allUsers', [], [], { users: [] }],
    ['{named(name:"ADA"){name}}', 'userByName', [{ name: 'Ada' }], [], { named: { name: 'Ada' } }],
    ['{named(name:"Ä"){name}}', 'userByName', [{ name: 'ä' }], ["loader userByName: a row of the key 'ä' for the key 'Ä'"], { named: null }],
    ['{named(name:"Ä"){name}}', 'userByName', [{ name: 'o' }], [notAsked('userByName', "'o'", 'column name')], { named: null }],
    ['{named(name:"Error"){name}}', 'userByName', [new Error('gone')], ['gone'], { named: null }],
    [vote, 'voteByBoth', [{ user: 1, post: 23, stars: 5 }], [], { vote: { stars: 5 } }],
    [vote, 'voteByBoth', [{ user: 12, post: 3, stars: 5 }], [notAsked('voteByBoth', "'12', '3'", 'columns user and post')], { vote: null }],
    [vote, 'voteByBoth', [{ user: 1, stars: 5 }], [], { vote: { stars: 5 } }],
    [votes, 'voteByBoth', { columns: ['stars', 'post', 'user'], rows: [[4, 3, 'é'], [5, 23, 1]] }, [], { a: { stars: 5 }, b: { stars: 4 } }],
  ];
  for (const [i, [query, loader, returned, messages, data]] of cases.entries()) {
    it(`${i}: ${messages[0] ?? JSON.stringify(data)}`, async () => {
      const found = await answer(query, loader, returned);
      assert.deepEqual((found.errors ?? []).map(({ message }) => message), messages);
      assert.deepEqual(found.data, data);
    });
  }

  it('an option says how bare arrays are read', async () => {
    const turned = [{ id: 2, name: 'Bob' }, { id: 1, name: 'Ada' }];
    const [sorted, inOrder] = [{ a: { name: 'Ada' }, b: { name: 'Bob' } }, { a: { name: 'Bob' }, b: { name: 'Ada' } }];
    for (const rows of ['aligned', { userById: 'aligned' }]) {
      assert.deepEqual(await answer(two, 'userById', turned, { rows }), { data: inOrder });
      assert.deepEqual(await answer(two, 'userById', inAnyOrder(turned), { rows }), { data: sorted });
      assert.deepEqual((await answer(two, 'userById', [], { rows })).errors[0].message, fewerItems(0));
    }
    for (const rows of ['inAnyOrder', { userById: 'inAnyOrder' }]) {
      assert.deepEqual(await answer(two, 'userById', turned, { rows }), { data: sorted });
      assert.deepEqual(await answer(two, 'userById', aligned(turned), { rows }), { data: inOrder });
      const { errors } = await answer(two, 'userById', [turned[1], { name: 'Bob' }], { rows });
      assert.equal(errors[0].message, 'loader userById: row 2 has no column id');
    }
    assert.deepEqual(await answer('{users{name}}', 'allUsers', turned, { rows: 'aligned' }), { data: { users: [{ name: 'Bob' }, { name: 'Ada' }] } });
    const client = server.client({ userById: () => turned }, { rows: 'aligned' });
    assert.deepEqual(await client.answer({ query: two }), { data: inOrder });
    client.close();
  });

  it('a column with a value that has no text fails where it is used', async () => {
    const values = [[Buffer.from('x'), 'a value of type Buffer'], [['x'], 'a value of type Array'], [{ a: 1 }, 'a value of type Object'], [NaN, 'NaN'],
      [new Date(NaN), 'a value of type Date'], [Symbol('x'), 'a value of type Symbol'], [() => 1, 'a value of type Function']];
    for (const [value, what] of values) {
      const rows = [{ id: 2, name: 'Bob', age: 7, photo: null }, { id: 1, name: 'Ada', age: value, photo: value }];
      const forms = [rows, inAnyOrder(rows), aligned([rows[1], [rows[0]]]), { columns: ['age', 'id', 'name'], rows: [[7, 2, 'Bob'], [value, 1, 'Ada']] }];
      for (const returned of forms) {
        assert.deepEqual(await answer(two, 'userById', returned), { data: { a: { name: 'Ada' }, b: { name: 'Bob' } } });
        const { errors, data } = await answer('{a:user(id:1){name age} b:user(id:2){name}}', 'userById', returned);
        const message = `loader userById, column age, row 1 of the key '1': ${what} has no text`;
        assert.deepEqual(errors.map((error) => [error.message, error.path]), [[message, ['a', 'age']]]);
        assert.deepEqual(data, { a: { name: 'Ada', age: null }, b: { name: 'Bob' } });
      }
      const [message] = (await answer(one, 'userById', [{ id: 1 }, { id: value }])).errors.map((error) => error.message);
      assert.equal(message, `loader userById, column id, row 2: ${what} has no text`);
      const { errors } = await answer('{users{name age}}', 'allUsers', rows);
      assert.equal(errors[0].message, `loader allUsers, column age, row 2: ${what} has no text`);
    }
  });

  it('rows in any order keep it within a key, which is compared as its loader compares it', async () => {
    const rows = [{ name: 'bob', age: 1 }, { name: 'ADA', age: 2 }, { name: 'Ada', age: [3] }];
    const client = server.client({ userByName: () => rows });
    assert.deepEqual(await client.loadMany('userByName', ['aDA', 'Bob']), [[{ name: 'ADA' }, { name: 'Ada' }], [{ name: 'bob' }]]);
    const { errors } = await client.answer({ query: '{named(name:"BOB"){age}}' });
    assert.equal(errors[0].message, "loader userByName, column age, row 2 of the key 'aDA': a value of type Array has no text");
    client.restart();
    rows.push({ name: 'Éva' });
    const [{ message }] = await client.loadMany('userByName', ['aDA', 'Bob']);
    assert.equal(message, notAsked('userByName', "'Éva'", 'column name', 4));
    client.close();
  });

  it('what a database casts is a fault of its key', async () => {
    const cases = [['01', 1], [' +1.0', 1], ['ADA ', 'Ada'], ['1.20E2', 120], ['-0', 0], ['-0.50', -0.5]];
    for (const [key, id] of cases) {
      const rows = [{ id, name: 'Eve' }, { id: 2, name: 'Bob' }];
      for (const returned of [rows, inAnyOrder(rows), { columns: ['id', 'name'], rows: rows.map(Object.values) }]) {
        const client = server.client({ userById: () => returned });
        const [fault, found] = await client.loadMany('userById', [key, '2']);
        assert.deepEqual([fault.message, found], [`loader userById: a row of the key '${id}' for the key '${key}'`, [{ id: '2', name: 'Bob' }]]);
        client.close();
      }
    }
    for (const key of ['-1', '.', '', '1e']) {
      const [fault, other] = await server.client({ userById: () => [{ id: 2 }, { id: 1 }] }).loadMany('userById', [key, '2']);
      assert.deepEqual([fault.message, other.message], twice(notAsked('userById', "'1'", 'column id', 2)));
    }
    const { errors, data } = await answer('{a:vote(user:"01",post:"x"){stars} b:vote(user:2,post:3){stars}}', 'voteByBoth', [
      { user: 1, post: 'X', stars: 1 }, { user: 2, post: 3, stars: 4 },
    ]);
    assert.deepEqual([errors[0].message, data], ["loader voteByBoth: a row of the key '1', 'X' for the key '01', 'x'", { a: null, b: { stars: 4 } }]);
  });

  it('rows of keys that were cast are left out', async () => {
    const keys = Array.from({ length: 1000 }, (_, i) => (i % 2 === 0 ? `${i}` : `${i}`.padStart(5, '0')));
    const told = [];
    const onError = (error, batch) => (told.push([error.message, batch.keys]), new PublicError('cast'));
    const userById = (asked) => asked.flatMap((key) => ['a', 'b'].map((name) => ({ id: Number(key), name, age: [1] })));
    const client = server.client({ userById }, { onError });
    const loaded = await client.loadMany('userById', keys);
    loaded.forEach((it, i) => {
      if (i % 2 === 0) assert.deepEqual(it, [{ id: `${i}`, name: 'a' }, { id: `${i}`, name: 'b' }]);
      else assert.equal(it.message, 'cast');
    });
    const odd = keys.filter((_, i) => i % 2 === 1);
    assert.deepEqual(told, odd.map((key) => [`loader userById: a row of the key '${Number(key)}' for the key '${key}'`, [key]]));
    const [all] = await server.client({ userById: () => [{ id: 1, name: 'x' }] }).loadMany('userById', ['01']);
    assert.equal(all.message, "loader userById: a row of the key '1' for the key '01'");
  });

  it('a member that is not enumerable is no column that has keys', async () => {
    const row = Object.defineProperty({ name: 'Ada' }, 'id', { value: 1 });
    const { errors } = await answer(one, 'userById', inAnyOrder([row]));
    assert.equal(errors[0].message, 'loader userById: its rows have no column id');
  });

  it('such a column is told to the hook, in each request that uses it, and forgotten with the rows', async () => {
    const told = [];
    const onError = (error, batch) => (told.push([error.message, batch]), new PublicError('no age', { extensions: { code: 'AGE' } }));
    const row = { id: 1, name: 'Ada', age: ['x'] };
    const client = server.client({ userById: () => [row] }, { onError });
    const [plain, aged] = await client.answer([{ query: one }, { query: '{user(id:1){name age}}' }]);
    assert.deepEqual(plain, { data: { user: { name: 'Ada' } } });
    assert.deepEqual([aged.errors[0].message, aged.errors[0].extensions], ['no age', { code: 'AGE' }]);
    const again = await client.answer({ query: '{a:user(id:1){age} b:user(id:1){age}}' });
    assert.deepEqual(again.errors.map(({ path }) => path), [['a', 'age'], ['b', 'age']]);
    const message = "loader userById, column age, row 1 of the key '1': a value of type Array has no text";
    assert.deepEqual(told, twice([message, { loader: 'userById', keys: ['1'] }]));
    assert.deepEqual(await client.loadMany('userById', [1]), [[{ id: '1', name: 'Ada' }]]);
    assert.throws(() => client.prime('userById', 2, { id: 2, age: {} }), /column age, row 1 of the key '2': a value of type Object has no text/);
    client.restart();
    row.age = 36;
    assert.deepEqual(await client.answer({ query: '{user(id:1){age}}' }), { data: { user: { age: 36 } } });
    client.close();
  });

  it('a getter of a row that asks the server leaves its reply as it is', async () => {
    const allUsers = () => [{ name: 'Ada'.repeat(5000) }, { name: 'Bob' }, { name: 'Cy' }];
    const asking = { id: 1, get name() { server.answer({ query: '{users{name}}' }, { allUsers }); return 'Dee'; }, age: 36 };
    const { data } = await answer('{a:user(id:1){name age} b:user(id:2){name age}}', 'userById', [asking, { id: 2, name: 'Eve', age: 7 }]);
    assert.deepEqual(data, { a: { name: 'Dee', age: 36 }, b: { name: 'Eve', age: 7 } });
  });

  it('a getter of a row that stops its request leaves later ones as they are', async () => {
    const abort = new AbortController();
    const stopping = { id: 1, get name() { abort.abort(new Error('enough')); return 'Ada'; } };
    const stopped = server.answer({ query: one }, { userById: async () => [stopping] }, { signal: abort.signal });
    await assert.rejects(stopped, { message: 'enough' });
    assert.deepEqual(await answer(one, 'userById', [{ id: 1, name: 'Bob' }]), { data: { user: { name: 'Bob' } } });
    const values = { toJSON() { again.abort(new Error('enough')); return {}; } };
    const again = new AbortController();
    await assert.rejects(server.answer({ query: one, variables: values }, { userById: () => [] }, { signal: again.signal }), { message: 'enough' });
    assert.deepEqual(await answer(one, 'userById', [{ id: 1, name: 'Bob' }]), { data: { user: { name: 'Bob' } } });
  });

  it('a batch that fails leaves the others of its round', async () => {
    const failing = {
      'an error that is thrown': [() => { throw new Error('down'); }, 'down'],
      'a rejection': [async () => { throw new TypeError('down'); }, 'down'],
      'a rejection with a text': [() => Promise.reject('down'), 'down'],
      'a rejection with anything': [() => Promise.reject({ code: 7 }), '{ code: 7 }'],
    };
    for (const [what, [userById, message]] of Object.entries(failing)) {
      const allUsers = async () => [{ name: 'Ada' }];
      const found = await server.answer({ query: '{a:user(id:1){name} b:user(id:2){name} users{name}}' }, { userById, allUsers });
      assert.deepEqual(found.errors.map((error) => [error.message, error.path]), [[message, ['a']], [message, ['b']]], what);
      assert.deepEqual(found.data, { a: null, b: null, users: [{ name: 'Ada' }] }, what);
    }
  });

  it('a function may change its list of keys', async () => {
    const names = { 1: 'Ada', 2: 'Bob' };
    const userById = (keys) => keys.sort().map((id) => ({ id, name: names[id] }));
    const { data } = await server.answer({ query: '{a:user(id:2){name} b:user(id:1){name}}' }, { userById });
    assert.deepEqual(data, { a: { name: 'Bob' }, b: { name: 'Ada' } });
  });

  it('a loader that has no function fails where it is asked', async () => {
    const found = await server.answer({ query: '{users{name} user(id:1){name}}' }, { allUsers: () => [{ name: 'Ada' }] });
    assert.equal(found.errors[0].message, 'no function for loader userById');
    assert.deepEqual(found.data, { users: [{ name: 'Ada' }], user: null });
  });
});

describe('what is refused at once', () => {
  const loaders = { userById: () => [] };
  const refused = [
    // what, the arguments after the request, and the error
    ['a name that the bindings have not', [{ userByld: () => [] }], /the bindings have no loader userByld/],
    ['a loader that is no function', [{ userById: [] }], /the loader userById is no function/],
    ['a form that is none', [loaders, { rows: 'sorted' }], /rows is 'aligned' or 'inAnyOrder', and not sorted/],
    ['a form of another name', [loaders, { rows: { users: 'aligned' } }], /no loader users/],
    ['a limit of another name', [loaders, { maxBatch: { users: 3 } }], /no loader users/],
    ['a limit that is no number', [loaders, { maxBatch: 1.5 }], /maxBatch is no whole number/],
    ['a limit of work that is no number', [loaders, { maxWork: -1 }], /maxWork is no whole number/],
    ['a limit of rounds that is no number', [loaders, { maxRounds: 1.5 }], /maxRounds is no whole number/],
    ['a limit that is too large', [loaders, { maxBatch: 65536 }], { name: 'RZ_BAD_LIMIT', code: -6 }],
    ['a limit that no word holds', [loaders, { maxBatch: 2 ** 32 }], { name: 'RZ_BAD_LIMIT', code: -6 }],
    ['such a limit of one loader', [loaders, { maxBatch: { userById: 2 ** 32 + 1 } }], { name: 'RZ_BAD_LIMIT', code: -6 }],
  ];
  for (const [what, given, error] of refused) it(what, () => assert.rejects(server.answer({ query: '{users{id}}' }, ...given), error));
  it('no request', () => assert.rejects(server.answer(undefined, loaders), TypeError));
  it('variables that have no JSON', () => assert.rejects(server.answer({ query: '{users{id}}', variables: { i: 1n } }, loaders), TypeError));
  for (const number of [NaN, Infinity, -Infinity]) {
    it(`${number} in variables`, async () => {
      const message = `variables: ${number} has no JSON`;
      const variables = { i: { list: [null, number] } };
      await assert.rejects(server.answer({ query: '{users{id}}', variables }, loaders), { name: 'TypeError', message });
      await assert.rejects(server.answer([{ query: '{users{id}}', variables: { i: number } }], loaders), TypeError);
    });
  }
});

describe('half characters', () => {
  const [high, low] = ['\ud83d', '\ude00'];
  const query = '{user(id:1){name age} users{name}}';

  it('in neighbouring fields and rows, and names of columns', async () => {
    const users = [{ a: `x${high}`, name: `${low}y${high}` }, { a: `${low}`, name: 'é' }, { [`b${high}`]: low, name: high }];
    for (const allUsers of [users, { columns: ['a', 'name'], rows: users.slice(0, 2).map(Object.values) }]) {
      const { data } = await server.answer({ query: '{users{name}}' }, { allUsers: () => allUsers });
      assert.deepEqual(data.users.map(({ name }) => name), ['\ufffdy\ufffd', 'é', '\ufffd'].slice(0, data.users.length));
    }
    const { data } = await server.answer({ query }, { userById: () => [{ id: 1, name: '', age: null }], allUsers: () => [{ name: '😀' }] });
    assert.deepEqual(data.users, [{ name: '😀' }]);
  });

  it('in faults', async () => {
    const userById = () => [new Error(`x${high}`), new Error(`${low}y`)];
    const { errors } = await server.answer({ query: '{a:user(id:1){name} b:user(id:2){name}}' }, { userById });
    assert.deepEqual(errors.map(({ message }) => message), ['x\ufffd', '\ufffdy']);
  });

  it('in keys, and parts of keys', async () => {
    const asked = [];
    const voteByBoth = (keys) => (asked.push(...keys), keys.map(([user, post]) => ({ user: user.replace('\ufffd', high), post, stars: 5 })));
    const userById = (keys) => (asked.push(...keys), keys.map(() => ({ id: high, name: 'Ada' })));
    const client = server.client({ voteByBoth, userById });
    const loaded = await client.loadMany('voteByBoth', [[`x${high}`, `${low}y`], [`${low}`, high]]);
    assert.deepEqual(asked.splice(0), [['x\ufffd', '\ufffdy'], ['\ufffd', '\ufffd']]);
    assert.deepEqual(loaded.map(([{ stars }]) => stars), ['5', '5']);
    const variables = { i: high, text: `\\ud83d ${high}${low}` };
    const { data } = await client.answer({ query: 'query($i:ID!){user(id:$i){name}}', variables });
    assert.deepEqual([data, asked], [{ user: { name: 'Ada' } }, ['\ufffd']]);
    assert.equal(client.prime('voteByBoth', [`a${high}`, `${low}b`], { stars: 1, name: `${high}` }), true);
    assert.equal(client.clear('voteByBoth', ['a\ufffd', '\ufffdb']), true);
    client.close();
  });
});

describe('a schema or bindings that are refused', () => {
  const unescaped = (text) => text.replace(/\\(.)/g, (_, letter) => ({ n: '\n', r: '\r', t: '\t' })[letter] ?? letter);
  for (const line of readFileSync(`${__dirname}/../../schema_faults.txt`, 'utf8').trimEnd().split('\n')) {
    const [message, schema, bindings] = line.split('\t').map(unescaped);
    it(message || 'none', () => {
      if (!message) return new Server({ schema, bindings }).close();
      return assert.throws(() => new Server({ schema, bindings }), (error) => {
        assert.ok(error instanceof SchemaFault && error instanceof RudzkvanoError);
        const place = `S${error.number} at ${error.inBindings ? 'bindings' : 'schema'}:${error.line}:${error.column}: `;
        assert.deepEqual([error.message, message.startsWith(place)], [message, true]);
        return true;
      });
    });
  }
});
