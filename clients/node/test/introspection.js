// Operations that ask for the schema, and `execute` as graphql-js has it.
'use strict';

const assert = require('node:assert/strict');
const http = require('node:http');
const { describe, it } = require('node:test');
const { executor, Server } = require('..');
const { handler } = require('../http.js');

const schema = 'type Query { user(id: ID!): User } type User { id: ID! name: String }';
const bindings = 'bindings 1\nloader userById users by id\nfield Query.user one userById arg id';
const loaders = { userById: (ids) => ids.map((id) => ({ id, name: `#${id}` })) };
const server = new Server({ schema, bindings });
const users = [{ query: '{user(id:1){name}}' }, { data: { user: { name: '#1' } } }];

/** The real graphql-js: that of GRAPHQL_JS, an installed one, or Debian's; or undefined. */
function graphqlJs() {
  for (const name of [process.env.GRAPHQL_JS, 'graphql', '/usr/share/nodejs/graphql']) {
    try {
      if (name) return require(name);
    } catch {
      // it isn't there
    }
  }
  return undefined;
}

/** A field of a stand-in's document. */
const field = (value) => ({ kind: 'Field', name: { value } });
const query = (...selections) => ({ kind: 'OperationDefinition', operation: 'query', selectionSet: { selections } });
const spread = (value) => ({ kind: 'FragmentSpread', name: { value } });
const fragment = (value, ...selections) => ({ kind: 'FragmentDefinition', name: { value }, selectionSet: { selections } });
const named = (value, operation) => ({ ...operation, name: { value } });

/** A graphql-js that reads each text as this document, and what it was asked. */
function standIn(...definitions) {
  const asked = [];
  const graphql = {
    asked,
    buildSchema: (text) => ({ text }),
    parse: () => ({ kind: 'Document', definitions }),
    graphqlSync: (request) => (asked.push(request), { data: { __schema: 'told' } }),
  };
  return graphql;
}

describe('introspection', () => {
  const text = '{__schema{types{name}} __type(name:"User"){name}}';
  const told = { data: { __schema: 'told' } };
  const documents = [
    // what, the document, the name of the operation, and whether graphql-js is asked
    ['the schema', [query(field('__schema'))], undefined, true],
    ['a type, and __typename', [query(field('__type'), field('__typename'))], undefined, true],
    ['by fragments', [query(spread('A'), { kind: 'InlineFragment', selectionSet: { selections: [field('__type')] } }),
      fragment('A', field('__schema'), spread('A'))], undefined, true],
    ['one of two operations', [named('A', query(field('__schema'))), named('B', query(field('user')))], 'A', true],
    ['the other one', [named('A', query(field('__schema'))), named('B', query(field('user')))], 'B', false],
    ['no name of two operations', [named('A', query(field('__schema'))), named('B', query(field('user')))], undefined, false],
    ['a field beside', [query(field('__schema'), field('user'))], undefined, false],
    ['a field beside, by a fragment', [query(field('__schema'), spread('A')), fragment('A', field('user'))], undefined, false],
    ['a fragment that isn\'t there', [query(spread('A'))], undefined, false],
    ['a mutation', [{ ...query(field('__schema')), operation: 'mutation' }], undefined, false],
  ];
  for (const [what, document, operationName, isAsked] of documents) {
    it(`${what}: ${isAsked ? 'by graphql-js' : 'by the library'}`, async () => {
      const introspection = standIn(...document);
      const request = { query: text, operationName, variables: { a: 1 } };
      const found = await server.answer(request, loaders, { introspection });
      assert.deepEqual(isAsked ? found : introspection.asked, isAsked ? told : []);
      if (!isAsked) return assert.ok(found.errors[0].message);
      const [first] = introspection.asked;
      assert.deepEqual(first, { schema: { text: schema }, source: text, operationName, variableValues: { a: 1 } });
      assert.equal(await server.answerText(JSON.stringify(request), loaders, { introspection }), JSON.stringify(told));
      assert.equal(introspection.asked[1].schema, first.schema);
      const limited = await server.answer(request, loaders, { introspection, maxAnswer: 10 });
      return assert.deepEqual(limited, { errors: [{ message: 'answer too long' }] });
    });
  }

  it('is refused without graphql-js', async () => {
    const { errors } = await server.answer({ query: '{__schema{types{name}}}' }, loaders);
    assert.equal(errors[0].message, 'not served: __schema');
  });

  it('leaves other requests, and texts that are none', async () => {
    const introspection = { ...standIn(), parse: () => { throw new Error('no document'); } };
    assert.deepEqual(await server.answer(users[0], loaders, { introspection }), users[1]);
    const typed = await server.answer({ query: '{user(id:1){__typename}}' }, loaders, { introspection });
    assert.deepEqual(typed, { data: { user: { __typename: 'User' } } });
    for (const request of ['{__schema', { query: '{__schema' }]) assert.ok((await server.answer(request, loaders, { introspection })).errors);
    assert.equal((await server.answer([users[0], { query: text }], loaders, { introspection })).length, 2);
    assert.deepEqual(introspection.asked, []);
  });

  it('by a client', async () => {
    const client = server.client(loaders, { introspection: standIn(query(field('__schema'))) });
    assert.deepEqual(await client.answer({ query: text }), told);
    assert.deepEqual(await client.answer(users[0]), users[1]);
    client.close();
  });

  const graphql = graphqlJs();
  const left = graphql ? false : 'left out: there is no graphql-js (Debian: node-graphql)';
  it('by graphql-js over HTTP: a client reads the schema', { skip: left }, async () => {
    const listening = http.createServer(handler(server, loaders, { introspection: graphql })).listen(0);
    try {
      const ask = async (request) => {
        const headers = { 'content-type': 'application/json' };
        return (await fetch(`http://127.0.0.1:${listening.address().port}`, { method: 'POST', headers, body: JSON.stringify(request) })).json();
      };
      const { data } = await ask({ query: graphql.getIntrospectionQuery() });
      assert.equal(graphql.printSchema(graphql.buildClientSchema(data)), graphql.printSchema(graphql.buildSchema(schema)));
      const named = { query: 'query($name:String!){__type(name:$name){fields{name}}}', variables: { name: 'User' } };
      assert.deepEqual((await ask(named)).data, { __type: { fields: [{ name: 'id' }, { name: 'name' }] } });
      assert.match((await ask({ query: '{__schema{nope}}' })).errors[0].message, /nope/);
      assert.deepEqual(await ask(users[0]), users[1]);
    } finally {
      listening.close();
      listening.closeAllConnections();
    }
  });
});

describe('executor', () => {
  const document = 'query A($id:ID!){user(id:$id){name}} query B{user(id:2){id}}';
  const ada = { data: { user: { name: '#1' } } };

  it('executes a document, as a text or parsed', async () => {
    const execute = executor(server, loaders);
    const rest = { schema: {}, operationName: 'A', variableValues: { id: 1 } };
    assert.deepEqual(await execute({ ...rest, document }), ada);
    assert.deepEqual(await execute({ ...rest, document: { kind: 'Document', loc: { source: { body: document } } } }), ada);
    assert.deepEqual(await execute({ document, operationName: 'B' }), { data: { user: { id: '2' } } });
    for (const none of [{ kind: 'Document' }, undefined]) await assert.rejects(execute({ document: none }), /the document has no text/);
  });

  it('makes the batch functions of the context', async () => {
    const execute = executor(server, async ({ names }) => ({ userById: (ids) => ids.map((id) => ({ id, name: names[id] })) }), { maxBatch: 1 });
    const found = await execute({ document: '{user(id:1){name}}', contextValue: { names: { 1: 'Ada' } } });
    assert.deepEqual(found, { data: { user: { name: 'Ada' } } });
  });

  const graphql = graphqlJs();
  it('executes what graphql-js parsed', { skip: graphql ? false : 'left out: there is no graphql-js (Debian: node-graphql)' }, async () => {
    const execute = executor(server, loaders, { introspection: graphql });
    const variableValues = { id: 1 };
    assert.deepEqual(await execute({ document: graphql.parse(document), operationName: 'A', variableValues }), ada);
    const { data } = await execute({ document: graphql.parse(graphql.getIntrospectionQuery()) });
    assert.equal(graphql.buildClientSchema(data).getType('User').name, 'User');
  });
});
