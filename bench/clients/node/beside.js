// Rudzkvano's client beside graphql-js with a DataLoader, in one process, with the same batch functions over the same tables in memory.
//
//     node beside.js [--scale S] [--repeats N] [WORKLOAD..]
//
// Both have to give the same answers. Then all requests are answered one after another, by each in turn, N times. Printed is the least processor
// time of the process: until each answer is there as an object, and as text (graphql-js's by JSON.stringify); and graphql-js's time by ours.
'use strict';

const { parseArgs } = require('node:util');
const { buildSchema, execute, parse, validate } = require(process.env.GRAPHQL_JS ?? '/usr/share/nodejs/graphql');
const { Server } = require('../../../clients/node');
const { DataLoader } = require('./dataloader.js');
const { loadersOver, workloads } = require('./workloads.js');

const SCHEMA = `type Query { user(id: ID!): User usersByIds(ids: [ID!]!): [User]! users: [User!]! }
type User { id: ID! name: String! best: User posts: [Post!]! liked: [Post]! }
type Post { id: ID! author: User! title: String! }`;

const BINDINGS = `bindings 1
loader userById users by id
loader allUsers users
loader postsByAuthor posts by author
loader likesByUser likes by user
loader postById posts by id
field Query.user one userById arg id
field Query.usersByIds each userById arg ids
field Query.users many allUsers all
field User.best one userById column best
field User.posts many postsByAuthor column id
field User.liked via likesByUser column id postById post
field Post.author one userById column author
`;

function graphqlSchema() {
  const schema = buildSchema(SCHEMA);
  const resolvers = {
    Query: {
      user: (_, { id }, { userById }) => userById.load(id),
      usersByIds: (_, { ids }, { userById }) => userById.loadMany(ids),
      users: (_, __, { allUsers }) => allUsers(),
    },
    User: {
      best: ({ best }, _, { userById }) => (best === null ? null : userById.load(best)),
      posts: ({ id }, _, { postsByAuthor }) => postsByAuthor.load(id),
      liked: async ({ id }, _, { likesByUser, postById }) => postById.loadMany((await likesByUser.load(id)).map(({ post }) => post)),
    },
    Post: { author: ({ author }, _, { userById }) => userById.load(author) },
  };
  for (const [type, fields] of Object.entries(resolvers)) {
    for (const [name, resolve] of Object.entries(fields)) schema.getType(type).getFields()[name].resolve = resolve;
  }
  return schema;
}

/** A function that answers a request as graphql-js does. `documents` has those that were parsed and validated, or is undefined. */
function graphqlJs(schema, functions, documents) {
  const read = (query) => {
    const document = parse(query);
    const errors = validate(schema, document);
    if (errors.length > 0) throw errors[0];
    documents?.set(query, document);
    return document;
  };
  return ({ query, variables }) => {
    const { allUsers, ...keyed } = functions;
    const contextValue = { allUsers };
    for (const name in keyed) contextValue[name] = new DataLoader(keyed[name]);
    return execute({ schema, document: documents?.get(query) ?? read(query), variableValues: variables, contextValue });
  };
}

/** The processor time that the process takes to answer all requests, in milliseconds. */
async function timed(requests, answer) {
  globalThis.gc?.();
  const start = process.cpuUsage();
  for (const request of requests) await answer(request);
  const { user, system } = process.cpuUsage(start);
  return (user + system) / 1000;
}

/** The least time of each, of which each is taken in turn. */
async function least(repeats, requests, answers) {
  const best = answers.map(() => Infinity);
  for (let i = 0; i < repeats; i++) {
    for (const [at, answer] of answers.entries()) best[at] = Math.min(best[at], await timed(requests, answer));
  }
  return best;
}

async function compare(requests, text, theirs) {
  for (const request of requests) {
    const [ours, wanted] = [await text(request), JSON.stringify(await theirs(request))];
    if (ours !== wanted) throw new Error(`${request.query.slice(0, 200)} is answered\n${ours.slice(0, 500)}\nwanted:\n${wanted.slice(0, 500)}`);
  }
}

async function measure(name, scale, repeats) {
  const { tables, requests } = workloads[name](scale);
  const functions = loadersOver(tables);
  const server = new Server({ schema: SCHEMA, bindings: BINDINGS });
  const schema = graphqlSchema();
  const [theirs, cached] = [graphqlJs(schema, functions), graphqlJs(schema, functions, new Map())];
  const text = (request) => server.answerText(request, functions);
  await compare(requests, text, theirs);
  const objects = [(request) => server.answer(request, functions), theirs, cached];
  const texts = [text, async (request) => JSON.stringify(await theirs(request)), async (request) => JSON.stringify(await cached(request))];
  const took = await least(repeats, requests, [...objects, ...texts]);
  server.close();
  const told = (ms, i) => ms.toFixed(1) + (i % 3 === 0 ? '' : ` (${(ms / took[i - (i % 3)]).toFixed(1)}x)`);
  console.log(name.padEnd(8) + took.map((ms, i) => told(ms, i).padStart(17)).join(''));
}

async function main() {
  const { values, positionals } = parseArgs({ allowPositionals: true, options: { scale: { type: 'string' }, repeats: { type: 'string' } } });
  const heads = ['object: ours', 'graphql-js', 'cached', 'text: ours', 'graphql-js', 'cached'];
  console.log(' '.repeat(8) + heads.map((head) => head.padStart(17)).join(''));
  const names = positionals.length > 0 ? positionals : Object.keys(workloads);
  for (const name of names) await measure(name, Number(values.scale ?? 1), Number(values.repeats ?? 5));
}

main();
