// The shop by graphql-js with DataLoader, to measure beside it: over the same PostgreSQL tables, with the same statements for the loaders that
// the requests of requests.lua need. A query that came before is neither parsed nor checked again.
//
//     NODE_PATH=/usr/share/nodejs node graphql_js.js "host=.. user=.. dbname=.."
'use strict';

const { readFileSync } = require('node:fs');
const { createServer } = require('node:http');
const { join } = require('node:path');
const { buildSchema, execute, parse, validate } = require('graphql');
const { DataLoader } = require('../node/dataloader.js');
const { STATEMENTS, connect, rowsOf } = require('./statements.js');

const SCHEMA = join(__dirname, '../../../clients/python/examples/shop/schema.graphql');
const pool = connect(process.argv[2]);

/** The rows of a loader's batch, grouped by its column. */
async function rowsByKey(name, keys) {
  const [, column] = STATEMENTS[name];
  const groups = new Map(keys.map((key) => [String(key), []]));
  for (const row of await rowsOf(pool, STATEMENTS[name], keys)) groups.get(String(row[column])).push(row);
  return [...groups.values()];
}

const many = (name) => new DataLoader((keys) => rowsByKey(name, keys));
const one = (name) => new DataLoader(async (keys) => (await rowsByKey(name, keys)).map(([row]) => row ?? null));

const LOADERS = {
  customerById: one,
  customersByCity: many,
  orderById: one,
  ordersByCustomer: many,
  linesByOrder: many,
  productById: one,
};

const RESOLVERS = {
  Query: {
    order: (_, { id }, loaders) => loaders.orderById.load(id),
    customersIn: (_, { city }, loaders) => loaders.customersByCity.load(city),
  },
  Customer: { orders: ({ id }, _, loaders) => loaders.ordersByCustomer.load(id) },
  Order: {
    customer: ({ customer_id: id }, _, loaders) => loaders.customerById.load(id),
    lines: ({ id }, _, loaders) => loaders.linesByOrder.load(id),
  },
  Line: { product: ({ product_id: id }, _, loaders) => loaders.productById.load(id) },
};

function schemaWithResolvers() {
  const schema = buildSchema(readFileSync(SCHEMA, 'utf8'));
  for (const [type, fields] of Object.entries(RESOLVERS)) {
    for (const [field, resolve] of Object.entries(fields)) schema.getType(type).getFields()[field].resolve = resolve;
  }
  return schema;
}

const schema = schemaWithResolvers();
const documents = new Map();

function documentOf(query) {
  if (!documents.has(query)) {
    const document = parse(query);
    documents.set(query, { document, errors: validate(schema, document) });
  }
  return documents.get(query);
}

async function answer(text) {
  const { query, variables } = JSON.parse(text);
  const { document, errors } = documentOf(query);
  if (errors.length > 0) return { errors };
  const contextValue = Object.fromEntries(Object.entries(LOADERS).map(([name, make]) => [name, make(name)]));
  return execute({ schema, document, variableValues: variables, contextValue });
}

const server = createServer(async (request, response) => {
  const parts = [];
  for await (const part of request) parts.push(part);
  const body = JSON.stringify(request.method === 'POST' ? await answer(Buffer.concat(parts).toString()) : {});
  response.writeHead(200, { 'Content-Type': 'application/graphql-response+json', 'Content-Length': Buffer.byteLength(body) }).end(body);
});
server.listen(0, '127.0.0.1', () => console.log(`http://127.0.0.1:${server.address().port}/`));
