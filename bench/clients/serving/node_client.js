// The shop by clients/node, to measure beside graphql_js.js: over the same PostgreSQL tables and statements.
//
//     NODE_PATH=/usr/share/nodejs node node_client.js "host=.. user=.. dbname=.."
'use strict';

const { readFileSync } = require('node:fs');
const { createServer } = require('node:http');
const { join } = require('node:path');
const { Server } = require('../../../clients/node');
const { handler } = require('../../../clients/node/http.js');
const { STATEMENTS, connect, rowsOf } = require('./statements.js');

const SHOP = join(__dirname, '../../../clients/python/examples/shop');
const [schema, bindings] = ['schema.graphql', 'bindings.txt'].map((file) => readFileSync(join(SHOP, file), 'utf8'));
const pool = connect(process.argv[2]);
const batchFunctions = Object.entries(STATEMENTS).map(([name, statement]) => [name, (keys) => rowsOf(pool, statement, keys)]);
const loaders = Object.fromEntries(batchFunctions);

const answer = handler(new Server({ schema, bindings }), () => loaders);
const server = createServer((request, response) => (request.method === 'POST' ? answer(request, response) : response.end('{}')));
server.listen(0, '127.0.0.1', () => console.log(`http://127.0.0.1:${server.address().port}/`));
