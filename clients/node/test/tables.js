// Tables of comma-separated values as batch functions, which return their rows in each form that a batch function may.
'use strict';

const { readFileSync } = require('node:fs');
const { aligned, Server } = require('..');

/** The records of a text by RFC 4180. */
function records(text) {
  const found = [];
  for (const line of text.match(/(?:"(?:[^"]|"")*"|[^"\r\n])+/g)) {
    found.push(Array.from(`,${line}`.matchAll(/,(?:"((?:[^"]|"")*)"|([^,]*))/g), ([, quoted, plain]) => quoted?.replaceAll('""', '"') ?? plain));
  }
  return found;
}

function readTable(path) {
  const [columns, ...rows] = records(readFileSync(path, 'utf8'));
  return { columns, rows };
}

function folded(text) {
  return text.replace(/[A-Z]/g, (letter) => letter.toLowerCase());
}

/** For each key its rows, in order. An empty field equals no key. */
function rowsFor(loader, { columns, rows }, keys) {
  const same = loader.folds ? folded : String;
  const places = loader.columns.map((column) => columns.indexOf(column));
  const found = new Map();
  for (const row of rows) {
    const fields = places.map((place) => row[place]);
    const key = JSON.stringify(fields.map(same));
    if (!fields.includes('')) found.set(key, [...(found.get(key) ?? []), row]);
  }
  return keys.map((key) => found.get(JSON.stringify([key].flat().map(same))) ?? []);
}

const object = (columns, row) => Object.fromEntries(columns.map((column, i) => [column, row[i] || null]));

/** The forms: what a function returns of the rows for each key. */
const forms = {
  'aligned arrays of rows': (columns, lists) => lists.map((rows) => rows.map((row) => object(columns, row))),
  'aligned rows': (columns, lists) =>
    lists.map((rows) => {
      const objects = rows.map((row) => object(columns, row));
      return objects.length > 1 ? objects : (objects[0] ?? null);
    }),
  'rows as objects': (columns, lists) => [...lists].reverse().flat().map((row) => object(columns, row)),
  'rows as arrays': (columns, lists) => ({ columns, rows: [...lists].reverse().flat() }),
};

/** Batch functions over tables by name. Rows that aren't aligned are in another order of keys, but of one key in order. */
function loadersOver(server, tables, form, later = (rows) => rows) {
  return Object.fromEntries(
    server.loaders.map((loader) => {
      const { columns, rows } = tables[loader.table];
      if (loader.columns.length === 0) return [loader.name, () => later(rows.map((row) => object(columns, row)))];
      return [loader.name, (keys) => later(forms[form](columns, rowsFor(loader, tables[loader.table], keys)))];
    }),
  );
}

const examples = `${__dirname}/../../../examples`;
const names = ['users', 'posts', 'named', 'likes'];
const tables = Object.fromEntries(names.map((name) => [name, readTable(`${examples}/${name}.csv`)]));
tables.votes = readTable(`${examples}/votes/votes.csv`);

/** A server over a world in examples/, and what has the lines of its files. */
function openWorld(folder = '.') {
  const read = (name) => readFileSync(`${examples}/${folder}/${name}`, 'utf8');
  const lines = (name) => read(name).replace(/\n$/, '').split('\n');
  const server = new Server({ schema: read('schema.graphql'), bindings: read('bindings.txt') });
  return { server, lines };
}

/**
 * A server of the users 1 and 2, who are friends of each other and of themselves, and its batch functions; and the query for so many levels of
 * friends, and its answer. Each level has twice as many users as the one above: with the response, the lists and the ids there are
 * 4 * 2 ** levels - 1 positions.
 */
function openFriends() {
  const schema = 'type Query { user(id: ID!): User } type User { id: ID! friends: [User!]! }';
  const bindings = `bindings 1
    loader userById users by id
    loader friendsByUser friends by user
    field Query.user one userById arg id
    field User.friends many friendsByUser column id`;
  const loaders = {
    userById: (ids) => aligned(ids.map((id) => ({ id }))),
    friendsByUser: (ids) => aligned(ids.map(() => [{ id: 1 }, { id: 2 }])),
  };
  const user = (id, levels) => (levels === 0 ? `{"id":"${id}"}` : `{"friends":[${user(1, levels - 1)},${user(2, levels - 1)}]}`);
  return {
    server: new Server({ schema, bindings }),
    loaders,
    query: (levels) => `{user(id:1)${'{friends'.repeat(levels)}{id}${'}'.repeat(levels)}}`,
    answer: (levels) => `{"data":{"user":${user(1, levels)}}}`,
  };
}

module.exports = { examples, forms, loadersOver, openFriends, openWorld, tables };
