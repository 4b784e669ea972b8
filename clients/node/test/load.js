// Many requests: random ones beside another program, at the same time, and one after another without a leak.
'use strict';

const assert = require('node:assert/strict');
const { execFileSync } = require('node:child_process');
const { existsSync, mkdtempSync, readFileSync, rmSync, writeFileSync } = require('node:fs');
const { tmpdir } = require('node:os');
const { join, resolve } = require('node:path');
const { describe, it } = require('node:test');
const { Server } = require('..');
const { examples, forms, loadersOver, openWorld, tables } = require('./tables.js');

const full = process.argv.includes('--full');
const top = resolve(examples, '..');
const texts = ['schema.graphql', 'bindings.txt'].map((name) => join(examples, name));
const tableWords = ['users', 'posts', 'named', 'likes'].map((name) => `${name}=${examples}/${name}.csv`);

/** The words of a program that answers the lines of a file: query_cli, or the host in C over the same library; or undefined. */
function otherProgram(file) {
  const program = process.env.RUDZKVANO_QUERY_CLI ?? join(top, 'crates/query_cli/out/query_cli');
  const host = join(top, 'crates/rudzkvano_c/out/hosts/tables_host');
  if (existsSync(program)) return [program, '--schema', texts[0], '--bindings', texts[1], file, ...tableWords];
  return existsSync(host) ? [host, ...texts, file, ...tableWords] : undefined;
}

/** Random numbers below 1, the same in each run. */
function randomNumbers() {
  let state = 1;
  return () => (state = (Math.imul(state, 1664525) + 1013904223) >>> 0) / 2 ** 32;
}

/** Random lines, and how the other program answers them. */
function randomLines(count) {
  const folder = mkdtempSync(join(tmpdir(), 'rudzkvano-'));
  try {
    const file = join(folder, 'random.jsonl');
    const most = { maxBuffer: 2 ** 30, encoding: 'utf8' };
    writeFileSync(file, execFileSync('python3', ['-B', join(top, 'clients/python/random_lines.py'), String(count), '2'], most));
    const [program, ...words] = otherProgram(file);
    const answers = execFileSync(program, words, most).split('\n');
    return readFileSync(file, 'utf8').split('\n').slice(0, count).map((line, i) => [line, answers[i]]);
  } finally {
    rmSync(folder, { recursive: true });
  }
}

describe('random lines', () => {
  const other = otherProgram('')?.[0].split('/').pop();
  const left = other ? false : 'left out: there is neither query_cli nor tables_host, so random lines are compared with nothing';
  const count = full ? 200_000 : 2_000;
  it(`${count} are answered as ${other ?? 'another program'} does`, { skip: left }, async () => {
    const { server } = openWorld();
    const ways = [(rows) => rows, async (rows) => rows];
    const each = Object.keys(forms).flatMap((form) => ways.map((later) => loadersOver(server, tables, form, later)));
    for (const [i, [line, answer]] of randomLines(count).entries()) {
      assert.equal(await server.answerText(line, each[i % each.length]), answer, line);
    }
    server.close();
  });
});

describe('at the same time', () => {
  it('200 requests, whose replies are late and in any order', async () => {
    const { server, lines } = openWorld();
    const random = randomNumbers();
    const late = (rows) => new Promise((resolve) => setTimeout(resolve, 20 * random(), rows));
    const each = Object.keys(forms).map((form) => loadersOver(server, tables, form, late));
    const [requests, wanted] = [lines('requests.jsonl'), lines('answers.jsonl')];
    const ask = (_, i) => server.answerText(requests[i % requests.length], each[i % each.length], { maxBatch: i % 3 });
    const answers = await Promise.all(Array.from({ length: 200 }, ask));
    answers.forEach((answer, i) => assert.equal(answer, wanted[i % wanted.length]));
    server.close();
  });
});

const collect = () => new Promise((resolve) => setImmediate(() => (globalThis.gc(), setImmediate(resolve))));

/** The memory in use, in MB: of JavaScript, and what the process has beside the room of JavaScript's heap. */
async function memory() {
  for (let i = 0; i < 4; i++) await collect();
  const { rss, heapTotal, heapUsed } = process.memoryUsage();
  return { native: (rss - heapTotal) / 2 ** 20, heap: heapUsed / 2 ** 20 };
}

describe('memory', () => {
  const count = full ? 100_000 : 10_000;
  it(`${count} requests leave nothing behind`, { skip: globalThis.gc ? false : 'left out: --expose-gc is needed' }, async () => {
    const { server, lines } = openWorld();
    const [schema, bindings] = texts.map((path) => readFileSync(path, 'utf8'));
    const requests = lines('requests.jsonl');
    const each = Object.keys(forms).map((form) => loadersOver(server, tables, form, async (rows) => rows));
    const failing = { ...each[0], userById: async () => { throw new Error('down'); } };
    /** Answers by a client of a server that is closed. */
    const ofClosed = async (i) => {
      const closed = new Server({ schema, bindings });
      const client = closed.client(each[0]);
      closed.close();
      await client.answer({ query: `{a${i}:user(id:1){name}}` });
      if (i % 200 === 5) client.close();
    };
    const pass = async (from, to) => {
      for (let i = from; i < to; i++) {
        await server.answer(requests[i % requests.length], each[i % each.length]);
        if (i % 10 === 0) await server.answer({ query: `{a${i}:user(id:${i}){name}}` }, failing);
        if (i % 10 === 1) await server.answer({ query: '{user(id:1){name}}' }, each[0], { signal: AbortSignal.abort() }).catch(() => {});
        if (i % 100 === 2) server.client(each[0]).prime('userById', i, { name: 'Ada' });
        if (i % 1000 === 3) new Server({ schema, bindings });
        if (i % 100 === 5) await ofClosed(i);
        if (i % 1000 === 4) await collect();
      }
    };
    await pass(0, count / 2);
    const before = await memory();
    await pass(count / 2, count);
    const after = await memory();
    const grown = `${JSON.stringify(before)} grew to ${JSON.stringify(after)}`;
    assert.ok(after.native - before.native < 3, grown);
    assert.ok(after.heap - before.heap < 1, grown);
    server.close();
  });
});
