// The lines of examples/, answered to the byte as stored.
'use strict';

const assert = require('node:assert/strict');
const { describe, it } = require('node:test');
const { forms, loadersOver, openWorld, tables } = require('./tables.js');

/** The request that a line is, or undefined. */
function requestOf(line) {
  try {
    const request = JSON.parse(line);
    return typeof request?.query === 'string' ? request : undefined;
  } catch {
    return undefined;
  }
}

const ways = {
  'at once': (rows) => rows,
  later: (rows) => new Promise((resolve) => setImmediate(resolve, rows)),
};

describe('the lines of examples', () => {
  for (const world of ['.', 'votes']) {
    for (const form of Object.keys(forms)) {
      for (const [way, later] of Object.entries(ways)) {
        it(`${world}: ${form}, ${way}`, async () => {
          const { server, lines } = openWorld(world);
          const loaders = loadersOver(server, tables, form, later);
          const answers = lines('answers.jsonl');
          for (const [i, line] of lines('requests.jsonl').entries()) {
            assert.equal(await server.answerText(line, loaders), answers[i], line);
            const request = requestOf(line);
            if (request) assert.equal(await server.answerText(request, loaders), answers[i], line);
            assert.deepEqual(await server.answer(line, loaders), JSON.parse(answers[i]));
          }
          server.close();
        });
      }
    }
  }

  it('an array of requests has the answers of each', async () => {
    const { server, lines } = openWorld();
    const loaders = loadersOver(server, tables, 'aligned rows');
    const answers = lines('answers.jsonl');
    const requests = lines('requests.jsonl').map(requestOf).map((request, i) => [request, JSON.parse(answers[i])]).filter(([request]) => request);
    for (let at = 0; at < requests.length; at += 16) {
      const some = requests.slice(at, at + 16);
      assert.deepEqual(await server.answer(some.map(([request]) => request), loaders), some.map(([, answer]) => answer));
    }
    server.close();
  });
});
