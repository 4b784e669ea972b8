// Runs the page in a headless Chromium, and says what it found. Its status is 0 if all is well.
//
//     node clients/page/test/run.mjs              all tests
//     PICTURES=folder node clients/page/test/run.mjs    keeps pictures of the page in that folder too
import { after, describe } from 'node:test';
import { Bench } from './bench.mjs';
import { fileTests } from './file_tests.mjs';
import { liveTests } from './live_tests.mjs';
import { lookTests } from './look_tests.mjs';
import { shopTests } from './shop_tests.mjs';
import { sourceTests } from './source_tests.mjs';

const bench = new Bench();
describe('the page', { timeout: 600_000 }, () => {
  after(() => bench.close());
  describe('its text', () => sourceTests(bench));
  describe('trace files', () => fileTests(bench));
  describe('live', () => liveTests(bench));
  describe('looks', () => lookTests(bench));
  describe('the shop', () => shopTests(bench));
});
