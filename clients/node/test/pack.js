// The package that clients/pack makes.
'use strict';

const assert = require('node:assert/strict');
const { execFileSync, spawnSync } = require('node:child_process');
const { cpSync, mkdirSync, mkdtempSync, readdirSync, readFileSync, rmSync, writeFileSync } = require('node:fs');
const { tmpdir } = require('node:os');
const { join, resolve } = require('node:path');
const { after, before, describe, it } = require('node:test');

const client = resolve(__dirname, '..');
const { version } = require('../package.json');
const hasNpm = spawnSync('npm', ['--version']).status === 0;

/** Installs a package into a folder: by npm without a network, or else as npm would. */
function install(file, folder) {
  if (hasNpm) {
    const words = ['install', '--offline', '--no-audit', '--no-fund', file];
    return execFileSync('npm', words, { cwd: folder, stdio: 'ignore', env: { ...process.env, HOME: folder } });
  }
  mkdirSync(join(folder, 'node_modules/rudzkvano'), { recursive: true });
  return execFileSync('tar', ['-xzf', file, '-C', join(folder, 'node_modules/rudzkvano'), '--strip-components=1']);
}

/** The first program of a page, and what the page says that it prints. */
function firstProgram(page) {
  const [, program, printed] = /## The first answer\n\n((?: {4}.*\n)+)\nprints\n\n((?: {4}.*\n)+)/.exec(page);
  return [program, printed].map((text) => text.replace(/^ {4}/gm, ''));
}

describe('the package', () => {
  let folder;
  let installed;
  before(() => {
    folder = mkdtempSync(join(tmpdir(), 'rudzkvano-'));
    installed = join(folder, 'node_modules/rudzkvano');
    execFileSync(join(client, 'pack'), [folder]);
    install(join(folder, `rudzkvano-${version}.tgz`), folder);
  });
  after(() => rmSync(folder, { recursive: true }));

  it(`installed ${hasNpm ? 'by npm' : 'by tar, since there is no npm'}, it runs the first program of its page`, () => {
    const [program, printed] = firstProgram(readFileSync(join(installed, 'README.md'), 'utf8'));
    writeFileSync(join(folder, 'first.js'), program);
    assert.equal(execFileSync(process.execPath, ['first.js'], { cwd: folder, encoding: 'utf8' }), printed);
  });

  it('has its handler, its types and no link into the repository', () => {
    const script = "console.log(typeof require('rudzkvano/http').handler)";
    assert.equal(execFileSync(process.execPath, ['-e', script], { cwd: folder, encoding: 'utf8' }), 'function\n');
    assert.deepEqual(readdirSync(installed).filter((name) => name.endsWith('.d.ts')), ['http.d.ts', 'index.d.ts']);
    assert.doesNotMatch(readFileSync(join(installed, 'README.md'), 'utf8'), /\]\((?!https:)/);
  });

  it('says what to do where the addon is missing', () => {
    rmSync(join(installed, 'out'), { recursive: true });
    const { stderr, status } = spawnSync(process.execPath, ['-e', "require('rudzkvano')"], { cwd: folder, encoding: 'utf8' });
    assert.equal(status, 1);
    assert.match(stderr, /can't load .*out\/rudzkvano\.node: run clients\/node\/build in the repository, or install the package/);
  });

  it("isn't made without the addon", () => {
    const copy = join(folder, 'copy/clients/node');
    cpSync(client, copy, { recursive: true, filter: (path) => !/node\/(out|test)$/.test(path) });
    writeFileSync(join(copy, 'build'), '#!/bin/sh\n');
    const made = spawnSync(join(copy, 'pack'), [join(folder, 'made')], { encoding: 'utf8' });
    assert.equal(made.status, 2);
    assert.match(made.stderr, /clients\/node\/pack: the addon can't be loaded/);
    if (hasNpm) assert.notEqual(spawnSync('npm', ['pack', '--offline'], { cwd: copy }).status, 0);
    const files = readdirSync(folder, { recursive: true }).filter((name) => name.endsWith('.tgz'));
    assert.deepEqual(files, [`rudzkvano-${version}.tgz`]);
  });
});
