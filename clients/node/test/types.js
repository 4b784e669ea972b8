// The types: usage.ts, and each example of the documents, checked by TypeScript's compiler in its strict mode.
'use strict';

const assert = require('node:assert/strict');
const { spawnSync } = require('node:child_process');
const { cpSync, existsSync, mkdtempSync, readFileSync, rmSync, writeFileSync } = require('node:fs');
const { tmpdir } = require('node:os');
const { join, resolve } = require('node:path');
const { describe, it } = require('node:test');

const top = resolve(__dirname, '../../..');
const compiler = process.env.TSC ?? 'tsc';
const hasCompiler = spawnSync(compiler, ['--version']).status === 0;
const graphql = process.env.GRAPHQL_JS ?? '/usr/share/nodejs/graphql';

/** What an example takes as given. */
const GIVEN = {
  schema: 'string',
  bindings: 'string',
  query: 'string',
  variables: '{ [name: string]: unknown }',
  server: 'Server',
  loaders: 'Loaders',
  loadersFor: '(request: IncomingMessage) => Loaders',
  db: '{ many(text: string, values: readonly string[]): Promise<object[]> }',
  pool: '{ query(text: string, values: unknown[]): Promise<{ rows: object[] }> }',
  isSignedIn: '(request: IncomingMessage) => boolean',
};
/** The types of Node and of graphql-js, as far as they are used, where they aren't there. */
const NODE = `declare module 'node:http' {
  export type OutgoingHttpHeaders = { [name: string]: number | string | string[] | undefined };
  export class IncomingMessage { headers: { [name: string]: string | undefined } }
  export class ServerResponse { statusCode: number }
  export function createServer(listener: (request: IncomingMessage, response: ServerResponse) => void): { listen(port: number): void };
}
`;
const GRAPHQL = `declare module 'graphql' {
  export function buildSchema(text: string): object;
  export function parse(text: string): { kind: 'Document'; loc?: { source: { body: string } } };
  export function graphqlSync(request: { schema: object; source: string }): object;
}`;

/** The examples in JavaScript of a document: what is indented and begins with a constant or a call of the server. */
function examplesOf(path) {
  const blocks = readFileSync(join(top, path), 'utf8').match(/(?:^ {4}.*\n|^\n(?= {4}))+/gm);
  return blocks.map((block) => block.replace(/^ {4}/gm, '').trimStart()).filter((block) => /^(const |server\.)/.test(block));
}

/** An example as a module in TypeScript. */
function moduleOf(example) {
  const isNamed = (name) => new RegExp(`\\b${name}\\b`).test(example);
  const isDefined = (name) => new RegExp(`const (${name}|{[^}]*\\b${name}\\b[^}]*}) =`).test(example);
  const needed = Object.entries(GIVEN).filter(([name]) => isNamed(name) && !isDefined(name));
  const hasServer = /\bServer\b.*require/.test(example);
  return [
    `import type { ${hasServer ? '' : 'Server, '}Loaders } from 'rudzkvano';`,
    "import type { IncomingMessage } from 'node:http';",
    ...(/\bhttp\./.test(example) ? ["import * as http from 'node:http';"] : []),
    ...needed.map(([name, type]) => `declare const ${name}: ${type};`),
    example
      .replace(/^const ({[^}]*}) = require\(('[^']*')\);/gm, 'import $1 from $2;')
      .replace(/require\('graphql'\)/g, "await import('graphql')")
      .replace(/^const loaders = /gm, 'const loaders: Loaders = '),
    'export {};',
  ].join('\n');
}

describe('types', () => {
  const skip = hasCompiler ? false : 'left out: there is no compiler tsc (Debian: node-typescript)';
  it('usage.ts and the examples of the documents', { skip }, () => {
    const folder = mkdtempSync(join(tmpdir(), 'rudzkvano-'));
    try {
      const packaged = join(__dirname, '..');
      const options = {
        strict: true, noEmit: true, target: 'es2022', module: 'es2022', moduleResolution: 'node', lib: ['es2022', 'dom'], types: [],
        paths: {
          rudzkvano: [`${packaged}/index.d.ts`],
          'rudzkvano/http': [`${packaged}/http.d.ts`],
          ...(existsSync(graphql) && { graphql: [graphql] }),
        },
      };
      writeFileSync(join(folder, 'tsconfig.json'), JSON.stringify({ compilerOptions: options, include: ['*.ts'] }));
      writeFileSync(join(folder, 'given.d.ts'), `${NODE}\n${existsSync(graphql) ? '' : GRAPHQL}`);
      cpSync(join(__dirname, 'usage.ts'), join(folder, 'usage.ts'));
      const examples = ['README.md', 'docs/NODE.md'].flatMap(examplesOf);
      assert.ok(examples.length >= 5, `${examples.length} examples`);
      examples.forEach((example, i) => writeFileSync(join(folder, `example${i}.ts`), moduleOf(example)));
      const { stdout } = spawnSync(compiler, ['-p', folder], { encoding: 'utf8' });
      assert.equal(stdout, '');
    } finally {
      rmSync(folder, { recursive: true });
    }
  });
});
