// What can be seen in the page's text alone.
import assert from 'node:assert/strict';
import { execFileSync } from 'node:child_process';
import { readFileSync } from 'node:fs';
import { test } from 'node:test';
import { fileURLToPath } from 'node:url';

/** @param {import('./bench.mjs').Bench} bench */
export function sourceTests(bench) {
  const text = readFileSync(bench.pagePath, 'utf8');

  test('its policy has the checksums of its style and script', () => {
    execFileSync(process.execPath, [fileURLToPath(new URL('../seal.mjs', import.meta.url)), '--check']);
  });

  test('its policy lets nothing else run, load or leave', () => {
    const policy = text.match(/http-equiv="Content-Security-Policy" content="([^"]*)"/)[1];
    const rules = Object.fromEntries(policy.split('; ').map(rule => [rule.slice(0, rule.indexOf(' ')), rule.slice(rule.indexOf(' ') + 1)]));
    assert.equal(rules['default-src'], "'none'");
    assert.match(rules['script-src'], /^'sha256-[^ ]+'$/);
    assert.match(rules['style-src'], /^'sha256-[^ ]+'$/);
    assert.equal(rules['connect-src'], "'self'");
    assert.equal(rules['base-uri'], "'none'");
    assert.equal(rules['form-action'], "'none'");
    assert.equal(rules['require-trusted-types-for'], "'script'");
  });

  test('it names nothing that stands elsewhere', () => {
    assert.doesNotMatch(text, /https?:\/\/|\bsrc=|@import|url\(/);
    assert.deepEqual(text.match(/\bhref="[^"]*"/g), ['href="data:,"', 'href="#content"']);
  });

  test('it has no handlers or styles in attributes, and makes no markup from text', () => {
    const markup = text.replace(/<(script|style)[^>]*>[^]*?<\/\1>/g, '');
    assert.doesNotMatch(markup, /\s(on[a-z]+|style)=/);
    assert.doesNotMatch(text, /innerHTML|outerHTML|insertAdjacentHTML|document\.write|\beval\(|new Function/);
  });
}
