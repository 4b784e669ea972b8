// Writes the checksums of the page's style and script into its content security policy, which lets nothing else run.
//
//     node seal.mjs            writes them
//     node seal.mjs --check    changes nothing; its status is 1 if they don't fit
import { createHash } from 'node:crypto';
import { readFileSync, writeFileSync } from 'node:fs';

const page = new URL('index.html', import.meta.url);

/** @param {string} text @param {string} name @returns {string} the checksum of the only element of that name */
function checksum(text, name) {
  const [, inside] = text.match(new RegExp(`<${name}[^>]*>([^]*?)</${name}>`)) ?? [];
  if (inside === undefined) throw new Error(`no element ${name}`);
  return `sha256-${createHash('sha256').update(inside).digest('base64')}`;
}

/** @param {string} text @returns {string} the page with the checksums that fit */
function sealed(text) {
  return text
    .replace(/script-src '[^']*'/, () => `script-src '${checksum(text, 'script')}'`)
    .replace(/style-src '[^']*'/, () => `style-src '${checksum(text, 'style')}'`);
}

const text = readFileSync(page, 'utf8');
if (process.argv[2] === '--check') {
  const fits = sealed(text) === text;
  if (!fits) console.error('index.html was changed after it was sealed: run node seal.mjs');
  process.exitCode = fits ? 0 : 1;
} else {
  writeFileSync(page, sealed(text));
}
