// Texts that aren't well-formed: a lone half of a surrogate pair is U+FFFD, as it is in UTF-8.
'use strict';

const SURROGATE = /[\ud800-\udfff]/;
const LONE = /[\ud800-\udbff](?![\udc00-\udfff])|(?<![\ud800-\udbff])[\udc00-\udfff]/g;

/** A text with U+FFFD for each lone half. */
function wellFormed(text) {
  return SURROGATE.test(text) ? text.replace(LONE, '\ufffd') : text;
}

/** A text that makes no pair with the start of the next one: a first half at its end, which is a lone one, is U+FFFD. */
function unpaired(text) {
  return (text.charCodeAt(text.length - 1) & 0xfc00) === 0xd800 ? `${text.slice(0, -1)}\ufffd` : text;
}

/** The JSON text of a value that has a number without JSON, as NaN, is refused. A lone half is U+FFFD. */
function jsonOf(value, what) {
  const text = JSON.stringify(value);
  // only null may stand for such a number, and only an escape for a lone half
  if (text?.includes('null')) refuseNumbers(value, what);
  return text?.includes('\\ud') ? text.replace(/\\(?:ud[89a-f]..|.)/g, (escape) => (escape.startsWith('\\ud') ? '\ufffd' : escape)) : text;
}

function refuseNumbers(value, what) {
  JSON.stringify(value, (_, member) => {
    if (typeof member === 'number' && !Number.isFinite(member)) throw new TypeError(`${what}: ${member} has no JSON`);
    return member;
  });
}

module.exports = { jsonOf, unpaired, wellFormed };
