// Where a reply is put together: its numbers, and the bytes of its texts where these are few and short. The addon reads it there.
'use strict';

const { addon, FIRST_WORDS, KEPT_WORDS } = require('./border.js');

const PAGE_BYTES = 4096;

/** The page of one reply: a getter of a row may begin another request, which takes another page. */
class Page {
  constructor(words = FIRST_WORDS, bytes = PAGE_BYTES) {
    this.words = new Uint32Array(words);
    this.bytes = new Uint8Array(bytes);
  }

  /** Words for so many numbers. What was there may be lost. */
  makeRoom(count) {
    if (count > this.words.length) this.words = new Uint32Array(count + (count >> 1));
    return this.words;
  }
}

/** The page of the next reply, if none has it, and the words of the one that the addon has. */
let spare;
let shared;

/** A page for one reply. It is lost where a getter of a row throws. */
function takePage() {
  const page = spare ?? new Page();
  spare = undefined;
  return page;
}

function share({ words, bytes }) {
  if (words === shared) return;
  addon.sharePage(words, bytes);
  shared = words;
}

/** Has the library take the reply of a page, and goes on. `text` has its texts, unless the page's bytes do. Returns what the addon returns. */
function handInPage(handle, page, text) {
  share(page);
  const returned = addon.reply(handle, text);
  if (page.words.length > KEPT_WORDS) {
    page.words = new Uint32Array(FIRST_WORDS);
    share(page);
  }
  spare = page;
  return returned;
}

module.exports = { handInPage, takePage, Page };
