// A DataLoader, since Debian has no package of it: one batch for all keys that are loaded before the process's next tick after the promise jobs
// that are waiting, each key once, and a memory of the promises by key.
'use strict';

class DataLoader {
  #batchFunction;
  #known = new Map();
  #batch = null;

  constructor(batchFunction) {
    this.#batchFunction = batchFunction;
  }

  load(key) {
    const known = this.#known.get(key);
    if (known) return known;
    const batch = (this.#batch ??= this.#open());
    const promise = new Promise((resolve, reject) => {
      batch.keys.push(key);
      batch.waiting.push({ resolve, reject });
    });
    this.#known.set(key, promise);
    return promise;
  }

  loadMany(keys) {
    return Promise.all(keys.map((key) => this.load(key).catch((error) => error)));
  }

  #open() {
    const batch = { keys: [], waiting: [] };
    Promise.resolve().then(() => process.nextTick(() => this.#dispatch(batch)));
    return batch;
  }

  async #dispatch({ keys, waiting }) {
    this.#batch = null;
    try {
      const values = await this.#batchFunction(keys);
      if (!Array.isArray(values) || values.length !== keys.length) throw new TypeError('a batch function returns an array as long as its keys');
      values.forEach((value, i) => (value instanceof Error ? waiting[i].reject(value) : waiting[i].resolve(value)));
    } catch (error) {
      keys.forEach((key) => this.#known.delete(key));
      waiting.forEach(({ reject }) => reject(error));
    }
  }
}

module.exports = { DataLoader };
