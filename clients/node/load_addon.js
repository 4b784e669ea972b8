// Loads the addon that addon.c is built to.
'use strict';

const { join } = require('node:path');

/** The addon. Where it can't be loaded, the error says what to do. */
function loadAddon(folder = __dirname) {
  const file = join(folder, 'out', 'rudzkvano.node');
  try {
    return require(file);
  } catch (cause) {
    const { version, platform, arch } = process;
    const advice = 'run clients/node/build in the repository, or install the package, which has it for Linux on x64';
    throw new Error(`Node ${version} on ${platform} ${arch} can't load ${file}: ${advice}`, { cause });
  }
}

module.exports = { loadAddon };
