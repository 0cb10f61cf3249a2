//! Loads the page's scripts into node, as the page does: one after the other into one namespace.
//! Those that are loaded touch the page only when they are called to.

'use strict';

const fs = require('node:fs');
const path = require('node:path');
const vm = require('node:vm');

const TOP = path.join(__dirname, '..');
const NAMES = ['dom', 'geo', 'columns', 'events', 'frame', 'secured', 'outside', 'peek', 'scan',
  'line', 'hearing', 'presence', 'entries', 'held', 'run', 'reading', 'links', 'records',
  'capture', 'words', 'report', 'verdicts', 'way', 'why', 'reason', 'clock', 'filter', 'tables',
  'load', 'shape', 'streets', 'names', 'badges', 'drawn', 'canvas', 'ground', 'map', 'saving',
  'scene', 'rows', 'split', 'packet', 'tested', 'files', 'open'];

/** @returns {any} the namespace `geostation`, with the parts that are tested by node */
function load() {
  if (globalThis.geostation === undefined) {
    for (const name of NAMES) {
      const file = path.join(TOP, `${name}.js`);
      vm.runInThisContext(fs.readFileSync(file, 'utf8'), {filename: file});
    }
  }
  return globalThis.geostation;
}

/**
 * Reads a run of text, in one piece or in some.
 * @param {...string} pieces @returns {Promise<any>}
 */
function read(...pieces) {
  const encoder = new TextEncoder();
  return load().reading.read((async function* () {
    for (const piece of pieces) yield encoder.encode(piece);
  })());
}

module.exports = {load, read, TOP};
