//! The page as one file, worked out from its files: what `geostation view` has to write.

'use strict';

const fs = require('node:fs');
const path = require('node:path');
const {TOP} = require('./load.js');

const EMPTY = '<script type="application/jsonl" id="inside"></script>';

/**
 * The element that has a run.
 * @param {string} name as it stands in an attribute @param {string} run as it stands in a script
 */
function elementOf(name, run) {
  return `<script type="application/jsonl" id="inside" data-name="${name}">\n${run}</script>`;
}

/** The page with its styles and scripts in it, and this element. @param {string} element */
function whole(element) {
  const put = (tag) => (_, name) =>
    `<${tag}>\n${fs.readFileSync(path.join(TOP, name), 'utf8')}</${tag}>`;
  return fs.readFileSync(path.join(TOP, 'index.html'), 'utf8')
    .replace(/^<link rel="stylesheet" href="([^"]+)">$/gm, put('style'))
    .replace(EMPTY, () => element)
    .replace(/^<script src="([^"]+)"><\/script>$/gm, put('script'));
}

module.exports = {elementOf, whole};
