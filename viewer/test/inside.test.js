//! A run that stands in the page: that the page opens it, and that what `geostation view` writes is
//! the page with its styles, its scripts and the run in it. GEOSTATION may name the program.

'use strict';

const assert = require('node:assert/strict');
const {spawnSync} = require('node:child_process');
const fs = require('node:fs');
const os = require('node:os');
const path = require('node:path');
const test = require('node:test');
const {load, TOP} = require('./load.js');
const {elementOf, whole} = require('./whole.js');

const {open} = load();
const BUILT = path.join(TOP, '..', 'crates', 'geostation', 'out', 'geostation');
const PROGRAM = process.env.GEOSTATION ?? BUILT;
const DATA = path.join(TOP, '..', 'cases', 'data');
/** A name of a vehicle that would end the element, begin a comment, and is no ASCII. */
const NAME = '</script><!--<script>&amp;\u00e9';

/** What the page does with elements of these texts and attributes: what it opens and refuses. */
async function opened(texts) {
  const elements = new Map(Object.entries(texts).map(([id, {text, ...dataset}]) =>
    [id, {get textContent() { return text(); }, dataset, remove: () => elements.delete(id)}]));
  globalThis.document = {getElementById: (id) => elements.get(id)};
  const [runs, refusals] = [[], []];
  await open.inside(async (blob, called) => runs.push([await blob.text(), called]),
    (name, why) => refusals.push([name, why]));
  delete globalThis.document;
  assert.equal(elements.size, 0);
  return {runs, refusals};
}

test('the run in the page is opened under its name, and then its street net', async () => {
  const inside = {text: () => '\n{"stations":[]}\n', name: 'a.jsonl'};
  assert.deepEqual(await opened({inside}), {runs: [['{"stations":[]}\n', 'a.jsonl']],
    refusals: []});
  const net = {text: () => '\n\\u003cnet>\\u003c/net>\n', name: 'town.net.xml'};
  assert.deepEqual((await opened({inside, net})).runs.at(-1), ['<net></net>\n', 'town.net.xml']);
  const json = {text: () => '\n{"name":"\\u003c"}\n', name: 'a.geojson'};
  assert.deepEqual((await opened({inside, net: json})).runs.at(-1),
    ['{"name":"\\u003c"}\n', 'a.geojson']);
});

test('if there is no run in the page, none is opened', async () => {
  assert.deepEqual(await opened({inside: {text: () => ''}}), {runs: [], refusals: []});
});

test('a run that the browser can’t read is reported', async () => {
  const {runs, refusals} = await opened({inside: {text: () => '', name: 'big.toml'}});
  assert.deepEqual(runs, []);
  assert.equal(refusals[0][0], 'big.toml');
  assert.match(refusals[0][1], /can’t read it.*too large.*Drop the file of the run here/);
  const fails = () => {
    throw new RangeError('Invalid string length');
  };
  assert.match((await opened({inside: {text: fails, name: 'a'}})).refusals[0][1], /can’t read it/);
});

test('a run or a net that was too large for the page is named with the way to open it', async () => {
  const why = async (large) =>
    (await opened({inside: {text: () => '', name: 'a', large}})).refusals[0][1];
  assert.match(await why('lines'), /run is too large.*Drop its file here/);
  assert.match(await why('scenario'), /too large.*“geostation sim --json”.*drop that file here/);
  assert.match(await why('net'), /street net is too large.*without “--net”/);
});

/** Why the program can't be asked; false where it can. */
function missing() {
  if (!fs.existsSync(PROGRAM)) return 'the program isn’t built';
  const asked = spawnSync(PROGRAM, ['view', '--help'], {encoding: 'utf8'});
  return asked.status === 0 ? false : 'the program has no view';
}

/** What the program prints with this on standard input. */
function print(input, ...words) {
  const options = {encoding: 'utf8', input, maxBuffer: 1 << 28};
  const {status, stdout, stderr} = spawnSync(PROGRAM, words, options);
  assert.ok(status === 0 || status === 1, `${words.join(' ')}: status ${status}: ${stderr}`);
  return stdout;
}

/** The page that the program makes of a file, with this on standard input. */
function view(file, input = '') {
  return print(input, 'view', '--quiet', '--viewer', TOP, file);
}

const skip = missing();

test('a run is put into the page, its signs that begin a tag spelled', {skip}, () => {
  const run = `{"stations":[{"address":"1400020000000001","lat":0,"lon":0,"id":"${NAME}"}]}\n`;
  const spelled = run.replaceAll('<', '\\u003c');
  assert.equal(view('-', run), whole(elementOf('standard input', spelled)));
  assert.deepEqual(JSON.parse(spelled), JSON.parse(run));
});

test('the name of a run stands in the page as a text', {skip}, () => {
  const room = fs.mkdtempSync(path.join(os.tmpdir(), 'inside-'));
  const file = path.join(room, 'a"b<c>&.jsonl');
  fs.writeFileSync(file, '{"stations":[]}');
  const page = whole(elementOf('a&quot;b&lt;c>&amp;.jsonl', '{"stations":[]}'));
  assert.equal(view(file), page);
  fs.rmSync(room, {recursive: true});
});

test('a street net is put into the page after the run', {skip}, () => {
  const room = fs.mkdtempSync(path.join(os.tmpdir(), 'inside-'));
  const net = path.join(room, 'town.net.xml');
  fs.writeFileSync(net, '<net>\n</net>\n');
  const element = '<script type="text/plain" id="net" data-name="town.net.xml">\n' +
    '\\u003cnet>\n\\u003c/net>\n</script>';
  const run = '{"stations":[]}\n';
  assert.equal(print(run, 'view', '--quiet', '--viewer', TOP, '--net', net, '-'),
    whole(`${elementOf('standard input', run)}\n${element}`));
  fs.rmSync(room, {recursive: true});
});

for (const name of fs.readdirSync(DATA).filter((file) => file.endsWith('.toml'))) {
  test(`${name} is run with its notes for the page`, {skip}, () => {
    const file = path.join(DATA, name);
    const hasAir = /^\s*\[air\]/m.test(fs.readFileSync(file, 'utf8'));
    const run = print('', 'sim', '--json', ...(hasAir ? ['--notes'] : []), file);
    assert.equal(view(file), whole(elementOf(name, run)));
  });
}
