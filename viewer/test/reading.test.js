//! Reading: what is read octet by octet is what JSON gives, of lines as the program prints them and
//! of lines that are nearly so.

'use strict';

const assert = require('node:assert/strict');
const fs = require('node:fs');
const path = require('node:path');
const test = require('node:test');
const {load, read} = require('./load.js');
const contending = require('./contending.js');
const samples = require('./samples.js');

const {frame, reading} = load();
const CONTENDING = `${contending.textOf(contending.RESTARTED)}\n`;
const SAMPLES = [...['four', 'road', 'loss'].map((name) =>
  fs.readFileSync(path.join(samples.DATA, `${name}.jsonl`), 'utf8')), CONTENDING];
const HEAD = '{"stations":[{"address":"1400020000000001","lat":0,"lon":0}]}';

/** The same lines in a spelling that is left to JSON. @param {string} text */
function spaced(text) {
  return text.replace(/^\{/gm, '{ ');
}

/** The columns of a table that have numbers of their own. */
function columns(table, names) {
  return names.map((name) => [name, [...table[name].values.subarray(0, table.length)]]);
}

/** All that was read of a run, texts in place of their numbers. */
function content({events, notes, frames, stations}) {
  const octets = Array.from({length: frames.length}, (_, i) => [...frames.octets(i)]);
  return {events: [...events], exact: [...events.exact, ...events.holds.exact],
    sent: columns(frames, ['giver']), octets,
    notes: Array.from({length: notes.length}, (_, i) => notes.at(i)), stations};
}

/** The content of a run, or the sentence that refuses it. @param {string} text */
async function outcome(text) {
  try {
    return content(await read(text));
  } catch (fault) {
    assert.ok(fault instanceof reading.RunFault, String(fault.stack));
    return fault.message;
  }
}

/** How many lines of a run are left to JSON. @param {string} text */
async function leftToJson(text) {
  const {parse} = JSON;
  let count = 0;
  JSON.parse = (line) => {
    count += 1;
    return parse(line);
  };
  try {
    await read(text);
  } finally {
    JSON.parse = parse;
  }
  return count;
}

test('lines of the program are read without JSON, as JSON reads them', async () => {
  for (const text of SAMPLES) {
    const lines = text.trimEnd().split('\n').length;
    assert.equal(await leftToJson(text), 1);
    assert.equal(await leftToJson(spaced(text)), lines);
    assert.deepEqual(await outcome(text), await outcome(spaced(text)));
  }
});

test('lines that JSON alone reads', async () => {
  const event = (rest) => `{"event":0,"moment":1,"station":0,${rest}}`;
  const tick = '"do":"tick","result":"quiet"';
  const lines = [
    event('"do":"tick","result":"refused","code":"S1","reason":"earlier than the clock"'),
    event(`${tick},"more":[1,{"a":"}"}]`), event(tick.replace('tick', 't\\u0069ck')),
    event('"result":"quiet","do":"tick"'), event(tick).replace(':1', ':4611686018427387904'),
    event(tick).replace(':1', ':1e3'), event(tick).replace(',', ' , '), `${event(tick)} `,
    event('"do":"deliver","frame":4294967295,"result":"refused","code":"M3"'),
    event('"do":"move","lat":-0,"lon":0,"result":"moved"'),
    event('"do":"deliver","frame":0,"result":"ignored","why":"a reason with signs: \\u00e9"'),
    '{"note":"absent","moment":3000,"id":"v1"}', '{"note":"lost","moment":1,"frame":0,"station":0}',
  ];
  for (const line of lines) {
    assert.equal(await leftToJson(`${HEAD}\n${line}\n`), 2, line);
    assert.equal(typeof await outcome(`${HEAD}\n${line}\n`), 'object', line);
  }
});

test('whatever octet of a line is another, both readings agree', async () => {
  const cancelling = contending.textOf(contending.CANCELLED);
  const [, road, loss, restarted, cancelled] = [...SAMPLES, cancelling].map((text) =>
    text.trimEnd().split('\n'));
  const picked = [[road, '"move"'], [loss, '"port"'], [loss, '"ignored"'], [loss, '"note"'],
    [loss, '"sent"'], [cancelled, '"waits"'], [cancelled, '"cancels"'], [restarted, '"dropped"'],
    [cancelled, '"released"']];
  const others = ['0', '9', '-', '"', 'f', 'g', '}', ' ', ',', '\u00e9'];
  let agreed = 0;
  for (const [lines, word] of picked) {
    const at = lines.findIndex((one) => one.includes(word));
    const before = lines.slice(0, at).join('\n');
    const line = lines[at];
    for (let i = 1; i < line.length; i += line.length > 120 ? 3 : 1) {
      const changed = line.slice(0, i) + others[i % others.length] + line.slice(i + 1);
      const quick = await outcome(`${before}\n${changed}\n`);
      assert.deepEqual(quick, await outcome(`${before}\n${spaced(changed)}\n`), changed);
      agreed += 1;
    }
  }
  assert.ok(agreed > 500, `${agreed}`);
});

test('a last line without its feed, feeds behind carriage returns', async () => {
  const [text] = SAMPLES;
  const whole = await outcome(text);
  assert.deepEqual(await outcome(text.trimEnd()), whole);
  assert.deepEqual(await outcome(text.replaceAll('\n', '\r\n')), whole);
  assert.deepEqual(await outcome(`\ufeff${text}`), whole);
});

test('a frame longer than any is left to JSON', async () => {
  const sent = (length) => `${HEAD}\n{"event":0,"moment":1,"station":0,"do":"shb",` +
    `"result":"sent","sent":0,"octets":"${'5a'.repeat(length)}"}\n`;
  for (const [length, left] of [[2048, 1], [2049, 2], [1500000, 2]]) {
    assert.equal(await leftToJson(sent(length)), left);
    const {frames} = await read(sent(length));
    assert.deepEqual([frames.lengthOf(0), frames.octet(0, length - 1)], [length, 0x5a]);
  }
});

test('columns of events, frames and notes grow', async () => {
  const lines = [HEAD];
  const octets = (i) => (i % 256).toString(16).padStart(2, '0').repeat(1 + (i % 500));
  for (let i = 0; i < 5000; i += 1) {
    lines.push(`{"event":${i},"moment":${i},"station":0,"do":"shb","result":"sent","sent":${i},` +
      `"octets":"${octets(i)}"}`);
    lines.push(`{"note":"lost","moment":${i},"station":${i % 7},"frame":${i}}`);
  }
  const {events, frames, notes} = await read(lines.join('\n'));
  assert.deepEqual([events.length, frames.length, notes.length], [5000, 5000, 5000]);
  assert.deepEqual(events.at(4999), {index: 4999, moment: 4999, station: 0, do: 'shb',
    result: 'sent', sent: 4999});
  assert.deepEqual(notes.at(4999), {note: 'lost', moment: 4999, station: 1, frame: 4999,
    after: 4999, id: undefined});
  for (let i = 0; i < 5000; i += 1) {
    assert.equal(frame.toHex(frames.octets(i)), octets(i));
    assert.equal(frames.lengthOf(i), 1 + (i % 500));
    assert.equal(frames.octet(i, i % 500), i % 256);
    assert.equal(frames.octet(i, 1 + (i % 500)), undefined);
  }
  assert.equal(frames.octets(5000).length, 0);
  assert.equal(frames.octet(5000, 0), undefined);
});
