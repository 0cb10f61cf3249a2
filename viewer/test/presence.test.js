//! Stations that come and go, and the notes that tell of it: their places among the events, who is
//! there, and that nobody who is away counts for a warning.

'use strict';

const assert = require('node:assert/strict');
const test = require('node:test');
const {frame: encode} = require('./encode.js');
const {load, read} = require('./load.js');
const samples = require('./samples.js');

const {columns, filter, scene, way, why, words} = load();
const COMERS = samples.kept('comers');

/** Reads lines that stand as objects. @param {object[]} lines */
function readLines(lines) {
  return read(lines.map((line) => JSON.stringify(line)).join('\n'));
}

/** Stations a hundred metres apart along a meridian. */
function stations(count) {
  return Array.from({length: count}, (_, i) =>
    ({address: `140002000000000${i + 1}`, lat: 9000 * i, lon: 0}));
}

/** What a station gives by itself. @param {'beacon' | 'shb'} kind */
function given(kind, station) {
  const address = `140002000000000${station + 1}`;
  const source = {address, tst: 0, lat: 9000 * station, lon: 0, pai: 1, speed: 0, heading: 0};
  return encode('ffffffffffff', address.slice(4), {kind, lifetime: 26, left: 1, max: 1, tc: 0,
    source, port: 2002, info: 0, payload: '6869'});
}

const AIR = {range: 500, delay: 1, loss: 0, seed: 0, beacons: false, until: 9000};
const shb = (event, moment, station, sent) => ({event, moment, station, do: 'shb', result: 'sent',
  sent, octets: given('shb', station)});
const tick = (event, moment, station, sent) => ({event, moment, station, do: 'tick', result: 'sent',
  sent, octets: given('beacon', station)});
const came = (event, moment, station, frame) =>
  ({event, moment, station, do: 'deliver', frame, result: 'accepted'});

test('events and notes have the places of their lines', async () => {
  for (const text of [COMERS, samples.loss()]) {
    const run = await read(text);
    const {entries, notes} = run;
    const lines = text.trimEnd().split('\n').slice(1).map((line) => JSON.parse(line));
    assert.equal(entries.length, lines.length);
    lines.forEach((line, place) => {
      const {event, note} = entries.at(place);
      if (line.note === undefined) {
        assert.deepEqual([event, note], [line.event, undefined]);
        assert.equal(entries.ofEvent(event), place);
        return;
      }
      const {note: word, moment, station} = notes.at(note);
      assert.deepEqual([word, moment, station], [line.note, line.moment, line.station]);
      assert.equal(entries.ofNote(note), place);
    });
    const all = entries.merge(run.events.map(({index}) => index), [...notes.after.values.keys()]
      .slice(0, notes.length));
    assert.deepEqual([...all], lines.map((_, place) => place));
  }
});

test('notes are listed among the events, by kind, result and station', async () => {
  const run = await read(COMERS);
  const list = (chosen) => Array.from(filter.rows(run, chosen), (place) => run.entries.at(place))
    .map(({event, note}) => (note === undefined ? event : words.ofNote(run, note)));
  const comes = 'Note, 5200 ms, station 6: came, present from now on';
  assert.deepEqual(list({kind: 'came'}),
    ['Note, 2500 ms, station 5: came, present from now on', comes]);
  assert.deepEqual(list({kind: 'left'}), ['Note, 3500 ms, station 6: left, away from now on']);
  assert.equal(list({station: 6}).filter((row) => typeof row === 'string').length, 3);
  assert.ok(list({station: 6}).includes(comes));
  const lost = list({kind: 'gbc', result: 'lost'});
  assert.equal(lost.at(-1), 'Note, 6000 ms, station 1: lost 28, sent by station 0');
  assert.ok(lost.every((row) => /: lost \d+, sent by station \d$/.test(row)));
  assert.ok(list({result: 'lost'}).length > lost.length);
});

test('a note of an event that isn’t run, and of a moment past what a number holds', async () => {
  const run = await readLines([{stations: stations(1)},
    {note: 'absent', moment: 3000, id: '<script>'}]);
  assert.equal(words.ofNote(run, 0),
    'Note, 3000 ms, station <script>: absent, away: its event isn’t run');
  const text = '{"stations":[]}\n{"note":"left","moment":4611686018427387903,"station":0}';
  assert.equal((await read(text)).noteMoment(0), '4611686018427387903');
});

test('who came, left, came back, and was never there', async () => {
  const run = await read(COMERS);
  const at = (station, moment) => {
    const event = columns.countUpTo(run.times, moment) - 1;
    return run.presence.isThere(station, run.entries.notesTold(event), event);
  };
  assert.deepEqual([0, 2499, 2500, 6500].map((moment) => at(5, moment)),
    [false, false, true, true]);
  assert.deepEqual([0, 3400, 3600, 5100, 5300].map((moment) => at(6, moment)),
    [true, true, true, false, true]);
  // It leaves behind the last event before 3500, and is away when the next one is run.
  const last = run.notes.at(run.notesOf.of(6).find((note) => run.notes.is(note, 'left'))).after;
  assert.deepEqual([run.isPresent(6, last - 1), run.isPresent(6, last)], [true, false]);
  assert.deepEqual([0, 6500].map((moment) => at(7, moment)), [false, false]);
  assert.deepEqual([0, 6500].map((moment) => at(0, moment)), [true, true]);
  assert.equal(run.presence.isTold, true);
});

test('nobody who is away is in the area of a warning, or missed', async () => {
  const run = await read(COMERS);
  const {sends} = way.follow(run);
  const judged = sends.map((send) => why.judge(run, send));
  assert.deepEqual(judged.map(({standing}) => standing), [[4, 6], [4, 5, 6], [4, 5], [4, 5, 6]]);
  assert.deepEqual(judged.map(({missed}) => missed.map(({station, reason}) => [station, reason])),
    [[[6, 'unheard']], [[5, 'lost'], [6, 'unheard']], [],
      [[4, 'unheard'], [5, 'unheard'], [6, 'unheard']]]);
  const roles = why.roles(way.tree(run, sends[0]), judged[0], way.end(run, sends[0]));
  assert.deepEqual([4, 5, 6, 7].map((station) => roles.get(station)),
    ['delivered', undefined, 'missed', undefined]);
});

test('one that sends no beacon where each does is never there', async () => {
  const air = {...AIR, beacons: true, range: 99};
  const lines = [tick(0, 100, 0, 0), tick(1, 700, 1, 1), tick(2, 3800, 0, 2)];
  const never = async (first, more) =>
    [...(await readLines([{stations: stations(3), air: first}, ...more])).presence.never];
  assert.deepEqual(await never(air, lines), [2]);
  // Whoever isn't there yet, or may have lost what it would have heard, isn't taken to be away.
  assert.deepEqual(await never(air, lines.slice(0, 2)), []);
  assert.deepEqual(await never({...air, loss: 10}, lines), []);
  assert.deepEqual(await never({...air, loss: 10},
    [...lines, {note: 'lost', moment: 3800, station: 1, frame: 2}]), [2]);
});

test('one that hears nothing in range of one that is there is never there', async () => {
  const never = async (air, lines, count = 3) =>
    [...(await readLines([{stations: stations(count), air}, ...lines])).presence.never];
  const lines = [shb(0, 10, 0, 0), came(1, 11, 1, 0), shb(2, 20, 1, 1), came(3, 21, 0, 1)];
  assert.deepEqual(await never(AIR, lines), [2]);
  assert.deepEqual(await never({...AIR, range: 99}, lines), []);
  assert.deepEqual(await never({...AIR, until: 20}, lines), [2]);
  assert.deepEqual(await never({...AIR, until: 10}, [lines[0]]), []);
  // Of two that hear nothing from one another either may be away.
  assert.deepEqual(await never(AIR, [lines[0]], 2), []);
});

test('the present note’s station is the map’s active one', async () => {
  const run = await read(COMERS);
  const note = run.notesOf.of(5)[0];
  const at = run.notes.at(note).after;
  const state = {run, at, note, frames: {}, ...way.follow(run)};
  const shown = scene.scene(state, {links: 400, circles: 60, isRange: false});
  assert.equal(shown.active, 5);
  assert.equal(scene.scene({...state, note: undefined},
    {links: 400, circles: 60, isRange: false}).active, run.events.at(at).station);
});
