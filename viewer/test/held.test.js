//! Stations that contend: which frames they hold, which are sent late, cancelled or dropped, and how
//! the map shows it.

'use strict';

const assert = require('node:assert/strict');
const test = require('node:test');
const {AIR, AWAY, BEGIN, CANCELLED, RESTARTED, copy, note, own, sent, textOf, waits, without} =
  require('./contending.js');
const {load, read} = require('./load.js');

const {filter, load: loads, rows, scene, shape, way, why, words} = load();
const LIMITS = {links: 400, circles: 60, isRange: true};

/** What the map shows of the warning, or of all frames. */
function shown(run, at, more = {}) {
  const {sends, sendOf} = way.follow(run);
  const chosen = more.isAll ? undefined : sends[0];
  const steps = chosen ? way.tree(run, chosen) : [];
  const state = {run, at, frames: {}, sends, sendOf, chosen, steps,
    path: chosen && way.path(run, steps), deliveries: chosen && way.deliveries(run, chosen),
    judgement: chosen && why.judge(run, chosen), ...more};
  return scene.scene(state, LIMITS);
}

/** The rings of the map at each event. */
function rings(run, more) {
  return run.events.map(({index}) => Object.fromEntries(shown(run, index, more).holds));
}

test('frames that were held, released and cancelled are read, and said in the words of sim',
  async () => {
    const run = await read(textOf(CANCELLED));
    assert.deepEqual(run.events.map(words.entry).slice(3), ['sent 0', 'accepted waits 1 until 1072',
      'accepted waits 2 until 1062', 'ignored own-source', 'ignored duplicate cancels 1']);
    assert.equal(words.ofNote(run, 0),
      'Note, 1062 ms, station 2: released 2, sends the frame that it held');
    assert.deepEqual([0, 1, 2].map((frame) => run.held.fate(frame)), ['sent', 'cancelled', 'released']);
    assert.deepEqual([0, 1, 2].map((frame) => run.held.sentAfter(frame)), [3, -1, 5]);
    assert.deepEqual([0, 1, 2].map((frame) => run.held.digits(frame)), ['1000', '1063', '1062']);
    assert.deepEqual(way.total(run), {events: 8, frames: 2, deliveries: 0, duplicates: 1, ignored: 1,
      refused: 0, held: 2, cancelled: 1});
    const [send] = way.follow(run).sends;
    assert.equal(way.figures(run, send).frames, 2);
    const notes = way.tree(run, send).map((_, row) =>
      rows.step({run, steps: way.tree(run, send), chosen: send, at: 7}, row).title);
    assert.deepEqual(notes, ['sent it', 'accepted, cancelled', 'accepted, forwarded, 1 duplicate']);
  });

test('several frames that one copy cancels', async () => {
  const second = {...sent(4), sent: 1, moment: 1000};
  const lines = [...BEGIN.slice(0, 4), second, waits(5, 1, 2, 1072), waits(6, 1, 3, 1072, 1),
    copy(7, 1010, 1, 0, {cancels: [2, 3]})];
  const run = await read(textOf(lines));
  assert.deepEqual(run.events.at(7).cancels, [2, 3]);
  assert.equal(words.entry(run.events.at(7)), 'ignored duplicate cancels 2,3');
  assert.deepEqual([2, 3].map((frame) => run.held.fate(frame)), ['cancelled', 'cancelled']);
});

test('a ring while a frame is held, a crossed one where it was cancelled, none once it is sent',
  async () => {
    const run = await read(textOf(CANCELLED));
    assert.deepEqual(rings(run), [{}, {}, {}, {}, {1: 'held'}, {1: 'held', 2: 'held'},
      {1: 'held'}, {1: 'cancelled'}]);
    // The release is a note behind event 5: the ring stands at the event, and is gone at the note.
    const atNote = shown(run, 5, {note: 0});
    assert.deepEqual(Object.fromEntries(atNote.holds), {1: 'held'});
    assert.equal(atNote.active, 2);
  });

test('a station that restarts holds no frame', async () => {
  const run = await read(textOf(RESTARTED));
  assert.deepEqual([1, 2, 3].map((frame) => run.held.fate(frame)),
    ['released', 'dropped', 'released']);
  assert.deepEqual(rings(run).slice(5), [{1: 'held', 2: 'held'}, {1: 'held'}, {}, {2: 'held'}, {},
    {}]);
  assert.equal(words.ofNote(run, 0),
    'Note, 1010 ms, station 2: dropped 2, doesn’t send the frame that it held');
});

test('with all frames on the map a crossed ring stays for a moment', async () => {
  const later = (event, moment) => ({event, moment, station: 0, do: 'tick', result: 'quiet'});
  const run = await read(textOf([...CANCELLED, later(8, 1083), later(9, 1084)]));
  assert.deepEqual(rings(run, {isAll: true}).slice(5),
    [{1: 'held', 2: 'held'}, {1: 'held'}, {1: 'cancelled'}, {1: 'cancelled'}, {}]);
});

test('a frame is lost, and has its circle, when it is sent, and where its station is then',
  async () => {
    const lost = {note: 'lost', moment: 1062, station: 1, frame: 2};
    const lines = AWAY.flatMap((line) => (line.note && line.frame === 2 ? [line, lost] : [line]));
    const run = await read(textOf(lines));
    const lostAt = (at, note) => shown(run, at, {note}).links.filter(({kind}) => kind === 'lost');
    assert.deepEqual([lostAt(5), lostAt(6), lostAt(6, 0).length, lostAt(7).length], [[], [], 1, 1]);
    assert.deepEqual([lostAt(6, 0)[0].isNew, lostAt(7)[0].isNew], [true, false]);
    const circle = shown(run, 6, {note: 0}).circles.find(({isNew}) => isNew);
    assert.equal(circle.place.lat, 1000000);
    assert.equal(shown(run, 6).circles.length, 1);
    // With all frames on the map too, if one that was held is sent, and not before.
    const ofAll = (at, note) => shown(run, at, {note, isAll: true}).links
      .filter(({kind}) => kind === 'lost').length;
    assert.deepEqual([ofAll(6), ofAll(6, 0), ofAll(7)], [0, 1, 1]);
  });

test('without notes the events say the same', async () => {
  for (const lines of [CANCELLED, AWAY, RESTARTED]) {
    const [told, bare] = [await read(textOf(lines)), await read(textOf(without(lines)))];
    const of = (run) => Array.from({length: run.frames.length}, (_, frame) => [run.held.fate(frame),
      run.held.sentAfter(frame), run.held.momentOf(frame), run.held.digits(frame)]);
    assert.deepEqual(of(bare), of(told));
    assert.deepEqual(rings(bare), rings(told));
    assert.deepEqual(way.total(bare), way.total(told));
  }
});

test('without notes a frame is released before its own deliveries, if these take no time',
  async () => {
    const lines = [...BEGIN, own(6, 1062, 0, 2), copy(7, 1062, 1, 2, {cancels: [1]})];
    const run = await read(textOf(lines, {...AIR, delay: 0}));
    assert.deepEqual([run.held.fate(2), run.held.sentAfter(2)], ['released', 5]);
    assert.equal(run.held.fate(1), 'cancelled');
  });

test('nothing is released after the run’s end', async () => {
  for (const [until, fate] of [[1061, 'waits'], [1062, 'released']]) {
    const run = await read(textOf(BEGIN, {...AIR, until}));
    assert.equal(run.held.fate(2), fate);
    assert.deepEqual(rings(run).at(-1), {1: 'held', 2: 'held'});
  }
});

test('a frame that is released counts in the load when it is sent', async () => {
  const late = [...BEGIN, note('released', 1062, 2, 2), own(6, 1063, 0, 2),
    copy(7, 1063, 1, 2), note('released', 1100, 1, 1), own(8, 1101, 0, 1)];
  const run = await read(textOf(late));
  const {width, bins} = loads.bins(run);
  assert.equal(width, 100);
  assert.deepEqual(bins.map(({begin, frames}) => [begin, frames]), [[0, 0], [1000, 2], [1100, 1]]);
  // The warning has 76 octets: its air time at each of two stations that receive it, and at one.
  const time = loads.airTime(76) / 1000 / width;
  assert.ok(Math.abs(bins[1].most - 2 * time) < 1e-9 && Math.abs(bins[2].most - time) < 1e-9);
});

test('who misses a warning is judged by frames that were sent', async () => {
  const air = {...AIR, loss: 1};
  const open = (event, station) => ({event, moment: 0, station, do: 'open', result: 'opened'});
  const shifted = (lines, by) => lines.map((line) =>
    (line.event === undefined ? line : {...line, event: line.event + by}));
  const far = {address: '1400020000000004', lat: 80000, lon: 0};
  const textWith = (lines) => textOf([open(0, 3), ...shifted(lines, 1)], air)
    .replace('],"air"', `,${JSON.stringify(far)}],"air"`);
  // Only station 2 reaches station 3. Its frame is sent late, or never.
  const judge = async (lines) => {
    const run = await read(textWith(lines));
    return why.judge(run, way.follow(run).sends[0]).missed.map(({station, reason, frame}) =>
      [station, reason, frame]);
  };
  assert.deepEqual(await judge(without(CANCELLED)), [[3, 'lost', 2]]);
  const silenced = [...BEGIN, copy(6, 1040, 2, 1, {cancels: [2]})];
  assert.deepEqual(await judge(silenced), [[3, 'unheard', undefined]]);
});

test('held and cancelled frames are listed, and releases among what was sent', async () => {
  const run = await read(textOf(CANCELLED));
  const list = (result) => Array.from(filter.rows(run, {result}), (place) => run.entries.at(place))
    .map(({event, note: number}) => (number === undefined ? event : words.ofNote(run, number)));
  assert.deepEqual(list('held'), [4, 5]);
  assert.deepEqual(list('cancelled'), [7]);
  assert.deepEqual(list('sent'),
    [3, 'Note, 1062 ms, station 2: released 2, sends the frame that it held']);
  assert.deepEqual(list('accepted'), [4, 5]);
});

test('a due time past what a number holds is exact', async () => {
  const line = JSON.stringify(waits(4, 1, 1, 1072)).replace('1072', '4611686018427387903');
  const text = textOf(BEGIN.slice(0, 4), {...AIR, until: null});
  const run = await read(`${text}\n${line}`);
  assert.equal(words.entry(run.events.at(4)), 'accepted waits 1 until 4611686018427387903');
});

test('a crossed ring has the ring and two lines', () => {
  const signs = (path) => path.replace(/[0-9.-]+/g, '').replace(/ /g, '');
  assert.equal(signs(shape.ringPath('held', 8)), 'Maaz');
  assert.equal(signs(shape.ringPath('cancelled', 8)), 'MaazMLML');
});
