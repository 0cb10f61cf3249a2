//! The clock, the filters, the handles between panels, the load: pure functions on small runs.

'use strict';

const assert = require('node:assert/strict');
const test = require('node:test');
const {load: parts, read} = require('./load.js');
const samples = require('./samples.js');

const {clock, filter, load, split} = parts();
const TIMES = Float64Array.of(0, 10, 11, 12, 3000);
const byTime = (rate) => ({by: 'time', rate});

test('a choice of speed is by the clock or by events', () => {
  assert.deepEqual(clock.speed('x0.01'), {by: 'time', rate: 0.01});
  assert.deepEqual(clock.speed('40'), {by: 'events', rate: 40});
});

test('played by its clock a burst goes by at once and a gap takes its time', () => {
  const fast = new clock.Clock(TIMES, 0);
  assert.deepEqual([fast.advance(5, byTime(1)), fast.advance(10, byTime(1)), fast.at], [0, 3, 3]);
  assert.deepEqual([fast.advance(2900, byTime(1)), fast.advance(100, byTime(1))], [0, 1]);
  const slow = new clock.Clock(TIMES, 1);
  assert.deepEqual([slow.advance(99, byTime(0.01)), slow.advance(2, byTime(0.01))], [0, 1]);
  const ten = new clock.Clock(TIMES, 3);
  assert.equal(ten.advance(299, byTime(10)), 1);
});

test('played by events each takes as long as the next', () => {
  const events = new clock.Clock(TIMES, 0);
  const speed = {by: 'events', rate: 2};
  assert.deepEqual([events.advance(400, speed), events.advance(100, speed), events.at], [0, 1, 1]);
  assert.equal(events.advance(1500, speed), 3);
});

test('places along the slider, and back', () => {
  assert.deepEqual([0, 1, 4].map((at) => clock.fraction(TIMES, at, byTime(1))), [0, 10 / 3000, 1]);
  assert.equal(clock.fraction(TIMES, 2, {by: 'events', rate: 2}), 0.5);
  assert.equal(clock.fraction(Float64Array.of(5, 5, 5), 1, byTime(1)), 0.5);
  for (const speed of [byTime(1), {by: 'events', rate: 2}]) {
    const back = [0, 1, 2, 3, 4].map((at) => {
      const step = Math.round(clock.fraction(TIMES, at, speed) * clock.STEPS) / clock.STEPS;
      return clock.eventAt(TIMES, step, speed);
    });
    assert.deepEqual(back, [0, 1, 2, 3, 4]);
  }
  assert.equal(clock.fractionOf(TIMES, 1500, byTime(1)), 0.5);
  assert.equal(clock.fractionOf(TIMES, 9000, byTime(1)), 1);
});

test('an address names an event', () => {
  const hashes = ['#event=104', '#event=0', '', '#event=', '#event=1x', '#event=-1'];
  assert.deepEqual(hashes.map(clock.eventOf),
    [104, 0, undefined, undefined, undefined, undefined]);
});

test('events are listed by station, kind and result', async () => {
  const run = await read(samples.loss());
  const list = (chosen) => {
    const places = filter.rows(run, chosen);
    return places && Array.from(places, (place) => run.entries.at(place))
      .map(({event, note}) => (note === undefined ? event : `note ${note}`));
  };
  assert.equal(list({}), undefined);
  assert.deepEqual(list({kind: 'open'}), [0, 1, 2, 3, 4, 5, 6, 7, 8, 9, 10, 11]);
  assert.deepEqual(list({kind: 'gbc', result: 'delivered'}), [53, 92, 94, 96]);
  assert.deepEqual(list({station: 10, kind: 'gbc'}), ['note 10', 94, 97]);
  assert.deepEqual(list({station: 10, result: 'duplicate'}), [97]);
  assert.deepEqual(list({station: 0, kind: 'gbc', result: 'sent'}), [39, 55, 77]);
  assert.deepEqual(list({result: 'refused'}), []);
});

test('a handle moves room from one panel to the next, and leaves both some', () => {
  assert.deepEqual(split.move(300, 200, 50), [350, 150]);
  assert.deepEqual(split.move(300, 200, 500), [410, 90]);
  assert.deepEqual(split.move(300, 200, -500), [90, 410]);
  assert.deepEqual(split.move(60, 60, 30), [60, 60]);
});

test('air time: 40 microseconds and symbols of 48 bits', () => {
  // A beacon of 50 octets: (22 + 8 * 74) / 48 is 12.8; a warning of 76: (22 + 8 * 100) / 48 is
  // 17.1; both go up.
  assert.deepEqual([50, 76].map(load.airTime), [144, 184]);
});

test('load of a station and of all: its own frames, those it heard and those it lost', async () => {
  const run = await read(samples.loss());
  const {width, bins} = load.bins(run);
  assert.equal(width, 100);
  const second = bins.find(({begin}) => begin === 3000);
  assert.deepEqual([second.frames, second.busy], [1, 0]);
  // The second warning has 77 octets: 40 + 8 * ceil(830 / 48) is 184 of 100,000 microseconds.
  assert.equal(second.most, 184 / 100000);
  const of = (station) => load.bins(run, station).bins.find(({begin}) => begin === 3000);
  assert.deepEqual([0, 1, 2].map((i) => [of(i).frames, of(i).busy]),
    [[1, 0.00184], [0, 0.00184], [0, 0]]);
});

test('a location table: sources that were accepted, for twenty seconds each', async () => {
  const beacon = (i) => `ffffffffffff02000000000${i}89471100${'1a01001000800000' +
    '01001400020000000'}00${i}${'0'.repeat(32)}`;
  const stations = [1, 2, 3].map((i) => ({address: `140002000000000${i}`, lat: 0, lon: 0}));
  const lines = [{stations}];
  const add = (moment, station, rest) =>
    lines.push({event: lines.length - 1, moment, station, ...rest});
  const tick = (moment, i, sent) =>
    add(moment, i, {do: 'tick', result: 'sent', sent, octets: beacon(i + 1)});
  const hear = (moment, frame) => add(moment, 0, {do: 'deliver', frame, result: 'accepted'});
  tick(0, 1, 0);
  hear(1, 0);
  tick(9000, 2, 1);
  hear(9001, 1);
  add(22000, 1, {do: 'tick', result: 'quiet'});
  add(40000, 1, {do: 'tick', result: 'quiet'});
  const run = await read(lines.map((value) => JSON.stringify(value)).join('\n'));
  const border = [lines[0], lines[1], {...lines[2], moment: 0}, {...lines[5], event: 2,
    moment: 19950}, {...lines[5], event: 3, moment: 20000}];
  const short = await read(border.map((value) => JSON.stringify(value)).join('\n'));
  assert.deepEqual(load.bins(short, 0).bins.map(({table}) => table).slice(-2), [1, 0]);
  const {width, bins} = load.bins(run, 0);
  assert.equal(width, 1000);
  assert.deepEqual(bins.map(({begin, table}) => [begin, table]),
    [[0, 1], [9000, 2], [22000, 1], [40000, 0]]);
});

test('a file of --load tells the load of all, the tables stay the run’s', () => {
  const head = 'second,stations,frames,octets,busy_p50,busy_p95,busy_most';
  const own = [{begin: 1000, table: 2}, {begin: 4000, table: 5}];
  const found = load.told(`${head}\n1,2,3,202,0,1,4\n7,2,1,76,1,1,1\n`, own);
  assert.deepEqual(found, {width: 1000, bins: [
    {begin: 1000, frames: 3, busy: 0, most: 0.004, table: 2},
    {begin: 7000, frames: 1, busy: 0.001, most: 0.001, table: 5},
  ]});
  assert.equal(load.told(`${head}\n1,2\n`, own), undefined);
  assert.equal(load.told(`${head}\n1,2,3,202,0,1,x\n`, own), undefined);
});

test('duplicates, deliveries and full tables are counted', async () => {
  const run = await read(samples.four());
  assert.deepEqual(load.repeats(run), {delivered: 1, duplicates: 2, full: 0});
  assert.deepEqual(load.repeats(run, 1), {delivered: 0, duplicates: 1, full: 0});
});
