//! Why stations weren't reached: the reasons on small runs written by hand, a case a reason, and on
//! the road with losses, whose lost frames its notes tell.

'use strict';

const assert = require('node:assert/strict');
const test = require('node:test');
const {frame: encode} = require('./encode.js');
const {load, read} = require('./load.js');
const samples = require('./samples.js');

const {hearing, reason, scene, way, why} = load();
const AREA = {shape: 'circle', lat: 0, lon: 0, a: 1000, b: 0, angle: 0};

/** Stations a hundred metres apart along a meridian. */
function stations(count) {
  return Array.from({length: count}, (_, i) =>
    ({address: `140002000000000${i + 1}`, lat: 9000 * i, lon: 0}));
}

/** The octets of station 0's warning. */
function warning() {
  const source = {address: '1400020000000001', tst: 0, lat: 0, lon: 0, pai: 0, speed: 0,
    heading: 0};
  return encode('ffffffffffff', '020000000001', {kind: 'gbc', lifetime: 26, left: 10, max: 10,
    tc: 0, number: 0, source, area: AREA, port: 2002, info: 0, payload: '6869'});
}

/** A run: events get their numbers, other lines stand as they are. */
async function run(count, lines, first = {}) {
  let number = 0;
  const numbered = lines.map((line) => (line.do ? {event: number++, ...line} : line));
  return read([{stations: stations(count), ...first}, ...numbered]
    .map((line) => JSON.stringify(line)).join('\n'));
}

const open = (station) => ({moment: 0, station, do: 'open', result: 'opened'});
const send = {moment: 10, station: 0, do: 'gbc', result: 'sent', sent: 0, octets: warning()};
const came = (station, rest, moment = 11) =>
  ({moment, station, do: 'deliver', frame: 0, ...rest});
const lost = (station, frame = 0) => ({note: 'lost', moment: 10, station, frame});

/** The stations that weren't reached, with their reasons. */
function missed(found) {
  const [sent] = way.follow(found).sends;
  return why.judge(found, sent).missed.map(({station, reason: word}) => [station, word]);
}

test('each reason, the furthest that a frame came', async () => {
  const away = {moment: 10, station: 2, do: 'move', lat: 900000, lon: 0, result: 'moved'};
  const close = {moment: 10, station: 1, do: 'close', result: 'closed'};
  const found = await run(9, [...[1, 2, 3, 4, 5, 6, 7, 8].map(open), send, lost(6), lost(3), close,
    away, came(1, {result: 'accepted'}), came(2, {result: 'accepted'}),
    came(3, {result: 'refused', code: 'S4'}), came(4, {result: 'refused', code: 'S5'}),
    came(5, {result: 'ignored', why: 'not-for-me'}),
    came(8, {result: 'accepted', port: 2002, info: 0, payload: '6869'})]);
  assert.deepEqual(missed(found), [[1, 'closed'], [2, 'outside'], [3, 'full'], [4, 'refused'],
    [5, 'ignored'], [6, 'lost'], [7, 'unheard']]);
});

test('a later frame that came further counts, an earlier one too', async () => {
  const refused = {result: 'refused', code: 'S4'};
  const ignored = {result: 'ignored', why: 'not-for-me'};
  const found = await run(3, [open(1), open(2), send, came(1, ignored), came(1, refused),
    came(2, refused), came(2, ignored)]);
  assert.deepEqual(missed(found), [[1, 'full'], [2, 'full']]);
});

test('who has no port open, or is not there, is not missed', async () => {
  const left = (station) => ({note: 'left', moment: 5, station});
  const back = (station) => ({note: 'came', moment: 5, station});
  const late = {note: 'came', moment: 12, station: 4};
  const restart = {moment: 1, station: 5, do: 'restart', result: 'restarted'};
  const found = await run(6, [...[1, 2, 3, 4, 5].map(open), restart, left(2), left(3), back(3),
    send, late]);
  const [sent] = way.follow(found).sends;
  const {standing, inside, deaf} = why.judge(found, sent);
  assert.deepEqual([standing, inside, deaf], [[1, 3, 5], [1, 3], [5]]);
});

test('another port than the warning’s is told by a frame that was accepted', async () => {
  const found = await run(2, [open(1), send, came(1, {result: 'accepted'})]);
  assert.deepEqual(why.judge(found, way.follow(found).sends[0]).deaf, [1]);
  assert.equal(why.portAt(found, 1, 2002, 1), false);
  const other = await run(2, [open(1), send]);
  assert.equal(why.portAt(other, 1, 2002, 1), undefined);
  assert.equal(why.portAt(other, 0, 2002, 1), false);
});

test('without notes the range of the air tells what was lost', async () => {
  const air = {range: 250, delay: 1, loss: 50, seed: 0, beacons: false, until: 100};
  const lines = [1, 2, 3].map(open).concat(send);
  const reasons = async (keys) => missed(await run(4, lines, {air: {...air, ...keys}}));
  assert.deepEqual(await reasons({}), [[1, 'lost'], [2, 'lost'], [3, 'unheard']]);
  assert.deepEqual((await reasons({until: 10})).map(([, word]) => word),
    ['cut', 'cut', 'cut']);
  assert.deepEqual((await reasons({until: 11}))[0], [1, 'lost']);
  assert.deepEqual((await reasons({until: null})).map(([, word]) => word),
    ['lost', 'lost', 'unheard']);
});

test('a range holds up to its last centimetre', async () => {
  // 8984 tenths of a microdegree are 10000.98 cm, cut to 10000; 8985 are 10002.
  const air = {range: 100, delay: 1, loss: 50, seed: 0, beacons: false, until: null};
  const at = (lat) => ({moment: 1, station: 1, do: 'move', lat, lon: 0, result: 'moved'});
  const reasons = async (lat) => missed(await run(2, [open(1), at(lat), send], {air}));
  assert.deepEqual(await reasons(8984), [[1, 'lost']]);
  assert.deepEqual(await reasons(8985), [[1, 'unheard']]);
});

test('without an air’s range what was nearer than others heard was likely lost', async () => {
  const found = await run(4, [open(1), open(2), open(3), send, came(2, {result: 'accepted',
    port: 2002, info: 0, payload: ''})]);
  const {missed: misses} = why.judge(found, way.follow(found).sends[0]);
  assert.deepEqual(misses.map(({station, reason: word, isLikely = false}) =>
    [station, word, isLikely]), [[1, 'unheard', true], [3, 'unheard', false]]);
  assert.deepEqual(misses.map(reason.short), ['likely lost on the channel', 'no frame in range']);
});

test('reasons that the summary tells behind the run are taken', async () => {
  const found = await run(3, [open(1), open(2), send, {send: 2, moment: 10, missed: [[2, 'lost']]},
    {total: {}}]);
  assert.deepEqual(missed(found), [[2, 'lost']]);
});

test('the road with losses: each station without a warning, with its reason', async () => {
  const found = await read(samples.loss());
  const {sends} = way.follow(found);
  const judged = sends.map((sent) => why.judge(found, sent));
  assert.deepEqual(judged.map(({inside}) => inside), [[9, 10, 11], [9, 10, 11], [9, 10, 11]]);
  assert.deepEqual(judged.map(({missed: misses}) => misses.map((miss) =>
    [miss.station, miss.reason])),
  [[[10, 'lost'], [11, 'unheard']], [[9, 'unheard'], [10, 'unheard'], [11, 'unheard']], []]);
  const words = reason.sentence(found, sends[1], judged[1].missed[2]);
  assert.match(words, /^Station 11 received no frame of it\. The nearest was frame 22, sent by /);
  assert.match(words, /station 0 \d+ m away\. The range is 500 m\. The path ended at /);
  assert.match(words, / station 0\. Its frame 22 was lost at 1\.$/);
});

test('each frame of that road was delivered or lost at each station in range', async () => {
  const found = await read(samples.loss());
  for (let frame = 0; frame < found.frames.length; frame += 1) {
    const giver = found.frames.giver.values[frame];
    const from = found.events.station.values[giver];
    const near = [...found.stations.keys()].filter((i) =>
      i !== from && hearing.distance2(found, from, i, giver) <= 50000n ** 2n);
    const told = [...found.deliveries.of(frame)].map((event) => found.events.station.values[event])
      .concat([...found.lost.of(frame)].map((note) => found.notes.station.values[note]));
    assert.deepEqual(told.sort((a, b) => a - b), near);
  }
});

/** The octets of a frame of a station, as an air's `every` or a scenario's `gbc` gives it. */
function given(address, lat, packet) {
  const source = {address, tst: 0, lat, lon: 0, pai: 1, speed: 0, heading: 0};
  return encode('ffffffffffff', address.slice(4), {lifetime: 26, tc: 0, source, port: 2002, info: 0,
    payload: '6869', ...packet});
}

test('a station that comes and leaves is there between its notes alone', async () => {
  const shb = {kind: 'shb', left: 1, max: 1};
  const send = (moment, station, sent) => ({moment, station, do: 'shb', result: 'sent', sent,
    octets: given(`140002000000000${station + 1}`, 36000 * station, shb)});
  const deliver = (moment, station, frame) =>
    ({moment, station, do: 'deliver', frame, result: 'accepted'});
  const found = await run(2, [
    {moment: 500, station: 1, do: 'move', lat: 36000, lon: 0, result: 'moved'},
    {note: 'came', moment: 500, station: 1}, send(661, 0, 0), deliver(662, 1, 0),
    send(1416, 1, 1), deliver(1417, 0, 1), send(1661, 0, 2), deliver(1662, 1, 2),
    {note: 'left', moment: 2000, station: 1}, send(2661, 0, 3)]);
  assert.deepEqual([-1, 0, 5, 6, 7].map((at) => found.isPresent(1, at)),
    [false, true, true, false, false]);
  assert.equal(found.isPresent(0, 7), true);
  assert.equal(found.deliveries.of(3).length, 0);
});

test('stations that rows of moves make: names, presence, a frame that was lost', async () => {
  const area = {shape: 'circle', lat: 36000, lon: 0, a: 500, b: 0, angle: 0};
  const packet = (left) => given('1400020100000002', 36000,
    {kind: 'gbc', number: 0, area, left, max: 10});
  const text = ['{"stations":[],"air":{"range":500,"delay":1,"loss":50,"seed":7,"beacons":false,' +
    '"until":null}}',
  '{"station":0,"id":"v1","address":"1400020100000001","lat":0,"lon":0}',
  '{"event":0,"moment":0,"station":0,"do":"move","lat":0,"lon":0,"result":"moved"}',
  '{"event":1,"moment":0,"station":0,"do":"open","result":"opened"}',
  '{"note":"came","moment":0,"station":0}',
  '{"station":1,"id":"v2","address":"1400020100000002","lat":36000,"lon":0}',
  '{"event":2,"moment":1000,"station":1,"do":"move","lat":36000,"lon":0,"result":"moved"}',
  '{"event":3,"moment":1000,"station":1,"do":"open","result":"opened"}',
  '{"note":"came","moment":1000,"station":1}',
  '{"event":4,"moment":1000,"station":0,"do":"move","lat":1000,"lon":0,"result":"moved"}',
  '{"event":5,"moment":1000,"station":1,"do":"gbc","result":"sent","sent":0,' +
    `"octets":"${packet(10)}"}`,
  '{"event":6,"moment":1001,"station":0,"do":"deliver","frame":0,"result":"accepted","port":2002,' +
    `"info":0,"payload":"6869","sent":1,"octets":"${packet(9)}"}`,
  '{"note":"lost","moment":1001,"station":1,"frame":1}',
  '{"note":"left","moment":2500,"station":0}', '{"note":"left","moment":2500,"station":1}',
  '{"note":"absent","moment":3000,"id":"v1"}'];
  const found = await read(text.join('\n'));
  assert.deepEqual([found.name(0), found.name(1), found.stations[1].born], ['v1', 'v2', 2]);
  assert.deepEqual([0, 1, 5, 6].map((at) => found.isPresent(0, at)), [false, true, true, false]);
  assert.deepEqual(found.air, {range: 500, delay: 1, loss: 50, beacons: false, until: null,
    contends: false});
  const [sent] = way.follow(found).sends;
  const {inside, reached} = why.judge(found, sent);
  assert.deepEqual([inside, reached, sent.numbers, sent.hops], [[0], [0], [0, 1], 1]);
  assert.equal(way.figures(found, sent).last, '1');
  assert.deepEqual([...found.lost.of(1)].map((note) => found.notes.station.values[note]), [1]);
});

test('roles of stations so far: sent, accepted, delivered, not reached yet', async () => {
  const found = await read(samples.loss());
  const {sends} = way.follow(found);
  const steps = way.tree(found, sends[0]);
  const judgement = why.judge(found, sends[0]);
  const roles = (at) => Object.fromEntries(why.roles(steps, judgement, at));
  assert.deepEqual(roles(sends[0].event - 1), {});
  assert.deepEqual(roles(sends[0].event),
    {0: 'sender', 9: 'missed', 10: 'missed', 11: 'missed'});
  const last = roles(way.end(found, sends[0]));
  assert.deepEqual([last[0], last[1], last[9], last[10], last[11]],
    ['sender', 'reached', 'delivered', 'missed', 'missed']);
});

test('lost copies are arcs of the map, from the giver to who lost them', async () => {
  const found = await read(samples.loss());
  const followed = way.follow(found);
  const chosen = followed.sends[1];
  const steps = way.tree(found, chosen);
  const state = {run: found, at: chosen.event, chosen, ...followed, steps,
    path: way.path(found, steps), deliveries: way.deliveries(found, chosen),
    judgement: why.judge(found, chosen), frames: {}};
  const shown = scene.scene(state, {links: 400, circles: 60, isRange: true});
  assert.deepEqual(shown.links.map(({from, to, kind, frame}) => [from, to, kind, frame]),
    [[0, 1, 'lost', 22]]);
  assert.deepEqual(shown.circles.map(({metres, isNew}) => [metres, isNew]), [[500, true]]);
  assert.deepEqual(shown.unseen, []);
  const before = scene.scene({...state, at: chosen.event - 1}, {links: 400, circles: 60,
    isRange: true});
  assert.deepEqual(before.links, []);
  const few = scene.scene({...state, at: way.end(found, followed.sends[2]),
    chosen: followed.sends[2], deliveries: way.deliveries(found, followed.sends[2]),
    path: way.path(found, way.tree(found, followed.sends[2]))},
  {links: 5, circles: 3, isRange: true});
  assert.equal(few.links.length, 5);
  assert.match(few.unseen.join('; '), /^\d+ of \d+ arcs; 9 circles$/);
});

/** What the page shows of the hundred vehicles once their warning has ended. */
async function denseState() {
  const found = await read(samples.dense());
  const followed = way.follow(found);
  const [chosen] = followed.sends;
  const steps = way.tree(found, chosen);
  return {run: found, at: way.end(found, chosen), chosen, ...followed, steps,
    path: way.path(found, steps), deliveries: way.deliveries(found, chosen),
    judgement: why.judge(found, chosen), frames: {}};
}

test('of more frames than there is room for, those along the path are drawn, above the others',
  async () => {
    const state = await denseState();
    const shown = (links) => scene.scene(state, {links, circles: 60, isRange: false});
    const {links, unseen} = shown(400);
    assert.equal(links.length, 400);
    const accepted = links.filter(({kind}) => kind === 'accepted').map(({to}) => to);
    // Each vehicle but the sender accepted the warning once.
    assert.deepEqual([...accepted].sort((a, b) => a - b),
      [...Array(100).keys()].filter((i) => i !== 50));
    assert.ok(links.slice(-99).every(({kind}) => kind === 'accepted'));
    assert.match(unseen.join(), /^1,054 of 1,454 arcs$/);
    // The latest of the others have the rest of the room, in the order of the run.
    const others = links.slice(0, 301).map(({event}) => event);
    assert.deepEqual(others, [...state.deliveries].filter((event) =>
      !state.path.events.includes(event)).slice(-301));
  });

test('of a path with more frames than there is room for, those that were forwarded come first',
  async () => {
    const state = await denseState();
    const {size} = state.path.forwarded;
    assert.ok(size > 5 && size < 60, `${size}`);
    const {links} = scene.scene(state, {links: 60, circles: 60, isRange: false});
    assert.equal(links.length, 60);
    assert.ok(links.every(({kind}) => kind === 'accepted'));
    const drawn = new Set(links.map(({event}) => event));
    assert.ok([...state.path.forwarded].every((event) => drawn.has(event)));
    // Each arc of them begins at the sender or where another that was forwarded ends.
    const ends = new Set([...state.path.forwarded].map((event) =>
      state.run.events.station.values[event]));
    assert.ok(links.every(({from}) => from === 50 || ends.has(from)));
  });

test('deliveries that come after the end of the run were cut, and not unheard', async () => {
  const lines = samples.four().trimEnd().split('\n');
  const stations = JSON.parse(lines[0]);
  const air = {range: 500, delay: 1, loss: 0, seed: 0, beacons: false, until: 1001};
  // The run ends at 1001 ms: what station 1 forwards then reaches station 2 at 1002 ms no more.
  const early = lines.slice(1).filter((line) => JSON.parse(line).moment <= 1001);
  const run = await read([JSON.stringify({...stations, air}), ...early, ''].join('\n'));
  const [send] = way.follow(run).sends;
  const {missed} = why.judge(run, send);
  assert.deepEqual(missed.map(({station, reason}) => [station, reason]), [[3, 'cut']]);
  assert.match(reason.sentence(run, send, missed[0]), /the run ended before them\.$/);
  // With a later end nothing is under way when it comes.
  const whole = {...air, until: 5000};
  const later = await read([JSON.stringify({...stations, air: whole}), ...early, ''].join('\n'));
  const [other] = way.follow(later).sends;
  assert.deepEqual(why.judge(later, other).missed.map((miss) => miss.reason), ['unheard']);
});
