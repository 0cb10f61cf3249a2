//! Verdicts on a station of a run: reading their lines, the frame of each, what is listed. All are
//! written by hand (reports.js).

'use strict';

const assert = require('node:assert/strict');
const test = require('node:test');
const contending = require('./contending.js');
const {load, read} = require('./load.js');
const reports = require('./reports.js');
const samples = require('./samples.js');

const {badges, files, filter, names, report, rows, scene, shape, verdicts: judged, way, why} = load();
const {ADDRESSES, FOUR, RECEIVED, RELAY} = reports;
const [FAIL, PASS, OPEN] = FOUR;

/** The verdicts of a report on the run `four`. */
async function judge(verdicts, station, found) {
  const text = reports.textOf(verdicts, station, found);
  return new judged.Verdicts(await read(samples.four()), report.read(text));
}

/** Expects a sentence for a text that is not a report. @param {string} text @param {RegExp} why */
function rejects(text, why) {
  assert.throws(() => report.read(text), (fault) => {
    assert.ok(fault instanceof report.ReportFault, fault);
    assert.match(fault.message, why);
    assert.equal(files.reasonOf(fault), fault.message);
    return true;
  });
}

test('a report has a station, its verdicts and the counts of all duties', () => {
  const {station, verdicts, counts} = report.read(reports.textOf(FOUR));
  assert.equal(station, '1400020000000002');
  assert.deepEqual(counts, {fail: 1, inconclusive: 1, pass: 1});
  assert.deepEqual(verdicts[0], {result: 'fail', duty: 'D13', moment: '1001', record: 1, others: [0],
    needs: [], rule: 'EN 302 636-4-1 10.3.11.3', reason: 'octet 60 of the packet is changed (#0)'});
  assert.deepEqual(verdicts[2].needs, ['fresh', 'sent']);
  assert.deepEqual(report.read(reports.textOf([])).verdicts, []);
  assert.equal(report.read(reports.textOf(FOUR).trimEnd()).verdicts.length, 3);
});

test('a file is told from a run and from others by its begin', async () => {
  const kind = (text) => files.kindOf(new Blob([text]));
  assert.equal(await kind(reports.textOf(FOUR)), 'report');
  assert.equal(await kind(samples.four()), 'run');
  assert.equal(await kind('second,stations,frames,octets,busy_p50,busy_p95,busy_most\n'), 'load');
  assert.equal(await kind('<net>'), 'net');
  assert.equal(await kind(''), 'run');
});

test('a line that is not of a report is rejected with its number', () => {
  const lines = reports.textOf(FOUR).split('\n');
  const text = (change) => lines.map((line, i) => (i === 1 ? change(line) : line)).join('\n');
  const with_ = (more) => text((line) => JSON.stringify({...JSON.parse(line), ...more}));
  for (const [more, why] of [
    [{result: 'ok'}, /“result” is missing or unknown/], [{result: undefined}, /“result”/],
    [{duty: 'D0'}, /“duty”/], [{duty: 13}, /“duty”/], [{record: -1}, /“record”/],
    [{record: '1'}, /“record”/], [{record: 1.5}, /“record”/], [{reason: undefined}, /“reason” is/],
    [{rule: 7}, /“rule”/], [{cause: '0'}, /“cause”/], [{others: 3}, /“others”/],
    [{others: ['3']}, /“others”/], [{needs: 'sent'}, /“needs”/], [{needs: [1]}, /“needs”/],
    [{tap: 0}, /several captures/], [{moment: -5}, /“moment” .* Leave out “--time”/],
    [{moment: '2023-11-14T22:13:20.123Z'}, /“moment”/], [{moment: undefined}, /“moment”/],
    [{moment: 1.25}, /“moment”/],
  ]) rejects(with_(more), new RegExp(`^Line 2 isn’t a line of “verdict --json”: .*${why.source}`));
  // `--time relative` prints 1.000, which is a whole number as JSON.
  rejects(text((line) => line.replace('1001', '1.000')), /“moment” isn’t in whole milliseconds/);
  rejects(text((line) => line.slice(0, 40)), /^Line 2 .* it isn’t JSON, or it’s cut\.$/);
  rejects(text(() => '[1]'), /^Line 2 .* it isn’t a JSON object\.$/);
  rejects(text(() => 'null'), /^Line 2 .* it isn’t a JSON object\.$/);
  rejects(text(() => ''), /^Line 2 /);
});

test('a report without its first or last line is rejected', () => {
  const whole = reports.textOf(FOUR);
  const lines = whole.split('\n');
  rejects(lines.slice(0, -2).join('\n'), /^The last line has no “total”: the file is cut\.$/);
  rejects(`${lines[0]}\n`, /no “total”/);
  rejects(whole.slice(0, -9), /^Line 5 .* it’s cut\.$/);
  rejects(lines.slice(1).join('\n'), /^Line 1 .*“station” is missing or not a GN address/);
  rejects(whole.replace('1400020000000002', '14'), /^Line 1 /);
  rejects(whole.replace('"pass":1', '"pass":"1"'), /^Line 5 .*no valid count of “pass”/);
  rejects(whole.replace('"fail":1', '"fail":0'), /^Line 5 .*fewer verdicts than there are lines/);
  rejects(whole.replace(/"total":.*\n/, '"total":{"D1":null}}\n'), /^Line 5 .*no valid count/);
});

test('each verdict is on the frame that its record is, the worst first', async () => {
  const found = await judge(FOUR);
  assert.equal(found.station, 1);
  assert.deepEqual(found.of(1).map(({duty}) => duty), ['D13', 'D15', 'D14']);
  assert.equal(found.worst(1), 'fail');
  assert.equal((await judge([PASS, OPEN])).worst(1), 'inconclusive');
  assert.equal((await judge([PASS])).worst(1), 'pass');
  assert.deepEqual([0, 2, 3].map((frame) => found.worst(frame)), [undefined, undefined, undefined]);
  // Event 2 is the delivery at which it forwarded; event 5 that of its own packet's copy.
  assert.deepEqual([1, 2, 3, 4, 5, 6].map((event) => found.ofEvent(event).length), [0, 3, 0, 0, 0, 0]);
  const {events, notes} = found.fails();
  assert.deepEqual([[...events], [...notes]], [[2], []]);
  assert.deepEqual([...(await judge([PASS, OPEN])).fails().events], []);
});

test('a verdict on a received frame is at its sending and at the reception', async () => {
  const found = await judge([RECEIVED, ...FOUR]);
  assert.equal(found.worst(2), 'fail');
  // Event 4 sends frame 2, event 5 is its reception at station 1, event 6 that at station 3.
  assert.deepEqual([4, 5, 6].map((event) => found.ofEvent(event).map(({duty}) => duty)),
    [['D20'], ['D20'], []]);
  assert.deepEqual([...found.fails().events], [2, 4, 5]);
});

test('verdicts that are not on the run are rejected with what differs', async () => {
  const fails = async (verdict, why, station) => {
    await assert.rejects(judge([verdict], station), (fault) => {
      assert.ok(fault instanceof report.ReportFault, fault);
      assert.match(fault.message, new RegExp(`^The verdicts aren’t on this run: ${why.source}`));
      assert.match(fault.message, / “sim --frames” wrote together with the run\.$/);
      return true;
    });
  };
  await fails(FAIL, /they are on station 1400020000000009, which it doesn’t have/, '1400020000000009');
  await fails({...FAIL, record: 4}, /they name record 4, and it has 4 frames/);
  await fails({...FAIL, cause: 9}, /they name record 9/);
  await fails({...FAIL, others: [1, 5]}, /they name record 5/);
  await fails({...FAIL, moment: 1002}, /record 1 is at 1002 ms, that frame at 1001 ms/);
  await fails({...FAIL, moment: 1700000001001}, /record 1 is at 1700000001001 ms/);
  await fails(FAIL, /D13 doesn’t judge record 1, which station 1 sent/, ADDRESSES[2]);
  await fails({...FAIL, duty: 'D6'}, /D6 doesn’t judge such a packet as that of record 1/);
  await fails({...FAIL, duty: 'D1'}, /D1 doesn’t judge such a packet/);
  await fails({...RECEIVED, ...RELAY}, /D20 doesn’t judge record 1, which station 1 sent/);
  await fails({...FAIL, moment: 1000, record: 0}, /D13 doesn’t judge such a packet/, ADDRESSES[0]);
  // One that differs is enough.
  await assert.rejects(judge([...FOUR, {...PASS, moment: 1003}]), report.ReportFault);
});

test('own packets have the duties of own packets; one that can’t be read has D1 alone', async () => {
  const own = {result: 'pass', duty: 'D4', moment: 1000, record: 0, reason: 'hops 10 of 10'};
  assert.equal((await judge([own], ADDRESSES[0])).worst(0), 'pass');
  const unread = {...own, result: 'fail', duty: 'D1', code: 'G4 at 11',
    rule: 'EN 302 636-4-1 9', reason: 'G4 at 11'};
  // The last octet of the Common Header is reserved.
  const text = samples.four().replace('8000060a0000000000', '8000060a0100000000');
  const run = await read(text);
  const on = (verdict) => new judged.Verdicts(run, report.read(reports.textOf([verdict], ADDRESSES[0])));
  assert.equal(on(unread).worst(0), 'fail');
  assert.throws(() => on(own), /D4 doesn’t judge such a packet/);
});

test('held frames are records in the order in which they were released', async () => {
  const relay = (moment, record) => ({result: 'pass', duty: 'D14', moment, record, reason: 'a gbc'});
  const on = async (lines, station, ...verdicts) => new judged.Verdicts(
    await read(contending.textOf(lines)), report.read(reports.textOf(verdicts, ADDRESSES[station])));
  // Station 2 holds frame 2 and releases it first: its record is 1, that of frame 1 is 2.
  const second = await on(contending.AWAY, 2, relay(1062, 1));
  assert.deepEqual([1, 2].map((frame) => second.worst(frame)), [undefined, 'pass']);
  assert.deepEqual([0, 1].map((note) => second.ofNote(note).length), [1, 0]);
  assert.deepEqual(second.ofEvent(5), []);
  const first = await on(contending.AWAY, 1, {...relay(1072, 2), result: 'fail'});
  assert.equal(first.worst(1), 'fail');
  assert.deepEqual([...first.fails().notes], [1]);
  assert.deepEqual([...first.fails().events], []);
  await assert.rejects(on(contending.AWAY, 1, relay(1072, 1)), /record 1 is at 1072 ms, .* 1062 ms/);
  // Record 1, which a reason may name, is frame 2; record 0 is frame 0.
  const named = {others: [1, 0]};
  assert.equal(first.otherFrames(named), '; #1 is frame 2');
  assert.equal(first.otherFrames({others: [0]}), '');
  // A frame that was cancelled or dropped never went out.
  await assert.rejects(on(contending.CANCELLED, 1, relay(1072, 2)), /name record 2, .* has 2 frames/);
  assert.equal((await on(contending.RESTARTED, 2, relay(1168, 2))).worst(3), 'pass');
});

test('without notes of held frames no record is matched', async () => {
  const run = await read(contending.textOf(contending.without(contending.AWAY)));
  const own = {result: 'pass', duty: 'D4', moment: 1000, record: 0, reason: 'hops 10 of 10'};
  const text = reports.textOf([own], ADDRESSES[0]);
  assert.throws(() => new judged.Verdicts(run, report.read(text)),
    /only notes say for certain when each went out\. Make the run with “--notes”\.$/);
});

test('words: sign, result, duty, reason, clause and claims', () => {
  const {verdicts} = report.read(reports.textOf(FOUR));
  assert.deepEqual(verdicts.map(judged.words), [
    '✗ fail D13: octet 60 of the packet is changed (#0) (EN 302 636-4-1 10.3.11.3)',
    '✓ pass D14: a gbc', '? inconclusive D15: the first time (needs fresh, sent)']);
  const more = [verdicts[0], {...verdicts[0], duty: 'D17'}, verdicts[1]];
  assert.equal(judged.line(more), '✗ fail D13: octet 60 of the packet is changed (#0) ' +
    '(EN 302 636-4-1 10.3.11.3); fail D17');
  assert.equal(judged.line([verdicts[1], {...verdicts[1], duty: 'D15'}]), '✓ pass D14, D15');
  assert.equal(judged.countWords({pass: 1234, fail: 0, inconclusive: 2}),
    '1,234 pass, 0 fail, 2 inconclusive');
});

test('rows have the worst verdict last, and all of them as their title', async () => {
  const verdicts = await judge(FOUR);
  const {kind, title, cells} = rows.entry({run: verdicts.run, verdicts}, 2);
  assert.deepEqual(cells.at(-1), ['verdict fail', judged.words(verdicts.of(1)[0])]);
  assert.equal(title.split('\n').length, 4);
  assert.match(kind, / judged$/);
  assert.equal(rows.entry({run: verdicts.run, verdicts}, 1).cells.length, 4);
  assert.equal(rows.entry({run: verdicts.run}, 2).cells.length, 4);
});

test('only fails are listed, together with the other filters', async () => {
  const found = await judge([RECEIVED, ...FOUR]);
  const {run} = found;
  const only = found.fails();
  const list = (more) => Array.from(filter.rows(run, {only, ...more}));
  assert.deepEqual(list({}), [2, 4, 5]);
  assert.deepEqual(list({station: 1}), [2, 5]);
  assert.deepEqual(list({result: 'duplicate'}), [5]);
  assert.deepEqual(list({kind: 'beacon'}), []);
  assert.deepEqual(Array.from(filter.rows(run, {only: (await judge([PASS])).fails()})), []);
  const held = new judged.Verdicts(await read(contending.textOf(contending.AWAY)), report.read(
    reports.textOf([{...FAIL, moment: 1062, record: 1}], ADDRESSES[2])));
  assert.deepEqual(Array.from(filter.rows(held.run, {only: held.fails()})),
    [held.run.entries.ofNote(0)]);
});

test('the map has the verdicts on the frames that it shows, once they are sent', async () => {
  const verdicts = await judge([RECEIVED, ...FOUR]);
  const {run} = verdicts;
  const [chosen] = way.follow(run).sends;
  const limits = {links: 400, circles: 60, isRange: false};
  const steps = way.tree(run, chosen);
  const state = {run, verdicts, chosen, steps, path: way.path(run, steps),
    deliveries: way.deliveries(run, chosen), judgement: why.judge(run, chosen), frames: {}};
  const at = (event, more) => scene.scene({...state, at: event, ...more}, limits);
  assert.equal(at(7).tested, 1);
  assert.deepEqual(at(1).badges, []);
  assert.deepEqual(at(2).badges, [{frame: 1, event: 2, result: 'fail'}]);
  assert.deepEqual(at(7).badges.map(({frame}) => frame), [1, 2]);
  const none = at(7, {verdicts: undefined});
  assert.deepEqual([none.tested, none.badges], [undefined, []]);
});

test('signs lie in a row above the station, toward the middle, the latest eight', () => {
  const many = Array.from({length: 10}, (_, frame) => ({frame, event: frame, result: 'pass'}));
  const station = (x) => ({x, y: 100, radius: 8});
  const left = badges.placed(many, station(50), 400);
  assert.deepEqual(left.map(({frame}) => frame), [2, 3, 4, 5, 6, 7, 8, 9]);
  assert.ok(left.every(({x, y}, i) => y === left[0].y && y < 100 && (i === 0 || x > left[i - 1].x)));
  assert.ok(left[0].x > 50);
  const [right] = badges.placed(many.slice(0, 1), station(350), 400);
  assert.ok(right.x < 350);
  const {left: west, right: east} = badges.boxOf(right);
  assert.equal(east - west, 2 * badges.RADIUS);
  assert.deepEqual(badges.leftOut(many), ['the verdicts on 2 frames']);
  assert.deepEqual(badges.leftOut(many.slice(0, 8)), []);
});

test('no name covers a sign', () => {
  const item = {station: 0, text: 'a long name', x: 100, y: 100, radius: 8, role: ''};
  const free = names.placed([item]).get(0);
  const [sign] = badges.placed([{frame: 0, event: 0, result: 'pass'}], {x: 100, y: 100, radius: 8}, 400);
  const box = badges.boxOf({...sign, x: 100});
  assert.ok(names.overlap(free.box, box));
  assert.ok(!names.overlap(names.placed([item], [box]).get(0).box, box));
});

test('the three signs and the corners have shapes of their own', () => {
  const {SIGNS} = shape;
  assert.deepEqual(Object.keys(SIGNS).sort(), [...report.RESULTS].sort());
  assert.equal(new Set(Object.values(SIGNS)).size, 3);
  assert.equal(shape.cornersPath(10), 'M10.0 5.0V10.0H5.0M-10.0 5.0V10.0H-5.0' +
    'M-10.0 -5.0V-10.0H-5.0M10.0 -5.0V-10.0H5.0');
});
