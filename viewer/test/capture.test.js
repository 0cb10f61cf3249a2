//! Captures on the map: their records in each format, and verdicts on them. The samples are those of
//! the program (cases/data), whose lines of `show` and of `verdict` were worked out by hand.

'use strict';

const assert = require('node:assert/strict');
const fs = require('node:fs');
const path = require('node:path');
const test = require('node:test');
const {load, TOP} = require('./load.js');
const reports = require('./reports.js');

const {capture, files, filter, frame, links, packet, records, report, rows, scene, words} = load();
const {verdicts: judged} = load();
const CASES = path.join(TOP, '..', 'cases');
const DATA = path.join(CASES, 'data');

/** A file of the samples. @param {string} name */
function sample(name) {
  return new Uint8Array(fs.readFileSync(path.join(DATA, name)));
}

/** A number as octets. @param {number | bigint} value @param {number} length */
function octets(value, length, isLittle = false) {
  const big = Array.from({length}, (_, i) => Number((BigInt(value) >> BigInt(8 * i)) & 255n));
  return isLittle ? big : big.reverse();
}

const [FIRST, SECOND] = [...records.of(sample('gbc.cap'))].map((record) => Array.from(record.octets));

/** A classic pcap file of two frames at 1.234567 s and 2 s. */
function pcap(magic, isLittle, perSecond, link = 1) {
  const n = (value, length = 4) => octets(value, length, isLittle);
  const record = (seconds, part, frame_) =>
    [...n(seconds), ...n(part), ...n(frame_.length), ...n(frame_.length), ...frame_];
  return new Uint8Array([...octets(magic, 4), ...n(2, 2), ...n(4, 2), ...n(0), ...n(0), ...n(65535),
    ...n(link), ...record(1, 0.234567 * perSecond, FIRST), ...record(2, 0, SECOND)]);
}

/** A block of pcapng, little-endian. */
function block(type, body) {
  const padded = [...body, ...Array((4 - (body.length % 4)) % 4).fill(0)];
  const length = octets(padded.length + 12, 4, true);
  return [...octets(type, 4, true), ...length, ...padded, ...length];
}

/** A section of pcapng with one interface and the two frames, at these ticks. */
function section(options, ticks, link = 1) {
  const n = (value, length) => octets(value, length, true);
  const head = block(0x0a0d0d0a, [...n(0x1a2b3c4d, 4), ...n(1, 2), ...n(0, 2), ...n(2n ** 64n - 1n, 8)]);
  const about = block(1, [...n(link, 2), ...n(0, 2), ...n(0, 4), ...options]);
  const frames = [FIRST, SECOND].map((frame_, i) => block(6, [...n(0, 4), ...n(ticks[i] >> 32n, 4),
    ...n(ticks[i] & 0xffffffffn, 4), ...n(frame_.length, 4), ...n(frame_.length, 4), ...frame_]));
  return [...head, ...about, ...frames.flat()];
}

/** The times of the records, and whether their frames are the two. */
function seen(file) {
  const found = [...records.of(new Uint8Array(file))];
  found.forEach((record, i) => assert.deepEqual([...record.octets], i % 2 === 0 ? FIRST : SECOND));
  return found.map(({moment}) => Number(moment));
}

test('records of each format have their times in whole milliseconds', () => {
  assert.deepEqual(seen(sample('gbc.cap')), [1200, 1210]);
  assert.deepEqual(seen(pcap(0xd4c3b2a1, true, 1e6)), [1234, 2000]);
  assert.deepEqual(seen(pcap(0xa1b2c3d4, false, 1e6)), [1234, 2000]);
  assert.deepEqual(seen(pcap(0x4d3cb2a1, true, 1e9)), [1234, 2000]);
  assert.deepEqual(seen(pcap(0xa1b23c4d, false, 1e9)), [1234, 2000]);
  // The options are if_tsresol (9) and if_tsoffset (14).
  const [millis, binary] = [[9, 0, 1, 0, 3, 0, 0, 0], [9, 0, 1, 0, 0x8a, 0, 0, 0]];
  const offset = [14, 0, 8, 0, 100, 0, 0, 0, 0, 0, 0, 0];
  assert.deepEqual(seen(section([], [1234567n, 2000000n])), [1234, 2000]);
  assert.deepEqual(seen(section(millis, [1234n, 5000000000n])), [1234, 5000000000]);
  assert.deepEqual(seen(section(binary, [1024n, 2560n])), [1000, 2500]);
  assert.deepEqual(seen([...section(millis, [1n, 2n]), ...section([...millis, ...offset], [3n, 4n])]),
    [1, 2, 100003, 100004]);
});

test('a capture is told from other files by its first octets', async () => {
  for (const name of ['gbc.cap', 'refused.cap', 'captured.pcapng', 'ethernet.pcap']) {
    assert.equal(await files.kindOf(new Blob([sample(name)])), 'capture', name);
  }
  assert.equal(await files.kindOf(new Blob(['{"stations":[]}\n'])), 'run');
  assert.equal(await files.kindOf(new Blob(['abc'])), 'run');
});

/** A record as a line of `show` has it: time, sender, target and kind, or that it isn't read. */
function shownRecord(line) {
  const [moment, from, to, kind] = line.replace(/ outside .*? (?=[0-9a-f]{12} )/, ' ').split(' ');
  if (from !== 'refused') return [moment, from, to, kind];
  if (to === 'P4') return [moment, 'cut'];
  // The page shows the kind of some packets that `show` rejects.
  return /^(L3|L5)$/.test(to) ? [moment, 'rejected'] : [moment, 'unread'];
}

/** Compares the records of a capture with lines of `show`. */
function compare(file, lines) {
  const {run, fault} = capture.read(file);
  assert.equal(fault, undefined);
  const shown = lines.map(shownRecord);
  const found = run.events.map(({index, kind, station}) => {
    const moment = run.moment(index);
    if (shown[index]?.[1] === 'rejected') return [moment, 'rejected'];
    const target = frame.toHex(run.frames.octets(index).subarray(0, 6));
    return /^(unread|cut)$/.test(kind) ? [moment, kind] : [moment, run.name(station), target, kind];
  });
  assert.deepEqual(found, shown);
}

for (const name of ['beacon.cap', 'shb.cap', 'gbc.cap', 'gac.cap', 'refused.cap', 'captured.pcapng',
  'ethernet.pcap', 'outside.pcap', 'sections.pcapng']) {
  test(`records of ${name} have the times, senders and kinds of show`, () => {
    const lines = fs.readFileSync(path.join(DATA, name.replace(/\..*/, '.show')), 'utf8');
    compare(sample(name), lines.trimEnd().split('\n'));
  });
}

/** The captures in a file of cases that `show` prints as a whole: name, octets and lines. */
function shownCaptures(file) {
  const text = fs.readFileSync(path.join(CASES, file), 'utf8');
  return text.split(/^## /m).flatMap((part, number) => {
    const blocks = new Map([...`${number > 0 ? text.split(/^## /m)[0] : ''}${part}`
      .matchAll(/^```hex (\S+)\n([^]*?)^```/gm)].map(([, name, hex]) =>
      [name, frame.fromHex(hex.replace(/\s/g, ''))]));
    return [...part.matchAll(/^\$ geostation show (\S+)\n([^$`]*)/gm)]
      .filter(([, name]) => blocks.has(name)).map(([, name, lines]) => ({name,
        octets: blocks.get(name), lines: lines.split('\n').filter((line) => /^\d/.test(line))}));
  });
}

for (const file of ['links.md', 'cooked.md']) {
  for (const {name, octets: whole, lines} of shownCaptures(file).filter(({lines: {length}}) => length)) {
    test(`each link layer: records of ${name} of ${file} are those of show`, () => compare(whole, lines));
  }
}

test('the flags of radiotap come after all its words of presence and an aligned time', () => {
  const [beacon] = [...records.of(sample('beacon.cap'))].map((record) => Array.from(record.octets));
  // A QoS header of 26 octets, which the flags say is padded to 28.
  const wireless = [0x88, 0, 0, 0, ...beacon.slice(0, 12), ...Array(6).fill(255), 0, 0, 0, 0, 0, 0,
    0xaa, 0xaa, 3, 0, 0, 0, ...beacon.slice(12)];
  const radiotap = [0, 0, 25, 0, 3, 0, 0, 0x80, 0, 0, 0, 0, 0, 0, 0, 0, ...Array(8).fill(0), 0x20];
  assert.deepEqual([...links.frameOf(127, new Uint8Array([...radiotap, ...wireless]))], beacon);
  const others = [[1, 0, 25], [0, 0, 7], [0, 0, 255]].map((begin) =>
    links.frameOf(127, new Uint8Array([...begin, ...radiotap.slice(3), ...wireless])));
  assert.deepEqual(others, [undefined, undefined, undefined]);
  assert.equal(links.frameOf(147, new Uint8Array(beacon)), undefined);
});

test('stations are where their own packets say, from then on', () => {
  const {run} = capture.read(sample('verdict/iut.cap'));
  assert.deepEqual(run.stations.map(({address}) => address),
    ['1400020000000200', '1400020000000100']);
  assert.equal(run.name(1), '020000000100');
  assert.equal(run.presence.stateOf(1, 0, 0), 'expected');
  assert.equal(run.presence.stateOf(1, 0, 1), 'there');
  const {packet: own} = frame.read(run.frames.octets(1));
  assert.deepEqual(run.placeAt(1, 5), {lat: own.lat, lon: own.lon});
  // A sender whose own packets are not there has no position.
  const other = capture.read(sample('gbc.cap')).run;
  assert.equal(other.presence.stateOf(1, 0, 1), 'expected');
  const [{lat, lon}, {lat: north, lon: east}] = [other.stations[0], other.placeAt(1, 1)];
  assert.deepEqual([north, east], [lat, lon]);
});

test('tags and padding are no part of a frame', () => {
  const beacon = [...records.of(sample('beacon.cap'))].map((record) => Array.from(record.octets))[0];
  const n = (value) => octets(value, 4, true);
  const file = (...frames_) => new Uint8Array([...pcap(0xd4c3b2a1, true, 1e6).subarray(0, 24),
    ...frames_.flatMap((frame_) => [...n(1), ...n(0), ...n(frame_.length), ...n(frame_.length),
      ...frame_])]);
  const tagged = [...FIRST.slice(0, 12), 0x81, 0, 0, 7, 0x88, 0xa8, 0, 7, ...FIRST.slice(12)];
  const padded = [...beacon, ...Array(60 - beacon.length).fill(0)];
  const odd = [...beacon, ...Array(59 - beacon.length).fill(0), 1];
  const arp = [...FIRST.slice(0, 12), 8, 6, ...Array(28).fill(0x10)];
  const {run} = capture.read(file(tagged, padded, odd, arp, [1, 2, 3]));
  assert.deepEqual([...run.frames.octets(0)], FIRST);
  assert.deepEqual([...run.frames.octets(1)], beacon);
  assert.equal(frame.read(run.frames.octets(2)).fault, 'L4');
  assert.deepEqual(run.events.map(({kind}) => kind), ['gbc', 'beacon', 'unread', 'unread', 'unread']);
  assert.deepEqual(run.events.map(({station}) => run.name(station)), ['020000000001',
    '020000000010', '020000000010', '020000000001', 'unknown']);
  assert.deepEqual(Array.from(filter.rows(run, {kind: 'beacon'})), [1]);
});

test('a capture that ends early has the records before it, and says why', () => {
  const whole = sample('gbc.cap');
  const {run, fault} = capture.read(whole.subarray(0, whole.length - 1));
  assert.deepEqual([run.events.length, fault], [1, 'The capture is cut in record 1.']);
  const rejects = (file, why) => assert.throws(() => capture.read(new Uint8Array(file)), (error) => {
    assert.ok(error instanceof records.CaptureFault, error);
    assert.match(error.message, why);
    assert.equal(files.reasonOf(error), error.message);
    return true;
  });
  rejects(whole.subarray(0, 20), /^The capture is cut in record 0\.$/);
  rejects([0, 0, 0, 0], /cut in record 0/);
  rejects([0, 0, 0, 0, 0, 0, 0, 5, 0, 0], /^Record 0 has an invalid length\.$/);
  rejects([], /cut in record 0/);
  rejects(pcap(0xd4c3b2a1, true, 1e6, 147), /^The page doesn’t read link layer 147\.$/);
  const [head, rest] = [section([], [0n, 0n]).slice(0, 28), section([], [0n, 0n]).slice(28)];
  rejects([...head, ...rest.slice(20)], /^Record 0 names an interface that is missing\.$/);
  rejects([...head, ...block(3, [4, 0, 0, 0, 1, 2, 3, 4])], /names an interface that is missing/);
  rejects([...head, ...octets(6, 4, true), ...octets(13, 4, true)], /A block after record 0 is inv/);
  rejects([...head.slice(0, 8), 1, 2, 3, 4, ...head.slice(12)], /A section of the capture is inval/);
});

/** The verdicts of the first case of `verdict --all`, of which a line has no keys of JSON. */
function caseLines() {
  const text = fs.readFileSync(path.join(CASES, 'verdict.md'), 'utf8');
  const lines = text.split('verdict --all data/verdict/iut.toml data/verdict/iut.cap\n')[1].split('\n\n')[0];
  return [...lines.matchAll(/^(\w+) (D\d+) (\d+) (\d+) (.*)$/gm)].map(([, result, duty, moment, record,
    reason]) => ({result, duty, moment: Number(moment), record: Number(record), reason}));
}

test('the verdicts of the case are on the records of its capture', () => {
  const {run} = capture.read(sample('verdict/iut.cap'));
  const lines = caseLines();
  assert.ok(lines.length >= 78, `${lines.length}`);
  const found = new judged.Verdicts(run,
    report.read(reports.textOf(lines, '1400020000000100')));
  assert.equal(run.name(found.station), '020000000100');
  const ofRecord = (record) => lines.filter((line) => line.record === record);
  for (let record = 0; record < run.events.length; record += 1) {
    assert.equal(found.of(record).length, ofRecord(record).length);
    assert.deepEqual(new Set(found.ofEvent(record).map(({duty}) => duty)),
      new Set(ofRecord(record).map(({duty}) => duty)));
  }
  const failed = lines.filter(({result}) => result === 'fail').map(({record}) => record);
  assert.deepEqual([...found.fails().events], [...new Set(failed)].sort((a, b) => a - b));
  const [, , , [kind, text]] = rows.entry({run, verdicts: found}, 14).cells;
  assert.deepEqual([kind, text], ['entry', 'record 14']);
});

test('verdicts on another capture are rejected', () => {
  const {run} = capture.read(sample('verdict/iut.cap'));
  const on = (verdict) => new judged.Verdicts(run, report.read(reports.textOf(
    [{result: 'pass', duty: 'D4', moment: 3000, record: 1, reason: 'hops 1 of 1', ...verdict}],
    '1400020000000100')));
  assert.equal(on({}).worst(1), 'pass');
  const rejects = (verdict, why) => assert.throws(() => on(verdict),
    new RegExp(`^Error: The verdicts aren’t on this capture: ${why}\\.$`));
  rejects({moment: 3001}, 'record 1 is at 3001 ms, that frame at 3000 ms');
  rejects({record: 24}, 'they name record 24, and it has 24 frames');
  rejects({record: 0, moment: 0}, 'D4 doesn’t judge such a packet as that of record 0');
  rejects({record: 2, moment: 4000}, 'D4 doesn’t judge such a packet as that of record 2');
  // All that are judged as its own come from one sender.
  const both = [{result: 'pass', duty: 'D4', moment: 3000, record: 1, reason: ''},
    {result: 'pass', duty: 'D13', moment: 4000, record: 2, reason: ''}];
  assert.throws(() => new judged.Verdicts(run, report.read(reports.textOf(both, '1400020000000100'))),
    /D13 doesn’t judge record 2, which station 020000000200 sent\.$/);
  assert.throws(() => new judged.Verdicts(run, report.read(reports.textOf([], '1400020000000999'))),
    /they are on station 1400020000000999, which it doesn’t have\.$/);
});

test('a station with another link address than its MID is the sender of its frames', () => {
  const own = sample('verdict/iut.cap');
  const file = own.slice();
  for (let at = 0; at < file.length - 6; at += 1) {
    const isLink = [2, 0, 0, 0, 1, 0].every((octet, i) => file[at + i] === octet) && file[at + 6] === 0x89;
    if (isLink) file[at + 5] = 0x77;
  }
  const {run} = capture.read(file);
  const verdict = {result: 'pass', duty: 'D4', moment: 3000, record: 1, reason: 'hops 1 of 1'};
  const found = new judged.Verdicts(run, report.read(reports.textOf([verdict], '1400020000000100')));
  assert.equal(run.name(found.station), '020000000177');
});

test('a cut record has D1 alone, even if its packet is whole', () => {
  const n = (value) => octets(value, 4, true);
  const frame_ = [...FIRST, 0, 0];
  const file = (whole) => new Uint8Array([...pcap(0xd4c3b2a1, true, 1e6).subarray(0, 24), ...n(1), ...n(0),
    ...n(FIRST.length), ...n(whole), ...frame_.slice(0, FIRST.length)]);
  const on = (whole, verdict) => new judged.Verdicts(capture.read(file(whole)).run,
    report.read(reports.textOf([{result: 'inconclusive', moment: 1000, record: 0, reason: 'cut', ...verdict}],
      '1400020000000099')));
  assert.equal(on(FIRST.length + 2, {duty: 'D1'}).worst(0), 'inconclusive');
  assert.throws(() => on(FIRST.length + 2, {duty: 'D13'}), /D13 doesn’t judge such a packet/);
  assert.throws(() => on(FIRST.length, {duty: 'D1'}), /D1 doesn’t judge such a packet/);
  assert.equal(on(FIRST.length, {duty: 'D13'}).worst(0), 'inconclusive');
  // It says no position either.
  assert.deepEqual([2, 0].map((more) =>
    capture.read(file(FIRST.length + more)).run.presence.stateOf(0, 0, 0)), ['expected', 'there']);
});

test('words of a record: its number, its kind and its sender', () => {
  const {run} = capture.read(sample('verdict/iut.cap'));
  assert.equal(words.ofEvent(run, run.events.at(2)), 'Record 2, 4000 ms, station 020000000200: gbc');
  assert.equal(packet.rowsOfOctets(run.frames.octets(2)).fault, undefined);
  const state = {run, at: 2, frames: {given: 2}, sends: [], sendOf: new Int32Array(24).fill(-1)};
  const {areas, links, holds} = scene.scene(state, {links: 400, circles: 60, isRange: false});
  assert.deepEqual([areas.map(({shape, a}) => [shape, a]), links, holds.size],
    [[['circle', 500]], [], 0]);
});
