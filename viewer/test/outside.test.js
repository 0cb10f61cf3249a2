//! Packets outside the profile: those of the samples, whose lines come from what was put into them
//! (checks/lib/outside_rows.py), and how the page shows a run that has them.

'use strict';

const assert = require('node:assert/strict');
const fs = require('node:fs');
const path = require('node:path');
const test = require('node:test');
const {load, read, TOP} = require('./load.js');

const {filter, frame, outside, packet, peek, secured} = load();
const DATA = path.join(TOP, '..', 'cases', 'data');
const SHOWN = fs.readFileSync(path.join(DATA, 'outside.show'), 'utf8').trimEnd().split('\n');

/** The frames of the samples. */
function frames() {
  const file = fs.readFileSync(path.join(DATA, 'outside.pcap'));
  const found = [];
  for (let at = 24; at < file.length;) {
    const length = file.readUInt32LE(at + 8);
    found.push(new Uint8Array(file.subarray(at + 16, at + 16 + length)));
    at += 16 + length;
  }
  return found;
}

/** The line of `show --all-kinds`, without its moment. */
function lineOf(octets) {
  const {packet: own, fault} = secured.read(octets);
  if (own) return frame.line(own);
  const other = outside.read(octets);
  return other ? `outside ${fault} ${outside.line(other)}` : `refused ${fault}`;
}

test('samples are shown by their fields', () => {
  const found = frames().map(lineOf);
  assert.equal(found.length, SHOWN.length);
  found.forEach((line, index) => assert.equal(line, SHOWN[index].replace(/^\d+ /, '')));
});

test('the panel has what only such packets have, and the code', () => {
  const [guc, , request, , btpA, , ip] = frames().map((octets) =>
    Object.fromEntries(packet.rowsOfOctets(octets).rows));
  assert.equal(guc['outside the profile'], 'L5 G7 at 5');
  assert.equal(guc.destination, '3c00020000000010, 48.1370000°, 11.5750000°');
  assert.equal(guc['port, info'], '2002, 0');
  assert.equal(request['sought address'], '3c00020000000010');
  assert.equal(request.payload, undefined);
  assert.equal(btpA['port, source port'], '2002, 4000');
  assert.equal(ip['next header'], 'ipv6');
});

test('what no standard allows has no fields', () => {
  const octets = frames().at(-1);
  assert.deepEqual(packet.rowsOfOctets(octets), {rows: [], fault: 'L5 G7 at 5'});
});

test('the packet in a secured frame is shown too', () => {
  const [guc] = frames();
  const plain = guc.subarray(18);
  const head = [...guc.subarray(0, 14), 0x12, ...guc.subarray(15, 18)];
  const octets = Uint8Array.from([...head, 3, 0x80, plain.length, ...plain]);
  const rows = Object.fromEntries(packet.rowsOfOctets(octets).rows);
  assert.equal(rows['outside the profile'], 'L6 G7 at 5');
  assert.equal(rows['port, info'], '2002, 0');
  assert.equal(rows.security, 'unsecured data in a secured packet');
});

/** A run in which a station sends a frame, and another one refuses it. */
function runOf(octets) {
  const stations = [1, 2].map((n) => ({address: `140002000000000${n}`, lat: 0, lon: 0}));
  const lines = [
    {stations},
    {event: 0, moment: 1000, station: 0, do: 'gbc', result: 'sent', sent: 0,
      octets: frame.toHex(octets)},
    {event: 1, moment: 1001, station: 1, do: 'deliver', frame: 0, result: 'refused',
      code: 'S3 L5 G7 at 5', reason: 'an unsupported header type'},
  ];
  return read(lines.map((line) => `${JSON.stringify(line)}\n`).join(''));
}

test('a run lists the deliveries of each kind', async () => {
  const kinds = ['guc', 'tsb', 'ls-request', 'ls-reply'];
  for (const [index, kind] of kinds.entries()) {
    const octets = frames()[index];
    const run = await runOf(octets);
    assert.equal(peek.kind(run.frames, 0), kind);
    assert.deepEqual(Array.from(filter.rows(run, {kind})), [1]);
    assert.equal(filter.KINDS.includes(kind), true);
    assert.equal(peek.port(run.frames, 0), kind.startsWith('ls') ? undefined : 2002);
    assert.equal(frame.toHex(run.frames.octets(0)), frame.toHex(octets));
  }
});
