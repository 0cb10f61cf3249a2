//! Secured frames: those of the samples, whose lines come from what was put into them
//! (checks/lib/signed_rows.py), and what the panel says of them.

'use strict';

const assert = require('node:assert/strict');
const fs = require('node:fs');
const path = require('node:path');
const test = require('node:test');
const {load, TOP} = require('./load.js');

const {frame, secured} = load();
const DATA = path.join(TOP, '..', 'cases', 'data');

/** The records of a pcap file in little-endian order, each as its milliseconds and octets. */
function recordsOf(name) {
  const file = fs.readFileSync(path.join(DATA, name));
  const records = [];
  for (let at = 24; at < file.length;) {
    const [seconds, micros, length] = [0, 4, 8].map((offset) => file.readUInt32LE(at + offset));
    const octets = new Uint8Array(file.subarray(at + 16, at + 16 + length));
    records.push({moment: seconds * 1000 + micros / 1000, octets});
    at += 16 + length;
  }
  return records;
}

/** The line that `show --signed` prints of a record. */
function lineOf({moment, octets}) {
  const {packet, security, fault} = secured.read(octets);
  if (fault) return `${moment} refused ${fault}`;
  const line = `${moment} ${frame.line(packet)}`;
  if (!security) return line;
  const {isSigned, psid, generated} = security;
  return isSigned ? `${line} signed ${psid} ${generated ?? '-'}` : `${line} unsigned`;
}

test('signed samples are read by their plain part', () => {
  const wanted = fs.readFileSync(path.join(DATA, 'signed.show'), 'utf8').trimEnd().split('\n');
  const records = recordsOf('signed.pcap');
  assert.equal(records.length, wanted.length);
  records.forEach((record, index) => assert.equal(lineOf(record), wanted[index]));
});

test('what is no secured frame is read as before', () => {
  const [{octets}] = recordsOf('signed.pcap');
  const changed = Uint8Array.from(octets);
  changed[14] = 0x13;
  assert.deepEqual(secured.read(changed), frame.read(changed));
  assert.equal(secured.read(octets.subarray(0, 14)).fault, frame.read(octets.subarray(0, 14)).fault);
});

test('the panel says that nothing was verified', () => {
  assert.equal(secured.words({isSigned: true, psid: 36, generated: 5n}),
    'signed, not verified: PSID 36, generated at 5 µs');
  assert.equal(secured.words({isSigned: true, psid: 36}),
    'signed, not verified: PSID 36, no generation time');
  assert.equal(secured.words({isSigned: false}), 'unsecured data in a secured packet');
});
