//! Runs of stations that contend, as `sim --json --notes` prints them. Their times are those of rows
//! that were worked out by hand: station 0 warns, stations 1 and 2 are 300 m and 400 m away.

'use strict';

const {frame: encode} = require('./encode.js');

const PLACES = [0, 26950, 35933];
const AIR = {range: 500, delay: 1, loss: 0, seed: 0, beacons: false, until: 11000, contention: true,
  contention_max: 100, contention_min: 1, contention_range: 1000, contention_copies: 1};

/** The octets of the warning of station 0, as a station sends it with hops left. */
function octets(station, left) {
  const address = (i) => `140002000000000${i + 1}`;
  const source = {address: address(0), tst: 0, lat: 0, lon: 0, pai: 1, speed: 0, heading: 0};
  const area = {shape: 'circle', lat: 0, lon: 0, a: 1000, b: 0, angle: 0};
  return encode('ffffffffffff', address(station).slice(4), {kind: 'gbc', lifetime: 26, left, max: 10,
    tc: 0, number: 0, source, area, port: 2002, info: 0, payload: '6869'});
}

const move = (event, station) => ({event, moment: 0, station, do: 'move', lat: PLACES[station], lon: 0,
  result: 'moved'});
const sent = (event) => ({event, moment: 1000, station: 0, do: 'gbc', result: 'sent', sent: 0,
  octets: octets(0, 10)});
const came = (event, moment, station, frame, result) =>
  ({event, moment, station, do: 'deliver', frame, ...result});
const waits = (event, station, frame, until, came_ = 0, moment = 1001, left = 9) =>
  came(event, moment, station, came_, {result: 'accepted', waits: frame, until,
    octets: octets(station, left)});
const own = (event, moment, station, frame) =>
  came(event, moment, station, frame, {result: 'ignored', why: 'own-source'});
const copy = (event, moment, station, frame, more) =>
  came(event, moment, station, frame, {result: 'ignored', why: 'duplicate', ...more});
const note = (word, moment, station, frame) => ({note: word, moment, station, frame});

const BEGIN = [move(0, 0), move(1, 1), move(2, 2), sent(3), waits(4, 1, 1, 1072), waits(5, 2, 2, 1062)];
/** Station 2 is farther away than station 1: it sends first, and its copy cancels. */
const CANCELLED = [...BEGIN, note('released', 1062, 2, 2), own(6, 1063, 0, 2),
  copy(7, 1063, 1, 2, {cancels: [1]})];
/** Station 2 moves out of range while it holds its frame. */
const AWAY = [...BEGIN, {event: 6, moment: 1050, station: 2, do: 'move', lat: 1000000, lon: 0,
  result: 'moved'}, note('released', 1062, 2, 2), note('released', 1072, 1, 1), own(7, 1073, 0, 1)];
/** Station 2 restarts while it holds its frame, and then holds another. */
const RESTARTED = [...BEGIN, {event: 6, moment: 1010, station: 2, do: 'restart', result: 'restarted'},
  note('dropped', 1010, 2, 2), note('released', 1072, 1, 1), own(7, 1073, 0, 1),
  waits(8, 2, 3, 1168, 1, 1073, 8), note('released', 1168, 2, 3), own(9, 1169, 0, 3),
  copy(10, 1169, 1, 3)];

/** The text of a run. @param {object[]} lines @param {object} air */
function textOf(lines, air = AIR) {
  const stations = PLACES.map((lat, i) =>
    ({address: `140002000000000${i + 1}`, lat, lon: 0, contention: true}));
  return [{stations, air}, ...lines].map((line) => JSON.stringify(line)).join('\n');
}

/** The lines without notes. @param {object[]} lines */
const without = (lines) => lines.filter((line) => line.note === undefined);

module.exports = {AIR, AWAY, BEGIN, CANCELLED, RESTARTED, came, copy, note, own, sent, textOf, waits,
  without};
