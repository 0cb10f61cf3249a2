//! Reports of `verdict --json`, written by hand from the page of the command (docs/commands/verdict.md)
//! and the texts of the duties.

'use strict';

const RULE = 'EN 302 636-4-1';
/** The stations of the run `four`. Station 1 forwards frame 0 as frame 1, 1 ms later. */
const ADDRESSES = [1, 2, 3, 4].map((n) => `140002000000000${n}`);

/** Verdicts on station 1 of `four`. */
const RELAY = {moment: 1001, record: 1};
const FOUR = [
  {result: 'fail', duty: 'D13', ...RELAY, cause: 0, rule: `${RULE} 10.3.11.3`,
    reason: 'octet 60 of the packet is changed (#0)'},
  {result: 'pass', duty: 'D14', ...RELAY, reason: 'a gbc'},
  {result: 'inconclusive', duty: 'D15', ...RELAY, needs: ['fresh', 'sent'],
    reason: 'the first time'},
];

/** The verdict that station 1 of `four` owes to frame 2, which it had received before. */
const RECEIVED = {result: 'fail', duty: 'D20', moment: 1002, record: 2, rule: `${RULE} 10.3.11.3`,
  reason: 'owed, but not forwarded within 50 ms'};

/** The counts of some verdicts, by duty. @param {any[]} verdicts */
function totalOf(verdicts) {
  const total = {};
  for (const {duty, result} of verdicts) {
    total[duty] ??= {pass: 0, fail: 0, inconclusive: 0};
    total[duty][result] += 1;
  }
  return total;
}

/**
 * The text of a report.
 * @param {any[]} verdicts @param {string} station its address
 * @param {any[]} [found] all that the command found, of which the lines may be a part
 */
function textOf(verdicts, station = ADDRESSES[1], found = verdicts) {
  const first = {station, claims: {area: 'other', elsewhere: 'other', remember: 8}, assumed: [],
    version: '0.3.0'};
  const last = {total: totalOf(found), unexercised: [], repeats: 0, other: 0,
    result: found.some(({result}) => result === 'fail') ? 'fail' : 'inconclusive'};
  return [first, ...verdicts, last].map((line) => `${JSON.stringify(line)}\n`).join('');
}

module.exports = {ADDRESSES, FOUR, RECEIVED, RELAY, textOf};
