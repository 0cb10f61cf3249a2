//! The lines of `verdict --json`: the station under test, its verdicts, and their counts. A line that
//! is not such a line is rejected with a sentence for a person.

(function (geostation) {
  'use strict';

  /** What a report begins with. A run begins with its stations. */
  const HEAD = '{"station":"';
  /** The results, the worst first. */
  const RESULTS = ['fail', 'inconclusive', 'pass'];
  /** The time as it is in a line: `--time` writes other times than whole milliseconds. */
  const MOMENT = /"moment":(0|[1-9]\d*)(?=[,}])/;

  /**
   * @typedef {object} Verdict
   * @property {'fail' | 'inconclusive' | 'pass'} result
   * @property {string} duty for example D13
   * @property {string} moment the digits of its time in milliseconds
   * @property {number} record the number of the record that it judges
   * @property {number[]} others the other records that its reason names
   * @property {string[]} needs the claims that would decide it
   * @property {string} [rule] the clause that a fail breaks
   * @property {string} reason
   */

  /** @typedef {{fail: number, inconclusive: number, pass: number}} VerdictCounts */

  /** A file is not the output of `verdict --json`, or not on this run. The message says why. */
  class ReportFault extends Error {}

  /** @param {number} line its number, from 1 @param {string} why @returns {never} */
  function refuse(line, why) {
    throw new ReportFault(`Line ${line} isn’t a line of “verdict --json”: ${why}.`);
  }

  /** @param {unknown} value */
  function isCount(value) {
    return Number.isSafeInteger(value) && value >= 0;
  }

  /** @param {string} text @param {number} line */
  function parse(text, line) {
    let value;
    try {
      value = JSON.parse(text);
    } catch {
      refuse(line, 'it isn’t JSON, or it’s cut');
    }
    if (typeof value !== 'object' || value === null || Array.isArray(value)) {
      refuse(line, 'it isn’t a JSON object');
    }
    return value;
  }

  /** A list whose items are all valid, empty if it is missing. */
  function listOf(value, key, isValid, line) {
    const list = value[key] ?? [];
    if (!Array.isArray(list) || !list.every(isValid)) refuse(line, `“${key}” is invalid`);
    return list;
  }

  /** @param {any} value @param {string} text @param {number} line @returns {Verdict} */
  function verdictOf(value, text, line) {
    const {result, duty, record, tap, cause, rule, reason} = value;
    if (!RESULTS.includes(result)) refuse(line, '“result” is missing or unknown');
    if (!/^D[1-9]\d?$/.test(duty)) refuse(line, '“duty” is missing or unknown');
    if (!isCount(record)) refuse(line, '“record” is missing or not a valid number');
    if (typeof reason !== 'string') refuse(line, '“reason” is missing');
    if (rule !== undefined && typeof rule !== 'string') refuse(line, '“rule” is invalid');
    if (tap !== undefined) refuse(line, 'it is about several captures, and a run has one');
    const moment = MOMENT.exec(text)?.[1];
    if (moment === undefined) {
      refuse(line, '“moment” isn’t in whole milliseconds. Leave out “--time”');
    }
    if (cause !== undefined && !isCount(cause)) refuse(line, '“cause” isn’t a valid number');
    const others = [...(cause === undefined ? [] : [cause]),
      ...listOf(value, 'others', isCount, line)];
    const needs = listOf(value, 'needs', (claim) => typeof claim === 'string', line);
    return {result, duty, moment, record, others, needs, rule, reason};
  }

  /** The counts of all duties together. @param {any} total @param {number} line */
  function countsOf(total, line) {
    const counts = {fail: 0, inconclusive: 0, pass: 0};
    for (const duty of Object.values(total ?? {})) {
      for (const result of RESULTS) {
        if (!isCount(duty?.[result])) refuse(line, `“total” has no valid count of “${result}”`);
        counts[result] += duty[result];
      }
    }
    return counts;
  }

  /** How many of some verdicts have each result. @param {Verdict[]} verdicts */
  function count(verdicts) {
    const counts = {fail: 0, inconclusive: 0, pass: 0};
    for (const {result} of verdicts) counts[result] += 1;
    return counts;
  }

  /**
   * Reads a report.
   * @param {string} text
   * @returns {{station: string, verdicts: Verdict[], counts: VerdictCounts}} the GN address of the
   *   station, the verdicts in the file, and how many the command found
   * @throws {ReportFault}
   */
  function read(text) {
    const lines = text.replace(/\n$/, '').split('\n');
    const values = lines.map((line, i) => parse(line, i + 1));
    const [{station}] = values;
    const {total} = values.at(-1);
    if (!/^[0-9a-f]{16}$/.test(station)) refuse(1, '“station” is missing or not a GN address');
    if (typeof total !== 'object' || total === null) {
      throw new ReportFault('The last line has no “total”: the file is cut.');
    }
    const verdicts = values.slice(1, -1).map((value, i) => verdictOf(value, lines[i + 1], i + 2));
    const [counts, listed] = [countsOf(total, lines.length), count(verdicts)];
    if (RESULTS.some((result) => listed[result] > counts[result])) {
      refuse(lines.length, '“total” counts fewer verdicts than there are lines');
    }
    return {station, verdicts, counts};
  }

  /** Whether a text begins as a report. @param {string} head */
  function isReport(head) {
    return head.startsWith(HEAD);
  }

  geostation.report = {ReportFault, RESULTS, count, isReport, read};
})(globalThis.geostation ??= {});
