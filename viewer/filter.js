//! Which events and notes are listed: by the kind of what was done, came or was lost, by its
//! result, by station, and of some only.

(function (geostation) {
  'use strict';

  const {peek} = geostation;
  const {DO, DOS, RECORD, IS_OF_FRAME, NOTES, RESULT} = geostation.events;
  const OWN = {tick: 'beacon', shb: 'shb', gbc: 'gbc', gac: 'gac'};
  /** The kinds that can be selected: packets, other requests to a station, notes of it. */
  const KINDS = ['beacon', 'shb', 'gbc', 'gac', 'guc', 'tsb', 'ls-request', 'ls-reply', 'move', 'open',
    'close', 'restart', 'came', 'left', 'absent'];
  const RESULTS = ['sent', 'delivered', 'accepted', 'duplicate', 'ignored', 'refused', 'lost', 'held',
    'cancelled'];
  /** The notes of a result. */
  const NOTES_OF = {sent: 'released', lost: 'lost'};

  /** @typedef {{events?: Int32Array, notes?: Int32Array}} Places rising; all without them */

  /** The kind of an event. @param {import('./run.js').Run} run @param {number} index */
  function kind({events, frames}, index) {
    const what = events.do.values[index];
    if (what === DO.deliver) return peek.kind(frames, events.frame.values[index]);
    if (what === RECORD) return events.wordOf(index);
    return OWN[DOS[what]] ?? DOS[what];
  }

  /** The kind of a note. @param {import('./run.js').Run} run @param {number} index */
  function kindOfNote({notes, frames}, index) {
    const note = notes.kind.values[index];
    return IS_OF_FRAME[note] ? peek.kind(frames, notes.frame.values[index]) : NOTES[note];
  }

  /** Whether an event has a result, as the page groups them. @param {string} result */
  function has(events, index, result) {
    const frame = events.sent.values[index];
    const isHeld = frame >= 0 && events.holds.of(frame) >= 0;
    if (result === 'sent') return frame >= 0 && !isHeld;
    if (result === 'held') return isHeld;
    if (result === 'cancelled') return events.cancels.of(index).length > 0;
    if (result === 'delivered') return events.port.values[index] >= 0;
    if (result === 'duplicate') return events.isDuplicate(index);
    if (result === 'ignored') return events.is(index, 'ignored') && !events.isDuplicate(index);
    return events.result.values[index] === RESULT[result];
  }

  /**
   * Those of 0 .. count - 1, or of some numbers, that are wanted.
   * @param {number} count @param {Int32Array | undefined} own
   * @param {(index: number) => boolean} isWanted
   */
  function choose(count, own, isWanted) {
    const found = new Int32Array(own ? own.length : count);
    let length = 0;
    for (let i = 0; i < found.length; i += 1) {
      const index = own ? own[i] : i;
      if (!isWanted(index)) continue;
      found[length] = index;
      length += 1;
    }
    return found.subarray(0, length);
  }

  /**
   * The places of the events and notes that are listed, undefined for all.
   * @param {import('./run.js').Run} run
   * @param {{station?: number, kind?: string, result?: string, only?: Places}} chosen
   * @returns {ArrayLike<number> | undefined}
   */
  function rows(run, {station, kind: wanted, result, only}) {
    if (!wanted && !result && station === undefined && !only) return undefined;
    const {events, notes} = run;
    const isOfStation = (table, index) =>
      station === undefined || table.station.values[index] === station;
    const isEvent = (index) => isOfStation(events, index) &&
      (!result || has(events, index, result)) && (!wanted || kind(run, index) === wanted);
    const isNote = (index) => isOfStation(notes, index) &&
      (!result || notes.is(index, NOTES_OF[result])) &&
      (!wanted || kindOfNote(run, index) === wanted);
    const own = only ?? placesOf(run, station);
    return run.entries.merge(choose(events.length, own.events, isEvent),
      choose(notes.length, own.notes, isNote));
  }

  /** The events and notes of a station, undefined for all. @returns {Places} */
  function placesOf(run, station) {
    if (station === undefined) return {};
    return {events: run.byStation.of(station), notes: run.notesOf.of(station)};
  }

  geostation.filter = {KINDS, RESULTS, rows, kind, kindOfNote};
})(globalThis.geostation ??= {});
