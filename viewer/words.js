//! What events and notes are called: in the words of `sim`, and in a sentence.

(function (geostation) {
  'use strict';

  /** @typedef {import('./events.js').Event} Event */

  /** What was done, as `sim` prints it. @param {Event} event */
  function doing(event) {
    return event.do === 'deliver' ? `deliver ${event.frame}` : event.kind ?? event.do;
  }

  /** The result, as `sim` prints it. @param {Event} event */
  function entry(event) {
    if (event.kind !== undefined) return `record ${event.index}`;
    const words = [event.result];
    if (event.why !== undefined) words.push(event.why);
    if (event.code !== undefined) words.push(event.code);
    if (event.port !== undefined) {
      words.push('port', event.port, 'info', event.info, event.payload || '-');
    }
    if (event.result === 'accepted' && event.sent !== undefined) words.push('sent');
    if (event.sent !== undefined) words.push(event.sent);
    if (event.waits !== undefined) words.push('waits', event.waits, 'until', event.until);
    if (event.cancels !== undefined) words.push('cancels', event.cancels);
    return words.join(' ');
  }

  /** @param {import('./run.js').Run} run @param {Event} event */
  function ofEvent(run, event) {
    const because = event.reason ? ` (${event.reason})` : '';
    if (event.kind !== undefined) {
      return `Record ${event.index}, ${run.moment(event.index)} ms, station ` +
        `${run.name(event.station)}: ${event.kind}`;
    }
    return `Event ${event.index}, ${run.moment(event.index)} ms, station ` +
      `${run.name(event.station)}: ${doing(event)}, ${entry(event)}${because}`;
  }

  /**
   * The parts of a note: the station, what happened to it in the words of `sim`, and an explanation.
   * @param {import('./run.js').Run} run @param {number} number
   */
  function partsOfNote(run, number) {
    const {note, station, frame, id} = run.notes.at(number);
    const who = note === 'absent' ? String(id) : run.name(station);
    if (frame < 0) return {who, what: note, entry: WHAT[note]};
    if (note !== 'lost') return {who, what: `${note} ${frame}`, entry: WHAT[note]};
    const giver = run.events.station.values[run.frames.giver.values[frame]];
    const from = giver === undefined ? '' : `sent by station ${run.name(giver)}`;
    return {who, what: `lost ${frame}`, entry: from};
  }

  const WHAT = {came: 'present from now on', left: 'away from now on',
    absent: 'away: its event isn’t run', released: 'sends the frame that it held',
    dropped: 'doesn’t send the frame that it held'};

  /** @param {import('./run.js').Run} run @param {number} number of a note */
  function ofNote(run, number) {
    const {who, what, entry: more} = partsOfNote(run, number);
    return `Note, ${run.noteMoment(number)} ms, station ${who}: ${what}, ${more}`;
  }

  geostation.words = {doing, entry, ofEvent, partsOfNote, ofNote};
})(globalThis.geostation ??= {});
