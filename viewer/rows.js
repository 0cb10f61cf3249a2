//! The rows of the lists of the page.

(function (geostation) {
  'use strict';

  const {reason, verdicts: judged, way: ways, words} = geostation;
  const {kindOf} = geostation.scene;

  /** @typedef {import('./list.js').Row} Row */

  /** An event or a note, with its verdicts. @param {any} state @param {number} place of it */
  function entry({run, verdicts}, place) {
    const {event, note} = run.entries.at(place);
    if (note !== undefined) return withVerdicts(ofNote(run, note), verdicts?.ofNote(note));
    return withVerdicts(ofEvent(run, run.events.at(event)), verdicts?.ofEvent(event));
  }

  /**
   * A row with verdicts, if there are any.
   * @param {Row} row @param {import('./report.js').Verdict[]} [verdicts] the worst first
   * @returns {Row}
   */
  function withVerdicts(row, verdicts = []) {
    if (verdicts.length === 0) return row;
    const {result} = verdicts[0];
    return {...row, kind: `${row.kind} judged`,
      title: [row.title, ...verdicts.map(judged.words)].join('\n'),
      cells: [...row.cells, [`verdict ${result}`, judged.line(verdicts)]]};
  }

  /** @param {import('./run.js').Run} run @param {import('./events.js').Event} event */
  function ofEvent(run, event) {
    return {kind: `event ${kindOf(event)}`, title: event.reason ?? words.entry(event), cells: [
      ['moment', run.moment(event.index)], ['who', run.name(event.station)],
      ['what', words.doing(event)], ['entry', words.entry(event)],
    ]};
  }

  /** @param {import('./run.js').Run} run @param {number} note */
  function ofNote(run, note) {
    const {who, what, entry: more} = words.partsOfNote(run, note);
    return {kind: `note note-${run.notes.at(note).note}`, title: words.ofNote(run, note), cells: [
      ['moment', run.noteMoment(note)], ['who', who], ['what', what], ['entry', more],
    ]};
  }

  /**
   * A warning, or all frames.
   * @param {any} state @param {import('./way.js').Send | undefined} send
   * @param {import('./why.js').Judgement} [judgement] of it
   * @returns {Row}
   */
  function send({run}, send, judgement) {
    if (!send) return {kind: 'send', cells: [['entry', 'All frames, in order']]};
    const {moment, station, do: what, port} = ways.figures(run, send);
    const {inside, reached} = judgement;
    const entered = `port ${port ?? '?'}, ${reached.length} of ${inside.length} reached`;
    return {kind: `send${reached.length < inside.length ? ' short' : ''}`, cells: [
      ['moment', moment], ['who', run.name(station)], ['what', what], ['entry', entered],
    ]};
  }

  /** A station that wasn't reached. @param {any} state @param {number} row @returns {Row} */
  function miss({run, judgement, chosen}, row) {
    const missed = judgement.missed[row];
    return {kind: `miss ${missed.reason}`, title: reason.sentence(run, chosen, missed),
      cells: [['who', run.name(missed.station)], ['entry', missed.reason],
        ['note', reason.short(missed)]]};
  }

  /** What a station did with the frame that it was to forward, by what happened to that. */
  const FORWARDED = {sent: 'forwarded', released: 'forwarded', cancelled: 'cancelled',
    dropped: 'dropped', waits: 'held'};

  /** A hop of the chosen warning's path. @param {any} state @param {number} row @returns {Row} */
  function step({run, steps, chosen, at}, row) {
    const {event, station, hop, delivered, sent, duplicates} = steps[row];
    const done = [hop === 0 ? 'sent it' : delivered ? 'delivered' : 'accepted'];
    if (hop > 0 && sent !== undefined) done.push(FORWARDED[run.held.fate(sent)]);
    if (duplicates > 0) done.push(`${duplicates} duplicate${duplicates > 1 ? 's' : ''}`);
    const kind = hop === 0 ? 'sent' : delivered ? 'accepted delivered' : 'accepted';
    const note = done.join(', ');
    return {kind: `step ${kind}${event > at ? ' later' : ''}`, hop: Math.min(hop, 12), title: note,
      cells: [['entry', `station ${run.name(station)}`], ['note', note],
        ['moment', `+${run.elapsed(chosen.event, event)} ms`]]};
  }

  geostation.rows = {entry, send, miss, step};
})(globalThis.geostation ??= {});
