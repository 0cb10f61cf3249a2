//! Why a station wasn't reached, in words for a person.

(function (geostation) {
  'use strict';

  const {hearing, way} = geostation;

  /** A reason in a few words. @type {Record<string, string>} */
  const SHORT = {
    closed: 'port not open', outside: 'had left the area', full: 'table full',
    refused: 'refused it', ignored: 'ignored it', lost: 'lost on the channel',
    cut: 'the run ended first', unheard: 'no frame in range',
  };

  /** @param {import('./why.js').Miss} miss */
  function short({reason, isLikely}) {
    return isLikely ? 'likely lost on the channel' : SHORT[reason] ?? reason;
  }

  /**
   * What happened at a station that a send didn't reach.
   * @param {import('./run.js').Run} run @param {import('./way.js').Send} send
   * @param {import('./why.js').Miss} miss
   */
  function sentence(run, send, miss) {
    const {reason, event, frame, isLikely} = miss;
    const who = `Station ${run.name(miss.station)}`;
    if (reason === 'cut') {
      return `${who} received no frame of it. Deliveries of its frames were not run: ` +
        'the run ended before them.';
    }
    if (event === undefined || isLikely) return missing(run, send, miss, who);
    const moment = reason === 'lost' ? run.held.digits(frame) : run.moment(event);
    const when = `frame ${frame} at ${moment} ms`;
    const sender = run.name(run.events.station.values[run.frames.giver.values[frame]]);
    const words = {
      closed: `accepted ${when} in the area. Its port ` +
        `${way.packetOf(run, send)?.port} wasn’t open.`,
      outside: `accepted ${when} after it had left the area.`,
      full: `refused ${when}. Its location table was full (S4).`,
      refused: `refused ${when} (${run.events.wordOf(event)}).`,
      ignored: `ignored ${when} (${run.events.wordOf(event)}).`,
      lost: `was in range of station ${sender}. On the channel it lost ${when}.`,
    };
    return `${who} ${words[reason] ?? `wasn’t reached: ${reason}.`}`;
  }

  /** If no frame came: the nearest one that was sent, and where the path ended. */
  function missing(run, send, {station, isLikely}, who) {
    const near = nearest(run, send, station);
    const {metres, isTold} = hearing.range(run);
    const range = isTold ? `The range is ${metres} m`
      : `In this run frames were received from up to ${Math.round(metres)} m away`;
    const likely = isLikely ? ' The frame was likely lost. The run has no notes that say so.' : '';
    return `${who} received no frame of it. The nearest was frame ${near.frame}, sent by station ` +
      `${run.name(near.giver)} ${Math.round(near.metres)} m away. ${range}.${likely}` +
      `${ending(run, send)}`;
  }

  /** The frame of a send that was sent nearest to a station. */
  function nearest(run, send, station) {
    let best = {far: -1n, frame: send.first, giver: 0, metres: 0};
    for (const frame of send.numbers) {
      const event = run.held.sentAfter(frame);
      const giver = run.events.station.values[run.frames.giver.values[frame]];
      if (event < 0 || !run.stations[giver]) continue;
      const far = hearing.distance2(run, giver, station, event);
      if (best.far < 0n || far < best.far) {
        best = {far, frame, giver, metres: Math.sqrt(Number(far)) / 100};
      }
    }
    return best;
  }

  /** Where a loss ended the path: the last frame that no station accepted, and who lost it. */
  function ending(run, send) {
    for (const frame of [...send.numbers].reverse()) {
      const isAccepted = (event) => run.events.is(event, 'accepted');
      const lost = run.lost.of(frame);
      if (lost.length === 0 || run.deliveries.of(frame).some(isAccepted)) continue;
      const giver = run.events.station.values[run.frames.giver.values[frame]];
      const at = Array.from(lost.subarray(0, 4), (note) =>
        run.name(run.notes.station.values[note]));
      const more = lost.length > at.length ? ' and more' : '';
      return ` The path ended at station ${run.name(giver)}. Its frame ${frame} was lost at ` +
        `${at.join(', ')}${more}.`;
    }
    const isAlone = send.numbers.every((frame) => run.deliveries.of(frame).length === 0);
    return isAlone ? ' No station received any frame of it.' : '';
  }

  geostation.reason = {short, sentence};
})(globalThis.geostation ??= {});
