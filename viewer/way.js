//! The way of a send: from which frame each frame comes, which stations a geobroadcast or a
//! geoanycast reached and when. The figures are those of `sim --summary`.

(function (geostation) {
  'use strict';

  const {DO, RESULT} = geostation.events;

  /**
   * @typedef {object} Send
   * @property {number} event the index of the event that sent it
   * @property {number} first the number of its own frame
   * @property {number[]} numbers of the frames that it made, its own first
   * @property {Map<number, number>} reached the event of the first delivery at each station
   * @property {number} hops the most that a delivery took, 1 for the send's own frame
   * @property {number} duplicates how often a frame of it was ignored as one
   */

  /**
   * @typedef {object} Step an acceptance on the way of a send, or the send itself
   * @property {number} event
   * @property {number} station
   * @property {number} hop 0 for the send itself
   * @property {boolean} delivered whether a payload was delivered to its port
   * @property {number} [sent] the frame that it sent or held
   * @property {number} duplicates how often that frame was ignored as a duplicate
   */

  /**
   * Follows each frame back to its send.
   * @param {import('./run.js').Run} run
   * @returns {{sends: Send[], sendOf: Int32Array, depth: Int32Array}} by frame: its send, -1 where
   *   it is a beacon's or an shb's, and how many relays came before it
   */
  function follow(run) {
    const {events, frames} = run;
    const sendOf = new Int32Array(frames.length).fill(-1);
    const depth = new Int32Array(frames.length);
    /** @type {Send[]} */
    const sends = [];
    const [sent, frame, what] = [events.sent.values, events.frame.values, events.do.values];
    for (let i = 0; i < events.length; i += 1) {
      const given = sent[i];
      if (what[i] === DO.deliver) {
        const came = frame[i];
        const send = came < frames.length ? sendOf[came] : -1;
        if (send < 0) continue;
        if (given >= 0) {
          sendOf[given] = send;
          depth[given] = depth[came] + 1;
          sends[send].numbers.push(given);
        }
        noteDelivery(sends[send], events, i, depth[came] + 1);
      } else if (given >= 0 && hasArea(what[i])) {
        sendOf[given] = sends.length;
        sends.push({event: i, first: given, numbers: [given], reached: new Map(), hops: 0,
          duplicates: 0});
      }
    }
    return {sends, sendOf, depth};
  }

  /** Whether a call is a geobroadcast or a geoanycast. @param {number} what */
  function hasArea(what) {
    return what === DO.gbc || what === DO.gac;
  }

  /** @param {Send} send @param {any} events @param {number} index @param {number} hops */
  function noteDelivery(send, events, index, hops) {
    if (events.isDuplicate(index)) send.duplicates += 1;
    if (events.port.values[index] < 0) return;
    const station = events.station.values[index];
    send.hops = Math.max(send.hops, hops);
    if (!send.reached.has(station)) send.reached.set(station, index);
  }

  /**
   * Milliseconds to the latest first delivery, 0 where none is later than the send.
   * @param {import('./run.js').Run} run @param {Send} send
   */
  function last(run, send) {
    let latest = 0n;
    for (const index of send.reached.values()) {
      const elapsed = run.elapsed(send.event, index);
      if (elapsed > latest) latest = elapsed;
    }
    return latest;
  }

  /**
   * The packet of a send's own frame; undefined where its octets are no packet.
   * @param {import('./run.js').Run} run @param {Send} send
   */
  function packetOf(run, send) {
    return geostation.frame.read(run.frames.octets(send.first)).packet;
  }

  /**
   * The figures of a send, in the words of the summary.
   * @param {import('./run.js').Run} run @param {Send} send
   */
  function figures(run, send) {
    const {station, do: what} = run.events.at(send.event);
    return {
      moment: run.moment(send.event),
      station,
      do: what,
      port: packetOf(run, send)?.port,
      delivered: send.reached.size,
      frames: send.numbers.filter((frame) => run.held.isSent(frame)).length,
      hops: send.hops,
      last: String(last(run, send)),
    };
  }

  /**
   * The tree of a send's acceptances, each before those that its frame led to.
   * @param {import('./run.js').Run} run @param {Send} send @returns {Step[]}
   */
  function tree(run, send) {
    /** @type {Step[]} */
    const steps = [];
    const waiting = [{index: send.event, hop: 0}];
    while (waiting.length > 0) {
      const {index, hop} = waiting.pop();
      const {station, sent: atOnce, waits, port} = run.events.at(index);
      const sent = atOnce ?? waits;
      const deliveries = sent === undefined ? [] : Array.from(run.deliveries.of(sent));
      const accepted = deliveries.filter((i) => run.events.is(i, 'accepted'));
      const duplicates = deliveries.filter((i) => run.events.isDuplicate(i)).length;
      steps.push({event: index, station, hop, delivered: port !== undefined, sent, duplicates});
      for (const next of accepted.reverse()) waiting.push({index: next, hop: hop + 1});
    }
    return steps;
  }

  /**
   * The path of a send: the events at which stations accepted it, in the order of the run, and those
   * among them whose station forwarded it to another that accepted it.
   * @param {import('./run.js').Run} run @param {Step[]} steps of its tree
   * @returns {{events: Int32Array, forwarded: Set<number>}}
   */
  function path(run, steps) {
    const accepted = steps.filter(({hop}) => hop > 0);
    const frames = new Set(accepted.map(({event}) => run.events.frame.values[event]));
    const leading = accepted.filter(({sent}) => frames.has(sent));
    return {
      events: Int32Array.from(accepted, ({event}) => event).sort(),
      forwarded: new Set(leading.map(({event}) => event)),
    };
  }

  /**
   * All deliveries of a send's frames, in the order of the run.
   * @param {import('./run.js').Run} run @param {Send} send @returns {Int32Array}
   */
  function deliveries(run, send) {
    const parts = send.numbers.map((frame) => run.deliveries.of(frame));
    const all = new Int32Array(parts.reduce((sum, {length}) => sum + length, 0));
    let at = 0;
    for (const part of parts) {
      all.set(part, at);
      at += part.length;
    }
    return all.sort();
  }

  /**
   * The event at which a send's way ends.
   * @param {import('./run.js').Run} run @param {Send} send
   */
  function end(run, send) {
    return deliveries(run, send).at(-1) ?? send.event;
  }

  /** The counts of a whole run, by the summary's names. @param {import('./run.js').Run} run */
  function total({air, events, frames, held}) {
    const [port, result] = [events.port.values, events.result.values];
    let [deliveries, duplicates, ignored, refused] = [0, 0, 0, 0];
    for (let i = 0; i < events.length; i += 1) {
      if (port[i] >= 0) deliveries += 1;
      if (result[i] === RESULT.refused) refused += 1;
      else if (events.isDuplicate(i)) duplicates += 1;
      else if (result[i] === RESULT.ignored) ignored += 1;
    }
    const {length} = events.holds;
    const more = air?.contends ? {held: length, cancelled: events.cancels.length} : {};
    return {events: events.length, frames: frames.length - length + held.released.length, deliveries,
      duplicates, ignored, refused, ...more};
  }

  geostation.way = {follow, figures, tree, path, deliveries, end, total, packetOf};
})(globalThis.geostation ??= {});
