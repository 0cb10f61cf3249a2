//! Why not: the stations in a send's area that it was never delivered at, each with how far a frame
//! of it came there. The reasons are those of `sim --summary --explain`: where the run has them
//! behind it, those are taken; else they are worked out by the same rule.

(function (geostation) {
  'use strict';

  const {geo, hearing, peek, way} = geostation;
  const {RESULT} = geostation.events;
  const {countUpTo} = geostation.columns;

  /** From the furthest that a frame came to the least. */
  const REASONS = ['closed', 'outside', 'full', 'refused', 'ignored', 'lost', 'cut', 'unheard'];
  const LOST = REASONS.indexOf('lost');

  /**
   * @typedef {object} Miss a station in the area without the send
   * @property {number} station
   * @property {string} reason one of REASONS
   * @property {number} [event] at which a frame came that far
   * @property {number} [frame] that came, or that was lost
   * @property {boolean} [isLikely] nothing tells that a frame was lost there, but one was given
   *   nearer than others were heard from
   */

  /**
   * @typedef {object} Judgement
   * @property {number[]} standing the other stations in the area at the send
   * @property {number[]} inside those of them that may have the send's port open
   * @property {number[]} reached those of `inside` at which it was delivered
   * @property {Miss[]} missed those of `inside` at which it wasn't
   * @property {number[]} deaf those of `standing` whose port isn't open
   */

  /**
   * @param {import('./run.js').Run} run @param {import('./way.js').Send} send
   * @returns {Judgement}
   */
  function judge(run, send) {
    const packet = way.packetOf(run, send);
    if (!packet?.area) return {standing: [], inside: [], reached: [], missed: [], deaf: []};
    const standing = inArea(run, send, packet.area);
    const told = run.summaries.get(send.event)?.missed;
    const named = new Map(told);
    const isInside = (station) => send.reached.has(station) || (told ? named.has(station)
      : portAt(run, station, packet.port, send.event) !== false);
    const inside = standing.filter(isInside);
    const reached = inside.filter((station) => send.reached.has(station));
    const found = furthest(run, send, packet);
    const silent = isCut(run, send) ? 'cut' : 'unheard';
    const missed = inside.filter((station) => !send.reached.has(station)).map((station) =>
      miss(run, send, station, found.get(station), named.get(station) ?? {silent}));
    return {standing, inside, reached, missed, deaf: standing.filter((s) => !isInside(s))};
  }

  /**
   * The stations but the sender that stood in an area right before a send.
   * @param {import('./run.js').Run} run @param {import('./way.js').Send} send
   * @param {import('./geo.js').Area} area
   */
  function inArea(run, send, area) {
    const sender = run.events.station.values[send.event];
    const far = 101 * (area.a + area.b) + 100;
    const told = run.entries.notesUpTo(send.event - 1);
    const stood = [];
    for (let station = 0; station < run.stations.length; station += 1) {
      if (station === sender || !run.presence.isThere(station, told, send.event - 1)) continue;
      const place = run.placeAt(station, send.event);
      // One unit northward is 1.1132 cm: most are too far by that alone.
      if (Math.abs(place.lat - area.lat) * 1.1132 > far) continue;
      if (geo.contains(area, place)) stood.push(station);
    }
    return stood;
  }

  /**
   * Whether a station had a port open at an event, as far as the run tells: it says that ports are
   * opened, but not which; what was delivered at one shows it.
   * @param {import('./run.js').Run} run @param {number} station @param {number} port
   * @param {number} at @returns {boolean | undefined}
   */
  function portAt(run, station, port, at) {
    const own = run.byStation.of(station);
    const {events} = run;
    let open = 0;
    let first = 0;
    const end = countUpTo(own, at);
    for (let i = 0; i < end; i += 1) {
      const change = portChange(events.result.values[own[i]]);
      if (change === undefined) continue;
      open = Math.max(0, change === 0 ? 0 : open + change);
      first = i + 1;
    }
    if (open === 0) return false;
    for (let i = first; i < own.length; i += 1) {
      if (portChange(events.result.values[own[i]]) !== undefined) break;
      const shown = portShown(run, own[i], port);
      if (shown !== undefined) return shown;
    }
    return undefined;
  }

  /** How many ports more are open after an event, 0 after a restart. @param {number} result */
  function portChange(result) {
    if (result === RESULT.opened) return 1;
    if (result === RESULT.closed) return -1;
    return result === RESULT.restarted ? 0 : undefined;
  }

  /** What an event shows of a port: that it is open, that it isn't, or nothing. */
  function portShown(run, index, port) {
    const {events} = run;
    if (events.port.values[index] === port) return true;
    if (!events.isDelivery(index) || !events.is(index, 'accepted')) return undefined;
    const frame = events.frame.values[index];
    if (events.port.values[index] >= 0 || peek.port(run.frames, frame) !== port) return undefined;
    const {packet} = geostation.frame.read(run.frames.octets(frame));
    const place = run.placeAt(events.station.values[index], index);
    const isForIt = packet && (!packet.area || geo.contains(packet.area, place));
    return isForIt ? false : undefined;
  }

  /**
   * The furthest that a frame of a send came at each station.
   * @param {import('./run.js').Run} run @param {import('./way.js').Send} send
   * @returns {Map<number, {rank: number, event?: number, frame: number}>}
   */
  function furthest(run, send, {area}) {
    const found = new Map();
    const take = (station, rank, frame, event) => {
      const known = found.get(station);
      if (!known || rank < known.rank) found.set(station, {rank, event, frame});
    };
    for (const frame of send.numbers) {
      for (const event of run.deliveries.of(frame)) {
        take(run.events.station.values[event], rankOf(run, event, area), frame, event);
      }
      for (const note of run.lost.of(frame)) {
        take(run.notes.station.values[note], LOST, frame, run.held.sentAfter(frame));
      }
    }
    return found;
  }

  /** How far a delivery came, as a place in REASONS. @param {number} event */
  function rankOf(run, event, area) {
    const {events} = run;
    if (events.is(event, 'ignored')) return REASONS.indexOf('ignored');
    if (events.is(event, 'refused')) {
      return REASONS.indexOf(events.isFull(event) ? 'full' : 'refused');
    }
    const place = run.placeAt(events.station.values[event], event);
    return REASONS.indexOf(geo.contains(area, place) ? 'closed' : 'outside');
  }

  /**
   * @param {import('./run.js').Run} run @param {import('./way.js').Send} send
   * @param {number} station @param {any} found the furthest that a frame came there
   * @param {string | {silent: string}} given the reason, if the run's summary says it, or otherwise
   *   that of a station that received no frame
   * @returns {Miss}
   */
  function miss(run, send, station, found, given) {
    const known = typeof given === 'string' ? given : undefined;
    if (found) {
      const {rank, event, frame} = found;
      return {station, reason: known ?? REASONS[rank], event, frame};
    }
    const near = run.notes.length > 0 && !known ? undefined : lostNear(run, send, station);
    if (known) return {station, reason: known, ...(known === 'lost' ? near : {})};
    if (near && run.air) return {station, reason: 'lost', ...near};
    return {station, reason: given.silent ?? known, ...(near ? {isLikely: true, ...near} : {})};
  }

  /**
   * Whether deliveries of a send were not run, because the run ended before them.
   * @param {import('./run.js').Run} run @param {import('./way.js').Send} send
   */
  function isCut(run, send) {
    const late = send.numbers.filter((frame) =>
      run.held.isSent(frame) && hearing.isPastEnd(run, frame));
    return late.some((frame) => {
      const stations = run.notes.station.values;
      const lost = new Set(Array.from(run.lost.of(frame), (note) => stations[note]));
      return run.stations.some((_, station) =>
        !lost.has(station) && hearing.isNear(run, station, frame));
    });
  }

  /**
   * The first frame of a send that was sent within range of a station to which none came. So that
   * frame was lost.
   * @param {import('./run.js').Run} run @param {import('./way.js').Send} send
   * @returns {{event: number, frame: number} | undefined}
   */
  function lostNear(run, send, station) {
    if (run.air?.loss === 0) return undefined;
    for (const frame of send.numbers) {
      if (hearing.isInRange(run, station, frame)) {
        return {event: run.held.sentAfter(frame), frame};
      }
    }
    return undefined;
  }

  /**
   * What each station is to a send once an event was run: `sender`, `delivered`, `reached` (it
   * accepted a frame), `missed` (in the area and not reached yet). Others are bystanders.
   * @param {import('./way.js').Step[]} steps @param {Judgement} judgement @param {number} at
   * @returns {Map<number, string>}
   */
  function roles(steps, judgement, at) {
    const found = new Map();
    if (steps.length === 0 || steps[0].event > at) return found;
    for (const station of judgement.standing) found.set(station, 'missed');
    for (const station of judgement.deaf) found.delete(station);
    for (const {event, station, hop, delivered} of steps) {
      if (event > at) continue;
      const known = found.get(station);
      if (hop === 0) found.set(station, 'sender');
      else if (known === 'sender') continue;
      else if (delivered) found.set(station, 'delivered');
      else if (known === 'missed') found.set(station, 'missed reached');
      else if (known === undefined) found.set(station, 'reached');
    }
    return found;
  }

  geostation.why = {REASONS, judge, portAt, roles};
})(globalThis.geostation ??= {});
