//! Who hears a frame: how far stations stand apart at an event, and how far frames are heard.

(function (geostation) {
  'use strict';

  const {geo} = geostation;
  /** So many frames are enough to find how far frames were heard. */
  const MOST_FRAMES = 20000;

  /**
   * The square of how far two stations stand apart at an event, in square centimetres.
   * @param {import('./run.js').Run} run @param {number} from @param {number} to
   * @param {number} event
   */
  function distance2(run, from, to, event) {
    const {north, east} = geo.offset(run.placeAt(from, event), run.placeAt(to, event));
    return north * north + east * east;
  }

  /**
   * The square of the greatest distance of a reception, in square centimetres: the range of the
   * radio model or, without one, the greatest distance over which a frame was received.
   * @param {import('./run.js').Run} run
   */
  function limit2(run) {
    return run.air ? BigInt(100 * run.air.range) ** 2n : heardFrom(run);
  }

  /**
   * Whether a station would have heard a frame, if no draw had lost it.
   * @param {import('./run.js').Run} run @param {number} station @param {number} frame
   */
  function isInRange(run, station, frame) {
    return run.held.isSent(frame) && !isPastEnd(run, frame) && isNear(run, station, frame);
  }

  /** Whether a station is present and near enough for a frame that was sent. */
  function isNear(run, station, frame) {
    const giver = run.events.station.values[run.frames.giver.values[frame]];
    if (giver === station || !run.stations[giver]) return false;
    const {at, noted} = run.held.before(frame);
    const isThere = (one) => run.presence.isThere(one, noted, at);
    if (!isThere(station) || !isThere(giver)) return false;
    return distance2(run, giver, station, run.held.sentAfter(frame)) <= limit2(run);
  }

  /** Whether a frame that was sent would come when the run is over. */
  function isPastEnd({air, held}, frame) {
    if (!air || air.until === null) return false;
    return held.momentOf(frame) + air.delay > air.until;
  }

  const heard = new WeakMap();

  /** The farthest that a frame was heard from in a run, squared, looked for once. */
  function heardFrom(run) {
    if (heard.has(run)) return heard.get(run);
    let most = 0n;
    const step = Math.max(1, Math.floor(run.frames.length / MOST_FRAMES));
    for (let frame = 0; frame < run.frames.length; frame += step) {
      const giver = run.frames.giver.values[frame];
      const from = run.events.station.values[giver];
      if (!run.stations[from]) continue;
      for (const event of run.deliveries.of(frame)) {
        const to = run.events.station.values[event];
        if (!run.stations[to]) continue;
        const far = distance2(run, from, to, run.held.sentAfter(frame));
        if (far > most) most = far;
      }
    }
    heard.set(run, most);
    return most;
  }

  /** How far frames are heard, in metres, and whether the run tells it or shows it at least. */
  function range(run) {
    if (run.air) return {metres: run.air.range, isTold: true};
    return {metres: Math.sqrt(Number(heardFrom(run))) / 100, isTold: false};
  }

  geostation.hearing = {distance2, isInRange, isNear, isPastEnd, range};
})(globalThis.geostation ??= {});
