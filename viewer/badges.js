//! The signs of verdicts on the map: a row of them at the station under test, one for each of its
//! frames that the map shows.

(function (geostation) {
  'use strict';

  /** More would lie over the stations around it. */
  const MOST = 8;
  /** The radius of a sign and how far apart two are, in pixels. */
  const [RADIUS, APART] = [8, 18];

  /** How far the corners around a station under test are from it. @param {number} radius of its mark */
  function reachOf(radius) {
    return 1.5 * radius + 5;
  }

  /** @typedef {{frame: number, event: number, result: string}} Badge */

  /**
   * Where the signs are on the screen: above the station, from its side toward the middle of the map.
   * @param {Badge[]} badges @param {{x: number, y: number, radius: number}} station
   * @param {number} width of the map
   * @returns {(Badge & {x: number, y: number})[]} of the latest frames
   */
  function placed(badges, {x, y, radius}, width) {
    const far = reachOf(radius) + RADIUS;
    const step = x > width / 2 ? -APART : APART;
    const first = x + Math.sign(step) * far;
    return badges.slice(-MOST).map((badge, i) => ({...badge, x: first + step * i, y: y - far}));
  }

  /** The box of a sign. @param {{x: number, y: number}} place */
  function boxOf({x, y}) {
    return {left: x - RADIUS, right: x + RADIUS, top: y - RADIUS, bottom: y + RADIUS};
  }

  /** That signs are left out, as a list of one sentence part or none. @param {Badge[]} badges */
  function leftOut({length}) {
    return length > MOST ? [`the verdicts on ${length - MOST} frames`] : [];
  }

  geostation.badges = {RADIUS, reachOf, placed, boxOf, leftOut};
})(globalThis.geostation ??= {});
