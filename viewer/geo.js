//! Places and areas: which places an area holds, in the whole numbers that the stations use, and
//! metres for drawing. Places are in tenths of a microdegree, one of which is 1.1132 cm northward.

(function (geostation) {
  'use strict';

  /** @typedef {{lat: number, lon: number}} Place */

  /**
   * @typedef {object} Area
   * @property {'circle' | 'rectangle' | 'ellipse'} shape
   * @property {number} lat latitude of the centre
   * @property {number} lon longitude of the centre
   * @property {number} a half length in metres, the radius of a circle
   * @property {number} b half width in metres, 0 for a circle
   * @property {number} angle of the length, in degrees clockwise from north
   */

  const WHOLE_TURN = 3600000000;
  const METRES_PER_UNIT = 0.011132;

  /** The sine of whole degrees, times 10000: the profile's table. */
  const TABLE = Array.from({length: 91}, (_, degrees) =>
    Math.round(10000 * Math.sin((degrees * Math.PI) / 180)));

  /** @param {number} degrees 0..=719 @returns {number} the sine, times 10000 */
  function sine(degrees) {
    const t = degrees % 360;
    if (t <= 90) return TABLE[t];
    return t <= 180 ? TABLE[180 - t] : -sine(t - 180);
  }

  /** @param {number} degrees 0..=359 @returns {number} the cosine, times 10000 */
  function cosine(degrees) {
    return sine(degrees + 90);
  }

  /**
   * How much shorter eastward is at a latitude than at the equator, times 10000.
   * @param {number} lat @returns {number}
   */
  function longitudeScale(lat) {
    const size = Math.abs(lat);
    const degree = Math.floor(size / 1e7);
    const rest = size - degree * 1e7;
    if (degree === 90) return 0;
    return Math.floor((TABLE[90 - degree] * (1e7 - rest) + TABLE[89 - degree] * rest) / 1e7);
  }

  /** The shorter way round for a difference of longitudes. @param {number} lon @returns {number} */
  function wrapLongitude(lon) {
    if (lon < -WHOLE_TURN / 2) return lon + WHOLE_TURN;
    return lon > WHOLE_TURN / 2 ? lon - WHOLE_TURN : lon;
  }

  /**
   * From a centre to a place, in centimetres, cut toward zero (as BigInt divides).
   * @param {Place} centre @param {Place} place @returns {{north: bigint, east: bigint}}
   */
  function offset(centre, place) {
    const across = BigInt(wrapLongitude(place.lon - centre.lon)) * 11132n;
    return {
      north: (BigInt(place.lat - centre.lat) * 11132n) / 10000n,
      east: (across * BigInt(longitudeScale(centre.lat))) / 100000000n,
    };
  }

  /**
   * Whether an area holds a place; its border is inside.
   * @param {Area} area @param {Place} place
   */
  function contains(area, place) {
    const {north, east} = offset(area, place);
    const a = BigInt(area.a) * 100n;
    const b = BigInt(area.b) * 100n;
    if (area.shape === 'circle') return north * north + east * east <= a * a;
    const cos = BigInt(cosine(area.angle));
    const sin = BigInt(sine(area.angle));
    const x = (north * cos + east * sin) / 10000n;
    const y = (east * cos - north * sin) / 10000n;
    if (area.shape === 'rectangle') return x <= a && -x <= a && y <= b && -y <= b;
    return x * x * b * b + y * y * a * a <= a * a * b * b;
  }

  /**
   * From an origin to a place in metres, for drawing.
   * @param {Place} origin @param {Place} place @returns {{north: number, east: number}}
   */
  function metres(origin, place) {
    const shrink = Math.cos((origin.lat / 1e7) * (Math.PI / 180));
    return {
      north: (place.lat - origin.lat) * METRES_PER_UNIT,
      east: wrapLongitude(place.lon - origin.lon) * METRES_PER_UNIT * shrink,
    };
  }

  geostation.geo = {sine, cosine, longitudeScale, wrapLongitude, offset, contains, metres};
})(globalThis.geostation ??= {});
