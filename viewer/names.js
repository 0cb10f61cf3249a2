//! Which stations of the map have their name, and where it is written: all in sight, if these are
//! few, and each where it covers no other name and no other mark.

(function (geostation) {
  'use strict';

  const {grouped} = geostation.dom;
  /** Of more stations in sight none has its name. */
  const MOST = 60;
  /** How wide a letter is inside a mark and beside it, and how high a name is, in pixels. */
  const [NARROW, WIDE, HIGH] = [6.4, 6.9, 12];
  /** How much larger than its radius a mark is, by its role; the first one that fits. */
  const SPREADS = [['sender', 1.8], ['missed', 1.6], ['', 1.3]];
  /** Which names have room first: those of stations with a part in the warning. */
  const RANKS = ['sender', 'chosen', 'active', 'missed', 'delivered', 'reached'];

  /**
   * @typedef {object} Item a station in sight
   * @property {number} station @property {string} text its name
   * @property {number} x @property {number} y @property {number} radius of its mark
   * @property {string} role its words
   */

  /**
   * The stations in sight.
   * @param {number} count of stations
   * @param {(station: number) => {x: number, y: number} | undefined} placeOf where one is on the
   *   screen; nothing where it isn't drawn
   * @param {{width: number, height: number}} box
   * @returns {number[] | undefined} nothing where they are too many
   */
  function inSight(count, placeOf, {width, height}) {
    const found = [];
    for (let i = 0; i < count; i += 1) {
      const place = placeOf(i);
      if (!place || place.x < 0 || place.y < 0 || place.x > width || place.y > height) continue;
      if (found.length === MOST) return undefined;
      found.push(i);
    }
    return found;
  }

  /** A box about a point. */
  function boxAt(x, y, width, height) {
    return {left: x - width / 2, right: x + width / 2, top: y - height / 2, bottom: y + height / 2};
  }

  function overlap(a, b) {
    return a.left < b.right && b.left < a.right && a.top < b.bottom && b.top < a.bottom;
  }

  /** How far the mark of a station reaches from its middle. @param {Item} item */
  function reach({radius, role}) {
    return radius * SPREADS.find(([word]) => role.includes(word))[1];
  }

  /** The places at which a name may be written, the best first. @param {Item} item */
  function choices(item) {
    const {text, x, y, radius} = item;
    const inner = NARROW * text.length;
    const [width, far] = [WIDE * text.length + 3, reach(item)];
    const [above, below] = [y - far - HIGH / 2, y + far + HIGH / 2];
    const [left, right] = [x - far - width / 2 - 1, x + far + width / 2 + 1];
    const outside = [[x, above], [x, below], [right, y], [left, y], [right, above], [left, above],
      [right, below], [left, below]].map(([east, south]) =>
      ({x: east, y: south, isInside: false, box: boxAt(east, south, width, HIGH)}));
    const fits = inner <= 2 * radius - 2;
    return fits ? [{x, y, isInside: true, box: boxAt(x, y, inner, HIGH - 2)}, ...outside] : outside;
  }

  /** @param {Item} item the lower, the sooner its name has room */
  function rank({role}) {
    const words = role.split(' ');
    const found = RANKS.findIndex((name) => words.includes(name));
    return (found < 0 ? RANKS.length : found) + (words.includes('away') ? 2 * RANKS.length : 0);
  }

  /**
   * Where names are written. A name without room is left out.
   * @param {Item[]} items @param {object[]} [boxes] that no name covers
   * @returns {Map<number, {x: number, y: number, isInside: boolean}>} by station
   */
  function placed(items, boxes = []) {
    const marks = items.map((item) => ({station: item.station,
      box: boxAt(item.x, item.y, 2 * reach(item), 2 * reach(item))}));
    const taken = [...boxes];
    const found = new Map();
    const order = [...items].sort((a, b) => rank(a) - rank(b) || a.station - b.station);
    for (const item of order) {
      const others = marks.filter(({station}) => station !== item.station).map(({box}) => box);
      const isFree = ({box}) => ![...taken, ...others].some((other) => overlap(box, other));
      const choice = choices(item).find(isFree);
      if (!choice) continue;
      taken.push(choice.box);
      found.set(item.station, choice);
    }
    return found;
  }

  const stations = (count) => `${grouped(count)} station${count === 1 ? '' : 's'}`;

  /** That names are left out, as a list of one sentence part or none. @param {number} count */
  function leftOut(count) {
    return count > 0 ? [`the names of ${stations(count)} without room`] : [];
  }

  /** That stations have not come. @param {number} count */
  function notCome(count) {
    return count > 0 ? [`${stations(count)} that ${count === 1 ? 'has' : 'have'} not come`] : [];
  }

  /** Why stations have no mark: they have not come, or a capture has no position of them yet. */
  function notPlaced(run, count) {
    if (!run.isCapture || count === 0) return notCome(count);
    return [`${stations(count)} of unknown position`];
  }

  geostation.names = {MOST, inSight, placed, overlap, leftOut, notPlaced};
})(globalThis.geostation ??= {});
