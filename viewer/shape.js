//! Shapes on the map: the marks of stations, arcs between them, the borders of areas, round lengths.

(function (geostation) {
  'use strict';

  /** @typedef {{east: number, north: number}} Point in metres from the run's origin */
  /** @typedef {{x1: number, y1: number, cx: number, cy: number, x2: number, y2: number}} Arc */

  /**
   * An arc between two points of the screen, bent to the left, so that both ways are seen.
   * @returns {Arc | undefined} nothing where they are too near
   */
  function arc(from, to, gap) {
    const dx = to.x - from.x;
    const dy = to.y - from.y;
    const length = Math.hypot(dx, dy);
    if (length < 2 * gap) return undefined;
    const bend = Math.min(0.16 * length, 46);
    const cx = (from.x + to.x) / 2 + (dy / length) * bend;
    const cy = (from.y + to.y) / 2 - (dx / length) * bend;
    const start = toward(from, {x: cx, y: cy}, gap - 2);
    const end = toward(to, {x: cx, y: cy}, gap);
    return {x1: start.x, y1: start.y, cx, cy, x2: end.x, y2: end.y};
  }

  /** The point that is some pixels from one to another. */
  function toward(from, to, by) {
    const part = by / (Math.hypot(to.x - from.x, to.y - from.y) || 1);
    return {x: from.x + (to.x - from.x) * part, y: from.y + (to.y - from.y) * part};
  }

  /** The mark of each role: stations differ by shape as well as by colour. */
  const MARKS = {sender: 'star', delivered: 'square', reached: 'diamond', missed: 'triangle'};
  /** Where a mark has its corners, turned clockwise from the top, in radii. */
  const CORNERS = {
    star: [0, 1, 2, 3, 4].flatMap((i) => [[72 * i, 1.85], [72 * i + 36, 0.85]]),
    square: [[45, 1.3], [135, 1.3], [225, 1.3], [315, 1.3]],
    diamond: [[0, 1.4], [90, 1.4], [180, 1.4], [270, 1.4]],
    triangle: [[0, 1.6], [120, 1.6], [240, 1.6]],
  };

  /** The mark of a station whose roles are these words, a circle for a bystander. */
  function markOf(words) {
    const role = ['sender', 'delivered', 'reached', 'missed'].find((name) =>
      words.split(' ').includes(name));
    return MARKS[role] ?? 'circle';
  }

  /**
   * The path of a mark about the origin.
   * @param {string} mark @param {number} radius in pixels
   */
  function markPath(mark, radius) {
    const r = radius.toFixed(1);
    if (mark === 'circle') return `M0 -${r}a${r} ${r} 0 0 1 0 ${2 * r}a${r} ${r} 0 0 1 0 -${2 * r}z`;
    const points = CORNERS[mark].map(([turn, far]) => {
      const angle = (turn * Math.PI) / 180;
      const x = radius * far * Math.sin(angle);
      const y = -radius * far * Math.cos(angle);
      return `${x.toFixed(2)} ${y.toFixed(2)}`;
    });
    return `M${points.join('L')}z`;
  }

  /**
   * The ring about the origin of a station that holds a frame, crossed if the frame was cancelled.
   * @param {'held' | 'cancelled'} kind @param {number} radius in pixels
   */
  function ringPath(kind, radius) {
    const ring = markPath('circle', radius);
    if (kind === 'held') return ring;
    const far = ((radius + 3) * Math.SQRT1_2).toFixed(1);
    return `${ring}M-${far} -${far}L${far} ${far}M-${far} ${far}L${far} -${far}`;
  }

  /** The four corners of a square around the origin. @param {number} radius half its side, in pixels */
  function cornersPath(radius) {
    const [far, near] = [radius.toFixed(1), (radius / 2).toFixed(1)];
    const corner = ([x, y]) => `M${x}${far} ${y}${near}V${y}${far}H${x}${near}`;
    return [['', ''], ['-', ''], ['-', '-'], ['', '-']].map(corner).join('');
  }

  /** The sign of each result of a verdict, in a circle of a radius of 8 pixels around the origin. */
  const SIGNS = {pass: 'M-4 0.5L-1.2 3.5L4 -3', fail: 'M-3.2 -3.2L3.2 3.2M-3.2 3.2L3.2 -3.2',
    inconclusive: 'M-2.6 -2.2A2.6 2.6 0 1 1 0.6 0.2Q0 0.6 0 1.8M0 3.7V4.6'};

  /**
   * The border of an area, in metres from its centre.
   * @param {import('./geo.js').Area} area @param {number} steps of a round one @returns {Point[]}
   */
  function outline({shape, a, b, angle}, steps) {
    const wide = shape === 'circle' ? a : b;
    const corners = shape === 'rectangle' ? [[a, b], [a, -b], [-a, -b], [-a, b]]
      : Array.from({length: steps}, (_, i) => {
        const turn = (2 * Math.PI * i) / steps;
        return [a * Math.cos(turn), wide * Math.sin(turn)];
      });
    const cos = Math.cos((angle * Math.PI) / 180);
    const sin = Math.sin((angle * Math.PI) / 180);
    return corners.map(([along, across]) => ({
      north: along * cos - across * sin,
      east: along * sin + across * cos,
    }));
  }

  /** The greatest of 1, 2, 5, 10, 20 .. that isn't over a length. @param {number} length */
  function roundLength(length) {
    const power = 10 ** Math.floor(Math.log10(length));
    const step = [5, 2, 1].find((digit) => digit * power <= length) ?? 1;
    return step * power;
  }

  /** The path of an arc. @param {Arc} arc */
  function pathOf({x1, y1, cx, cy, x2, y2}) {
    const text = [x1, y1, cx, cy, x2, y2].map((value) => value.toFixed(1));
    return `M${text[0]} ${text[1]}Q${text[2]} ${text[3]} ${text[4]} ${text[5]}`;
  }

  /** A point of an arc. @param {Arc} arc @param {number} t from 0 to 1 */
  function along({x1, y1, cx, cy, x2, y2}, t) {
    const [a, b, c] = [(1 - t) ** 2, 2 * t * (1 - t), t * t];
    return {x: a * x1 + b * cx + c * x2, y: a * y1 + b * cy + c * y2};
  }

  geostation.shape = {SIGNS, markOf, markPath, ringPath, cornersPath, arc, pathOf, along, outline,
    roundLength};
})(globalThis.geostation ??= {});
