//! The streets beneath the map, on a canvas of their own. They are painted when the view changes, and
//! not while a run plays.

(function (geostation) {
  'use strict';

  const {svg} = geostation.dom;
  /** How wide a street is, in metres, and how wide it is drawn, in pixels. */
  const WIDE = 6;
  const [THINNEST, THICKEST] = [1.2, 10];

  /**
   * @typedef {object} Street
   * @property {Float64Array} points in metres from the origin of the map, east and north in turns
   * @property {number} west @property {number} east @property {number} south
   * @property {number} north of its points
   */

  /**
   * Streets in metres from an origin.
   * @param {Float64Array[]} lines latitudes and longitudes in degrees, in turns
   * @param {import('./geo.js').Place} origin @returns {Street[]}
   */
  function placed(lines, origin) {
    return lines.map((line) => {
      const points = new Float64Array(line.length);
      const street = {points, west: Infinity, east: -Infinity, south: Infinity, north: -Infinity};
      for (let i = 0; i < line.length; i += 2) {
        const place = {lat: 1e7 * line[i], lon: 1e7 * line[i + 1]};
        const {east, north} = geostation.geo.metres(origin, place);
        [points[i], points[i + 1]] = [east, north];
        street.west = Math.min(street.west, east);
        street.east = Math.max(street.east, east);
        street.south = Math.min(street.south, north);
        street.north = Math.max(street.north, north);
      }
      return street;
    });
  }

  class Ground {
    /** @param {HTMLCanvasElement} canvas @param {any} map that says what is where */
    constructor(canvas, map) {
      this.canvas = canvas;
      this.map = map;
      /** @type {Street[]} */
      this.streets = [];
    }

    /** Shows these streets beneath a run. @param {Float64Array[]} lines */
    begin(lines) {
      this.streets = placed(lines, this.map.origin);
      this.draw();
    }

    /** The streets in sight. */
    inSight() {
      const {box, view} = this.map;
      const [wide, high] = [box.width / (2 * view.scale), box.height / (2 * view.scale)];
      return this.streets.filter(({west, east, south, north}) =>
        west <= view.east + wide && east >= view.east - wide &&
        south <= view.north + high && north >= view.north - high);
    }

    /** How wide streets are drawn, in pixels. */
    get width() {
      return Math.max(THINNEST, Math.min(THICKEST, WIDE * this.map.view.scale));
    }

    /** Walks along a street, point by point. @param {Street} street @param {any} path */
    walk({points}, path) {
      for (let i = 0; i < points.length; i += 2) {
        const {x, y} = this.map.screen({east: points[i], north: points[i + 1]});
        if (i === 0) path.moveTo(x, y);
        else path.lineTo(x, y);
      }
    }

    draw() {
      const {canvas, map} = this;
      const dense = window.devicePixelRatio || 1;
      canvas.width = Math.round(map.box.width * dense);
      canvas.height = Math.round(map.box.height * dense);
      if (this.streets.length === 0) return;
      const context = canvas.getContext('2d');
      context.setTransform(dense, 0, 0, dense, 0, 0);
      context.strokeStyle = this.colour();
      context.lineWidth = this.width;
      context.lineJoin = 'round';
      context.beginPath();
      for (const street of this.inSight()) this.walk(street, context);
      context.stroke();
    }

    colour() {
      return getComputedStyle(this.canvas).getPropertyValue('--street').trim();
    }

    /** The visible streets as an element of an SVG file; undefined without streets. */
    element() {
      const parts = [];
      const path = {
        moveTo: (x, y) => parts.push(`M${x.toFixed(1)} ${y.toFixed(1)}`),
        lineTo: (x, y) => parts.push(`L${x.toFixed(1)} ${y.toFixed(1)}`),
      };
      for (const street of this.inSight()) this.walk(street, path);
      if (parts.length === 0) return undefined;
      return svg('path', {d: parts.join(''), fill: 'none', stroke: this.colour(),
        'stroke-width': this.width.toFixed(1), 'stroke-linejoin': 'round'});
    }
  }

  geostation.ground = {Ground, placed};
})(globalThis.geostation ??= {});
