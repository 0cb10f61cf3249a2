//! Stations and frames painted on a canvas, for runs of more stations than a page has elements for.

(function (geostation) {
  'use strict';

  const {badges, names, shape} = geostation;
  const {grouped} = geostation.dom;
  /** How near a click has to be, in pixels. */
  const NEAR = 9;
  /** How strong one that is away is painted, where it has a part in the warning. */
  const FAINT = 0.35;
  /** In this order they are painted: the sender lies above the others. */
  const ROLES = ['missed', 'missed reached', 'reached', 'delivered', 'sender'];
  /** The least size of a mark whose shape is seen, in pixels. */
  const LEAST_MARK = 2.6;
  const COLOURS = {idle: '--idle', reached: '--accepted', delivered: '--delivered',
    sender: '--sender', missed: '--red', accepted: '--accepted', duplicate: '--duplicate',
    other: '--duplicate', refused: '--refused', lost: '--red', chosen: '--accent',
    active: '--text', ground: '--map', hold: '--held', pass: '--delivered', fail: '--red',
    inconclusive: '--held', sign: '--on-dot'};

  class Painted {
    /** @param {HTMLCanvasElement} canvas @param {any} map that says what is where */
    constructor(canvas, map) {
      this.canvas = canvas;
      this.map = map;
      this.context = canvas.getContext('2d', {willReadFrequently: true});
    }

    /** @param {import('./run.js').Run} run */
    begin(run) {
      this.run = run;
      this.xs = new Float32Array(run.stations.length);
      this.ys = new Float32Array(run.stations.length);
      this.placedAt = undefined;
      this.hasPresence = run.presence.isTold;
      const style = getComputedStyle(document.documentElement);
      this.colours = Object.fromEntries(Object.entries(COLOURS).map(([name, variable]) =>
        [name, style.getPropertyValue(variable).trim()]));
      this.links = [];
    }

    /** @param {any} scene @param {boolean} isAnew whether all moves on the screen */
    draw(scene, isAnew) {
      this.scene = scene;
      this.size();
      if (isAnew || this.placedAt === undefined) this.placeAll();
      else this.placeMoved();
      this.placedAt = scene.at;
      this.drawBystanders();
      this.drawLinks();
      this.drawRings();
      this.drawRoles();
      this.drawTested();
      this.drawNames();
    }

    size() {
      const {width, height} = this.map.box;
      const dense = window.devicePixelRatio || 1;
      const [wide, high] = [Math.round(width * dense), Math.round(height * dense)];
      if (this.canvas.width !== wide || this.canvas.height !== high) {
        this.canvas.width = wide;
        this.canvas.height = high;
        this.image = this.context.createImageData(wide, high);
        this.pixels = new Uint32Array(this.image.data.buffer);
      }
      this.context.setTransform(dense, 0, 0, dense, 0, 0);
    }

    placeAll() {
      for (let i = 0; i < this.xs.length; i += 1) this.place(i);
    }

    /** Those stations alone that moved between the last moment shown and this one. */
    placeMoved() {
      const [from, to] = [this.placedAt, this.scene.at].sort((a, b) => a - b);
      if (to - from > this.xs.length) return void this.placeAll();
      const {events} = this.run;
      for (let i = from + 1; i <= to; i += 1) {
        const station = events.station.values[i];
        const mayMove = events.is(i, 'moved') || this.run.isCapture;
        if (mayMove && station < this.xs.length) this.place(station);
      }
    }

    /** @param {number} index of a station */
    place(index) {
      const {x, y} = this.map.screenOf(this.run.placeAt(index, this.scene.at));
      this.xs[index] = x;
      this.ys[index] = y;
    }

    /** All that have no role: thousands, which go into the picture point by point. */
    drawBystanders() {
      const {roles} = this.scene;
      const dense = window.devicePixelRatio || 1;
      const half = Math.max(1, Math.round(this.radius * dense));
      const colour = pixelOf(this.colours.idle);
      const {xs, ys} = this;
      this.pixels.fill(0);
      [this.away, this.expected] = [0, 0];
      for (let i = 0; i < xs.length; i += 1) {
        const presence = this.presenceOf(i);
        if (presence === 'expected') this.expected += 1;
        if (roles.has(i)) continue;
        if (presence !== 'there') {
          this.away += presence === 'left' ? 1 : 0;
          continue;
        }
        this.square(Math.round(xs[i] * dense), Math.round(ys[i] * dense), half, colour);
      }
      this.context.putImageData(this.image, 0, 0);
    }

    /** @param {number} station */
    presenceOf(station) {
      const {at, noted} = this.scene;
      return this.hasPresence ? this.run.presence.stateOf(station, noted, at) : 'there';
    }

    /** @param {number} station */
    isAway(station) {
      return this.presenceOf(station) !== 'there';
    }

    /** Fills a square of the picture, as far as it lies inside. */
    square(x, y, half, colour) {
      const {pixels} = this;
      const {width, height} = this.canvas;
      const left = Math.max(0, x - half);
      const right = Math.min(width, x + half);
      const low = Math.min(height, y + half);
      for (let row = Math.max(0, y - half); row < low; row += 1) {
        const end = row * width + right;
        for (let at = row * width + left; at < end; at += 1) pixels[at] = colour;
      }
    }

    /** Half the width of a bystander, in pixels: smaller where stations stand close. */
    get radius() {
      const {west, east, south, north} = this.map.bounds;
      const apart = Math.sqrt(((east - west) * (north - south)) / this.xs.length);
      return Math.max(0.5, Math.min(3, (apart * this.map.view.scale) / 4));
    }

    /** The rings of stations that hold a frame, crossed ones where it was cancelled. */
    drawRings() {
      const {colours, context, radius} = this;
      const size = 1.4 * Math.max(LEAST_MARK, 1.5 * radius) + 3;
      context.lineWidth = 2;
      for (const [station, kind] of this.scene.holds) {
        if (station >= this.xs.length || this.presenceOf(station) === 'expected') continue;
        const place = {x: this.xs[station], y: this.ys[station]};
        this.strokeAt(place, new Path2D(shape.ringPath(kind, size)), colours.hold);
      }
    }

    /** Who has a part in the chosen send, and the present and the chosen station, above all. */
    drawRoles() {
      const {roles, active, chosen} = this.scene;
      const {colours, context, radius} = this;
      const size = Math.max(LEAST_MARK, 1.5 * radius);
      for (const role of ROLES) {
        const path = new Path2D(shape.markPath(shape.markOf(role), size));
        for (const [i, words] of roles) {
          const presence = this.presenceOf(i);
          if (words !== role || presence === 'expected') continue;
          context.globalAlpha = presence === 'left' ? FAINT : 1;
          this.mark(i, path, role);
        }
      }
      context.globalAlpha = 1;
      if (active !== undefined) this.ring(active, radius + 3, colours.active, 2);
      if (chosen !== undefined) this.ring(chosen, radius + 5, colours.chosen, 3);
    }

    /** The corners around the station under test, and the signs of its verdicts. */
    drawTested() {
      const {context, colours, scene: {tested, badges: all}, radius} = this;
      this.signs = [];
      if (tested === undefined || this.presenceOf(tested) === 'expected') return;
      const station = {x: this.xs[tested], y: this.ys[tested], radius};
      this.signs = badges.placed(all, station, this.map.box.width);
      context.lineWidth = 2;
      const corners = shape.cornersPath(badges.reachOf(radius));
      this.strokeAt(station, new Path2D(corners), colours.active);
      for (const sign of this.signs) {
        context.fillStyle = colours[sign.result];
        context.beginPath();
        context.arc(sign.x, sign.y, badges.RADIUS, 0, 7);
        context.fill();
        this.strokeAt(sign, new Path2D(shape.SIGNS[sign.result]), colours.sign);
      }
    }

    /** @param {{x: number, y: number}} place @param {Path2D} path @param {string} colour */
    strokeAt({x, y}, path, colour) {
      const {context} = this;
      context.save();
      context.translate(x, y);
      context.strokeStyle = colour;
      context.stroke(path);
      context.restore();
    }

    /** The names of the stations in sight, where these are few, and as far as they have room. */
    drawNames() {
      const {context, colours, run} = this;
      const at = {x: 0, y: 0};
      const placeOf = (i) => {
        [at.x, at.y] = [this.xs[i], this.ys[i]];
        return this.isAway(i) ? undefined : at;
      };
      this.named = names.inSight(this.xs.length, placeOf, this.map.box);
      const places = names.placed((this.named ?? []).map((i) => this.itemOf(i)),
        this.signs.map(badges.boxOf));
      this.unnamed = (this.named?.length ?? 0) - places.size;
      context.font = '600 11px system-ui, sans-serif';
      context.textAlign = 'center';
      for (const [i, {x, y}] of places) {
        context.lineWidth = 3;
        context.strokeStyle = colours.ground;
        context.strokeText(run.name(i), x, y + 3.8);
        context.fillStyle = colours.active;
        context.fillText(run.name(i), x, y + 3.8);
      }
    }

    /** A station as `names.js` places its name. @param {number} station */
    itemOf(station) {
      const {active, chosen, roles} = this.scene;
      const words = [roles.get(station) ?? '', station === active ? 'active' : '',
        station === chosen ? 'chosen' : ''];
      const size = roles.has(station) ? Math.max(LEAST_MARK, 1.5 * this.radius) : this.radius;
      return {station, text: this.run.name(station), x: this.xs[station], y: this.ys[station],
        radius: size, role: words.join(' ')};
    }

    /** @param {number} index of a station @param {Path2D} path @param {string} role */
    mark(index, path, role) {
      const {context, colours} = this;
      const isMissed = role.startsWith('missed');
      context.save();
      context.translate(this.xs[index], this.ys[index]);
      context.strokeStyle = isMissed ? colours.missed : colours.ground;
      context.lineWidth = isMissed ? 2.5 : 1.5;
      context.stroke(path);
      context.fillStyle = colours[role === 'missed' ? 'idle' : role.replace('missed ', '')];
      context.fill(path);
      context.restore();
    }

    ring(index, radius, colour, width) {
      this.context.strokeStyle = colour;
      this.context.lineWidth = width;
      this.context.beginPath();
      this.context.arc(this.xs[index], this.ys[index], radius, 0, 7);
      this.context.stroke();
    }

    drawLinks() {
      const at = (i) => ({x: this.xs[i], y: this.ys[i]});
      const count = this.xs.length;
      this.links = [];
      for (const link of this.scene.links) {
        if (link.from >= count || link.to >= count || link.from === link.to) continue;
        const arc = shape.arc(at(link.from), at(link.to), 4);
        if (!arc) continue;
        this.links.push({...link, arc});
        this.drawLink(link, arc);
      }
      this.context.setLineDash([]);
      this.context.globalAlpha = 1;
    }

    drawLink({kind, isNew}, {x1, y1, cx, cy, x2, y2}) {
      const {context} = this;
      const isThin = kind === 'duplicate' || kind === 'other';
      context.strokeStyle = this.colours[kind];
      context.lineWidth = (isThin ? 1 : 2) + (isNew ? 1.2 : 0);
      context.globalAlpha = isNew ? 1 : 0.75;
      context.setLineDash(kind === 'lost' ? [7, 5] : kind === 'refused' ? [2, 4] : []);
      context.beginPath();
      context.moveTo(x1, y1);
      context.quadraticCurveTo(cx, cy, x2, y2);
      context.stroke();
    }

    /** What a click hits: a sign, or the nearest station or, if none is near, the nearest arc. */
    hit(_event, {x, y}) {
      const sign = this.signs.find((one) => Math.hypot(one.x - x, one.y - y) <= badges.RADIUS);
      if (sign) return {frame: sign.frame, event: sign.event};
      let [best, far] = [-1, NEAR];
      for (let i = 0; i < this.xs.length; i += 1) {
        const d = Math.hypot(this.xs[i] - x, this.ys[i] - y);
        if (d < far && !this.isAway(i)) [best, far] = [i, d];
      }
      if (best >= 0) return {station: best};
      for (const {arc, frame, event} of this.links) {
        for (let t = 0; t <= 1; t += 0.05) {
          const point = shape.along(arc, t);
          if (Math.hypot(point.x - x, point.y - y) < NEAR) return {frame, event};
        }
      }
      return undefined;
    }

    unseen() {
      const {length} = this.run.stations;
      const parts = this.named ? 'trails' : 'names and trails';
      const away = this.away > 0 ? [`${grouped(this.away)} stations that are away`] : [];
      return [...names.notPlaced(this.run, this.expected), ...away, ...names.leftOut(this.unnamed),
        `the ${parts} of ${grouped(length)} stations`];
    }

    clear() {
      this.context.setTransform(1, 0, 0, 1, 0, 0);
      this.context.clearRect(0, 0, this.canvas.width, this.canvas.height);
      this.placedAt = undefined;
    }
  }

  /** A colour as a picture has it, lowest octet red. @param {string} colour as `#667483` */
  function pixelOf(colour) {
    const [r, g, b] = [1, 3, 5].map((at) => parseInt(colour.slice(at, at + 2), 16));
    return ((255 << 24) | (b << 16) | (g << 8) | r) >>> 0;
  }

  geostation.canvas = {Painted, pixelOf};
})(globalThis.geostation ??= {});
