//! The map: its view and scale, the areas and circles of range. Stations and frames are drawn by
//! `drawn.js`, of more than a thousand stations by `canvas.js`. North is up.

(function (geostation) {
  'use strict';

  const {byId, svg, set, Pool} = geostation.dom;
  const {shape} = geostation;
  const MOST_LINKS = 400;
  const MOST_CIRCLES = 60;
  /** With more stations than these, they are painted on a canvas. */
  const MOST_ELEMENTS = 1000;
  const MARGIN = 0.075;

  /** @typedef {{east: number, north: number}} Point in metres from the run's origin */

  /**
   * @typedef {object} Link a frame that reached a station
   * @property {number} from station @property {number} to station @property {number} frame
   * @property {number} event of the delivery, of a lost frame that of its sending
   * @property {string} kind accepted, duplicate, other, refused or lost
   * @property {boolean} isNew whether the present event is it
   */

  /**
   * @typedef {object} Scene what is to be seen
   * @property {number} at the present event
   * @property {number} noted how many notes there were until then
   * @property {number | undefined} active the present event's station
   * @property {number | undefined} chosen station
   * @property {Link[]} links
   * @property {import('./geo.js').Area[]} areas
   * @property {Map<number, string>} roles of stations: sender, delivered, reached, missed
   * @property {Map<number, 'held' | 'cancelled'>} holds of stations that contend
   * @property {{place: object, metres: number, isNew: boolean}[]} circles of range
   * @property {number | undefined} tested the station under test
   * @property {import('./badges.js').Badge[]} badges its verdicts on the frames that are shown
   * @property {string[]} unseen what can't be drawn
   */

  class RunMap {
    /**
     * @param {SVGSVGElement} root
     * @param {HTMLCanvasElement} canvas below it
     * @param {HTMLCanvasElement} ground below that, for the streets
     * @param {(station: number) => void} pickStation
     * @param {(frame: number, event: number) => void} pickFrame
     */
    constructor(root, canvas, ground, pickStation, pickFrame) {
      this.root = root;
      this.canvas = canvas;
      this.ground = new geostation.ground.Ground(ground, this);
      /** The streets of the net that was opened last. @type {Float64Array[]} */
      this.net = [];
      this.layers = {};
      root.append(geostation.drawn.makeMarkers());
      for (const name of ['grid', 'areas', 'circles', 'trails', 'links', 'holds', 'tested',
        'stations', 'sender', 'labels', 'badges', 'scale']) {
        this.layers[name] = svg('g', {class: name});
        root.append(this.layers[name]);
      }
      this.drawn = new geostation.drawn.Drawn(this.layers, this);
      this.painted = new geostation.canvas.Painted(canvas, this);
      this.painter = this.drawn;
      this.circles = new Pool(() => svg('circle', {class: 'range'}), this.layers.circles);
      this.areas = new Pool(() => svg('path', {class: 'area'}), this.layers.areas);
      this.makeScale();
      this.view = {east: 0, north: 0, scale: 1};
      this.box = {width: 300, height: 150};
      this.free = this.box.height;
      this.scene = undefined;
      root.addEventListener('click', (event) => this.click(event, pickStation, pickFrame));
      this.listen();
      new ResizeObserver(() => this.resize()).observe(root);
    }

    /**
     * Shows another run.
     * @param {import('./run.js').Run} run @param {import('./geo.js').Area[]} areas of its sends
     */
    begin(run, areas) {
      this.run = run;
      this.scene = undefined;
      this.origin = run.stations[0] ?? {lat: 0, lon: 0};
      this.measure();
      this.painter.clear();
      this.painter = run.stations.length > MOST_ELEMENTS ? this.painted : this.drawn;
      this.painter.begin(run);
      this.bounds = this.findBounds(areas);
      this.ground.begin(this.net);
      this.fit();
    }

    /** Shows these streets beneath the run. @param {Float64Array[]} lines */
    showStreets(lines) {
      this.net = lines;
      this.ground.begin(lines);
    }

    /** @param {import('./geo.js').Place} place @returns {Point} */
    point(place) {
      return geostation.geo.metres(this.origin, place);
    }

    /**
     * All places of the run, and of areas that aren't larger what is near them.
     * @param {import('./geo.js').Area[]} areas
     */
    findBounds(areas) {
      const bounds = {west: Infinity, east: -Infinity, south: Infinity, north: -Infinity};
      const take = ({east, north}, by) => {
        bounds.west = Math.min(bounds.west, east - by);
        bounds.east = Math.max(bounds.east, east + by);
        bounds.south = Math.min(bounds.south, north - by);
        bounds.north = Math.max(bounds.north, north + by);
      };
      for (const station of this.run.stations) take(this.point(station), 0);
      for (const move of this.run.moves.members) take(this.point(this.run.place(move)), 0);
      if (bounds.west > bounds.east) take({east: 0, north: 0}, 50);
      const size = Math.max(bounds.east - bounds.west, bounds.north - bounds.south);
      const near = Math.max(0.1 * size, 150);
      const {west, east, south, north} = bounds;
      const within = (low, value, high) => Math.max(low - near, Math.min(value, high + near));
      for (const area of areas.filter(({a, b}) => Math.max(a, b) <= Math.max(size, near))) {
        const centre = this.point(area);
        for (const corner of shape.outline(area, 16)) {
          take({
            east: within(west, centre.east + corner.east, east),
            north: within(south, centre.north + corner.north, north),
          }, 0);
        }
      }
      return bounds;
    }

    /** Shows the whole run. */
    fit() {
      if (!this.bounds) return;
      const {width, height} = this.box;
      const {west, east, south, north} = this.bounds;
      const across = ((1 - 2 * MARGIN) * width) / Math.max(east - west, 20);
      const along = ((1 - 2 * MARGIN) * this.free) / Math.max(north - south, 20);
      const scale = Math.max(1e-6, Math.min(across, along));
      const below = (height - this.free) / scale;
      this.isFitted = true;
      this.look({east: (west + east) / 2, north: (south + north - below) / 2, scale});
    }

    /** Asks the browser for the map's size, which is dear between changes, so only here. */
    measure() {
      const {clientWidth, clientHeight} = this.root;
      this.box = {width: clientWidth || 300, height: clientHeight || 150};
      // What lies on the map's lower end hides it: none of it where it stands below the map.
      const top = this.root.getBoundingClientRect().top;
      const covered = byId('below').getBoundingClientRect().top - top;
      this.free = Math.max(this.box.height / 2, Math.min(this.box.height, covered));
    }

    resize() {
      this.measure();
      if (this.isFitted) this.fit();
      else this.look(this.view);
    }

    /** @param {{east: number, north: number, scale: number}} view */
    look(view) {
      this.view = view;
      const {width, height} = this.box;
      this.root.setAttribute('viewBox', `0 0 ${width} ${height}`);
      this.ground.draw();
      this.drawScale(width, height);
      if (this.scene) this.draw(true);
    }

    /**
     * Closer or farther, about a point of the screen.
     * @param {number} factor @param {number} [x] @param {number} [y]
     */
    zoom(factor, x, y) {
      const {width, height} = this.box;
      const dx = (x ?? width / 2) - width / 2;
      const dy = (y ?? height / 2) - height / 2;
      const scale = Math.min(50, Math.max(1e-6, this.view.scale * factor));
      const shift = 1 / this.view.scale - 1 / scale;
      this.isFitted = false;
      this.look({east: this.view.east + dx * shift, north: this.view.north - dy * shift, scale});
    }

    /** @param {Point} point @returns {{x: number, y: number}} on the screen */
    screen({east, north}) {
      const {width, height} = this.box;
      return {
        x: width / 2 + (east - this.view.east) * this.view.scale,
        y: height / 2 - (north - this.view.north) * this.view.scale,
      };
    }

    /** @param {Scene} scene */
    show(scene) {
      this.scene = scene;
      this.draw(false);
    }

    /** Where a place is on the screen. @param {import('./geo.js').Place} place */
    screenOf(place) {
      return this.screen(this.point(place));
    }

    /** @param {boolean} isAnew whether all moves on the screen */
    draw(isAnew) {
      this.painter.draw(this.scene, isAnew);
      this.drawAreas();
      this.drawCircles();
      const unseen = [...this.scene.unseen, ...geostation.badges.leftOut(this.scene.badges),
      ...this.painter.unseen()];
      const words = unseen.length === 0 ? '' : `Not drawn: ${unseen.join('; ')}.`;
      const box = byId('unseen');
      if (box.textContent !== words) box.textContent = words;
    }

    drawCircles() {
      this.circles.begin();
      for (const {place, metres, isNew} of this.scene.circles.slice(-MOST_CIRCLES)) {
        const {x, y} = this.screenOf(place);
        const r = (metres * this.view.scale).toFixed(1);
        const circle = this.circles.next();
        set(circle, {cx: x.toFixed(1), cy: y.toFixed(1), r, class: `range${isNew ? ' new' : ''}`});
      }
      this.circles.finish();
    }

    drawAreas() {
      this.areas.begin();
      for (const area of this.scene.areas) {
        const centre = this.point(area);
        const points = shape.outline(area, 72).map(({east, north}) =>
          this.screen({east: centre.east + east, north: centre.north + north}));
        const text = points.map(({x, y}) => `${x.toFixed(1)} ${y.toFixed(1)}`).join('L');
        this.areas.next().setAttribute('d', `M${text}Z`);
      }
      this.areas.finish();
    }

    makeScale() {
      this.bar = svg('path', {class: 'bar'});
      this.barText = svg('text', {class: 'bar-text'});
      this.north = svg('path', {class: 'north'});
      this.northText = svg('text', {class: 'bar-text', 'text-anchor': 'middle'});
      this.northText.textContent = 'N';
      this.layers.scale.append(this.bar, this.barText, this.north, this.northText);
      this.grid = svg('path', {class: 'grid-lines'});
      this.layers.grid.append(this.grid);
    }

    /** @param {number} width @param {number} height */
    drawScale(width, height) {
      const metres = shape.roundLength(110 / this.view.scale);
      const long = metres * this.view.scale;
      const y = height - 18;
      set(this.bar, {d: `M16 ${y - 6}V${y}H${(16 + long).toFixed(1)}V${y - 6}`});
      set(this.barText, {x: (22 + long).toFixed(1), y: y + 1});
      this.barText.textContent = metres >= 1000 ? `${metres / 1000} km` : `${metres} m`;
      set(this.north, {d: 'M26 16l7 18-7-5-7 5z'});
      set(this.northText, {x: 26, y: 48});
      this.drawGrid(width, height, metres);
    }

    /**
     * Lines as far apart as the scale bar is long.
     * @param {number} width @param {number} height @param {number} metres
     */
    drawGrid(width, height, metres) {
      const step = metres * this.view.scale;
      const {x, y} = this.screen({east: 0, north: 0});
      let path = '';
      const first = (at) => ((at % step) + step) % step;
      for (let at = first(x); at < width; at += step) path += `M${at.toFixed(1)} 0V${height}`;
      for (let at = first(y); at < height; at += step) path += `M0 ${at.toFixed(1)}H${width}`;
      this.grid.setAttribute('d', path);
    }

    click(event, pickStation, pickFrame) {
      if (this.hasDragged || !this.scene) return;
      const found = this.painter.hit(event, this.at(event));
      if (found?.station !== undefined) pickStation(found.station);
      else if (found) pickFrame(found.frame, found.event);
    }

    /** Where an event of the pointer is on the map. @param {MouseEvent} event */
    at(event) {
      const box = this.root.getBoundingClientRect();
      return {x: event.clientX - box.left, y: event.clientY - box.top};
    }

    /** Wheel and pinch come closer, a drag moves the map. */
    listen() {
      const fingers = new Map();
      const at = (event) => this.at(event);
      this.root.addEventListener('wheel', (event) => {
        event.preventDefault();
        const {x, y} = at(event);
        this.zoom(Math.exp(-event.deltaY / 400), x, y);
      }, {passive: false});
      this.root.addEventListener('pointerdown', (event) => {
        if (fingers.size === 0) this.hasDragged = false;
        fingers.set(event.pointerId, at(event));
      });
      window.addEventListener('pointermove', (event) => {
        if (fingers.has(event.pointerId)) this.drag(fingers, event.pointerId, at(event));
      });
      const lift = (event) => fingers.delete(event.pointerId);
      window.addEventListener('pointerup', lift);
      window.addEventListener('pointercancel', lift);
    }

    /** @param {Map<number, {x: number, y: number}>} fingers @param {number} id */
    drag(fingers, id, now) {
      const before = fingers.get(id);
      const other = [...fingers].find(([key]) => key !== id)?.[1];
      if (!this.hasDragged && Math.hypot(now.x - before.x, now.y - before.y) < 4) return;
      this.hasDragged = true;
      fingers.set(id, now);
      if (other) {
        const reach = (finger) => Math.max(8, Math.hypot(finger.x - other.x, finger.y - other.y));
        this.zoom(reach(now) / reach(before), other.x, other.y);
        return;
      }
      const {scale} = this.view;
      const east = this.view.east - (now.x - before.x) / scale;
      const north = this.view.north + (now.y - before.y) / scale;
      this.isFitted = false;
      this.look({east, north, scale});
    }
  }

  geostation.map = {RunMap, MOST_LINKS, MOST_CIRCLES};
})(globalThis.geostation ??= {});
