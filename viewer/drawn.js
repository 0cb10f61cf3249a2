//! Stations, trails and frames as elements of the map, for runs of up to some hundred stations.

(function (geostation) {
  'use strict';

  const {svg, set, grouped, Pool} = geostation.dom;
  const {badges, names, shape} = geostation;
  const LONGEST_TRAIL = 200;
  /** With more than these, lines have no tips. */
  const MANY_LINKS = 120;
  const KINDS = ['accepted', 'duplicate', 'other', 'refused', 'lost'];

  class Drawn {
    /** @param {Record<string, SVGElement>} layers @param {any} map that says what is where */
    constructor(layers, map) {
      this.layers = layers;
      this.map = map;
      this.links = new Pool(makeLink, layers.links);
      this.rings = new Pool(() => svg('path', {class: 'hold'}), layers.holds);
      this.labels = new Pool(makeLabel, layers.labels);
      this.corners = new Pool(() => svg('path', {class: 'tested'}), layers.tested);
      this.signs = new Pool(makeSign, layers.badges);
    }

    /** @param {import('./run.js').Run} run */
    begin(run) {
      this.run = run;
      const {length} = run.stations;
      const radius = length <= names.MOST ? 8 : length <= 300 ? 5 : 3.5;
      this.stations = run.stations.map((_, i) => this.makeStation(i, radius));
      this.layers.stations.replaceChildren(...this.stations.map(({dot}) => dot));
      this.layers.sender.replaceChildren();
      this.layers.trails.replaceChildren();
    }

    /** @param {number} index @param {number} radius */
    makeStation(index, radius) {
      const d = shape.markPath('circle', radius);
      const dot = svg('path', {class: 'station', d, 'data-station': index});
      const title = svg('title');
      title.textContent = `station ${this.run.name(index)}, ${this.run.stations[index].address}`;
      dot.append(title);
      return {dot, radius, mark: 'circle', trail: undefined, place: undefined, role: '', x: 0,
        y: 0, isShown: true};
    }

    /** @param {any} scene @param {boolean} isAnew whether all moves on the screen */
    draw(scene, isAnew) {
      this.scene = scene;
      this.expected = 0;
      this.stations.forEach((station, index) => this.drawStation(station, index, isAnew));
      this.drawTested();
      this.drawLabels();
      this.drawLinks();
      this.drawRings();
    }

    /** The names of the stations in sight, where these are few, and as far as they have room. */
    drawLabels() {
      const {stations, map, run} = this;
      const placeOf = (i) => (stations[i].isShown ? stations[i] : undefined);
      this.labelled = names.inSight(stations.length, placeOf, map.box);
      const items = (this.labelled ?? []).map((station) =>
        ({...stations[station], station, text: run.name(station)}));
      const places = names.placed(items, this.placedSigns.map(badges.boxOf));
      this.unnamed = items.length - places.size;
      this.labels.begin();
      for (const [station, {x, y, isInside}] of places) {
        const label = this.labels.next();
        const kind = isInside ? 'label' : 'place-name';
        set(label, {x: x.toFixed(1), y: (y + 3.8).toFixed(1),
          class: `${kind} ${stations[station].role}`});
        write(label, run.name(station));
      }
      this.labels.finish();
    }

    /** @param {any} station @param {number} index @param {boolean} isAnew */
    drawStation(station, index, isAnew) {
      const {at, noted, active, chosen, roles} = this.scene;
      const place = this.run.placeAt(index, at);
      if (isAnew || place.lat !== station.place?.lat || place.lon !== station.place?.lon) {
        station.place = place;
        Object.assign(station, this.map.screenOf(place));
        const [x, y] = [station.x.toFixed(1), station.y.toFixed(1)];
        station.dot.setAttribute('transform', `translate(${x} ${y})`);
        this.drawTrail(station, index);
      }
      const presence = this.run.presence.stateOf(index, noted, at);
      this.showStation(station, presence !== 'expected');
      const role = [roles.get(index) ?? '', index === active ? 'active' : '',
        index === chosen ? 'chosen' : '', presence === 'there' ? '' : 'away'].join(' ');
      if (role === station.role) return;
      station.role = role;
      station.dot.setAttribute('class', `station ${role}`);
      this.drawMark(station);
    }

    /** Hides a station that has not come, with its trail. @param {any} station */
    showStation(station, isShown) {
      if (!isShown) this.expected += 1;
      if (isShown === station.isShown) return;
      station.isShown = isShown;
      for (const part of [station.dot, station.trail]) {
        if (part) part.style.display = isShown ? '' : 'none';
      }
    }

    /** Gives a station the mark of its role. The sender lies above the others. */
    drawMark(station) {
      const mark = shape.markOf(station.role);
      if (mark === station.mark) return;
      station.mark = mark;
      station.dot.setAttribute('d', shape.markPath(mark, station.radius));
      this.layers[mark === 'star' ? 'sender' : 'stations'].append(station.dot);
    }

    /** @param {any} station @param {number} index */
    drawTrail(station, index) {
      if (this.run.moves.of(index).length === 0) return;
      if (!station.trail) {
        station.trail = svg('polyline', {class: 'trail'});
        this.layers.trails.append(station.trail);
      }
      const places = this.run.trail(index, this.scene.at, LONGEST_TRAIL);
      const points = places.map((place) => this.map.screenOf(place));
      const text = points.map(({x, y}) => `${x.toFixed(1)},${y.toFixed(1)}`).join(' ');
      station.trail.setAttribute('points', points.length > 1 ? text : '');
    }

    drawLinks() {
      this.links.begin();
      const {links} = this.scene;
      this.layers.links.classList.toggle('many', links.length > MANY_LINKS);
      for (const link of links) {
        const from = this.stations[link.from];
        const to = this.stations[link.to];
        if (!from || !to || from === to) continue;
        const arc = shape.arc(from, to, to.radius + 3);
        if (arc) this.drawLink(link, shape.pathOf(arc));
      }
      this.links.finish();
    }

    /** @param {import('./map.js').Link} link @param {string} path */
    drawLink(link, path) {
      const group = this.links.next();
      const kind = `link ${link.kind}${link.isNew ? ' new' : ''}`;
      const {frame, event} = group.dataset;
      if (frame !== String(link.frame)) group.dataset.frame = String(link.frame);
      if (event !== String(link.event)) group.dataset.event = String(link.event);
      if (group.getAttribute('class') !== kind) group.setAttribute('class', kind);
      if (group.firstChild.getAttribute('d') === path) return;
      for (const line of group.children) line.setAttribute('d', path);
    }

    /** The rings of stations that hold a frame, crossed ones where it was cancelled. */
    drawRings() {
      this.rings.begin();
      for (const [index, kind] of this.scene.holds) {
        const {x, y, radius, isShown} = this.stations[index] ?? {isShown: false};
        if (!isShown) continue;
        set(this.rings.next(), {class: `hold ${kind}`, d: shape.ringPath(kind, 1.4 * radius + 3),
          transform: `translate(${x.toFixed(1)} ${y.toFixed(1)})`});
      }
      this.rings.finish();
    }

    /** The corners around the station under test, and the signs of its verdicts. */
    drawTested() {
      const {tested, badges: all} = this.scene;
      const station = this.stations[tested];
      const isShown = station?.isShown ?? false;
      this.placedSigns = isShown ? badges.placed(all, station, this.map.box.width) : [];
      this.corners.begin();
      if (isShown) {
        set(this.corners.next(), {d: shape.cornersPath(badges.reachOf(station.radius)),
          transform: `translate(${station.x.toFixed(1)} ${station.y.toFixed(1)})`});
      }
      this.corners.finish();
      this.signs.begin();
      for (const sign of this.placedSigns) writeSign(this.signs.next(), sign);
      this.signs.finish();
    }

    /** What a click is at. @param {MouseEvent} event */
    hit(event) {
      const target = /** @type {Element} */ (event.target);
      const station = target.closest('[data-station]');
      if (station) return {station: Number(station.dataset.station)};
      const link = target.closest('[data-frame]');
      if (!link) return undefined;
      return {frame: Number(link.dataset.frame), event: Number(link.dataset.event)};
    }

    /** What isn't drawn of a run. */
    unseen() {
      const {length} = this.run.stations;
      const parts = this.labelled ? names.leftOut(this.unnamed)
        : [`the names of ${grouped(length)} stations`];
      return [...names.notPlaced(this.run, this.expected), ...parts];
    }

    clear() {
      for (const name of ['stations', 'sender', 'trails']) this.layers[name].replaceChildren();
      for (const pool of [this.links, this.rings, this.labels, this.corners, this.signs]) {
        pool.begin();
        pool.finish();
      }
    }
  }

  function makeMarkers() {
    const defs = svg('defs');
    for (const kind of KINDS) {
      const size = kind === 'accepted' ? 10 : 7;
      const marker = svg('marker', {id: `tip-${kind}`, class: `tip ${kind}`, viewBox: '0 0 8 8',
        refX: 6.5, refY: 4, markerUnits: 'userSpaceOnUse', orient: 'auto',
        markerWidth: size, markerHeight: size});
      marker.append(svg('path', {d: 'M0.5 0.5L7.5 4L0.5 7.5z'}));
      defs.append(marker);
    }
    return defs;
  }

  /** The name of a station. */
  function makeLabel() {
    return svg('text');
  }

  /** @param {Element} element @param {string} text */
  function write(element, text) {
    if (element.textContent !== text) element.textContent = text;
  }

  /** A line that is seen, and a wider one to click at. */
  function makeLink() {
    const group = svg('g', {class: 'link'});
    group.append(svg('path', {class: 'hit'}), svg('path', {class: 'seen'}));
    return group;
  }

  /** The sign of a verdict: a circle with a stroke of another shape for each result. */
  function makeSign() {
    const sign = svg('g');
    sign.append(svg('circle', {r: badges.RADIUS}), svg('path'), svg('title'));
    return sign;
  }

  /** @param {any} sign @param {import('./badges.js').Badge & {x: number, y: number}} badge */
  function writeSign(sign, {frame, event, result, x, y}) {
    const [, path, title] = sign.children;
    set(sign, {class: `badge ${result}`, 'data-frame': frame, 'data-event': event,
      transform: `translate(${x.toFixed(1)} ${y.toFixed(1)})`});
    path.setAttribute('d', shape.SIGNS[result]);
    write(title, `frame ${frame}: ${result}`);
  }

  geostation.drawn = {Drawn, makeMarkers, makeSign};
})(globalThis.geostation ??= {});
