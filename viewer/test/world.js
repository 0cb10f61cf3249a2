//! A small world for the samples: stations, an air that delivers each frame to those in range, and
//! the lines that `sim --json` prints of it. It knows no sessions, no faults and no full tables.

'use strict';

const {frame} = require('./encode.js');
const {load} = require('./load.js');

const {contains, offset} = load().geo;
const BROADCAST = 'ffffffffffff';

/** @param {object} centre @param {object} place @returns {bigint} in square centimetres */
function distance2(centre, place) {
  const {north, east} = offset(centre, place);
  return north * north + east * east;
}

/** Events by their moments, those of one moment in the order in which they were put. */
class Queue {
  constructor() {
    this.byMoment = new Map();
    this.moments = [];
  }

  put(moment, event) {
    if (this.byMoment.has(moment)) this.byMoment.get(moment).push(event);
    else {
      this.byMoment.set(moment, [event]);
      const at = this.moments.findIndex((other) => other > moment);
      this.moments.splice(at < 0 ? this.moments.length : at, 0, moment);
    }
  }

  take() {
    if (this.moments.length === 0) return undefined;
    const moment = this.moments[0];
    const events = this.byMoment.get(moment);
    const event = events.shift();
    if (events.length === 0) {
      this.byMoment.delete(moment);
      this.moments.shift();
    }
    return {moment, ...event};
  }
}

class World {
  /** @param {{range: number, delay?: number, until: number, most?: number}} air */
  constructor(air, places) {
    this.air = {delay: 1, most: Infinity, ...air};
    this.stations = places.map(({lat, lon}, i) => ({
      address: '14000200' + (i + 1).toString(16).padStart(8, '0'),
      lat, lon, pai: false, speed: 0, heading: 0, tst: 0,
      ports: new Set(), number: 0, known: new Map(),
    }));
    const stations = this.stations.map(({address, lat, lon}) => ({address, lat, lon}));
    this.lines = [JSON.stringify({stations})];
    this.queue = new Queue();
    this.frames = [];
    this.near = new Map();
  }

  /** Puts an event of the scenario. */
  put(moment, station, what, more = {}) {
    this.queue.put(moment, {station, do: what, ...more});
  }

  /** @returns {string} the lines of the run */
  run() {
    for (let event = this.queue.take(); event; event = this.queue.take()) {
      if (event.moment > this.air.until || this.lines.length > this.air.most) break;
      this.step(event);
    }
    return this.lines.join('\n') + '\n';
  }

  step({moment, station, do: what, ...more}) {
    const self = this.stations[station];
    const shown = what === 'deliver' ? {frame: more.frame} : {};
    if (what === 'move') Object.assign(shown, {lat: more.lat, lon: more.lon});
    const {octets, ...result} = this[what](self, moment, more, station);
    const head = {event: this.lines.length - 1, moment, station, do: what, ...shown};
    if (octets === undefined) {
      this.lines.push(JSON.stringify({...head, ...result}));
      return;
    }
    this.lines.push(JSON.stringify({...head, ...result, sent: this.frames.length - 1, octets}));
    for (const other of this.neighbours(station)) {
      this.put(moment + this.air.delay, other, 'deliver', {frame: this.frames.length - 1});
    }
  }

  /** The others in range; kept, as long as none moves. */
  neighbours(station) {
    if (!this.near.has(station)) {
      const limit = BigInt(100 * this.air.range) ** 2n;
      const self = this.stations[station];
      const others = [...this.stations.keys()].filter((i) => i !== station &&
        distance2(self, this.stations[i]) <= limit);
      this.near.set(station, others);
    }
    return this.near.get(station);
  }

  open(self, _moment, {port}) {
    self.ports.add(port);
    return {result: 'opened'};
  }

  move(self, moment, {lat, lon, speed, heading}) {
    Object.assign(self, {lat, lon, pai: true, speed, heading, tst: moment});
    this.near.clear();
    return {result: 'moved'};
  }

  tick(self) {
    const source = {...self};
    const packet = {kind: 'beacon', lifetime: 0x1a, left: 1, max: 1, tc: 0, source};
    return {result: 'sent', octets: this.give(BROADCAST, self, packet)};
  }

  gbc(self, _moment, request) {
    return this.send(self, 'gbc', request);
  }

  gac(self, _moment, request) {
    return this.send(self, 'gac', request);
  }

  send(self, kind, {area, port, payload, hops = 10}) {
    const packet = {kind, lifetime: 26, left: hops, max: hops, tc: 0, number: self.number,
      source: {...self}, area, port, info: 0, payload};
    self.number += 1;
    return {result: 'sent', octets: this.give(this.choose(self, area), self, packet)};
  }

  give(to, self, packet) {
    const from = self.address.slice(4);
    const octets = frame(to, from, packet);
    this.frames.push({to, from, packet});
    return octets;
  }

  deliver(self, _moment, {frame: k}) {
    const {to, from, packet} = this.frames[k];
    const ignored = (why) => ({result: 'ignored', why});
    if (to !== BROADCAST && to !== self.address.slice(4)) return ignored('not-for-me');
    if (packet.source.address === self.address) return ignored('own-source');
    const known = self.known.get(packet.source.address) ?? {numbers: [], neighbour: false};
    if (known.numbers.includes(packet.number)) return ignored('duplicate');
    known.vector = packet.source;
    self.known.set(packet.source.address, known);
    if (packet.kind === 'beacon') {
      known.neighbour = true;
      return {result: 'accepted'};
    }
    known.numbers = [...known.numbers.slice(-7), packet.number];
    return this.accept(self, from, packet);
  }

  accept(self, from, packet) {
    const {area, port, info, payload, kind} = packet;
    const result = {result: 'accepted'};
    const inside = contains(area, self);
    if (inside && self.ports.has(port)) Object.assign(result, {port, info, payload});
    if (packet.left === 1 || (kind === 'gac' && inside)) return result;
    const to = this.choose(self, area, from);
    if (to === undefined) return result;
    return {...result, octets: this.give(to, self, {...packet, left: packet.left - 1})};
  }

  /** The link target of a packet, undefined where it isn't sent. */
  choose(self, area, sender) {
    if (contains(area, self)) return BROADCAST;
    const known = [...self.known.values()];
    const from = sender && known.find(({vector}) => vector.address.slice(4) === sender);
    if (from && from.vector.pai && contains(area, from.vector)) return undefined;
    let best = {far: distance2(area, self)};
    for (const {vector, neighbour} of known) {
      const far = distance2(area, vector);
      if (neighbour && far < best.far) best = {far, vector};
    }
    return best.vector ? best.vector.address.slice(4) : BROADCAST;
  }
}

module.exports = {World};
