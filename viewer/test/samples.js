//! The sample runs. `node viewer/test/samples.js` writes those in `data/` and the page's own
//! `sample.js`; the large one is made anew by each test and never kept.

'use strict';

const fs = require('node:fs');
const path = require('node:path');
const {frame} = require('./encode.js');
const {World} = require('./world.js');
const {TOP} = require('./load.js');

const DATA = path.join(__dirname, 'data');
const LOSS = path.join(DATA, 'loss.jsonl');
const COMERS = path.join(DATA, 'comers.jsonl');

/** Four stations 400 m apart, and a warning for where the last one stands. */
function four() {
  const places = [0, 36000, 72000, 108000].map((lat) => ({lat, lon: 0}));
  const world = new World({range: 500, until: 5000}, places);
  world.put(0, 3, 'open', {port: 2002});
  const area = {shape: 'circle', lat: 108000, lon: 0, a: 100, b: 0, angle: 0};
  world.put(1000, 0, 'gbc', {area, port: 2002, payload: '6869'});
  return world.run();
}

/** The legs of a road: their lengths in metres, and headings in degrees. */
const LEGS = [[880, 74], [760, 338], [9000, 74]];

/** The place `along` metres from the road's beginning and `aside` to its right. */
function onRoad(along, aside) {
  let [north, east, rest] = [0, 0, along];
  for (const [length, heading] of LEGS) {
    const turn = (heading * Math.PI) / 180;
    const here = Math.min(rest, length);
    north += here * Math.cos(turn);
    east += here * Math.sin(turn);
    rest -= here;
    if (rest > 0) continue;
    north -= aside * Math.sin(turn);
    east += aside * Math.cos(turn);
    break;
  }
  const shrink = Math.cos((48.137 * Math.PI) / 180);
  return {
    lat: 481370000 + Math.round(north / 0.011132),
    lon: 115750000 + Math.round(east / 0.011132 / shrink),
  };
}

/** Twelve vehicles on a road with two bends, both ways, and what three of them have to tell. */
function road() {
  const along = [2480, 2270, 2040, 1850, 1590, 1370, 1150, 960, 730, 540, 300, 120];
  const aside = (i) => (i % 3 === 1 ? -9 : 9);
  const world = new World({range: 430, until: 22000}, along.map((s, i) => onRoad(s, aside(i))));
  for (let i = 1; i < 12; i += 1) world.put(0, i, 'open', {port: 2002});
  for (let i = 0; i < 12; i += 1) {
    const pace = aside(i) < 0 ? 6 : (i % 3) - 9;
    for (let second = 1; second <= 20; second += 2) {
      const place = onRoad(Math.max(5, along[i] + pace * second), aside(i));
      const motion = {speed: 100 * Math.abs(pace), heading: pace > 0 ? 740 : 2540};
      world.put(1000 * second + 60 * i, i, 'move', {...place, ...motion});
    }
  }
  const ice = {shape: 'rectangle', ...onRoad(430, 0), a: 480, b: 45, angle: 74};
  world.put(10000, 0, 'gbc', {area: ice, port: 2002, payload: '696365'});
  const works = {shape: 'ellipse', ...onRoad(1260, 0), a: 470, b: 130, angle: 338};
  world.put(14300, 11, 'gbc', {area: works, port: 2002, payload: '776f726b73', hops: 6});
  const help = {shape: 'circle', ...onRoad(1900, 0), a: 160, b: 0, angle: 0};
  world.put(18300, 9, 'gac', {area: help, port: 2002, payload: '68656c70'});
  return world.run();
}

/**
 * A hundred vehicles in streets 200 m apart, each in range of many others. Vehicle 50 warns all
 * within 500 m, and most frames of the warning are duplicates to most that receive them.
 */
function dense() {
  let seed = 3;
  const draw = (below) => {
    seed = (seed * 1103515245 + 12345) % 2 ** 31;
    return Math.floor((seed / 2 ** 31) * below);
  };
  const shrink = Math.cos((48.137 * Math.PI) / 180);
  const places = Array.from({length: 100}, (_, i) => {
    const [along, street] = [draw(1200), 200 * draw(7)];
    const [east, north] = i % 2 === 0 ? [along, street] : [street, along];
    return {lat: 481366820 + Math.round(north / 0.011132),
      lon: 115754230 + Math.round(east / (0.011132 * shrink))};
  });
  const world = new World({range: 300, until: 2000}, places);
  for (let i = 0; i < 100; i += 1) if (i !== 50) world.put(0, i, 'open', {port: 2002});
  const area = {shape: 'circle', ...places[50], a: 500, b: 0, angle: 0};
  world.put(1000, 50, 'gbc', {area, port: 2002, payload: '696365'});
  return world.run();
}

/** In the city one station in so many comes, and one leaves. */
const COMERS_EVERY = 50;

/** A town of 1000 stations and 200,000 events: a warning every 50 ms, each for a block or two. */
function town() {
  let seed = 1;
  const draw = (below) => {
    seed = (Math.imul(seed, 1103515245) + 12345) >>> 0;
    return Math.floor((seed / 2 ** 32) * below);
  };
  const places = Array.from({length: 1000}, (_, i) => ({
    lat: 481000000 + 9000 * Math.floor(i / 32) + draw(3000),
    lon: 115000000 + 13500 * (i % 32) + draw(4500),
  }));
  const world = new World({range: 240, until: 1e9, most: 200000}, places);
  for (let i = 0; i < 1000; i += 1) world.put(0, i, 'open', {port: 2002});
  for (let i = 0; i < 1000; i += 1) world.put(100 + i, i, 'tick');
  for (let i = 0; i < 2000; i += 1) {
    const station = draw(1000);
    const {lat, lon} = places[station];
    const area = {shape: 'circle', lat, lon, a: 400 + draw(400), b: 0, angle: 0};
    world.put(2000 + 50 * i, station, 'gbc', {area, port: 2002, payload: '6869'});
  }
  return world.run();
}

/**
 * A city of 100 by 100 stations that move, hear their eight neighbours, and warn some blocks. One
 * copy in ten is lost; some stations come, others leave.
 */
class City {
  /** @param {string} file @param {number} most events */
  constructor(file, most) {
    this.most = most;
    this.side = 100;
    this.file = fs.openSync(file, 'w');
    this.lines = [];
    this.events = 0;
    this.frames = 0;
    this.numbers = 0;
    this.stations = Array.from({length: this.side ** 2}, (_, i) => ({
      address: `1400${(i + 0x20000000001).toString(16).padStart(12, '0')}`,
      lat: 481000000 + 9000 * Math.floor(i / this.side), lon: 115000000 + 13500 * (i % this.side),
    }));
    this.neighbours = this.stations.map((_, i) => this.around(i));
    this.away = new Set([...this.stations.keys()].filter((i) => i % COMERS_EVERY === 7));
    const air = {range: 150, delay: 1, loss: 10, seed: 1, beacons: true, until: null};
    this.lines.push(JSON.stringify({stations: this.stations, air}));
  }

  around(i) {
    const [x, y] = [i % this.side, Math.floor(i / this.side)];
    const near = [[-1, -1], [0, -1], [1, -1], [-1, 0], [1, 0], [-1, 1], [0, 1], [1, 1]];
    return near.map(([dx, dy]) => [x + dx, y + dy])
      .filter(([a, b]) => a >= 0 && b >= 0 && a < this.side && b < this.side)
      .map(([a, b]) => b * this.side + a);
  }

  event(moment, station, rest) {
    if (this.events === this.most) return;
    this.lines.push(`{"event":${this.events},"moment":${moment},"station":${station},${rest}}`);
    this.events += 1;
    if (this.lines.length > 20000) this.flush();
  }

  flush() {
    fs.writeSync(this.file, this.lines.join('\n') + '\n');
    this.lines = [];
  }

  note(word, moment, station, rest = '') {
    if (this.events === this.most) return;
    this.lines.push(`{"note":"${word}","moment":${moment},"station":${station}${rest}}`);
  }

  move(moment, i) {
    const place = this.stations[i];
    place.lat += (i % 7) * 20 - 60;
    this.event(moment, i, `"do":"move","lat":${place.lat},"lon":${place.lon},"result":"moved"`);
    if (this.away.delete(i)) this.note('came', moment, i);
    else if (i % COMERS_EVERY === 21) {
      this.away.add(i);
      this.note('left', moment, i);
    }
  }

  /** The stations that hear a frame; of those that lost it a note tells. */
  hearers(moment, i) {
    const number = this.frames - 1;
    return this.neighbours[i].filter((other) => {
      if (this.away.has(other)) return false;
      const isLost = (number * 7 + other * 3) % 10 === 0;
      if (isLost) this.note('lost', moment, other, `,"frame":${number}`);
      return !isLost;
    });
  }

  give(packet, i) {
    const {address, lat, lon} = this.stations[i];
    const source = {address, tst: 0, lat, lon, pai: true, speed: 0, heading: 0};
    this.frames += 1;
    const octets = frame('ffffffffffff', address.slice(4), {lifetime: 26, left: 10, max: 10, tc: 0,
      source, ...packet});
    return `"sent":${this.frames - 1},"octets":"${octets}"`;
  }

  beacon(moment, i) {
    if (this.away.has(i)) return;
    const given = this.give({kind: 'beacon', left: 1, max: 1}, i);
    this.event(moment, i, `"do":"tick","result":"sent",${given}`);
    const number = this.frames - 1;
    for (const other of this.hearers(moment, i)) {
      this.event(moment + 1, other, `"do":"deliver","frame":${number},"result":"accepted"`);
    }
  }

  /** A warning for the blocks round a station; who has it relays it. */
  warn(moment, i) {
    const {lat, lon} = this.stations[i];
    const area = {shape: 'circle', lat, lon, a: 1500, b: 0, angle: 0};
    const packet = {kind: 'gbc', number: this.numbers % 65536, area, port: 2002, info: 0,
      payload: '6869'};
    this.numbers += 1;
    this.event(moment, i, `"do":"gbc","result":"sent",${this.give(packet, i)}`);
    const known = new Set([i]);
    let waiting = [[this.frames - 1, this.hearers(moment, i)]];
    for (let hop = 1; hop < 9; hop += 1) {
      const next = [];
      for (const [number, hearers] of waiting) {
        for (const other of hearers) {
          const start = `"do":"deliver","frame":${number}`;
          if (known.has(other)) {
            this.event(moment + hop, other, `${start},"result":"ignored","why":"duplicate"`);
            continue;
          }
          known.add(other);
          const given = this.give({...packet, left: 10 - hop}, other);
          this.event(moment + hop, other, `${start},"result":"accepted","port":2002,"info":0,` +
            `"payload":"6869",${given}`);
          next.push([this.frames - 1, this.hearers(moment + hop, other)]);
        }
      }
      waiting = next;
    }
  }
}

/** Writes the city's run into a file. @param {string} file @param {number} most events */
function city(file, most) {
  const made = new City(file, most);
  const count = made.stations.length;
  for (let i = 0; i < count; i += 1) made.event(0, i, '"do":"open","result":"opened"');
  for (let turn = 0; made.events < most; turn += 1) {
    for (let i = 0; i < count && made.events < most; i += 1) {
      const moment = 1000 * turn + 10 + Math.floor(i / 10);
      if (turn % 3 === 0) made.beacon(moment, i);
      else made.move(moment, i);
      if (i % 1000 === 500) made.warn(moment, (i * 37 + turn * 911) % count);
    }
  }
  made.flush();
  fs.closeSync(made.file);
}

/** A run of the program that is kept, as `loss`, the road with losses. @param {string} name */
function kept(name) {
  return fs.readFileSync(path.join(DATA, `${name}.jsonl`), 'utf8');
}

/** The road with losses, as the program ran it, with the notes of what was lost. */
function loss() {
  return kept('loss');
}

if (require.main === module) {
  fs.mkdirSync(DATA, {recursive: true});
  fs.writeFileSync(path.join(DATA, 'four.jsonl'), four());
  fs.writeFileSync(path.join(DATA, 'road.jsonl'), road());
  fs.writeFileSync(path.join(TOP, 'sample.js'), pageSample());
}

/** The script that holds the road for the page's own button. */
function pageSample() {
  return `//! A sample run, made by test/samples.js: twelve vehicles on a road, three in ten
//! frames lost, and a warning of ice, three times.

(function (geostation) {
  'use strict';

  geostation.sample = String.raw\`
${loss()}\`.slice(1);
})(globalThis.geostation ??= {});
`;
}

module.exports = {dense, four, road, town, city, kept, loss, pageSample, DATA, LOSS, COMERS};
