//! A run: its stations, events, frames and notes, and where its stations were at each event.

(function (geostation) {
  'use strict';

  const {Events, Frames, Notes, RESULT} = geostation.events;
  const {Groups, countUpTo} = geostation.columns;

  /**
   * @typedef {object} Station
   * @property {string} address
   * @property {number} lat where it begins
   * @property {number} lon
   * @property {string} [id] its name in the file of moves
   * @property {number} born how many events were run before it was made, 0 of the scenario's own
   */

  /**
   * @typedef {object} Air how frames are heard, as the first line tells
   * @property {number} range in metres
   * @property {number} delay in milliseconds
   * @property {number} loss in percent
   * @property {boolean} beacons whether each station that is there sends beacons by itself
   * @property {boolean} contends whether a station contends
   * @property {number | null} until the last moment that is run
   */

  /** No line of an event is shorter, in octets. */
  const SHORTEST_LINE = 64;
  /** More events than these get their room once they are there. */
  const MOST_ROOM = 1 << 22;

  /** A run, which `reading.js` fills. */
  class Run {
    /** @param {number} [size] of its text in octets */
    constructor(size = 0) {
      const room = Math.min(MOST_ROOM, Math.ceil(size / SHORTEST_LINE));
      /** @type {Station[]} */
      this.stations = [];
      this.events = new Events(Math.max(1024, room));
      this.frames = new Frames();
      this.notes = new Notes();
      /** @type {Air | undefined} */
      this.air = undefined;
      /** The station of each id, once all are there. @type {Map<string, number>} */
      this.ids = new Map();
      /** The lines of `--summary` behind the run, by the event of their send. */
      this.summaries = new Map();
      /** Whether it is a capture: it has no receptions. */
      this.isCapture = false;
    }

    /** Puts events and notes into groups, once all are there. */
    end() {
      const {events, notes, stations, frames} = this;
      const {length} = events;
      const most = stations.length;
      this.byStation = new Groups(events.station.values, most, length);
      this.moves = new Groups(movers(events), most);
      this.deliveries = new Groups(deliveredFrames(events, frames), frames.length);
      this.lost = new Groups(lostFrames(notes), frames.length);
      this.notesOf = new Groups(notes.station.values, most, notes.length);
      this.times = risingTimes(events);
      this.entries = new geostation.entries.Entries(events, notes);
      this.held = new geostation.held.Held(this);
      this.ids = new Map(stations.map(({id}, i) => [id, i]).filter(([id]) => id !== undefined));
      this.presence = new geostation.presence.Presence(this);
      geostation.presence.findNever(this);
      return this;
    }

    /** A moment's digits. @param {number} index */
    moment(index) {
      return this.events.exact.get(index) ?? String(this.events.moment.values[index]);
    }

    /** The digits of a note's moment. @param {number} note */
    noteMoment(note) {
      return this.notes.exact.get(note) ?? String(this.notes.moment.values[note]);
    }

    /**
     * The milliseconds from one event to another, exact.
     * @param {number} from @param {number} to
     */
    elapsed(from, to) {
      return BigInt(this.moment(to)) - BigInt(this.moment(from));
    }

    /** Where a station stands once an event was run. @param {number} station @param {number} at */
    placeAt(station, at) {
      const moves = this.moves.of(station);
      const count = countUpTo(moves, at);
      return count === 0 ? this.stations[station] : this.place(moves[count - 1]);
    }

    /** The place of a move. @param {number} event @returns {import('./geo.js').Place} */
    place(event) {
      return {lat: this.events.lat.values[event], lon: this.events.lon.values[event]};
    }

    /**
     * The places at which a station stood, its first included, at most so many, the last ones.
     * @param {number} station @param {number} at @param {number} [most]
     */
    trail(station, at, most = Infinity) {
      const moves = this.moves.of(station);
      const count = countUpTo(moves, at);
      const moved = Array.from(moves.subarray(Math.max(0, count - most), count));
      const places = moved.map((event) => this.place(event));
      return count < most ? [this.stations[station], ...places] : places;
    }

    /**
     * Whether a station is present after an event was run, and after all notes that follow it.
     * @param {number} station @param {number} at the event
     */
    isPresent(station, at) {
      return this.presence.isThere(station, this.entries.notesUpTo(at), at);
    }

    /**
     * The name that a station is shown by everywhere: its id, or otherwise its number. A number
     * that is the id of another station has a sign in front.
     * @param {number} station
     */
    name(station) {
      const number = String(station);
      return this.stations[station]?.id ?? (this.ids.has(number) ? `#${number}` : number);
    }

    /** The station of a name. @param {string} name @returns {number | undefined} */
    find(name) {
      const number = /^#?(\d+)$/.exec(name)?.[1];
      const station = this.ids.get(name) ?? Number(number ?? -1);
      return this.stations[station] && this.name(station) === name ? station : undefined;
    }
  }

  /** The station of each event that is a move, -1 of others. @param {any} events */
  function movers({length, result, station}) {
    const keys = new Int32Array(length).fill(-1);
    for (let i = 0; i < length; i += 1) {
      if (result.values[i] === RESULT.moved) keys[i] = station.values[i];
    }
    return keys;
  }

  /** The frame of each event that delivers one that was given before, -1 of others. */
  function deliveredFrames(events, frames) {
    const keys = new Int32Array(events.length).fill(-1);
    const {values} = events.frame;
    const giver = frames.giver.values;
    for (let i = 0; i < keys.length; i += 1) {
      const frame = values[i];
      if (events.isDelivery(i) && frame < frames.length && giver[frame] < i) keys[i] = frame;
    }
    return keys;
  }

  /** The frame of each note that one was lost, -1 of others. @param {any} notes */
  function lostFrames(notes) {
    const keys = new Int32Array(notes.length).fill(-1);
    for (let i = 0; i < keys.length; i += 1) {
      if (notes.is(i, 'lost')) keys[i] = notes.frame.values[i];
    }
    return keys;
  }

  /** The greatest moment up to each event: moments of a scenario without an air may fall. */
  function risingTimes(events) {
    const times = new Float64Array(events.length);
    const {values} = events.moment;
    let latest = 0;
    for (let i = 0; i < times.length; i += 1) {
      if (values[i] > latest) latest = values[i];
      times[i] = latest;
    }
    return times;
  }

  geostation.run = {Run};
})(globalThis.geostation ??= {});
