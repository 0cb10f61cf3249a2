//! Location tables: how many sources each station knows at a moment.

(function (geostation) {
  'use strict';

  const {DO, RESULT} = geostation.events;
  const {Table, Words} = geostation.columns;
  /** How long an entry lives, in milliseconds. */
  const ENTRY_LIFE = 20000;

  /** The location tables of all stations, or of one. */
  class Tables {
    /** @param {import('./run.js').Run} run @param {number | undefined} station */
    constructor(run, station) {
      this.run = run;
      this.station = station;
      /** The number of each frame's source, 0 of one that is no packet. */
      this.sources = new Int32Array(run.frames.length);
      const words = new Words();
      for (let frame = 0; frame < this.sources.length; frame += 1) {
        this.sources[frame] = geostation.peek.source(run.frames, frame, words);
      }
      /** The latest moment of each source, by station. @type {Map<number, number>[]} */
      this.known = run.stations.map(() => new Map());
      /** The entries in the order of their moments, of which those before `first` have expired. */
      this.entries = new Table({station: Int32Array, source: Int32Array, moment: Float64Array});
      this.first = 0;
    }

    /** @param {number} index of an event */
    take(index) {
      const {events} = this.run;
      const station = events.station.values[index];
      const result = events.result.values[index];
      if (this.station !== undefined && station !== this.station) return;
      if (result === RESULT.restarted) this.known[station]?.clear();
      if (result !== RESULT.accepted || events.do.values[index] !== DO.deliver) return;
      const source = this.sources[events.frame.values[index]] ?? 0;
      const moment = events.moment.values[index];
      if (source > 0) this.add(station, source, moment);
    }

    /** @param {number} station @param {number} source @param {number} moment */
    add(station, source, moment) {
      const own = this.known[station];
      if (!own) return;
      own.set(source, moment);
      const i = this.entries.next();
      this.entries.station.values[i] = station;
      this.entries.source.values[i] = source;
      this.entries.moment.values[i] = moment;
    }

    /** Entries of the fullest table before a moment. @param {number} moment */
    fullest(moment) {
      this.expire(moment);
      if (this.station !== undefined) return this.known[this.station]?.size ?? 0;
      return this.known.reduce((most, {size}) => Math.max(most, size), 0);
    }

    /** @param {number} moment */
    expire(moment) {
      const {entries, known} = this;
      for (; this.first < entries.length; this.first += 1) {
        const heard = entries.moment.values[this.first];
        if (heard + ENTRY_LIFE >= moment) return;
        const own = known[entries.station.values[this.first]];
        const source = entries.source.values[this.first];
        if (own.get(source) === heard) own.delete(source);
      }
    }
  }

  geostation.tables = {Tables};
})(globalThis.geostation ??= {});
