//! Load: the air time of frames, and how busy stations were in each interval.

(function (geostation) {
  'use strict';

  const {countUpTo} = geostation.columns;
  /** A run up to so long is shown in tenths of a second, a longer one in seconds. */
  const SHORT = 20000;
  /** The strip has no room for more intervals. */
  const MOST_BINS = 20000;
  /** After so many events it gives way to the page. */
  const TURN = 30000;

  /**
   * The air time of a frame at 6 Mbit/s on 10 MHz of IEEE 802.11, in microseconds: a preamble, and
   * symbols of 48 bits for 22 bits of service and tail and the frame, whose Ethernet header of 14
   * octets gives way to 26 of QoS header, 8 of LLC and 4 of check sequence.
   * @param {number} length of the frame, in octets
   */
  function airTime(length) {
    return 40 + 8 * Math.ceil((22 + 8 * (length + 24)) / 48);
  }

  /**
   * @typedef {object} Bin an interval
   * @property {number} begin in milliseconds
   * @property {number} frames given in it, by the chosen station or by all
   * @property {number} busy share of the chosen station's time, or the median of all stations'
   * @property {number} most the busiest station's share
   * @property {number} table entries of the chosen station, or of the fullest one, at its end
   */

  /** How long the intervals are. @param {import('./run.js').Run} run */
  function width(run) {
    const long = geostation.clock.span(run.times);
    return [100, 1000, 10000, 60000, 600000].find((size) =>
      long / size < MOST_BINS && (size > 100 || long <= SHORT)) ?? 2 ** Math.ceil(Math.log2(long));
  }

  /** What each bin adds up while a run is gone through. */
  class Sum {
    /** @param {import('./run.js').Run} run @param {number | undefined} station */
    constructor(run, station) {
      this.run = run;
      this.station = station;
      this.width = width(run);
      this.busy = new Float64Array(run.stations.length);
      this.frames = 0;
      /** @type {Bin[]} */
      this.bins = [];
      this.number = undefined;
      this.tables = new geostation.tables.Tables(run, station);
    }

    /**
     * Ends the bin before a later one.
     * @param {number} moment in the later bin @param {number} last event before that
     */
    turn(moment, last) {
      const number = Math.floor(moment / this.width);
      if (number === this.number) return;
      this.close(last);
      this.number = number;
    }

    /** The air time of the stations that are there at an event. @param {number} last */
    present(last) {
      const {run, busy} = this;
      if (!run.presence.isTold) return busy.slice();
      const told = run.entries.notesUpTo(last);
      return busy.filter((_, i) => run.presence.isThere(i, told, last));
    }

    /** @param {number} last event of the bin */
    close(last) {
      if (this.number === undefined) return;
      const begin = this.number * this.width;
      const share = (micros) => (micros ?? 0) / (1000 * this.width);
      const sorted = this.station === undefined ? this.present(last).sort()
        : Float64Array.of(this.busy[this.station] ?? 0);
      const busy = share(sorted[Math.ceil(sorted.length / 2) - 1]);
      const most = share(sorted[sorted.length - 1]);
      const table = this.tables.fullest(begin + this.width);
      this.bins.push({begin, frames: this.frames, busy, most, table});
      this.busy.fill(0);
      this.frames = 0;
    }

    /** Adds a frame when it is sent. @param {number} frame */
    give(frame) {
      const {run, station} = this;
      const giver = run.events.station.values[run.frames.giver.values[frame]];
      if (giver >= run.stations.length) return;
      const time = airTime(run.frames.lengthOf(frame));
      if (station === undefined || station === giver) this.frames += 1;
      this.busy[giver] += time;
      this.add(run.deliveries.of(frame), run.events.station.values, time);
      this.add(run.lost.of(frame), run.notes.station.values, time);
    }

    /** Adds air time at the stations of some events or notes. */
    add(members, stations, time) {
      for (let i = 0; i < members.length; i += 1) this.busy[stations[members[i]]] += time;
    }
  }

  /**
   * The bins in which something happened, of a station or of all, some events at a time.
   * @param {import('./run.js').Run} run @param {number} [station]
   * @yields {undefined} while it isn't done
   * @returns {{width: number, bins: Bin[]}}
   */
  function* inTurns(run, station) {
    const sum = new Sum(run, station);
    const {events} = run;
    for (let i = 0; i < events.length; i += 1) {
      if (i % TURN === TURN - 1) yield undefined;
      sum.turn(run.times[i], i - 1);
      sum.tables.take(i);
      const sent = events.sent.values[i];
      if (sent >= 0 && events.holds.of(sent) < 0) sum.give(sent);
      for (const frame of run.held.releasedAfter(i)) {
        sum.turn(run.held.momentOf(frame), i);
        sum.give(frame);
      }
    }
    sum.close(events.length - 1);
    return {width: sum.width, bins: sum.bins};
  }

  /** The same at once. @param {import('./run.js').Run} run @param {number} [station] */
  function bins(run, station) {
    const turns = inTurns(run, station);
    let turn = turns.next();
    while (!turn.done) turn = turns.next();
    return turn.value;
  }

  /**
   * Deliveries, and frames ignored as duplicates, of a station or of all.
   * @param {import('./run.js').Run} run @param {number} [station]
   */
  function repeats(run, station) {
    const {events} = run;
    const own = station === undefined ? undefined : run.byStation.of(station);
    const counts = {delivered: 0, duplicates: 0, full: 0};
    const count = own ? own.length : events.length;
    for (let i = 0; i < count; i += 1) {
      const index = own ? own[i] : i;
      if (events.port.values[index] >= 0) counts.delivered += 1;
      if (events.isDuplicate(index)) counts.duplicates += 1;
      if (events.isFull(index)) counts.full += 1;
    }
    return counts;
  }

  /** The head of what `sim --load` writes. */
  const HEAD = 'second,stations,frames,octets,busy_p50,busy_p95,busy_most';

  /**
   * The bins of a file of `sim --load`, whose shares are thousandths of a second.
   * @param {string} text @param {Bin[]} own bins, for what the file doesn't tell
   * @returns {{width: number, bins: Bin[]} | undefined} undefined where it is no such file
   */
  function told(text, own) {
    const [head, ...lines] = text.trimEnd().split('\n');
    const rows = lines.map((line) => line.split(',').map(Number));
    if (head !== HEAD || rows.some((row) => row.length !== 7 || row.some(Number.isNaN))) {
      return undefined;
    }
    const begins = own.map(({begin}) => begin);
    const tableAt = (end) => own[countUpTo(begins, end - 1) - 1]?.table ?? 0;
    return {width: 1000, bins: rows.map(([second, , frames, , p50, , most]) => ({
      begin: 1000 * second, frames, busy: p50 / 1000, most: most / 1000,
      table: tableAt(1000 * second + 1000),
    }))};
  }

  geostation.load = {airTime, bins, inTurns, repeats, width, told, HEAD};
})(globalThis.geostation ??= {});
