//! Who is present: stations arrive and leave, as the notes say. If no note mentions a station, what
//! it receives and sends shows whether it is present.

(function (geostation) {
  'use strict';

  const {DO, NOTE} = geostation.events;
  const {Groups, countUpTo} = geostation.columns;
  /** A station that is there at the start sends its first beacon until then, in milliseconds. */
  const FIRST_BEACON = 750;
  /** So many frames are looked at for stations that heard none; others are taken to be there. */
  const MOST_LOOKS = 1000000;

  class Presence {
    /** @param {import('./run.js').Run} run */
    constructor(run) {
      const {notes, stations} = run;
      this.stations = stations;
      this.notes = notes;
      this.changes = new Groups(changers(notes), stations.length);
      /** Those that are never there. @type {Set<number>} */
      this.never = new Set();
    }

    /** Whether a station is away at some time. */
    get isTold() {
      const {changes, never, stations} = this;
      return changes.members.length > 0 || never.size > 0 || stations.some(({born}) => born > 0);
    }

    /**
     * Whether a station is present after a number of notes, and after an event was run.
     * @param {number} station @param {number} noted how many notes @param {number} at the event
     */
    isThere(station, noted, at) {
      return this.stateOf(station, noted, at) === 'there';
    }

    /**
     * Whether a station is present, has left, or has not come until then. The arguments are those
     * of `isThere`.
     * @returns {'there' | 'left' | 'expected'}
     */
    stateOf(station, noted, at) {
      const {starts, members} = this.changes;
      const [from, to] = [starts[station], starts[station + 1]];
      if (from === to) {
        const isThere = this.stations[station].born <= Math.max(0, at) && !this.never.has(station);
        return isThere ? 'there' : 'expected';
      }
      const next = countUpTo(members, noted - 1, to, from);
      if (next === from) return this.notes.is(members[from], 'left') ? 'there' : 'expected';
      return this.notes.is(members[next - 1], 'came') ? 'there' : 'left';
    }
  }

  /** The station of each note that it came or left, -1 of others. @param {any} notes */
  function changers({length, kind, station}) {
    const keys = new Int32Array(length).fill(-1);
    for (let i = 0; i < length; i += 1) {
      const isChange = kind.values[i] === NOTE.came || kind.values[i] === NOTE.left;
      if (isChange) keys[i] = station.values[i];
    }
    return keys;
  }

  /**
   * Finds the stations that are never present. No note mentions such a station, and it received
   * nothing. If all stations send beacons, it sent none, or a present one sent a frame within its
   * range. If frames are lost without notes, this can't be known.
   * @param {import('./run.js').Run} run whose events and notes are in groups
   */
  function findNever(run) {
    const {air, frames, notes, presence, stations, times} = run;
    if (!air || (air.loss > 0 && notes.length === 0)) return;
    const there = showing(run);
    const isQuiet = air.beacons && times.length > 0 && times.at(-1) > FIRST_BEACON;
    let looks = MOST_LOOKS;
    for (let station = 0; station < stations.length; station += 1) {
      if (there[station] || stations[station].born > 0) continue;
      looks -= isQuiet ? 0 : frames.length;
      if (isQuiet || (looks >= 0 && missesFrame(run, station, there))) presence.never.add(station);
    }
  }

  /** Which stations show that they are present: by a note, by a reception, or by a beacon. */
  function showing({air, events, notes, presence, stations}) {
    const there = Uint8Array.from(stations, (_, i) => Number(presence.changes.of(i).length > 0));
    for (let i = 0; i < events.length; i += 1) {
      const what = events.do.values[i];
      const shows = what === DO.deliver || (what === DO.tick && air.beacons);
      if (shows) there[events.station.values[i]] = 1;
    }
    for (let i = 0; i < notes.length; i += 1) {
      if (notes.kind.values[i] === NOTE.lost) there[notes.station.values[i]] = 1;
    }
    return there;
  }

  /** Whether a station that is there gave a frame in range of one that heard nothing. */
  function missesFrame(run, station, there) {
    const {giver, length} = run.frames;
    for (let frame = 0; frame < length; frame += 1) {
      if (!there[run.events.station.values[giver.values[frame]]]) continue;
      if (geostation.hearing.isInRange(run, station, frame)) return true;
    }
    return false;
  }

  geostation.presence = {Presence, findNever};
})(globalThis.geostation ??= {});
