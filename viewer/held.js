//! The frames that contending stations hold: when each was sent, and which were cancelled or
//! dropped. The notes of a run say so. Without notes it follows from the events: a frame is sent when
//! it is due, unless a copy has cancelled it or its station has restarted.

(function (geostation) {
  'use strict';

  const {NOTE, RESULT} = geostation.events;
  const {countUpTo} = geostation.columns;
  /** What happens to a held frame. `waits`: it is still held when the run ends. */
  const FATES = ['waits', 'released', 'cancelled', 'dropped'];
  const [WAITS, RELEASED, CANCELLED, DROPPED] = FATES.keys();
  /** No frame is held longer, in milliseconds. */
  const MOST_WAIT = 1000;
  const NONE = [];

  class Held {
    /** @param {import('./run.js').Run} run whose times and events by station are there */
    constructor(run) {
      const {holds} = run.events;
      this.run = run;
      this.fates = new Uint8Array(holds.length);
      /** The event that ended each hold, or after which it ended. -1: it did not end. */
      this.ends = new Int32Array(holds.length).fill(-1);
      /** The note that says so, -1 without one. */
      this.notes = new Int32Array(holds.length).fill(-1);
      this.moments = new Float64Array(holds.length);
      this.readCancels();
      this.readNotes();
      for (let hold = 0; hold < holds.length; hold += 1) {
        if (this.fates[hold] === WAITS) this.infer(hold);
      }
      /** The holds whose frames were released, in that order, and the event before each. */
      this.released = this.inOrder();
      this.after = this.released.map((hold) => this.ends[hold]);
    }

    readCancels() {
      const {cancels, holds, moment} = this.run.events;
      for (let i = 0; i < cancels.length; i += 1) {
        const hold = holds.of(cancels.frame.values[i]);
        const event = cancels.event.values[i];
        this.end(hold, CANCELLED, event, moment.values[event]);
      }
    }

    readNotes() {
      const {notes, events: {holds}} = this.run;
      for (let i = 0; i < notes.length; i += 1) {
        const kind = notes.kind.values[i];
        if (kind !== NOTE.released && kind !== NOTE.dropped) continue;
        const hold = holds.of(notes.frame.values[i]);
        const fate = kind === NOTE.released ? RELEASED : DROPPED;
        this.end(hold, fate, notes.after.values[i], notes.moment.values[i]);
        if (hold >= 0) this.notes[hold] = i;
      }
    }

    /** Ends a hold, if there is such a hold. */
    end(hold, fate, event, moment) {
      if (hold < 0) return;
      this.fates[hold] = fate;
      this.ends[hold] = event;
      this.moments[hold] = moment;
    }

    /**
     * Ends a hold of which nothing says how it ended. A frame that is due at a time is released
     * after all events of that time, but for those that its release makes, and none is released
     * after the run's end.
     * @param {number} hold
     */
    infer(hold) {
      const {air, deliveries, events, times} = this.run;
      const due = events.holds.until.values[hold];
      const first = deliveries.of(events.holds.frame.values[hold])
        .find((index) => events.moment.values[index] >= due) ?? Infinity;
      const last = Math.min(countUpTo(times, due), first) - 1;
      const restart = this.restartAfter(events.holds.event.values[hold]);
      if (restart !== undefined && restart <= last) {
        this.end(hold, DROPPED, restart, events.moment.values[restart]);
      } else if (due <= (air?.until ?? times.at(-1))) {
        this.end(hold, RELEASED, last, due);
      }
    }

    /** The next restart of an event's station. @param {number} event */
    restartAfter(event) {
      const {events, byStation} = this.run;
      const own = byStation.of(events.station.values[event]);
      return own.subarray(countUpTo(own, event))
        .find((index) => events.result.values[index] === RESULT.restarted);
    }

    inOrder() {
      const {ends, moments, notes} = this;
      const holds = Int32Array.from(this.fates.keys()).filter((i) => this.fates[i] === RELEASED);
      return holds.sort((a, b) =>
        ends[a] - ends[b] || moments[a] - moments[b] || notes[a] - notes[b] || a - b);
    }

    /** What happened to a frame: `sent` at once, or one of FATES. @param {number} frame */
    fate(frame) {
      const hold = this.run.events.holds.of(frame);
      return hold < 0 ? 'sent' : FATES[this.fates[hold]];
    }

    /** The event after which a frame was sent, its own if at once; -1: it was not sent. */
    sentAfter(frame) {
      const hold = this.run.events.holds.of(frame);
      if (hold < 0) return this.run.frames.giver.values[frame];
      return this.fates[hold] === RELEASED ? this.ends[hold] : -1;
    }

    /** Whether a frame is sent at some time. @param {number} frame */
    isSent(frame) {
      return this.sentAfter(frame) >= 0;
    }

    /**
     * Whether a frame was sent by the time of an event and of a number of notes.
     * @param {number} frame @param {number} at @param {number} noted
     */
    isSentBy(frame, at, noted) {
      const hold = this.run.events.holds.of(frame);
      if (hold < 0) return this.run.frames.giver.values[frame] <= at;
      return this.fates[hold] === RELEASED && this.isOver(hold, at, noted);
    }

    /** When a frame was sent or, if it was not, when it was held no more. @param {number} frame */
    momentOf(frame) {
      const {events, frames} = this.run;
      const hold = events.holds.of(frame);
      return hold < 0 ? events.moment.values[frames.giver.values[frame]] : this.moments[hold];
    }

    /** The digits of `momentOf`. @param {number} frame */
    digits(frame) {
      const {events, frames} = this.run;
      const hold = events.holds.of(frame);
      if (hold < 0) return this.run.moment(frames.giver.values[frame]);
      if (this.notes[hold] >= 0) return this.run.noteMoment(this.notes[hold]);
      const isDue = this.fates[hold] === RELEASED;
      return isDue ? events.holds.digits(hold) : this.run.moment(this.ends[hold]);
    }

    /** Up to where the run had come when a frame was sent: its last event, and how many notes. */
    before(frame) {
      const {entries, events, frames} = this.run;
      const hold = events.holds.of(frame);
      const at = hold < 0 ? frames.giver.values[frame] - 1 : this.ends[hold];
      const note = hold < 0 ? -1 : this.notes[hold];
      return {at, noted: note < 0 ? entries.notesUpTo(at) : note};
    }

    /** The frames that were released after an event and before the next. @param {number} event */
    releasedAfter(event) {
      const {after, released} = this;
      const end = countUpTo(after, event);
      const begin = countUpTo(after, event - 1, end);
      if (begin === end) return NONE;
      return Array.from(released.subarray(begin, end), (hold) =>
        this.run.events.holds.frame.values[hold]);
    }

    /** Whether a frame is held no more at an event and after a number of notes. */
    isOver(hold, at, noted) {
      const fate = this.fates[hold];
      if (this.notes[hold] >= 0) return this.notes[hold] < noted;
      if (fate === WAITS || this.ends[hold] > at) return false;
      return fate !== RELEASED || this.moments[hold] <= this.run.times[at];
    }

    /**
     * The stations that hold one of some frames, and those that held one that was cancelled.
     * @param {Iterable<number>} holds of the frames @param {number} at @param {number} noted
     * @returns {Map<number, 'held' | 'cancelled'>}
     */
    rings(holds, at, noted) {
      const {event} = this.run.events.holds;
      const found = new Map();
      for (const hold of holds) {
        const held = event.values[hold];
        if (held > at) continue;
        const station = this.run.events.station.values[held];
        if (!this.isOver(hold, at, noted)) found.set(station, 'held');
        else if (this.fates[hold] === CANCELLED && !found.has(station)) {
          found.set(station, 'cancelled');
        }
      }
      return found;
    }

    /** The holds of some frames. @param {number[]} frames */
    holdsOf(frames) {
      return frames.map((frame) => this.run.events.holds.of(frame)).filter((hold) => hold >= 0);
    }

    /**
     * The holds that may not be over, or were cancelled at most so many milliseconds ago.
     * @param {number} at @param {number} afterglow
     */
    recent(at, afterglow) {
      const {events: {holds}, times} = this.run;
      const now = times[at];
      const found = [];
      for (let hold = countUpTo(holds.event.values, at, holds.length) - 1; hold >= 0; hold -= 1) {
        if (times[holds.event.values[hold]] < now - MOST_WAIT - afterglow) break;
        const isOld = this.fates[hold] === CANCELLED && this.moments[hold] < now - afterglow;
        if (!isOld) found.push(hold);
      }
      return found;
    }
  }

  geostation.held = {Held};
})(globalThis.geostation ??= {});
