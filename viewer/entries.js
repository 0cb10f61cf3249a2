//! The lines of a run behind its first: events, and the notes among them. Each has a place, from 0.

(function (geostation) {
  'use strict';

  const {countUpTo} = geostation.columns;

  class Entries {
    /**
     * @param {import('./events.js').Events} events
     * @param {import('./events.js').Notes} notes in the order in which they came
     */
    constructor(events, notes) {
      this.events = events;
      this.notes = notes;
      /** The place of each note. */
      this.places = new Int32Array(notes.length);
      this.after = notes.after.values.subarray(0, notes.length);
      for (let i = 0; i < notes.length; i += 1) this.places[i] = this.after[i] + 1 + i;
    }

    get length() {
      return this.events.length + this.places.length;
    }

    /**
     * What is at a place: an event, or a note and the event that it follows.
     * @param {number} place @returns {{event: number, note?: number}}
     */
    at(place) {
      const notes = countUpTo(this.places, place);
      if (notes === 0 || this.places[notes - 1] !== place) return {event: place - notes};
      return {event: this.after[notes - 1], note: notes - 1};
    }

    /** How many notes precede the line after an event's line and its notes. */
    notesUpTo(event) {
      return countUpTo(this.after, event);
    }

    /**
     * How many notes are shown at an event: notes that follow it at a later time are not shown yet.
     * @param {number} event
     */
    notesTold(event) {
      const {moment} = this.notes;
      const until = this.events.moment.values[event];
      let told = this.notesUpTo(event - 1);
      while (this.after[told] === event && moment.values[told] <= until) told += 1;
      return told;
    }

    /** The place of an event. @param {number} event */
    ofEvent(event) {
      return event + this.notesUpTo(event - 1);
    }

    /** The place of a note. @param {number} note */
    ofNote(note) {
      return this.places[note];
    }

    /**
     * The places of some events and of some notes, rising as these are.
     * @param {ArrayLike<number>} events @param {ArrayLike<number>} notes
     */
    merge(events, notes) {
      const {after, places} = this;
      const found = new Int32Array(events.length + notes.length);
      let [length, taken, before] = [0, 0, 0];
      const takeNotes = (event) => {
        for (; taken < notes.length && after[notes[taken]] < event; taken += 1) {
          found[length] = places[notes[taken]];
          length += 1;
        }
      };
      for (let i = 0; i < events.length; i += 1) {
        takeNotes(events[i]);
        while (before < after.length && after[before] < events[i]) before += 1;
        found[length] = events[i] + before;
        length += 1;
      }
      takeNotes(Infinity);
      return found;
    }
  }

  geostation.entries = {Entries};
})(globalThis.geostation ??= {});
