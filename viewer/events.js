//! The events, frames and notes of a run, column by column; an object of one is made when asked.

(function (geostation) {
  'use strict';

  const {Table, Words, widened, countUpTo} = geostation.columns;

  /**
   * @typedef {object} Event
   * @property {number} index its place in the run, from 0
   * @property {number} moment in milliseconds
   * @property {number} station
   * @property {string} do
   * @property {string} result
   * @property {number} [frame] the number of a delivered frame
   * @property {number} [lat] of a move
   * @property {number} [lon] of a move
   * @property {string} [why] it was ignored
   * @property {string} [code] of what it was refused for
   * @property {string} [reason] the code's sentence
   * @property {number} [port] at which a payload was delivered
   * @property {number} [info]
   * @property {string} [payload]
   * @property {number} [sent] the number of the frame that the station sent at once
   * @property {number} [waits] the number of the frame that the station holds
   * @property {string} [until] the digits of the time at which that frame is due
   * @property {number[]} [cancels] the numbers of the held frames that a copy cancelled
   * @property {string} [kind] of the packet in a record of a capture
   */

  const DOS_OF_RUNS = ['move', 'open', 'close', 'restart', 'tick', 'shb', 'gbc', 'gac', 'deliver'];
  /** A record of a capture has the kind of its packet. No run has such an event. */
  const DOS = [...DOS_OF_RUNS, 'record'];
  const RECORD = DOS.length - 1;
  const RESULTS = ['moved', 'opened', 'closed', 'restarted', 'quiet', 'sent', 'ignored',
    'accepted', 'refused'];
  const NOTES = ['came', 'left', 'lost', 'absent', 'released', 'dropped'];
  /** The number of a word of `do`, of `result` and of a note. */
  const DO = numbers(DOS_OF_RUNS);
  const RESULT = numbers(RESULTS);
  const NOTE = numbers(NOTES);
  /** Whether a note of a kind is about a frame. */
  const IS_OF_FRAME = NOTES.map((word) => ['lost', 'released', 'dropped'].includes(word));
  /** More octets than a frame has. */
  const LONGEST = 2048;

  /** Words to their numbers, and no other keys. @param {string[]} words */
  function numbers(words) {
    const pairs = words.map((word, i) => [word, i]);
    return Object.assign(Object.create(null), Object.fromEntries(pairs));
  }

  const NONE = [];

  /** An event as its columns have it: numbers, which are read into it one event after the other. */
  class Row {
    constructor() {
      this.clear();
    }

    clear() {
      this.moment = 0;
      this.station = 0;
      this.do = 0;
      this.result = 0;
      this.frame = 0;
      this.sent = -1;
      this.until = -1;
      this.cancels = NONE;
      this.port = -1;
      this.info = 0;
      this.word = 0;
      this.reason = 0;
      this.payload = 0;
      this.lat = 0;
      this.lon = 0;
    }
  }

  class Events extends Table {
    /** @param {number} [capacity] */
    constructor(capacity) {
      // `word` is the number of `why` or `code`; `sent` is the frame that the station sent or
      // holds; `sent` and `port` are -1 if the event has none.
      super({moment: Float64Array, station: Int32Array, do: Uint8Array, result: Uint8Array,
        frame: Uint32Array, sent: Int32Array, port: Int32Array, info: Uint16Array,
        word: Uint32Array, reason: Uint32Array, payload: Uint32Array, lat: Int32Array,
        lon: Int32Array}, capacity);
      this.words = new Words();
      this.duplicate = this.words.number('duplicate');
      this.full = this.words.number('S4');
      /** The digits of moments past what a number holds, by event. @type {Map<number, string>} */
      this.exact = new Map();
      this.holds = new Holds();
      this.cancels = new Cancels();
    }

    /** @param {Row} row the next one */
    push(row) {
      const i = this.next();
      this.moment.values[i] = row.moment;
      this.station.values[i] = row.station;
      this.do.values[i] = row.do;
      this.result.values[i] = row.result;
      this.frame.values[i] = row.frame;
      this.sent.values[i] = row.sent;
      this.port.values[i] = row.port;
      this.info.values[i] = row.info;
      this.word.values[i] = row.word;
      this.reason.values[i] = row.reason;
      this.payload.values[i] = row.payload;
      this.lat.values[i] = row.lat;
      this.lon.values[i] = row.lon;
      if (row.until >= 0) this.holds.push(i, row.sent, row.until);
      for (const frame of row.cancels) this.cancels.push(i, frame);
    }

    /** @param {number} index @returns {Event | undefined} */
    at(index) {
      if (!(index >= 0 && index < this.length)) return undefined;
      const event = {index, moment: this.moment.values[index], station: this.station.values[index],
        do: DOS[this.do.values[index]], result: RESULTS[this.result.values[index]]};
      const {texts} = this.words;
      const word = texts[this.word.values[index]];
      if (event.do === 'deliver') event.frame = this.frame.values[index];
      if (event.do === 'record') event.kind = word;
      if (event.do === 'move') {
        event.lat = this.lat.values[index];
        event.lon = this.lon.values[index];
      }
      if (event.result === 'ignored') event.why = word;
      if (event.result === 'refused') {
        event.code = word;
        event.reason = texts[this.reason.values[index]];
      }
      if (this.port.values[index] >= 0) {
        event.port = this.port.values[index];
        event.info = this.info.values[index];
        event.payload = texts[this.payload.values[index]];
      }
      this.addFrames(event);
      return event;
    }

    /** Adds the frame that was sent or held, and those that were cancelled. @param {Event} event */
    addFrames(event) {
      const frame = this.sent.values[event.index];
      const hold = frame < 0 ? -1 : this.holds.of(frame);
      if (hold >= 0) Object.assign(event, {waits: frame, until: this.holds.digits(hold)});
      else if (frame >= 0) event.sent = frame;
      const cancels = this.cancels.of(event.index);
      if (cancels.length > 0) event.cancels = cancels;
    }

    /** Whether an event is a delivery of a frame. @param {number} index */
    isDelivery(index) {
      return this.do.values[index] === DO.deliver;
    }

    /** @param {number} index @param {string} result */
    is(index, result) {
      return this.result.values[index] === RESULT[result];
    }

    /** Whether a frame was ignored as one that is known. @param {number} index */
    isDuplicate(index) {
      return this.word.values[index] === this.duplicate;
    }

    /** Whether it was refused for a full location table. @param {number} index */
    isFull(index) {
      return this.word.values[index] === this.full;
    }

    /** Of what an event was ignored or refused for. @param {number} index */
    wordOf(index) {
      return this.words.texts[this.word.values[index]];
    }

    * [Symbol.iterator]() {
      for (let i = 0; i < this.length; i += 1) yield this.at(i);
    }

    /** @template T @param {(event: Event) => T} change @returns {T[]} */
    map(change) {
      return Array.from(this, change);
    }
  }

  /** The frames that stations held, in the order of their numbers. */
  class Holds extends Table {
    constructor() {
      // `event` is the one at which the frame was held, `until` when it is due.
      super({event: Int32Array, frame: Int32Array, until: Float64Array}, 16);
      /** The digits of due times past what a number holds, by hold. @type {Map<number, string>} */
      this.exact = new Map();
    }

    /** @param {number} event @param {number} frame @param {number} until */
    push(event, frame, until) {
      const i = this.next();
      this.event.values[i] = event;
      this.frame.values[i] = frame;
      this.until.values[i] = until;
    }

    /** The hold of a frame, -1 of one that no station held. @param {number} frame */
    of(frame) {
      const {values} = this.frame;
      const hold = countUpTo(values, frame, this.length) - 1;
      return hold >= 0 && values[hold] === frame ? hold : -1;
    }

    /** The digits of the time at which a frame is due. @param {number} hold */
    digits(hold) {
      return this.exact.get(hold) ?? String(this.until.values[hold]);
    }
  }

  /** Which events cancelled which held frames. */
  class Cancels extends Table {
    constructor() {
      super({event: Int32Array, frame: Int32Array}, 16);
    }

    /** @param {number} event @param {number} frame */
    push(event, frame) {
      const i = this.next();
      this.event.values[i] = event;
      this.frame.values[i] = frame;
    }

    /** The frames that an event cancelled. @param {number} event @returns {number[]} */
    of(event) {
      const {values} = this.event;
      const end = countUpTo(values, event, this.length);
      const begin = countUpTo(values, event - 1, end);
      return begin === end ? NONE : Array.from(this.frame.values.subarray(begin, end));
    }
  }

  /** Frames by number: the event that gave each, and its octets, all in one store. */
  class Frames extends Table {
    constructor() {
      super({giver: Int32Array, end: Uint32Array});
      this.store = new Uint8Array(1 << 20);
      this.used = 0;
    }

    /** Where the octets of the next frame go, with room for the longest. */
    room() {
      if (this.used + LONGEST > this.store.length) {
        this.store = widened(this.store, 2 * this.store.length);
      }
      return this.store;
    }

    /** @param {number} giver @param {number} length of octets that stand at the store's end */
    close(giver, length) {
      const number = this.next();
      this.used += length;
      this.giver.values[number] = giver;
      this.end.values[number] = this.used;
    }

    /** @param {number} giver @param {Uint8Array} octets */
    push(giver, octets) {
      while (this.used + octets.length > this.store.length) {
        this.store = widened(this.store, 2 * this.store.length);
      }
      this.store.set(octets, this.used);
      this.close(giver, octets.length);
    }

    /** The octets of a frame, none where it isn't there. @param {number} number */
    octets(number) {
      const {values} = this.end;
      if (!(number >= 0 && number < this.length)) return this.store.subarray(0, 0);
      return this.store.subarray(number === 0 ? 0 : values[number - 1], values[number]);
    }

    /** An octet of a frame, undefined where it isn't there. @param {number} number */
    octet(number, at) {
      const {values} = this.end;
      if (!(number < this.length)) return undefined;
      const place = (number === 0 ? 0 : values[number - 1]) + at;
      return place < values[number] ? this.store[place] : undefined;
    }

    /** How many octets a frame has. @param {number} number */
    lengthOf(number) {
      const {values} = this.end;
      return number === 0 ? values[0] : values[number] - values[number - 1];
    }
  }

  /**
   * Notes: who came and left, which frame was lost where, which held frame was released or dropped,
   * and which stations weren't there.
   */
  class Notes extends Table {
    constructor() {
      // `after` is the event that a note follows, -1 if it precedes all; `id` is the number of a
      // name.
      super({kind: Uint8Array, moment: Float64Array, station: Int32Array, frame: Int32Array,
        after: Int32Array, id: Uint32Array});
      this.ids = new Words();
      /** The digits of moments past what a number holds, by note. @type {Map<number, string>} */
      this.exact = new Map();
    }

    /**
     * @param {number} kind its number @param {number} moment @param {number} station -1 for none
     * @param {number} frame -1 for none @param {number} after
     */
    push(kind, moment, station, frame, after, id = 0) {
      const i = this.next();
      this.kind.values[i] = kind;
      this.moment.values[i] = moment;
      this.station.values[i] = station;
      this.frame.values[i] = frame;
      this.after.values[i] = after;
      this.id.values[i] = id;
    }

    /** @param {number} index */
    at(index) {
      return {note: NOTES[this.kind.values[index]], moment: this.moment.values[index],
        station: this.station.values[index], frame: this.frame.values[index],
        after: this.after.values[index], id: this.ids.texts[this.id.values[index]]};
    }

    /** @param {number} index @param {string} note */
    is(index, note) {
      return this.kind.values[index] === NOTE[note];
    }
  }

  geostation.events = {Events, Frames, Notes, Row, LONGEST, DOS, RESULTS, NOTES, DO, RECORD, RESULT, NOTE,
    IS_OF_FRAME};
})(globalThis.geostation ??= {});
