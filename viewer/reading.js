//! Reads a run: the lines that `geostation sim --json` prints, its notes among them, one by one. A
//! line that isn't such a line is refused with a sentence for a person.

(function (geostation) {
  'use strict';

  const {DO, RESULT, NOTE, IS_OF_FRAME, Row} = geostation.events;
  const {Run} = geostation.run;
  const {LINE_FEED} = geostation.scan;

  /** No line of a run comes near it: 65535 stations take some 4 million letters. */
  const LONGEST_LINE = 1 << 24;
  const MOST_FRAME = 2 ** 31 - 1;
  const NONE = new Uint8Array(0);
  const NOT_A_RUN = 'This file isn’t the output of “sim --json”';

  /** A file isn't the output of `sim --json`; the message says why. */
  class RunFault extends Error {}

  /** @param {unknown} value @param {number} least @param {number} most */
  function isWhole(value, least, most) {
    return Number.isInteger(value) && value >= least && value <= most;
  }

  /** @param {unknown} value @returns {value is string} */
  function isHex(value) {
    return typeof value === 'string' && value.length % 2 === 0 && /^[0-9a-f]*$/.test(value);
  }

  /** @param {any} value */
  function isPlace(value) {
    return isWhole(value.lat, -9e8, 9e8) && isWhole(value.lon, -18e8, 18e8);
  }

  /** Reads octets, a piece after the other, into a run. */
  class Reader {
    /** @param {number} [size] of the text in octets, where it is known */
    constructor(size) {
      this.run = new Run(size);
      this.row = new Row();
      this.lines = 0;
      /** What follows the last line feed. */
      this.rest = NONE;
      this.decoder = new TextDecoder();
      this.scanner = new geostation.scan.Scanner();
      this.quick = new geostation.line.Lines(this.run, this.scanner);
    }

    /**
     * Takes the lines that end in a piece.
     * @param {Uint8Array} piece
     * @throws {RunFault} where one isn't what `sim --json` prints at its place
     */
    take(piece) {
      const end = piece.lastIndexOf(LINE_FEED) + 1;
      if (end > 0) {
        const start = this.rest.length > 0 ? piece.indexOf(LINE_FEED) + 1 : 0;
        if (start > 0) this.takeLines(this.joined(piece.subarray(0, start)));
        this.takeLines(piece.subarray(start, end));
        this.rest = NONE;
      }
      this.rest = this.joined(piece.subarray(end));
      if (this.rest.length > LONGEST_LINE) throw new RunFault(`${NOT_A_RUN}: a line is too long.`);
    }

    /** What is left of the pieces before, and octets behind it. @param {Uint8Array} octets */
    joined(octets) {
      const {rest} = this;
      const whole = new Uint8Array(rest.length + octets.length);
      whole.set(rest);
      whole.set(octets, rest.length);
      return whole;
    }

    /** @param {Uint8Array} octets whole lines */
    takeLines(octets) {
      this.scanner.begin(octets);
      while (this.scanner.at < octets.length) this.takeLine();
    }

    takeLine() {
      const {scanner} = this;
      const {octets, at: start} = scanner;
      this.lines += 1;
      if (this.lines > 1 && this.quick.take()) return;
      const end = octets.indexOf(LINE_FEED, start);
      this.add(this.decoder.decode(octets.subarray(start, end)));
      scanner.at = end + 1;
    }

    /** @returns {Run} once all was taken @throws {RunFault} where there was no line */
    end() {
      if (this.rest.length > 0) this.take(Uint8Array.of(LINE_FEED));
      if (this.lines === 0) throw new RunFault(`${NOT_A_RUN}: it’s empty.`);
      return this.run.end();
    }

    /** Adds a line. @param {string} text */
    add(text) {
      const value = this.parse(text);
      if (this.lines === 1) this.addStations(value);
      else if (value.event !== undefined) this.addEvent(value, text);
      else this.addOther(value, text);
    }

    /** @param {string} why @returns {never} */
    refuse(why) {
      throw new RunFault(`Line ${this.lines} isn’t a line of “sim --json”: ${why}.`);
    }

    /** @param {string} text */
    parse(text) {
      let value;
      try {
        value = JSON.parse(text);
      } catch {
        if (this.lines > 1) this.refuse('it isn’t JSON, or it’s cut');
      }
      if (typeof value === 'object' && value !== null && !Array.isArray(value)) return value;
      if (this.lines > 1) this.refuse('it isn’t a JSON object');
      throw new RunFault(`${NOT_A_RUN}: the first line isn’t a JSON object.`);
    }

    /** @param {any} value */
    addStations(value) {
      if ('total' in value || 'send' in value) {
        throw new RunFault('This file is a summary. Make the run without “--summary”.');
      }
      if (!Array.isArray(value.stations)) {
        throw new RunFault(`${NOT_A_RUN}: the first line has no “stations”.`);
      }
      for (const station of value.stations) this.addStation(station);
      if (value.air !== undefined) this.addAir(value.air);
    }

    /** @param {any} air */
    addAir(air) {
      if (!isWhole(air?.range, 1, 65535)) this.refuse('“range” of “air” is missing or invalid');
      const {range, delay = 1, loss = 0, beacons = false, until = null} = air;
      if (!isWhole(delay, 0, 65535)) this.refuse('“delay” of “air” is invalid');
      if (!isWhole(loss, 0, 100)) this.refuse('“loss” of “air” is invalid');
      const contends = air.contention !== undefined;
      this.run.air = {range, delay, loss, beacons, until, contends};
    }

    /** @param {any} station */
    addStation(station) {
      const {stations, events} = this.run;
      const i = stations.length;
      if (!/^[0-9a-f]{16}$/.test(station?.address)) this.refuse(`station ${i} has no valid address`);
      if (!isPlace(station)) this.refuse(`station ${i} has no valid position`);
      const {address, lat, lon, id} = station;
      const name = typeof id === 'string' ? {id} : {};
      stations.push({address, lat, lon, ...name, born: events.length});
    }

    /**
     * A note, a station that a row of moves made, a line of the summary.
     * @param {any} value @param {string} text
     */
    addOther(value, text) {
      if (value.note !== undefined) this.addNote(value, text);
      else if (value.address !== undefined) this.addMade(value);
      else if (value.send !== undefined) this.addSummary(value);
      else if (value.total === undefined) {
        this.refuse(`“event” isn’t ${this.run.events.length}`);
      }
    }

    /** @param {any} value */
    addMade(value) {
      const {length} = this.run.stations;
      if (value.station !== length) this.refuse(`“station” isn’t ${length}`);
      this.addStation(value);
    }

    /** @param {any} value @param {string} text */
    addNote(value, text) {
      const {notes, events} = this.run;
      const kind = NOTE[value.note];
      if (kind === undefined) this.refuse('“note” is unknown');
      const moment = this.moment(value, text, notes);
      const station = kind === NOTE.absent ? -1 : this.whole(value, 'station', 65535);
      const frame = IS_OF_FRAME[kind] ? this.whole(value, 'frame', MOST_FRAME) : -1;
      const id = typeof value.id === 'string' ? value.id : undefined;
      notes.push(kind, moment, station, frame, events.length - 1, notes.ids.number(id));
    }

    /** @param {any} value */
    addSummary(value) {
      const isPair = (pair) => Array.isArray(pair) && isWhole(pair[0], 0, 65535) &&
        typeof pair[1] === 'string';
      const {send, missed} = value;
      if (missed !== undefined && !(Array.isArray(missed) && missed.every(isPair))) {
        this.refuse('“missed” isn’t a list of stations and reasons');
      }
      this.run.summaries.set(send, value);
    }

    /** @param {any} value @param {string} text */
    addEvent(value, text) {
      const {events, frames} = this.run;
      this.readEvent(value, text);
      if (this.row.sent >= 0) {
        frames.push(events.length, geostation.frame.fromHex(value.octets));
      }
      events.push(this.row);
    }

    /** Puts an event into the row. @param {any} value @param {string} text */
    readEvent(value, text) {
      const {row, run: {events}} = this;
      row.clear();
      if (value.event !== events.length) this.refuse(`“event” isn’t ${events.length}`);
      row.moment = this.moment(value, text, events);
      row.station = this.whole(value, 'station', 65535);
      row.do = this.oneOf(value, 'do', DO);
      row.result = this.oneOf(value, 'result', RESULT);
      if (row.do === DO.deliver) row.frame = this.whole(value, 'frame', 2 ** 32 - 1);
      if (row.do === DO.move) this.readMove(value);
      if (row.result === RESULT.ignored) row.word = events.words.number(this.text(value, 'why'));
      if (row.result === RESULT.refused) this.readRefusal(value);
      if (value.port !== undefined) this.readPayload(value);
      if (row.result === RESULT.ignored && value.cancels !== undefined) this.readCancels(value);
      if (row.result === RESULT.accepted && value.waits !== undefined) this.readHeld(value, text);
      else if (row.result === RESULT.sent || value.sent !== undefined) this.readGiven(value, 'sent');
    }

    /** @param {any} value */
    readMove(value) {
      if (!isPlace(value)) this.refuse('the position of the move is missing or invalid');
      this.row.lat = value.lat;
      this.row.lon = value.lon;
    }

    /** @param {any} value */
    readRefusal(value) {
      const {words} = this.run.events;
      this.row.word = words.number(this.text(value, 'code'));
      if (typeof value.reason === 'string') this.row.reason = words.number(value.reason);
    }

    /** @param {any} value */
    readPayload(value) {
      this.row.port = this.whole(value, 'port', 65535);
      this.row.info = this.whole(value, 'info', 65535);
      if (!isHex(value.payload)) this.refuse('“payload” isn’t hexadecimal');
      this.row.payload = this.run.events.words.number(value.payload);
    }

    /**
     * The frame that a station sent or holds.
     * @param {any} value @param {'sent' | 'waits'} key of its number
     */
    readGiven(value, key) {
      const {length} = this.run.frames;
      if (value[key] !== length) this.refuse(`“${key}” isn’t ${length}`);
      if (!isHex(value.octets)) this.refuse('“octets” is missing or isn’t hexadecimal');
      this.row.sent = value[key];
    }

    /** @param {any} value @param {string} text */
    readHeld(value, text) {
      this.readGiven(value, 'waits');
      this.row.until = this.moment(value, text, this.run.events.holds, 'until');
    }

    /** @param {any} value */
    readCancels(value) {
      const {cancels} = value;
      const isList = Array.isArray(cancels) && cancels.every((it) => isWhole(it, 0, MOST_FRAME));
      if (!isList) this.refuse('“cancels” isn’t a list of numbers of frames');
      this.row.cancels = cancels;
    }

    /**
     * The moment of an event or a note, whose digits are kept where a number doesn't hold it.
     * @param {any} value @param {string} text @param {any} table that it goes into
     */
    moment(value, text, table, key = 'moment') {
      const moment = value[key];
      if (!isWhole(moment, 0, 2 ** 63)) this.refuse(`“${key}” is missing or invalid`);
      if (!Number.isSafeInteger(moment)) {
        table.exact.set(table.length, new RegExp(`"${key}":(\\d+)`).exec(text)?.[1]);
      }
      return moment;
    }

    /** @param {any} value @param {string} key @param {number} most */
    whole(value, key, most) {
      if (!isWhole(value[key], 0, most)) this.refuse(`“${key}” is missing or not a valid number`);
      return value[key];
    }

    /** @param {any} value @param {string} key */
    text(value, key) {
      if (typeof value[key] !== 'string') this.refuse(`“${key}” is missing`);
      return value[key];
    }

    /** The number of a word. @param {any} value @param {Record<string, number>} numbers */
    oneOf(value, key, numbers) {
      const number = numbers[value[key]];
      if (number === undefined) this.refuse(`“${key}” is missing or unknown`);
      return number;
    }
  }

  /**
   * Reads a whole text, giving way to the page between its pieces.
   * @param {AsyncIterable<Uint8Array>} pieces of the text
   * @param {number} [size] of it in octets, where it is known
   * @returns {Promise<Run>}
   */
  async function read(pieces, size) {
    const reader = new Reader(size);
    for await (const piece of pieces) reader.take(piece);
    return reader.end();
  }

  geostation.reading = {RunFault, read};
})(globalThis.geostation ??= {});
