//! The lines that a run is mostly made of, read octet by octet into its columns, which is quicker
//! than JSON: an event or a note in the very order and spelling of `sim --json`. Any other line is
//! left to `reading.js`.

(function (geostation) {
  'use strict';

  const {DO, RESULT, NOTE, IS_OF_FRAME, Row, LONGEST} = geostation.events;
  const {Prefix} = geostation.scan;
  /** The greatest numbers that the columns hold. */
  const MOST = {station: 65535, frame: 2 ** 31 - 1, port: 65535, lat: 9e8, lon: 18e8};

  /** Words behind a prefix, with their numbers in a column; the most frequent ones stand first. */
  function words(prefix, numbers, frequent) {
    const names = [...new Set([...frequent, ...Object.keys(numbers)])];
    return {prefixes: names.map((name) => new Prefix(`${prefix}${name}"`)),
      numbers: names.map((name) => numbers[name])};
  }

  /** Keys with what begins their values. @param {string[]} names @param {string} start */
  function keys(names, start) {
    return Object.fromEntries(names.map((name) => [name, new Prefix(`,"${name}":${start}`)]));
  }

  const DOS = words(',"do":"', DO, ['deliver', 'move', 'tick']);
  const RESULTS = words(',"result":"', RESULT, ['accepted', 'ignored', 'moved', 'sent']);
  const NOTES = words('{"note":"', NOTE, ['lost', 'released']);
  const KEYS = keys(['moment', 'station', 'frame', 'lat', 'lon', 'port', 'info', 'sent', 'waits',
    'until'], '');
  const CANCELS = new Prefix(',"cancels":[');
  const TEXTS = keys(['why', 'payload', 'octets'], '"');
  const EVENT = new Prefix('{"event":');

  /** Reads lines from a scanner into a run. */
  class Lines {
    /**
     * @param {import('./run.js').Run} run
     * @param {import('./scan.js').Scanner} scanner
     */
    constructor(run, scanner) {
      this.run = run;
      this.scanner = scanner;
      this.row = new Row();
    }

    /** Takes a line. @returns {boolean} whether it was one of these; else nothing is added */
    take() {
      return this.scanner.takes(EVENT) ? this.takeEvent() : this.takeNote();
    }

    takeEvent() {
      const {scanner, row, run: {events, frames}} = this;
      row.clear();
      if (scanner.whole() !== events.length) return false;
      row.moment = scanner.wholeBehind(KEYS.moment);
      row.station = scanner.wholeBehind(KEYS.station);
      if (row.moment < 0 || !isWithin(row.station, MOST.station)) return false;
      const what = scanner.takesOne(DOS.prefixes);
      row.do = DOS.numbers[what];
      if (what < 0 || !this.takeDoing()) return false;
      const result = scanner.takesOne(RESULTS.prefixes);
      row.result = RESULTS.numbers[result];
      if (result < 0 || row.result === RESULT.refused || !this.takeResult()) return false;
      const length = this.takeGiven();
      if (length < 0 || !this.takeCancels() || !scanner.takesEnd()) return false;
      if (row.sent >= 0) frames.close(events.length, length);
      events.push(row);
      return true;
    }

    /** What follows `do`: the frame of a delivery, the position of a move. */
    takeDoing() {
      const {scanner, row} = this;
      if (row.do === DO.deliver) {
        row.frame = scanner.wholeBehind(KEYS.frame);
        return isWithin(row.frame, MOST.frame);
      }
      if (row.do !== DO.move) return true;
      row.lat = scanner.takes(KEYS.lat) ? scanner.signed(MOST.lat) : NaN;
      row.lon = scanner.takes(KEYS.lon) ? scanner.signed(MOST.lon) : NaN;
      return !Number.isNaN(row.lat + row.lon);
    }

    /** What follows the result: why it was ignored, what was delivered to its port. */
    takeResult() {
      const {scanner, row, run: {events}} = this;
      if (row.result === RESULT.ignored) {
        row.word = scanner.takes(TEXTS.why) ? scanner.word(events.words) : -1;
        return row.word >= 0;
      }
      if (row.result !== RESULT.accepted || !scanner.takes(KEYS.port)) return true;
      row.port = scanner.whole();
      row.info = scanner.wholeBehind(KEYS.info);
      if (!isWithin(row.port, MOST.port) || !isWithin(row.info, MOST.port)) return false;
      if (!scanner.takes(TEXTS.payload)) return false;
      row.payload = scanner.hexWord(events.words);
      return row.payload >= 0;
    }

    /** The frame that was sent or held. @returns {number} its length, 0 without a frame, -1 */
    takeGiven() {
      const {scanner, row, run: {frames}} = this;
      const isHeld = row.result === RESULT.accepted && scanner.takes(KEYS.waits);
      if (!isHeld && !scanner.takes(KEYS.sent)) return row.result === RESULT.sent ? -1 : 0;
      row.sent = scanner.whole();
      if (isHeld) row.until = scanner.wholeBehind(KEYS.until);
      if (isHeld && row.until < 0) return -1;
      if (row.sent !== frames.length || !scanner.takes(TEXTS.octets)) return -1;
      const store = frames.room();
      return scanner.hex(store, frames.used, LONGEST);
    }

    /** The held frames that were cancelled. */
    takeCancels() {
      const {scanner, row} = this;
      if (row.result !== RESULT.ignored || !scanner.takes(CANCELS)) return true;
      row.cancels = scanner.wholes();
      return row.cancels?.every((frame) => frame <= MOST.frame) ?? false;
    }

    takeNote() {
      const {scanner, run: {events, notes}} = this;
      const note = scanner.takesOne(NOTES.prefixes);
      const kind = NOTES.numbers[note];
      if (note < 0 || kind === NOTE.absent) return false;
      const moment = scanner.wholeBehind(KEYS.moment);
      const station = scanner.wholeBehind(KEYS.station);
      if (moment < 0 || !isWithin(station, MOST.station)) return false;
      const frame = IS_OF_FRAME[kind] ? scanner.wholeBehind(KEYS.frame) : -1;
      if (IS_OF_FRAME[kind] && !isWithin(frame, MOST.frame)) return false;
      if (!scanner.takesEnd()) return false;
      notes.push(kind, moment, station, frame, events.length - 1);
      return true;
    }
  }

  /** @param {number} value @param {number} most */
  function isWithin(value, most) {
    return value >= 0 && value <= most;
  }

  geostation.line = {Lines};
})(globalThis.geostation ??= {});
